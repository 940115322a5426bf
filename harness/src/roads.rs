//! The roads by which a mention reaches the published compactor: special types, fields of entry points,
//! arguments, results, locals and own expressions of entry points and of the functions they call.
//!
//! Beside the mentions lie decoys, which must not matter: own expressions that nothing uses, incoming ray
//! payloads, which the published compactor neither follows nor rewrites, and, under No, functions that
//! nothing calls.

use crate::flat::*;
use crate::handles::{ends, handle, word, Numbered};
use crate::rng::Rng;
use crate::uses;
use naga::{
    EntryPoint, Expression, Function, FunctionArgument, FunctionResult, GlobalVariable, Handle,
    LocalVariable, MeshOutputTopology, MeshStageInfo, Module, PredeclaredType, Range, Scalar,
    ScalarKind, ShaderStage, Span, SpecialTypes, Statement, Type, VectorSize,
};

/// A field or an expression that can name an element.
#[derive(Clone, Copy, Debug, PartialEq, Eq)]
pub enum Road {
    RayDesc,
    RayIntersection,
    RayVertexReturn,
    TextureParams,
    TransferFunction,
    Predeclared,
    /// The scalar u32 that a mesh or task stage needs.
    Stage,
    MeshVertex,
    MeshPrimitive,
    Argument,
    Result,
    Local,
    ZeroValue,
    Compose,
    AtomicResult,
    UniformLoadResult,
    SubgroupResult,
    Constant,
    Override,
    Global,
    TaskPayload,
    MeshOutput,
    Workgroup,
    MaxVertices,
    MaxPrimitives,
}

pub const ROADS: [(Road, &str); 25] = [
    (Road::RayDesc, "special type ray_desc"),
    (Road::RayIntersection, "special type ray_intersection"),
    (Road::RayVertexReturn, "special type ray_vertex_return"),
    (Road::TextureParams, "special type external_texture_params"),
    (Road::TransferFunction, "special type transfer function"),
    (Road::Predeclared, "predeclared type"),
    (Road::Stage, "u32 of a mesh or task stage"),
    (Road::MeshVertex, "mesh vertex output type"),
    (Road::MeshPrimitive, "mesh primitive output type"),
    (Road::Argument, "function argument type"),
    (Road::Result, "function result type"),
    (Road::Local, "local variable type"),
    (Road::ZeroValue, "own ZeroValue"),
    (Road::Compose, "own Compose"),
    (Road::AtomicResult, "own AtomicResult"),
    (Road::UniformLoadResult, "own WorkGroupUniformLoadResult"),
    (Road::SubgroupResult, "own SubgroupOperationResult"),
    (Road::Constant, "own Constant"),
    (Road::Override, "own Override"),
    (Road::Global, "own GlobalVariable"),
    (Road::TaskPayload, "task payload"),
    (Road::MeshOutput, "mesh output variable"),
    (Road::Workgroup, "workgroup size override"),
    (Road::MaxVertices, "mesh max vertices override"),
    (Road::MaxPrimitives, "mesh max primitives override"),
];

impl Road {
    pub fn name(self) -> &'static str {
        let found = ROADS.iter().find(|pair| pair.0 == self);
        found.expect("each road has a name").1
    }
}

/// Roads that a module has once.
const SPECIAL: [Road; 6] = [
    Road::RayDesc,
    Road::RayIntersection,
    Road::RayVertexReturn,
    Road::TextureParams,
    Road::TransferFunction,
    Road::Stage,
];

/// Roads for types that a module has often; all but the first as often as it likes.
const TYPE_ROADS: [Road; 9] = [
    Road::Predeclared,
    Road::Argument,
    Road::Result,
    Road::Local,
    Road::ZeroValue,
    Road::Compose,
    Road::AtomicResult,
    Road::UniformLoadResult,
    Road::SubgroupResult,
];

/// A road for each mention, at random.
pub fn choose(flat: &Flat, rng: &mut Rng) -> Vec<Road> {
    let mut by_area: [Vec<usize>; 5] = Default::default();
    for (number, mention) in flat.each(MENTIONS).enumerate() {
        by_area[mention[0] as usize].push(number);
    }
    let mut roads = vec![Road::Constant; flat.records(MENTIONS)];
    for mention in &by_area[OVERRIDES] {
        roads[*mention] = Road::Override;
    }
    for list in &mut by_area {
        rng.shuffle(list);
    }
    let [types, _, _, globals, expressions] = by_area;
    let most = globals.len().min(types.len() / 2).min(3);
    let meshes = rng.below(most + 1);
    for (place, mention) in globals.iter().enumerate() {
        roads[*mention] = match place {
            _ if place < meshes => Road::MeshOutput,
            _ if rng.one_in(4) => Road::TaskPayload,
            _ => Road::Global,
        };
    }
    for (place, mention) in expressions.iter().enumerate() {
        roads[*mention] = match place {
            _ if place < meshes => Road::MaxVertices,
            _ if place < 2 * meshes => Road::MaxPrimitives,
            _ => Road::Workgroup,
        };
    }
    let mut once = SPECIAL.to_vec();
    let mut predeclared = 0;
    for (place, mention) in types.iter().enumerate() {
        let ty = flat.record(MENTIONS, *mention)[1] as usize;
        roads[*mention] = match place {
            _ if place < meshes => Road::MeshVertex,
            _ if place < 2 * meshes => Road::MeshPrimitive,
            _ => type_road(flat, ty, &mut once, rng),
        };
        if roads[*mention] == Road::Predeclared {
            predeclared += 1;
            if predeclared > PREDECLARED {
                roads[*mention] = Road::Local;
            }
        }
    }
    roads
}

/// One of the roads that are left for a mention of this type.
fn type_road(flat: &Flat, ty: usize, once: &mut Vec<Road>, rng: &mut Rng) -> Road {
    if once.is_empty() || rng.one_in(2) {
        return *rng.pick(&TYPE_ROADS);
    }
    let road = once.swap_remove(rng.below(once.len()));
    if road == Road::Stage && !can_be_u32(flat, ty) {
        once.push(road);
        return *rng.pick(&TYPE_ROADS);
    }
    road
}

/// The scalar u32 has no handles and is not abstract.
fn can_be_u32(flat: &Flat, ty: usize) -> bool {
    ty < flat.records(TYPES) && {
        let record = flat.record(TYPES, ty);
        record[0] == 0 && record[1] & ABSTRACT == 0
    }
}

/// Whose field or expression it is.
#[derive(Clone, Copy, Debug)]
enum Holder {
    Entry(usize),
    Function(usize),
}

/// Where to read a mention's new handle.
#[derive(Clone, Copy, Debug)]
enum Way {
    Special(Road),
    Predeclared(usize),
    Stage,
    Argument(Holder, usize),
    Result(Holder),
    Local(Holder, usize),
    Own,
    Entry(Road, usize, usize),
}

/// A run of a function's own expressions that an `Emit` names.
#[derive(Clone, Copy, Debug)]
struct Emit {
    holder: Holder,
    own: usize,
    start: u32,
    end: u32,
}

/// A range that the published compactor adjusted: the map, the range before and the range after.
pub struct Adjusted {
    pub map: Vec<u32>,
    pub before: (u32, u32),
    pub after: (u32, u32),
}

/// Where the mentions and the `Emit`s of a module are, and each entry point's incoming ray payload.
pub struct Laid {
    ways: Vec<Way>,
    emits: Vec<Emit>,
    payloads: Vec<Option<Handle<GlobalVariable>>>,
}

/// Entry points and called functions while they are made.
struct Layer<'a> {
    flat: &'a Flat,
    rng: &'a mut Rng,
    special: SpecialTypes,
    /// How many predeclared types there are.
    predeclared: usize,
    entries: Vec<EntryPoint>,
    functions: Vec<Function>,
    /// Handles that a call may hand on, for each entry point and for each function.
    arguments: [Vec<Vec<Handle<Expression>>>; 2],
    ways: Vec<Way>,
    emits: Vec<Emit>,
}

/// Lays each mention of the module on its road.
pub fn lay(module: &mut Module, flat: &Flat, keep: bool, roads: &[Road], rng: &mut Rng) -> Laid {
    let mut layer = Layer {
        flat,
        rng,
        special: SpecialTypes::default(),
        predeclared: 0,
        entries: Vec::new(),
        functions: Vec::new(),
        arguments: Default::default(),
        ways: vec![Way::Own; roads.len()],
        emits: Vec::new(),
    };
    layer.begin(roads);
    layer.meshes(roads);
    for (mention, road) in roads.iter().enumerate() {
        layer.mention(mention, *road);
    }
    layer.finish(module, keep)
}

impl Layer<'_> {
    /// Some entry points and functions to hold mentions.
    fn begin(&mut self, roads: &[Road]) {
        let needed = usize::from(!roads.is_empty());
        for _ in 0..needed + self.rng.below(2) {
            self.entry();
        }
        if !self.entries.is_empty() && self.rng.one_in(2) {
            for _ in 0..self.rng.between(1, 3) {
                self.functions.push(Function::default());
                self.arguments[1].push(Vec::new());
            }
        }
        if roads.contains(&Road::Stage) {
            let stage = [ShaderStage::Mesh, ShaderStage::Task];
            self.entries[0].stage = *self.rng.pick(&stage);
        }
    }

    /// One more entry point. Only the first ones are task or mesh stages: for each of these the published
    /// compactor looks through the types for u32.
    fn entry(&mut self) -> usize {
        let stages = match self.entries.len() {
            ..FIRST_ENTRIES => &STAGES[..],
            _ => &STAGES[..3],
        };
        let mut entry = bare_entry(*self.rng.pick(stages));
        entry.workgroup_size_overrides = self.rng.one_in(4).then_some([None; 3]);
        let globals = self.flat.records(GLOBALS);
        if globals > 0 && self.rng.one_in(4) {
            entry.incoming_ray_payload = Some(handle(self.rng.below32(globals)));
        }
        self.entries.push(entry);
        self.arguments[0].push(Vec::new());
        self.entries.len() - 1
    }

    /// The handle that a mention names.
    fn named<T: Numbered>(&self, mention: usize) -> Handle<T> {
        handle(self.flat.record(MENTIONS, mention)[1])
    }

    /// Mesh infos, each with an output variable and two types.
    fn meshes(&mut self, roads: &[Road]) {
        let all = |road: Road| (0..roads.len()).filter(move |at| roads[*at] == road);
        let types = all(Road::MeshVertex).zip(all(Road::MeshPrimitive));
        for (output, (vertex, primitive)) in all(Road::MeshOutput).zip(types) {
            let entry = self.entry();
            self.entries[entry].mesh_info = Some(MeshStageInfo {
                topology: MeshOutputTopology::Triangles,
                max_vertices: 3,
                max_vertices_override: None,
                max_primitives: 1,
                max_primitives_override: None,
                vertex_output_type: self.named(vertex),
                primitive_output_type: self.named(primitive),
                output_variable: self.named(output),
            });
            for mention in [output, vertex, primitive] {
                self.ways[mention] = Way::Entry(roads[mention], entry, 0);
            }
        }
    }

    fn mention(&mut self, mention: usize, road: Road) {
        let way = match road {
            Road::RayDesc
            | Road::RayIntersection
            | Road::RayVertexReturn
            | Road::TextureParams
            | Road::TransferFunction => {
                let ty = self.named(mention);
                *special(&mut self.special, road) = Some(ty);
                Way::Special(road)
            }
            Road::Predeclared => {
                let ty = self.named(mention);
                let key = predeclared(self.predeclared);
                self.special.predeclared_types.insert(key, ty);
                self.predeclared += 1;
                Way::Predeclared(self.predeclared - 1)
            }
            Road::Stage => Way::Stage,
            Road::MeshVertex | Road::MeshPrimitive | Road::MeshOutput => return,
            Road::Argument | Road::Result | Road::Local => self.signature(mention, road),
            Road::TaskPayload | Road::Workgroup | Road::MaxVertices | Road::MaxPrimitives => {
                self.field(mention, road)
            }
            _ => self.own(mention, road),
        };
        self.ways[mention] = way;
    }

    fn holder(&mut self) -> Holder {
        let at = self.rng.below(self.entries.len() + self.functions.len());
        match at.checked_sub(self.entries.len()) {
            Some(function) => Holder::Function(function),
            None => Holder::Entry(at),
        }
    }

    fn function(&mut self, holder: Holder) -> &mut Function {
        match holder {
            Holder::Entry(at) => &mut self.entries[at].function,
            Holder::Function(at) => &mut self.functions[at],
        }
    }

    /// An argument, a result or a local variable.
    fn signature(&mut self, mention: usize, road: Road) -> Way {
        let ty = self.named(mention);
        let mut holder = self.holder();
        if road == Road::Result && self.function(holder).result.is_some() {
            holder = Holder::Entry(self.entry());
        }
        let init = self.rng.one_in(3);
        let function = self.function(holder);
        match road {
            Road::Argument => {
                function.arguments.push(argument(ty));
                Way::Argument(holder, function.arguments.len() - 1)
            }
            Road::Result => {
                let binding = None;
                function.result = Some(FunctionResult { ty, binding });
                Way::Result(holder)
            }
            _ => {
                let init = init.then(|| uses::filler(function));
                let name = Some(String::from("local"));
                let local = LocalVariable { name, ty, init };
                let at = function.local_variables.append(local, Span::default());
                Way::Local(holder, at.index())
            }
        }
    }

    /// A field of an entry point.
    fn field(&mut self, mention: usize, road: Road) -> Way {
        // Free fields lie in the youngest entry points.
        let near = self.entries.len().saturating_sub(4)..self.entries.len();
        let first = self.rng.below(3);
        let axes = [first, (first + 1) % 3, (first + 2) % 3];
        let places: &[usize] = if road == Road::Workgroup { &axes } else { &[0] };
        let range = if let Road::MaxVertices | Road::MaxPrimitives = road {
            0..self.entries.len()
        } else {
            near
        };
        for entry in range {
            for place in places {
                if self.take_field(mention, road, entry, *place) {
                    return Way::Entry(road, entry, *place);
                }
            }
        }
        let entry = self.entry();
        assert!(
            self.take_field(mention, road, entry, 0),
            "the field is free"
        );
        Way::Entry(road, entry, 0)
    }

    /// Puts the mention into a field if it is free.
    fn take_field(&mut self, mention: usize, road: Road, entry: usize, place: usize) -> bool {
        let (global, expression) = (self.named(mention), self.named(mention));
        let entry = &mut self.entries[entry];
        match road {
            Road::TaskPayload => fill(Some(&mut entry.task_payload), global),
            Road::Workgroup => {
                let sizes = entry.workgroup_size_overrides.get_or_insert([None; 3]);
                fill(Some(&mut sizes[place]), expression)
            }
            Road::MaxVertices => {
                let mesh = entry.mesh_info.as_mut();
                fill(mesh.map(|mesh| &mut mesh.max_vertices_override), expression)
            }
            _ => {
                let mesh = entry.mesh_info.as_mut();
                fill(
                    mesh.map(|mesh| &mut mesh.max_primitives_override),
                    expression,
                )
            }
        }
    }

    /// An own expression that names the element and is used.
    fn own(&mut self, mention: usize, road: Road) -> Way {
        let holder = self.holder();
        let filler = self.rng.one_in(2);
        let target = self.flat.record(MENTIONS, mention)[1];
        let function = match holder {
            Holder::Entry(at) => &mut self.entries[at].function,
            Holder::Function(at) => &mut self.functions[at],
        };
        let components = if filler {
            vec![uses::filler(function)]
        } else {
            Vec::new()
        };
        let expression = own_expression(road, target, components);
        let at = uses::append(function, expression, mention as u32);
        if self.rng.one_in(8) {
            let list = match holder {
                Holder::Entry(entry) => &mut self.arguments[0][entry],
                Holder::Function(function) => &mut self.arguments[1][function],
            };
            list.push(at);
        } else {
            uses::use_own(function, at, self.rng);
        }
        Way::Own
    }

    /// Calls, decoys and `Emit`s; then everything goes into the module.
    fn finish(mut self, module: &mut Module, keep: bool) -> Laid {
        let decoys = if keep || !self.rng.one_in(2) {
            0
        } else {
            self.rng.between(1, 2)
        };
        let order = self.order(decoys);
        self.calls(&order, keep);
        self.leftover_arguments();
        for at in 0..self.entries.len() {
            self.decorate(Holder::Entry(at));
        }
        for at in 0..self.functions.len() {
            self.decorate(Holder::Function(at));
        }
        let mut functions: Vec<Option<Function>> = self.functions.drain(..).map(Some).collect();
        for kind in &order {
            let (function, mark) = match *kind {
                Some(at) => (
                    functions[at].take().expect("each is placed once"),
                    at as u32,
                ),
                None => (self.decoy(), N),
            };
            module.functions.append(function, Span::new(mark, N));
        }
        let payloads = self.entries.iter().map(|entry| entry.incoming_ray_payload);
        let laid = Laid {
            ways: self.ways,
            emits: self.emits,
            payloads: payloads.collect(),
        };
        module.special_types = self.special;
        module.entry_points = self.entries;
        laid
    }

    /// The functions in their arena: the called ones in order, decoys (`None`) between them.
    fn order(&mut self, decoys: usize) -> Vec<Option<usize>> {
        let mut order: Vec<Option<usize>> = (0..self.functions.len()).map(Some).collect();
        for _ in 0..decoys {
            order.insert(self.rng.below(order.len() + 1), None);
        }
        order
    }

    /// Each function is called by an entry point or by a younger function. Yes keeps a function that
    /// nothing calls, so there some are not.
    fn calls(&mut self, order: &[Option<usize>], keep: bool) {
        for callee in 0..self.functions.len() {
            if keep && self.rng.one_in(3) {
                continue;
            }
            let place = order.iter().position(|kind| *kind == Some(callee));
            let younger = self.functions.len() - callee - 1;
            let pick = self.rng.below(self.entries.len() + younger);
            let (holder, arguments) = match pick.checked_sub(self.entries.len()) {
                Some(more) => {
                    let caller = callee + 1 + more;
                    (Holder::Function(caller), &mut self.arguments[1][caller])
                }
                None => (Holder::Entry(pick), &mut self.arguments[0][pick]),
            };
            let arguments = std::mem::take(arguments);
            let target = handle(place.expect("it is in the order") as u32);
            let with_result = self.rng.one_in(2);
            let caller = self.function(holder);
            let result =
                with_result.then(|| uses::append(caller, Expression::CallResult(target), N));
            let call = Statement::Call {
                function: target,
                arguments,
                result,
            };
            caller.body.push(call, Span::default());
        }
    }

    /// Own expressions that no call took.
    fn leftover_arguments(&mut self) {
        for at in 0..self.entries.len() {
            for own in std::mem::take(&mut self.arguments[0][at]) {
                uses::use_own(&mut self.entries[at].function, own, self.rng);
            }
        }
        for at in 0..self.functions.len() {
            for own in std::mem::take(&mut self.arguments[1][at]) {
                uses::use_own(&mut self.functions[at], own, self.rng);
            }
        }
    }

    /// Some own expressions that nothing uses, and an `Emit` over a part of all.
    fn decorate(&mut self, holder: Holder) {
        if self.rng.one_in(2) {
            return;
        }
        for _ in 0..self.rng.below(3) {
            if let Some(expression) = self.any_expression() {
                uses::append(self.function(holder), expression, N);
            }
        }
        let own = self.function(holder).expressions.len();
        let start = self.rng.below(own + 1) as u32;
        let end = self.rng.between(start as usize, own) as u32;
        let arena = &self.function(holder).expressions;
        let emit = Statement::Emit(Range::from_index_range(start..end, arena));
        self.function(holder).body.push(emit, Span::default());
        self.emits.push(Emit {
            holder,
            own,
            start,
            end,
        });
    }

    /// An own expression that names any element.
    fn any_expression(&mut self) -> Option<Expression> {
        let (road, area) = *self.rng.pick(&[
            (Road::ZeroValue, TYPES),
            (Road::Constant, CONSTANTS),
            (Road::Override, OVERRIDES),
            (Road::Global, GLOBALS),
        ]);
        let count = self.flat.records(area);
        (count > 0).then(|| own_expression(road, self.rng.below32(count), Vec::new()))
    }

    /// A function that nothing calls and that uses any elements.
    fn decoy(&mut self) -> Function {
        let mut function = Function::default();
        for _ in 0..self.rng.below(3) {
            if let Some(expression) = self.any_expression() {
                let at = uses::append(&mut function, expression, N);
                uses::use_own(&mut function, at, self.rng);
            }
        }
        let types = self.flat.records(TYPES);
        if types > 0 {
            let ty = handle(self.rng.below32(types));
            function.arguments.push(argument(ty));
        }
        function
    }
}

/// How many entry points can be of any stage.
const FIRST_ENTRIES: usize = 256;

const STAGES: [ShaderStage; 9] = [
    ShaderStage::Vertex,
    ShaderStage::Fragment,
    ShaderStage::Compute,
    ShaderStage::Task,
    ShaderStage::Mesh,
    ShaderStage::RayGeneration,
    ShaderStage::Miss,
    ShaderStage::AnyHit,
    ShaderStage::ClosestHit,
];

/// An entry point that names nothing.
pub fn bare_entry(stage: ShaderStage) -> EntryPoint {
    EntryPoint {
        name: String::from("entry"),
        stage,
        early_depth_test: None,
        workgroup_size: [1; 3],
        workgroup_size_overrides: None,
        function: Function::default(),
        mesh_info: None,
        task_payload: None,
        incoming_ray_payload: None,
    }
}

pub fn argument(ty: Handle<Type>) -> FunctionArgument {
    FunctionArgument {
        name: None,
        ty,
        binding: None,
    }
}

/// So many predeclared types can be told apart.
pub const PREDECLARED: usize = 4 * 4 * 256;

/// The predeclared type with this number.
fn predeclared(number: usize) -> PredeclaredType {
    let kinds = [
        ScalarKind::Bool,
        ScalarKind::Sint,
        ScalarKind::Uint,
        ScalarKind::Float,
    ];
    let sizes = [
        None,
        Some(VectorSize::Bi),
        Some(VectorSize::Tri),
        Some(VectorSize::Quad),
    ];
    PredeclaredType::ModfResult {
        size: sizes[number / 1024],
        scalar: Scalar {
            kind: kinds[number / 256 % 4],
            width: (number % 256) as u8,
        },
    }
}

/// Puts a handle into a field that is there and free.
fn fill<T>(field: Option<&mut Option<Handle<T>>>, handle: Handle<T>) -> bool {
    match field {
        Some(field) if field.is_none() => {
            *field = Some(handle);
            true
        }
        _ => false,
    }
}

fn special(types: &mut SpecialTypes, road: Road) -> &mut Option<Handle<Type>> {
    match road {
        Road::RayDesc => &mut types.ray_desc,
        Road::RayIntersection => &mut types.ray_intersection,
        Road::RayVertexReturn => &mut types.ray_vertex_return,
        Road::TextureParams => &mut types.external_texture_params,
        _ => &mut types.external_texture_transfer_function,
    }
}

fn own_expression(road: Road, target: u32, components: Vec<Handle<Expression>>) -> Expression {
    match road {
        Road::ZeroValue => Expression::ZeroValue(handle(target)),
        Road::Compose => Expression::Compose {
            ty: handle(target),
            components,
        },
        Road::AtomicResult => Expression::AtomicResult {
            ty: handle(target),
            comparison: true,
        },
        Road::UniformLoadResult => Expression::WorkGroupUniformLoadResult { ty: handle(target) },
        Road::SubgroupResult => Expression::SubgroupOperationResult { ty: handle(target) },
        Road::Constant => Expression::Constant(handle(target)),
        Road::Override => Expression::Override(handle(target)),
        _ => Expression::GlobalVariable(handle(target)),
    }
}

/// The element that an own expression names.
fn own_target(expression: &Expression) -> Option<u32> {
    match *expression {
        Expression::ZeroValue(ty)
        | Expression::Compose { ty, .. }
        | Expression::AtomicResult { ty, .. }
        | Expression::WorkGroupUniformLoadResult { ty }
        | Expression::SubgroupOperationResult { ty } => Some(word(ty)),
        Expression::Constant(handle) => Some(word(handle)),
        Expression::Override(handle) => Some(word(handle)),
        Expression::GlobalVariable(handle) => Some(word(handle)),
        _ => None,
    }
}

/// The functions after the pass: every entry point's, and the called ones by their marks.
struct Kept<'a> {
    module: &'a Module,
    called: Vec<(u32, &'a Function)>,
}

impl<'a> Kept<'a> {
    fn new(module: &'a Module) -> Self {
        let functions = &module.functions;
        let called = functions
            .iter()
            .map(|(at, function)| (ends(functions.get_span(at)).0, function))
            .collect();
        Kept { module, called }
    }

    fn function(&self, holder: Holder) -> Result<&'a Function, String> {
        match holder {
            Holder::Entry(at) => Ok(&self.module.entry_points[at].function),
            Holder::Function(mark) => {
                let found = self.called.iter().find(|pair| pair.0 == mark as u32);
                found
                    .map(|pair| pair.1)
                    .ok_or_else(|| format!("called function {mark} is gone"))
            }
        }
    }

    fn all(&self) -> impl Iterator<Item = &'a Function> + '_ {
        let entries = self.module.entry_points.iter().map(|entry| &entry.function);
        entries.chain(self.called.iter().map(|pair| pair.1))
    }
}

/// The new handle of each mention, read from its road.
pub fn read(module: &Module, laid: &Laid, new_stage: Option<u32>) -> Result<Vec<u32>, String> {
    let payloads = module
        .entry_points
        .iter()
        .map(|entry| entry.incoming_ray_payload);
    if !payloads.eq(laid.payloads.iter().copied()) {
        return Err(String::from("an incoming ray payload was rewritten"));
    }
    let kept = Kept::new(module);
    let mut own = vec![N; laid.ways.len()];
    for function in kept.all() {
        for (at, expression) in function.expressions.iter() {
            let mention = ends(function.expressions.get_span(at)).1;
            if let (Some(place), Some(target)) =
                (own.get_mut(mention as usize), own_target(expression))
            {
                *place = target;
            }
        }
    }
    let ways = laid.ways.iter().enumerate();
    ways.map(|(mention, way)| match *way {
        Way::Own => Ok(own[mention]),
        Way::Stage => new_stage.ok_or_else(|| String::from("no u32")),
        _ => read_way(&kept, mention, *way),
    })
    .collect()
}

fn read_way(kept: &Kept, mention: usize, way: Way) -> Result<u32, String> {
    let types = &kept.module.special_types;
    let found = match way {
        Way::Special(road) => read_special(types, road).map(word),
        Way::Predeclared(number) => {
            let key = predeclared(number);
            types.predeclared_types.get(&key).map(|ty| word(*ty))
        }
        Way::Argument(holder, place) => {
            let argument = kept.function(holder)?.arguments.get(place);
            argument.map(|argument| word(argument.ty))
        }
        Way::Result(holder) => {
            let result = kept.function(holder)?.result.as_ref();
            result.map(|result| word(result.ty))
        }
        Way::Local(holder, place) => {
            let locals = &kept.function(holder)?.local_variables;
            let local = locals.try_get(handle(place as u32)).ok();
            local.map(|local| word(local.ty))
        }
        Way::Entry(road, entry, place) => read_field(&kept.module.entry_points[entry], road, place),
        Way::Own | Way::Stage => None,
    };
    found.ok_or_else(|| format!("mention {mention} is not on its road"))
}

fn read_special(types: &SpecialTypes, road: Road) -> Option<Handle<Type>> {
    match road {
        Road::RayDesc => types.ray_desc,
        Road::RayIntersection => types.ray_intersection,
        Road::RayVertexReturn => types.ray_vertex_return,
        Road::TextureParams => types.external_texture_params,
        _ => types.external_texture_transfer_function,
    }
}

fn read_field(entry: &EntryPoint, road: Road, place: usize) -> Option<u32> {
    let mesh = entry.mesh_info.as_ref();
    match road {
        Road::MeshVertex => mesh.map(|mesh| word(mesh.vertex_output_type)),
        Road::MeshPrimitive => mesh.map(|mesh| word(mesh.primitive_output_type)),
        Road::MeshOutput => mesh.map(|mesh| word(mesh.output_variable)),
        Road::TaskPayload => entry.task_payload.map(word),
        Road::Workgroup => entry.workgroup_size_overrides?[place].map(word),
        Road::MaxVertices => mesh?.max_vertices_override.map(word),
        _ => mesh?.max_primitives_override.map(word),
    }
}

/// The ranges that the pass adjusted, each with the map of its function's own expressions.
pub fn adjusted(module: &Module, laid: &Laid) -> Result<Vec<Adjusted>, String> {
    let kept = Kept::new(module);
    let each = |emit: &Emit| {
        let function = kept.function(emit.holder)?;
        let mut map = vec![N; emit.own];
        for (new, _) in function.expressions.iter() {
            map[ends(function.expressions.get_span(new)).0 as usize] = word(new);
        }
        let Some(Statement::Emit(range)) = function.body.last() else {
            return Err(String::from("an Emit is gone"));
        };
        let ends = range.index_range();
        Ok(Adjusted {
            map,
            before: (emit.start, emit.end),
            after: (ends.start, ends.end),
        })
    };
    laid.emits.iter().map(each).collect()
}
