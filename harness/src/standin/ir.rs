//! The data types that the published compactor walks, in the crate's shape: the fields and variants that
//! the published text names, and those that a host has to fill in.

use crate::{Arena, FastIndexMap, Handle, NamedExpressions, Range, Span, UniqueArena};
use std::num::NonZeroU32;
use std::ops::{Deref, DerefMut};

/// The bit of an array's stride and of a struct's span that says that the type is abstract.
const ABSTRACT: u32 = 1 << 31;

#[derive(Clone, Debug, Default)]
pub struct Module {
    pub types: UniqueArena<Type>,
    pub special_types: SpecialTypes,
    pub constants: Arena<Constant>,
    pub overrides: Arena<Override>,
    pub global_variables: Arena<GlobalVariable>,
    pub global_expressions: Arena<Expression>,
    pub functions: Arena<Function>,
    pub entry_points: Vec<EntryPoint>,
    pub doc_comments: Option<Box<DocComments>>,
}

#[derive(Clone, Debug, Default)]
pub struct SpecialTypes {
    pub ray_desc: Option<Handle<Type>>,
    pub ray_intersection: Option<Handle<Type>>,
    pub ray_vertex_return: Option<Handle<Type>>,
    pub external_texture_params: Option<Handle<Type>>,
    pub external_texture_transfer_function: Option<Handle<Type>>,
    pub predeclared_types: FastIndexMap<PredeclaredType, Handle<Type>>,
}

#[derive(Clone, Debug, PartialEq, Eq, Hash)]
pub enum PredeclaredType {
    ModfResult {
        size: Option<VectorSize>,
        scalar: Scalar,
    },
}

#[derive(Clone, Debug, Default)]
pub struct DocComments {
    pub module: Vec<String>,
    pub types: FastIndexMap<Handle<Type>, Vec<String>>,
    pub struct_members: FastIndexMap<(Handle<Type>, usize), Vec<String>>,
    pub entry_points: FastIndexMap<usize, Vec<String>>,
    pub functions: FastIndexMap<Handle<Function>, Vec<String>>,
    pub constants: FastIndexMap<Handle<Constant>, Vec<String>>,
    pub global_variables: FastIndexMap<Handle<GlobalVariable>, Vec<String>>,
}

/// A width in bytes.
pub type Bytes = u8;

#[derive(Clone, Copy, Debug, PartialEq, Eq, Hash)]
pub enum ScalarKind {
    Sint,
    Uint,
    Float,
    Bool,
    AbstractInt,
    AbstractFloat,
}

#[derive(Clone, Copy, Debug, PartialEq, Eq, Hash)]
pub struct Scalar {
    pub kind: ScalarKind,
    pub width: Bytes,
}

impl Scalar {
    pub const BOOL: Self = Self::new(ScalarKind::Bool, 1);
    pub const I32: Self = Self::new(ScalarKind::Sint, 4);
    pub const U32: Self = Self::new(ScalarKind::Uint, 4);

    const fn new(kind: ScalarKind, width: Bytes) -> Self {
        Scalar { kind, width }
    }
}

#[derive(Clone, Copy, Debug, PartialEq, Eq, Hash)]
pub enum VectorSize {
    Bi,
    Tri,
    Quad,
}

#[derive(Clone, Copy, Debug, PartialEq, Eq, Hash)]
pub enum CooperativeSize {
    Eight,
    Sixteen,
}

#[derive(Clone, Copy, Debug, PartialEq, Eq, Hash)]
pub enum CooperativeRole {
    A,
    B,
    C,
}

#[derive(Clone, Copy, Debug, PartialEq, Eq, Hash)]
pub struct StorageAccess(u32);

impl StorageAccess {
    pub const LOAD: Self = StorageAccess(1);
    pub const STORE: Self = StorageAccess(2);
    pub const ATOMIC: Self = StorageAccess(4);

    /// Any bits, also those without a name.
    pub const fn from_bits_retain(bits: u32) -> Self {
        StorageAccess(bits)
    }

    pub const fn bits(self) -> u32 {
        self.0
    }
}

#[derive(Clone, Copy, Debug, PartialEq, Eq, Hash)]
pub enum AddressSpace {
    Function,
    Private,
    WorkGroup,
    Uniform,
    Storage { access: StorageAccess },
    Handle,
    Immediate,
    TaskPayload,
    RayPayload,
    IncomingRayPayload,
}

#[derive(Clone, Copy, Debug, PartialEq, Eq, Hash)]
pub enum ImageDimension {
    D1,
    D2,
    D3,
    Cube,
}

#[derive(Clone, Copy, Debug, PartialEq, Eq, Hash)]
pub enum ImageClass {
    Sampled { kind: ScalarKind, multi: bool },
    Depth { multi: bool },
    External,
}

/// How a value reaches a stage; here it never does.
#[derive(Clone, Debug, PartialEq, Eq, Hash)]
pub enum Binding {}

#[derive(Clone, Copy, Debug, PartialEq, Eq)]
pub struct ResourceBinding {
    pub group: u32,
    pub binding: u32,
}

#[derive(Clone, Copy, Debug, Default, PartialEq, Eq)]
pub struct MemoryDecorations(pub u8);

#[derive(Clone, Debug, PartialEq, Eq, Hash)]
pub struct Type {
    pub name: Option<String>,
    pub inner: TypeInner,
}

#[derive(Clone, Copy, Debug, PartialEq, Eq, Hash)]
pub enum ArraySize {
    Constant(NonZeroU32),
    Pending(Handle<Override>),
    Dynamic,
}

#[derive(Clone, Debug, PartialEq, Eq, Hash)]
pub struct StructMember {
    pub name: Option<String>,
    pub ty: Handle<Type>,
    pub binding: Option<Binding>,
    pub offset: u32,
}

#[derive(Clone, Debug, PartialEq, Eq, Hash)]
pub enum TypeInner {
    Scalar(Scalar),
    Vector {
        size: VectorSize,
        scalar: Scalar,
    },
    Matrix {
        columns: VectorSize,
        rows: VectorSize,
        scalar: Scalar,
    },
    CooperativeMatrix {
        columns: CooperativeSize,
        rows: CooperativeSize,
        scalar: Scalar,
        role: CooperativeRole,
    },
    Atomic(Scalar),
    Pointer {
        base: Handle<Type>,
        space: AddressSpace,
    },
    ValuePointer {
        size: Option<VectorSize>,
        scalar: Scalar,
        space: AddressSpace,
    },
    Array {
        base: Handle<Type>,
        size: ArraySize,
        stride: u32,
    },
    Struct {
        members: Vec<StructMember>,
        span: u32,
    },
    Image {
        dim: ImageDimension,
        arrayed: bool,
        class: ImageClass,
    },
    Sampler {
        comparison: bool,
    },
    AccelerationStructure {
        vertex_return: bool,
    },
    RayQuery {
        vertex_return: bool,
    },
    BindingArray {
        base: Handle<Type>,
        size: ArraySize,
    },
}

impl TypeInner {
    /// By its scalar, or as an array or a struct says of itself, whatever it holds.
    pub fn is_abstract(&self, _types: &UniqueArena<Type>) -> bool {
        use ScalarKind::{AbstractFloat, AbstractInt};
        match *self {
            TypeInner::Scalar(scalar)
            | TypeInner::Atomic(scalar)
            | TypeInner::Vector { scalar, .. }
            | TypeInner::Matrix { scalar, .. } => {
                matches!(scalar.kind, AbstractInt | AbstractFloat)
            }
            TypeInner::Array { stride, .. } => stride & ABSTRACT != 0,
            TypeInner::Struct { span, .. } => span & ABSTRACT != 0,
            _ => false,
        }
    }
}

#[derive(Clone, Debug, PartialEq)]
pub struct Constant {
    pub name: Option<String>,
    pub ty: Handle<Type>,
    pub init: Handle<Expression>,
}

#[derive(Clone, Debug, PartialEq)]
pub struct Override {
    pub name: Option<String>,
    pub id: Option<u16>,
    pub ty: Handle<Type>,
    pub init: Option<Handle<Expression>>,
}

#[derive(Clone, Debug, PartialEq)]
pub struct GlobalVariable {
    pub name: Option<String>,
    pub space: AddressSpace,
    pub binding: Option<ResourceBinding>,
    pub ty: Handle<Type>,
    pub init: Option<Handle<Expression>>,
    pub memory_decorations: MemoryDecorations,
}

#[derive(Clone, Copy, Debug, PartialEq)]
pub enum Literal {
    U32(u32),
}

#[derive(Clone, Copy, Debug, PartialEq)]
pub enum SampleLevel {
    Auto,
    Zero,
    Exact(Handle<Expression>),
    Bias(Handle<Expression>),
    Gradient {
        x: Handle<Expression>,
        y: Handle<Expression>,
    },
}

#[derive(Clone, Copy, Debug, PartialEq)]
pub enum ImageQuery {
    Size { level: Option<Handle<Expression>> },
    NumLevels,
    NumLayers,
    NumSamples,
}

#[derive(Clone, Copy, Debug, PartialEq)]
pub enum BinaryOperator {
    Add,
}

#[derive(Clone, Copy, Debug, PartialEq)]
pub enum UnaryOperator {
    Negate,
}

#[derive(Clone, Copy, Debug, PartialEq)]
pub enum DerivativeAxis {
    X,
}

#[derive(Clone, Copy, Debug, PartialEq)]
pub enum DerivativeControl {
    None,
}

#[derive(Clone, Copy, Debug, PartialEq)]
pub enum RelationalFunction {
    All,
}

#[derive(Clone, Copy, Debug, PartialEq)]
pub enum MathFunction {
    Fma,
}

#[derive(Clone, Copy, Debug, PartialEq)]
pub enum SwizzleComponent {
    X,
}

#[derive(Clone, Copy, Debug, PartialEq)]
pub struct CooperativeData {
    pub pointer: Handle<Expression>,
    pub stride: Handle<Expression>,
    pub row_major: bool,
}

#[derive(Clone, Debug, PartialEq)]
pub enum Expression {
    Literal(Literal),
    FunctionArgument(u32),
    LocalVariable(Handle<LocalVariable>),
    SubgroupBallotResult,
    RayQueryProceedResult,
    Constant(Handle<Constant>),
    Override(Handle<Override>),
    ZeroValue(Handle<Type>),
    Compose {
        ty: Handle<Type>,
        components: Vec<Handle<Expression>>,
    },
    Access {
        base: Handle<Expression>,
        index: Handle<Expression>,
    },
    AccessIndex {
        base: Handle<Expression>,
        index: u32,
    },
    Splat {
        size: VectorSize,
        value: Handle<Expression>,
    },
    Swizzle {
        size: VectorSize,
        vector: Handle<Expression>,
        pattern: [SwizzleComponent; 4],
    },
    GlobalVariable(Handle<GlobalVariable>),
    Load {
        pointer: Handle<Expression>,
    },
    ImageSample {
        image: Handle<Expression>,
        sampler: Handle<Expression>,
        gather: Option<SwizzleComponent>,
        coordinate: Handle<Expression>,
        array_index: Option<Handle<Expression>>,
        offset: Option<Handle<Expression>>,
        level: SampleLevel,
        depth_ref: Option<Handle<Expression>>,
        clamp_to_edge: bool,
    },
    ImageLoad {
        image: Handle<Expression>,
        coordinate: Handle<Expression>,
        array_index: Option<Handle<Expression>>,
        sample: Option<Handle<Expression>>,
        level: Option<Handle<Expression>>,
    },
    ImageQuery {
        image: Handle<Expression>,
        query: ImageQuery,
    },
    RayQueryVertexPositions {
        query: Handle<Expression>,
        committed: bool,
    },
    Unary {
        op: UnaryOperator,
        expr: Handle<Expression>,
    },
    Binary {
        op: BinaryOperator,
        left: Handle<Expression>,
        right: Handle<Expression>,
    },
    Select {
        condition: Handle<Expression>,
        accept: Handle<Expression>,
        reject: Handle<Expression>,
    },
    Derivative {
        axis: DerivativeAxis,
        ctrl: DerivativeControl,
        expr: Handle<Expression>,
    },
    Relational {
        fun: RelationalFunction,
        argument: Handle<Expression>,
    },
    Math {
        fun: MathFunction,
        arg: Handle<Expression>,
        arg1: Option<Handle<Expression>>,
        arg2: Option<Handle<Expression>>,
        arg3: Option<Handle<Expression>>,
    },
    As {
        expr: Handle<Expression>,
        kind: ScalarKind,
        convert: Option<Bytes>,
    },
    ArrayLength(Handle<Expression>),
    CallResult(Handle<Function>),
    AtomicResult {
        ty: Handle<Type>,
        comparison: bool,
    },
    WorkGroupUniformLoadResult {
        ty: Handle<Type>,
    },
    SubgroupOperationResult {
        ty: Handle<Type>,
    },
    RayQueryGetIntersection {
        query: Handle<Expression>,
        committed: bool,
    },
    CooperativeLoad {
        columns: CooperativeSize,
        rows: CooperativeSize,
        role: CooperativeRole,
        data: CooperativeData,
    },
    CooperativeMultiplyAdd {
        a: Handle<Expression>,
        b: Handle<Expression>,
        c: Handle<Expression>,
    },
}

#[derive(Clone, Debug, PartialEq)]
pub struct FunctionArgument {
    pub name: Option<String>,
    pub ty: Handle<Type>,
    pub binding: Option<Binding>,
}

#[derive(Clone, Debug, PartialEq)]
pub struct FunctionResult {
    pub ty: Handle<Type>,
    pub binding: Option<Binding>,
}

#[derive(Clone, Debug, PartialEq)]
pub struct LocalVariable {
    pub name: Option<String>,
    pub ty: Handle<Type>,
    pub init: Option<Handle<Expression>>,
}

#[derive(Clone, Debug, Default)]
pub struct Function {
    pub name: Option<String>,
    pub arguments: Vec<FunctionArgument>,
    pub result: Option<FunctionResult>,
    pub local_variables: Arena<LocalVariable>,
    pub expressions: Arena<Expression>,
    pub named_expressions: NamedExpressions,
    pub body: Block,
}

#[derive(Clone, Copy, Debug, PartialEq, Eq)]
pub enum ShaderStage {
    Vertex,
    Task,
    Mesh,
    Fragment,
    Compute,
    RayGeneration,
    Miss,
    AnyHit,
    ClosestHit,
}

#[derive(Clone, Copy, Debug, PartialEq, Eq)]
pub enum MeshOutputTopology {
    Triangles,
}

#[derive(Clone, Debug)]
pub struct MeshStageInfo {
    pub topology: MeshOutputTopology,
    pub max_vertices: u32,
    pub max_vertices_override: Option<Handle<Expression>>,
    pub max_primitives: u32,
    pub max_primitives_override: Option<Handle<Expression>>,
    pub vertex_output_type: Handle<Type>,
    pub primitive_output_type: Handle<Type>,
    pub output_variable: Handle<GlobalVariable>,
}

/// When a fragment is tested; here nothing asks for it.
#[derive(Clone, Copy, Debug)]
pub enum EarlyDepthTest {}

#[derive(Clone, Debug)]
pub struct EntryPoint {
    pub name: String,
    pub stage: ShaderStage,
    pub early_depth_test: Option<EarlyDepthTest>,
    pub workgroup_size: [u32; 3],
    pub workgroup_size_overrides: Option<[Option<Handle<Expression>>; 3]>,
    pub function: Function,
    pub mesh_info: Option<MeshStageInfo>,
    pub task_payload: Option<Handle<GlobalVariable>>,
    pub incoming_ray_payload: Option<Handle<GlobalVariable>>,
}

/// A list of statements.
#[derive(Clone, Debug, Default)]
pub struct Block {
    statements: Vec<Statement>,
}

impl Block {
    pub fn push(&mut self, statement: Statement, _span: Span) {
        self.statements.push(statement);
    }
}

impl Deref for Block {
    type Target = [Statement];

    fn deref(&self) -> &[Statement] {
        &self.statements
    }
}

impl DerefMut for Block {
    fn deref_mut(&mut self) -> &mut [Statement] {
        &mut self.statements
    }
}

#[derive(Clone, Copy, Debug, PartialEq, Eq)]
pub enum SwitchValue {
    Default,
}

#[derive(Clone, Debug)]
pub struct SwitchCase {
    pub value: SwitchValue,
    pub body: Block,
    pub fall_through: bool,
}

#[derive(Clone, Copy, Debug)]
pub enum AtomicFunction {
    Add,
    Subtract,
    And,
    ExclusiveOr,
    InclusiveOr,
    Min,
    Max,
    Exchange { compare: Option<Handle<Expression>> },
}

#[derive(Clone, Copy, Debug)]
pub enum RayQueryFunction {
    Initialize {
        acceleration_structure: Handle<Expression>,
        descriptor: Handle<Expression>,
    },
    Proceed {
        result: Handle<Expression>,
    },
    GenerateIntersection {
        hit_t: Handle<Expression>,
    },
    ConfirmIntersection,
    Terminate,
}

#[derive(Clone, Copy, Debug)]
pub enum RayPipelineFunction {
    TraceRay {
        acceleration_structure: Handle<Expression>,
        descriptor: Handle<Expression>,
        payload: Handle<Expression>,
    },
}

#[derive(Clone, Copy, Debug)]
pub enum GatherMode {
    BroadcastFirst,
    Broadcast(Handle<Expression>),
    Shuffle(Handle<Expression>),
    ShuffleDown(Handle<Expression>),
    ShuffleUp(Handle<Expression>),
    ShuffleXor(Handle<Expression>),
    QuadBroadcast(Handle<Expression>),
    QuadSwap(Direction),
}

#[derive(Clone, Copy, Debug)]
pub enum Direction {
    X,
}

#[derive(Clone, Copy, Debug)]
pub enum SubgroupOperation {
    Add,
}

#[derive(Clone, Copy, Debug)]
pub enum CollectiveOperation {
    Reduce,
}

#[derive(Clone, Copy, Debug)]
pub struct Barrier;

#[derive(Clone, Debug)]
pub enum Statement {
    Emit(Range<Expression>),
    Block(Block),
    If {
        condition: Handle<Expression>,
        accept: Block,
        reject: Block,
    },
    Switch {
        selector: Handle<Expression>,
        cases: Vec<SwitchCase>,
    },
    Loop {
        body: Block,
        continuing: Block,
        break_if: Option<Handle<Expression>>,
    },
    Break,
    Continue,
    Return {
        value: Option<Handle<Expression>>,
    },
    Kill,
    ControlBarrier(Barrier),
    MemoryBarrier(Barrier),
    Store {
        pointer: Handle<Expression>,
        value: Handle<Expression>,
    },
    ImageStore {
        image: Handle<Expression>,
        coordinate: Handle<Expression>,
        array_index: Option<Handle<Expression>>,
        value: Handle<Expression>,
    },
    Atomic {
        pointer: Handle<Expression>,
        fun: AtomicFunction,
        value: Handle<Expression>,
        result: Option<Handle<Expression>>,
    },
    ImageAtomic {
        image: Handle<Expression>,
        coordinate: Handle<Expression>,
        array_index: Option<Handle<Expression>>,
        fun: AtomicFunction,
        value: Handle<Expression>,
    },
    WorkGroupUniformLoad {
        pointer: Handle<Expression>,
        result: Handle<Expression>,
    },
    Call {
        function: Handle<Function>,
        arguments: Vec<Handle<Expression>>,
        result: Option<Handle<Expression>>,
    },
    RayQuery {
        query: Handle<Expression>,
        fun: RayQueryFunction,
    },
    RayPipelineFunction(RayPipelineFunction),
    SubgroupBallot {
        result: Handle<Expression>,
        predicate: Option<Handle<Expression>>,
    },
    SubgroupGather {
        mode: GatherMode,
        argument: Handle<Expression>,
        result: Handle<Expression>,
    },
    SubgroupCollectiveOperation {
        op: SubgroupOperation,
        collective_op: CollectiveOperation,
        argument: Handle<Expression>,
        result: Handle<Expression>,
    },
    CooperativeStore {
        target: Handle<Expression>,
        data: CooperativeData,
    },
}
