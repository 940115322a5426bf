//! Ways in which a function uses one of its own expressions.

use crate::flat::N;
use crate::rng::Rng;
use naga::{
    AtomicFunction, Block, CollectiveOperation, CooperativeData, Direction, Expression, Function,
    GatherMode, Handle, Literal, LocalVariable, MathFunction, RayPipelineFunction,
    RayQueryFunction, Span, Statement, SubgroupOperation, SwitchCase, SwitchValue, UnaryOperator,
};

type Own = Handle<Expression>;

/// Appends an own expression that carries its place and a mention, or N.
pub fn append(function: &mut Function, expression: Expression, mention: u32) -> Own {
    let place = function.expressions.len() as u32;
    function
        .expressions
        .append(expression, Span::new(place, mention))
}

/// An own expression that names nothing: the first one, if it is such.
pub fn filler(function: &mut Function) -> Own {
    let first = function.expressions.iter().next();
    match first {
        Some((at, Expression::Literal(_))) => at,
        _ => append(function, Expression::Literal(Literal::U32(0)), N),
    }
}

/// Uses the expression once, in a statement or otherwise.
pub fn use_own(function: &mut Function, own: Own, rng: &mut Rng) {
    match rng.below(8) {
        0 => {
            let name = String::from("named");
            function.named_expressions.insert(own, name);
        }
        1 if !function.arguments.is_empty() => {
            let local = LocalVariable {
                name: None,
                ty: function.arguments[0].ty,
                init: Some(own),
            };
            function.local_variables.append(local, Span::default());
        }
        2 => {
            let user = wrapped(function, own, rng);
            push_statement(function, user, rng);
        }
        _ => push_statement(function, own, rng),
    }
}

/// An own expression over the given one.
fn wrapped(function: &mut Function, own: Own, rng: &mut Rng) -> Own {
    let other = filler(function);
    let expression = match rng.below(4) {
        0 => Expression::Unary {
            op: UnaryOperator::Negate,
            expr: own,
        },
        1 => Expression::Load { pointer: own },
        2 => Expression::Access {
            base: other,
            index: own,
        },
        _ => Expression::Math {
            fun: MathFunction::Fma,
            arg: other,
            arg1: None,
            arg2: None,
            arg3: Some(own),
        },
    };
    append(function, expression, N)
}

/// A statement with the expression in one of its places, nested in up to two others.
fn push_statement(function: &mut Function, own: Own, rng: &mut Rng) {
    let mut places = [filler(function); 4];
    let form = rng.below(FORMS.len());
    places[rng.below(FORMS[form])] = own;
    let mut statement = statement(form, places);
    for _ in 0..rng.below(3) {
        statement = nested(statement, places[3], rng);
    }
    function.body.push(statement, Span::default());
}

/// How many places each form of statement has.
const FORMS: [usize; 27] = [
    1, 2, 1, 1, 1, 4, 3, 4, 4, 2, 3, 2, 2, 1, 1, 2, 2, 3, 3, 3, 3, 3, 3, 2, 2, 3, 3,
];

fn statement(form: usize, [p, q, r, s]: [Own; 4]) -> Statement {
    let ray = |fun| Statement::RayQuery { query: p, fun };
    let gather = |mode| Statement::SubgroupGather {
        mode,
        argument: p,
        result: q,
    };
    match form {
        0 => Statement::Return { value: Some(p) },
        1 => Statement::Store {
            pointer: p,
            value: q,
        },
        2 => Statement::If {
            condition: p,
            accept: Block::default(),
            reject: Block::default(),
        },
        3 => Statement::Switch {
            selector: p,
            cases: Vec::new(),
        },
        4 => Statement::Loop {
            body: Block::default(),
            continuing: Block::default(),
            break_if: Some(p),
        },
        5 => Statement::ImageStore {
            image: p,
            coordinate: q,
            array_index: Some(r),
            value: s,
        },
        6 => Statement::Atomic {
            pointer: p,
            fun: AtomicFunction::Add,
            value: q,
            result: Some(r),
        },
        7 => Statement::Atomic {
            pointer: p,
            fun: AtomicFunction::Exchange { compare: Some(s) },
            value: q,
            result: Some(r),
        },
        8 => Statement::ImageAtomic {
            image: p,
            coordinate: q,
            array_index: Some(r),
            fun: AtomicFunction::Max,
            value: s,
        },
        9 => Statement::WorkGroupUniformLoad {
            pointer: p,
            result: q,
        },
        10 => ray(RayQueryFunction::Initialize {
            acceleration_structure: q,
            descriptor: r,
        }),
        11 => ray(RayQueryFunction::Proceed { result: q }),
        12 => ray(RayQueryFunction::GenerateIntersection { hit_t: q }),
        13 => ray(RayQueryFunction::ConfirmIntersection),
        14 => ray(RayQueryFunction::Terminate),
        15 => Statement::SubgroupBallot {
            result: p,
            predicate: Some(q),
        },
        16 => Statement::SubgroupCollectiveOperation {
            op: SubgroupOperation::Add,
            collective_op: CollectiveOperation::Reduce,
            argument: p,
            result: q,
        },
        17 => gather(GatherMode::Broadcast(r)),
        18 => gather(GatherMode::Shuffle(r)),
        19 => gather(GatherMode::ShuffleDown(r)),
        20 => gather(GatherMode::ShuffleUp(r)),
        21 => gather(GatherMode::ShuffleXor(r)),
        22 => gather(GatherMode::QuadBroadcast(r)),
        23 => gather(GatherMode::BroadcastFirst),
        24 => gather(GatherMode::QuadSwap(Direction::X)),
        25 => Statement::CooperativeStore {
            target: p,
            data: CooperativeData {
                pointer: q,
                stride: r,
                row_major: true,
            },
        },
        _ => Statement::RayPipelineFunction(RayPipelineFunction::TraceRay {
            acceleration_structure: p,
            descriptor: q,
            payload: r,
        }),
    }
}

/// The statement inside another one.
fn nested(inner: Statement, other: Own, rng: &mut Rng) -> Statement {
    let mut block = Block::default();
    block.push(inner, Span::default());
    let empty = Block::default();
    match rng.below(6) {
        0 => Statement::Block(block),
        1 => Statement::If {
            condition: other,
            accept: block,
            reject: empty,
        },
        2 => Statement::If {
            condition: other,
            accept: empty,
            reject: block,
        },
        3 => Statement::Switch {
            selector: other,
            cases: vec![case(empty), case(block)],
        },
        4 => Statement::Loop {
            body: block,
            continuing: empty,
            break_if: None,
        },
        _ => Statement::Loop {
            body: empty,
            continuing: block,
            break_if: None,
        },
    }
}

fn case(body: Block) -> SwitchCase {
    SwitchCase {
        value: SwitchValue::Default,
        body,
        fall_through: false,
    }
}
