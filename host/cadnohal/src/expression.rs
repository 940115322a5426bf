//! The 34 kinds of expressions.
#![forbid(unsafe_code)]

use crate::{
    handle::{ConstantHandle, ExpressionHandle, OverrideHandle, TypeHandle},
    kinds::N,
    words::{count, handle, handles, word},
};

/// What an expression refers to, in the order of the kinds' numbers and with naga's names. What
/// holds no handle, such as an operator, lives with the host under the record's tag.
#[derive(Clone, Debug, PartialEq, Eq, Hash)]
pub enum Expression {
    /// 0: a literal value.
    Literal,
    /// 1: an argument of the function.
    FunctionArgument,
    /// 2: a local variable of the function.
    LocalVariable,
    /// 3: the result of a subgroup ballot.
    SubgroupBallotResult,
    /// 4: whether a ray query goes on.
    RayQueryProceedResult,
    /// 5: the value of a constant.
    Constant(ConstantHandle),
    /// 6: the value of an override.
    Override(OverrideHandle),
    /// 7: the zero value of a type.
    ZeroValue(TypeHandle),
    /// 8: a value put together from others.
    Compose {
        /// Its type.
        ty: TypeHandle,
        /// Its parts, a run of the component pool.
        components: Vec<ExpressionHandle>,
    },
    /// 9: an element at a computed index.
    Access {
        /// What is indexed.
        base: ExpressionHandle,
        /// The index.
        index: ExpressionHandle,
    },
    /// 10: an element at a fixed index.
    AccessIndex {
        /// What is indexed.
        base: ExpressionHandle,
    },
    /// 11: a vector of equal elements.
    Splat {
        /// The element.
        value: ExpressionHandle,
    },
    /// 12: elements of a vector in another order.
    Swizzle {
        /// The vector.
        vector: ExpressionHandle,
    },
    /// 13: not of module scope, refused with 5. The check doesn't read its slots; here they are N.
    GlobalVariable,
    /// 14: a value behind a pointer.
    Load {
        /// The pointer.
        pointer: ExpressionHandle,
    },
    /// 15: a sample of an image.
    ImageSample {
        /// The image.
        image: ExpressionHandle,
        /// The sampler.
        sampler: ExpressionHandle,
        /// Where to sample.
        coordinate: ExpressionHandle,
        /// Which layer of an array.
        array_index: Option<ExpressionHandle>,
        /// An offset of the coordinate.
        offset: Option<ExpressionHandle>,
        /// The level of detail.
        level: SampleLevel,
        /// The depth to compare with.
        depth_ref: Option<ExpressionHandle>,
    },
    /// 16: a texel of an image.
    ImageLoad {
        /// The image.
        image: ExpressionHandle,
        /// Which texel.
        coordinate: ExpressionHandle,
        /// Which layer of an array.
        array_index: Option<ExpressionHandle>,
        /// Which sample.
        sample: Option<ExpressionHandle>,
        /// Which level.
        level: Option<ExpressionHandle>,
    },
    /// 17: a fact about an image.
    ImageQuery {
        /// The image.
        image: ExpressionHandle,
        /// The fact.
        query: ImageQuery,
    },
    /// 18: the vertices that a ray hit.
    RayQueryVertexPositions {
        /// The ray query.
        query: ExpressionHandle,
    },
    /// 19: an operator on one value.
    Unary {
        /// The value.
        expr: ExpressionHandle,
    },
    /// 20: an operator on two values.
    Binary {
        /// The first.
        left: ExpressionHandle,
        /// The second.
        right: ExpressionHandle,
    },
    /// 21: one of two values.
    Select {
        /// What decides.
        condition: ExpressionHandle,
        /// The value if true.
        accept: ExpressionHandle,
        /// The value if false.
        reject: ExpressionHandle,
    },
    /// 22: a derivative.
    Derivative {
        /// Of this.
        expr: ExpressionHandle,
    },
    /// 23: a relational function.
    Relational {
        /// Its argument.
        argument: ExpressionHandle,
    },
    /// 24: a mathematical function.
    Math {
        /// Its argument.
        arg: ExpressionHandle,
        /// A second argument.
        arg1: Option<ExpressionHandle>,
        /// A third argument.
        arg2: Option<ExpressionHandle>,
        /// A fourth argument.
        arg3: Option<ExpressionHandle>,
    },
    /// 25: a cast.
    As {
        /// The value.
        expr: ExpressionHandle,
    },
    /// 26: the length of an array.
    ArrayLength(ExpressionHandle),
    /// 27: not of module scope, refused with 5. The check doesn't read its slots; here they are N.
    CallResult,
    /// 28: the result of an atomic operation.
    AtomicResult {
        /// Its type.
        ty: TypeHandle,
    },
    /// 29: the result of a uniform load of a workgroup.
    WorkGroupUniformLoadResult {
        /// Its type.
        ty: TypeHandle,
    },
    /// 30: the result of a subgroup operation.
    SubgroupOperationResult {
        /// Its type.
        ty: TypeHandle,
    },
    /// 31: an intersection that a ray query found.
    RayQueryGetIntersection {
        /// The ray query.
        query: ExpressionHandle,
    },
    /// 32: a load of a cooperative matrix.
    CooperativeLoad {
        /// From where.
        pointer: ExpressionHandle,
        /// The stride.
        stride: ExpressionHandle,
    },
    /// 33: `a * b + c` of cooperative matrices.
    CooperativeMultiplyAdd {
        /// The first factor.
        a: ExpressionHandle,
        /// The second factor.
        b: ExpressionHandle,
        /// What is added.
        c: ExpressionHandle,
    },
}

/// The level of an [`Expression::ImageSample`], in the order of the forms' numbers.
#[derive(Clone, Copy, Debug, PartialEq, Eq, Hash)]
pub enum SampleLevel {
    /// 0: worked out.
    Auto,
    /// 1: level 0.
    Zero,
    /// 2: this level.
    Exact(ExpressionHandle),
    /// 3: worked out, with this added.
    Bias(ExpressionHandle),
    /// 4: worked out from these gradients.
    Gradient {
        /// Along x.
        x: ExpressionHandle,
        /// Along y.
        y: ExpressionHandle,
    },
}

/// What an [`Expression::ImageQuery`] asks for, in the order of the forms' numbers.
#[derive(Clone, Copy, Debug, PartialEq, Eq, Hash)]
pub enum ImageQuery {
    /// 0: the size.
    Size {
        /// At which level.
        level: Option<ExpressionHandle>,
    },
    /// 1: how many levels.
    NumLevels,
    /// 2: how many layers.
    NumLayers,
    /// 3: how many samples.
    NumSamples,
}

impl Expression {
    /// Kind and slots; the components' run starts at `start`.
    pub(crate) fn encode(&self, start: u32) -> (u32, [u32; 9]) {
        use Expression as Ex;
        let one = |a: ExpressionHandle| slots([a.0]);
        let two = |a: ExpressionHandle, b: ExpressionHandle| slots([a.0, b.0]);
        let three =
            |a: ExpressionHandle, b: ExpressionHandle, c: ExpressionHandle| slots([a.0, b.0, c.0]);
        match *self {
            Ex::Literal => (0, slots([])),
            Ex::FunctionArgument => (1, slots([])),
            Ex::LocalVariable => (2, slots([])),
            Ex::SubgroupBallotResult => (3, slots([])),
            Ex::RayQueryProceedResult => (4, slots([])),
            Ex::Constant(constant) => (5, slots([constant.0])),
            Ex::Override(r#override) => (6, slots([r#override.0])),
            Ex::ZeroValue(ty) => (7, slots([ty.0])),
            Ex::Compose { ty, ref components } => {
                (8, slots([ty.0, start, count(components.len())]))
            }
            Ex::Access { base, index } => (9, two(base, index)),
            Ex::AccessIndex { base } => (10, one(base)),
            Ex::Splat { value } => (11, one(value)),
            Ex::Swizzle { vector } => (12, one(vector)),
            Ex::GlobalVariable => (13, slots([])),
            Ex::Load { pointer } => (14, one(pointer)),
            Ex::ImageSample {
                image,
                sampler,
                coordinate,
                array_index,
                offset,
                level,
                depth_ref,
            } => {
                let [form, x, y] = level.encode();
                let [array_index, offset, depth_ref] = [array_index, offset, depth_ref].map(word);
                let [image, sampler, coordinate] = [image.0, sampler.0, coordinate.0];
                (
                    15,
                    [
                        image,
                        sampler,
                        coordinate,
                        array_index,
                        offset,
                        form,
                        x,
                        y,
                        depth_ref,
                    ],
                )
            }
            Ex::ImageLoad {
                image,
                coordinate,
                array_index,
                sample,
                level,
            } => {
                let [array_index, sample, level] = [array_index, sample, level].map(word);
                (
                    16,
                    slots([image.0, coordinate.0, array_index, sample, level]),
                )
            }
            Ex::ImageQuery { image, query } => {
                let [form, level] = query.encode();
                (17, slots([image.0, form, level]))
            }
            Ex::RayQueryVertexPositions { query } => (18, one(query)),
            Ex::Unary { expr } => (19, one(expr)),
            Ex::Binary { left, right } => (20, two(left, right)),
            Ex::Select {
                condition,
                accept,
                reject,
            } => (21, three(condition, accept, reject)),
            Ex::Derivative { expr } => (22, one(expr)),
            Ex::Relational { argument } => (23, one(argument)),
            Ex::Math {
                arg,
                arg1,
                arg2,
                arg3,
            } => (24, slots([arg.0, word(arg1), word(arg2), word(arg3)])),
            Ex::As { expr } => (25, one(expr)),
            Ex::ArrayLength(expr) => (26, one(expr)),
            Ex::CallResult => (27, slots([])),
            Ex::AtomicResult { ty } => (28, slots([ty.0])),
            Ex::WorkGroupUniformLoadResult { ty } => (29, slots([ty.0])),
            Ex::SubgroupOperationResult { ty } => (30, slots([ty.0])),
            Ex::RayQueryGetIntersection { query } => (31, one(query)),
            Ex::CooperativeLoad { pointer, stride } => (32, two(pointer, stride)),
            Ex::CooperativeMultiplyAdd { a, b, c } => (33, three(a, b, c)),
        }
    }

    /// The expression of a kind and its slots; `pool` is the component pool.
    pub(crate) fn decode(kind: u32, slots: [u32; 9], pool: &[u32]) -> Option<Self> {
        use Expression as Ex;
        let e = |slot: usize| handle::<ExpressionHandle>(slots[slot]);
        let ty = || handle::<TypeHandle>(slots[0]);
        let expression = match kind {
            0 => Ex::Literal,
            1 => Ex::FunctionArgument,
            2 => Ex::LocalVariable,
            3 => Ex::SubgroupBallotResult,
            4 => Ex::RayQueryProceedResult,
            5 => Ex::Constant(handle(slots[0])?),
            6 => Ex::Override(handle(slots[0])?),
            7 => Ex::ZeroValue(ty()?),
            8 => Ex::Compose {
                ty: ty()?,
                components: handles(pool, slots[1], slots[2])?,
            },
            9 => Ex::Access {
                base: e(0)?,
                index: e(1)?,
            },
            10 => Ex::AccessIndex { base: e(0)? },
            11 => Ex::Splat { value: e(0)? },
            12 => Ex::Swizzle { vector: e(0)? },
            13 => Ex::GlobalVariable,
            14 => Ex::Load { pointer: e(0)? },
            15 => Ex::ImageSample {
                image: e(0)?,
                sampler: e(1)?,
                coordinate: e(2)?,
                array_index: e(3),
                offset: e(4),
                level: SampleLevel::decode(slots[5], e(6), e(7))?,
                depth_ref: e(8),
            },
            16 => Ex::ImageLoad {
                image: e(0)?,
                coordinate: e(1)?,
                array_index: e(2),
                sample: e(3),
                level: e(4),
            },
            17 => Ex::ImageQuery {
                image: e(0)?,
                query: ImageQuery::decode(slots[1], e(2))?,
            },
            18 => Ex::RayQueryVertexPositions { query: e(0)? },
            19 => Ex::Unary { expr: e(0)? },
            20 => Ex::Binary {
                left: e(0)?,
                right: e(1)?,
            },
            21 => Ex::Select {
                condition: e(0)?,
                accept: e(1)?,
                reject: e(2)?,
            },
            22 => Ex::Derivative { expr: e(0)? },
            23 => Ex::Relational { argument: e(0)? },
            24 => Ex::Math {
                arg: e(0)?,
                arg1: e(1),
                arg2: e(2),
                arg3: e(3),
            },
            25 => Ex::As { expr: e(0)? },
            26 => Ex::ArrayLength(e(0)?),
            27 => Ex::CallResult,
            28 => Ex::AtomicResult { ty: ty()? },
            29 => Ex::WorkGroupUniformLoadResult { ty: ty()? },
            30 => Ex::SubgroupOperationResult { ty: ty()? },
            31 => Ex::RayQueryGetIntersection { query: e(0)? },
            32 => Ex::CooperativeLoad {
                pointer: e(0)?,
                stride: e(1)?,
            },
            33 => Ex::CooperativeMultiplyAdd {
                a: e(0)?,
                b: e(1)?,
                c: e(2)?,
            },
            _ => return None,
        };
        // The slots that the kind or form doesn't name are N exactly if the same words come back.
        (expression.encode(slots[1]) == (kind, slots)).then_some(expression)
    }
}

impl SampleLevel {
    /// Form, x and y.
    fn encode(self) -> [u32; 3] {
        match self {
            Self::Auto => [0, N, N],
            Self::Zero => [1, N, N],
            Self::Exact(x) => [2, x.0, N],
            Self::Bias(x) => [3, x.0, N],
            Self::Gradient { x, y } => [4, x.0, y.0],
        }
    }

    fn decode(form: u32, x: Option<ExpressionHandle>, y: Option<ExpressionHandle>) -> Option<Self> {
        Some(match form {
            0 => Self::Auto,
            1 => Self::Zero,
            2 => Self::Exact(x?),
            3 => Self::Bias(x?),
            4 => Self::Gradient { x: x?, y: y? },
            _ => return None,
        })
    }
}

impl ImageQuery {
    /// Form and level.
    fn encode(self) -> [u32; 2] {
        match self {
            Self::Size { level } => [0, word(level)],
            Self::NumLevels => [1, N],
            Self::NumLayers => [2, N],
            Self::NumSamples => [3, N],
        }
    }

    fn decode(form: u32, level: Option<ExpressionHandle>) -> Option<Self> {
        Some(match form {
            0 => Self::Size { level },
            1 => Self::NumLevels,
            2 => Self::NumLayers,
            3 => Self::NumSamples,
            _ => return None,
        })
    }
}

/// The named slots from the first, then N.
fn slots<const NAMED: usize>(named: [u32; NAMED]) -> [u32; 9] {
    let mut slots = [N; 9];
    slots[..NAMED].copy_from_slice(&named);
    slots
}
