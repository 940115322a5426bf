//! A type record as a type of the Rust.
//!
//! No two types of a module are equal, since the Rust's arena would make them one. A type carries its old
//! number, in its name or in a mark, as far as it has room for it. Where the type that was drawn is there already, one
//! of a sort that carries the whole number takes its place. What has neither holds no handle, so a pass leaves it
//! equal to what it was.

use crate::flat::*;
use crate::handles::{handle, span, word};
use crate::rng::Rng;
use crate::rust::caught;
use naga::{
    AddressSpace, ArraySize, CooperativeRole, CooperativeSize, Handle, ImageClass, ImageDimension,
    Scalar, ScalarKind, StorageAccess, StructMember, Type, TypeInner, UniqueArena, VectorSize,
};
use std::borrow::Cow;
use std::collections::HashMap;
use std::num::NonZeroU32;

/// The first mark: below it lie the widths of the scalars that have names.
const FIRST_MARK: u32 = 16;

/// As many widths carry a number's lowest digit.
const WIDTHS_OF_SCALARS: u32 = 240;

/// What the mark of an array or a struct has beside the number where the flag says abstract. The stand-in
/// asks it; the crate asks what an array holds, and a struct is never abstract there.
const ABSTRACT_MARK: u32 = 1 << 31;

/// The first kinds are concrete, the others abstract.
const KINDS: [ScalarKind; 6] = [
    ScalarKind::Bool,
    ScalarKind::Sint,
    ScalarKind::Uint,
    ScalarKind::Float,
    ScalarKind::AbstractInt,
    ScalarKind::AbstractFloat,
];
const CONCRETE: usize = 4;
const SIZES: [VectorSize; 3] = [VectorSize::Bi, VectorSize::Tri, VectorSize::Quad];
const SOME_SIZES: [Option<VectorSize>; 4] = [
    None,
    Some(VectorSize::Bi),
    Some(VectorSize::Tri),
    Some(VectorSize::Quad),
];

/// An abstract type without handles and without a name carries its number as far as this. From here on
/// such a record is made concrete, and its flag found so.
const ABSTRACT_LEAVES: usize = WIDTHS_OF_SCALARS as usize * (KINDS.len() - CONCRETE) * 9;

const SPACES: [AddressSpace; 12] = [
    AddressSpace::Function,
    AddressSpace::Private,
    AddressSpace::WorkGroup,
    AddressSpace::Uniform,
    storage(StorageAccess::LOAD),
    storage(StorageAccess::STORE),
    storage(StorageAccess::ATOMIC),
    AddressSpace::Handle,
    AddressSpace::Immediate,
    AddressSpace::TaskPayload,
    AddressSpace::RayPayload,
    AddressSpace::IncomingRayPayload,
];

const fn storage(access: StorageAccess) -> AddressSpace {
    AddressSpace::Storage { access }
}

/// A space that carries a number: in bits of the access, most of which mean nothing.
fn marked_space(number: u32) -> AddressSpace {
    storage(StorageAccess::from_bits_retain(FIRST_MARK + number))
}

/// All types of a module. The one at `stage`, if any, is the scalar u32.
pub fn arena(flat: &Flat, stage: Option<usize>, rng: &mut Rng) -> UniqueArena<Type> {
    let mut types = UniqueArena::new();
    for place in 0..flat.records(TYPES) {
        let maker = Maker::new(flat, place);
        let mut ty = Type {
            name: maker.named.then(|| place.to_string()),
            inner: match stage {
                Some(at) if at == place => TypeInner::Scalar(Scalar::U32),
                _ => maker.drawn(rng),
            },
        };
        if types.get(&ty).is_some() {
            ty.inner = maker.own();
        }
        let given = types.insert(ty, span(flat.tail(TYPES, place)));
        assert_eq!(given.index(), place, "each type is its own");
    }
    types
}

/// Takes a number apart, lowest digit first.
struct Digits(u32);

impl Digits {
    fn of<T: Copy>(&mut self, list: &[T]) -> T {
        list[self.below(list.len() as u32) as usize]
    }

    fn below(&mut self, radix: u32) -> u32 {
        let digit = self.0 % radix;
        self.0 /= radix;
        digit
    }

    fn bit(&mut self) -> bool {
        self.below(2) == 1
    }

    /// A scalar whose width carries the lowest digit.
    fn scalar(&mut self, kinds: &[ScalarKind]) -> Scalar {
        let width = width(self.below(WIDTHS_OF_SCALARS));
        let kind = self.of(kinds);
        Scalar { kind, width }
    }
}

/// The width of the scalars of the type with this number.
fn width(number: u32) -> u8 {
    (FIRST_MARK + number % WIDTHS_OF_SCALARS) as u8
}

/// Makes the type of one record.
struct Maker<'a> {
    flat: &'a Flat,
    record: &'a [u32],
    place: u32,
    named: bool,
    is_abstract: bool,
}

impl<'a> Maker<'a> {
    fn new(flat: &'a Flat, place: usize) -> Self {
        let record = flat.record(TYPES, place);
        let named = record[1] & NAMED != 0;
        let has_room = record[0] != 0 || named || place < ABSTRACT_LEAVES;
        Maker {
            flat,
            record,
            place: place as u32,
            named,
            is_abstract: record[1] & ABSTRACT != 0 && has_room,
        }
    }

    /// The number of an array or a struct.
    fn mark(&self) -> u32 {
        let more = if self.is_abstract { ABSTRACT_MARK } else { 0 };
        FIRST_MARK + self.place + more
    }

    fn base(&self) -> Handle<Type> {
        handle(self.record[2])
    }

    /// Whether an array would be abstract by what it holds, though the flag says that it is not.
    fn held_abstract(&self) -> bool {
        let base = self.record[2] as usize;
        !self.is_abstract
            && base < self.flat.records(TYPES)
            && self.flat.record(TYPES, base)[1] & ABSTRACT != 0
    }

    /// Any space where the name carries the number.
    fn space(&self, any: AddressSpace) -> AddressSpace {
        match self.named {
            true => any,
            false => marked_space(self.place),
        }
    }

    /// A type of any sort that the record allows.
    fn drawn(&self, rng: &mut Rng) -> TypeInner {
        match self.record[0] {
            0 => self.leaf(rng),
            1 if self.is_abstract => self.array(rng.one_in(2)),
            1 => match rng.below(4) {
                0 => TypeInner::Pointer {
                    base: self.base(),
                    space: self.space(*rng.pick(&SPACES)),
                },
                1 if !self.held_abstract() => self.array(true),
                2 if !self.held_abstract() => self.array(false),
                _ => self.binding_array(),
            },
            2 if self.named && self.held_abstract() => self.sized_binding_array(),
            2 if self.named && !self.is_abstract && rng.one_in(2) => self.sized_binding_array(),
            _ => self.own(),
        }
    }

    /// A type of a sort that carries the whole number.
    fn own(&self) -> TypeInner {
        match self.record[0] {
            0 if self.is_abstract => self.leaf_of(2),
            0 => self.leaf_of(5),
            1 if self.held_abstract() => self.binding_array(),
            1 => self.array(true),
            2 => TypeInner::Array {
                base: self.base(),
                size: ArraySize::Pending(handle(self.record[3])),
                stride: self.mark(),
            },
            _ => self.structure(),
        }
    }

    /// An array of fixed or of run-time size.
    fn array(&self, fixed: bool) -> TypeInner {
        TypeInner::Array {
            base: self.base(),
            size: if fixed {
                ArraySize::Constant(NonZeroU32::MIN)
            } else {
                ArraySize::Dynamic
            },
            stride: self.mark(),
        }
    }

    fn binding_array(&self) -> TypeInner {
        TypeInner::BindingArray {
            base: self.base(),
            size: ArraySize::Constant(NonZeroU32::MIN.saturating_add(self.place)),
        }
    }

    /// Only its name tells such a binding array from its equals.
    fn sized_binding_array(&self) -> TypeInner {
        TypeInner::BindingArray {
            base: self.base(),
            size: ArraySize::Pending(handle(self.record[3])),
        }
    }

    fn structure(&self) -> TypeInner {
        let (start, count) = (self.record[2] as usize, self.record[3] as usize);
        let run = &self.flat.areas[MEMBERS][start..start + count];
        let member = |(number, ty): (usize, &u32)| StructMember {
            name: None,
            ty: handle(*ty),
            binding: None,
            offset: number as u32,
        };
        TypeInner::Struct {
            members: run.iter().enumerate().map(member).collect(),
            span: self.mark(),
        }
    }

    /// A type without handles.
    fn leaf(&self, rng: &mut Rng) -> TypeInner {
        self.leaf_of(rng.below(if self.is_abstract { 4 } else { 10 }))
    }

    /// A type without handles of this sort: the first four can be abstract, and of these sort 2 has most
    /// room for the number. Sort 5 has room for any.
    fn leaf_of(&self, sort: usize) -> TypeInner {
        let mut digits = Digits(self.place);
        let kinds = match sort {
            5 => &KINDS[..],
            _ if self.is_abstract => &KINDS[CONCRETE..],
            _ => &KINDS[..CONCRETE],
        };
        let scalar = digits.scalar(kinds);
        match sort {
            0 => TypeInner::Scalar(scalar),
            1 => TypeInner::Vector {
                size: digits.of(&SIZES),
                scalar,
            },
            2 => TypeInner::Matrix {
                columns: digits.of(&SIZES),
                rows: digits.of(&SIZES),
                scalar,
            },
            3 => TypeInner::Atomic(scalar),
            4 => TypeInner::CooperativeMatrix {
                columns: digits.of(&[CooperativeSize::Eight, CooperativeSize::Sixteen]),
                rows: digits.of(&[CooperativeSize::Eight, CooperativeSize::Sixteen]),
                role: digits.of(&[CooperativeRole::A, CooperativeRole::B, CooperativeRole::C]),
                scalar,
            },
            5 => TypeInner::ValuePointer {
                size: digits.of(&SOME_SIZES),
                space: self.space(digits.of(&SPACES)),
                scalar,
            },
            6 => image(Digits(self.place)),
            7 => TypeInner::Sampler {
                comparison: Digits(self.place).bit(),
            },
            8 => TypeInner::AccelerationStructure {
                vertex_return: Digits(self.place).bit(),
            },
            _ => TypeInner::RayQuery {
                vertex_return: Digits(self.place).bit(),
            },
        }
    }
}

fn image(mut digits: Digits) -> TypeInner {
    let multi = digits.bit();
    TypeInner::Image {
        dim: digits.of(&[
            ImageDimension::D1,
            ImageDimension::D2,
            ImageDimension::D3,
            ImageDimension::Cube,
        ]),
        arrayed: digits.bit(),
        class: match digits.below(3) {
            0 => ImageClass::Depth { multi },
            1 => ImageClass::External,
            _ => ImageClass::Sampled {
                kind: digits.of(&KINDS[..CONCRETE]),
                multi,
            },
        },
    }
}

/// The old numbers of types that have neither a name nor a mark of the whole number.
pub type Leaves = HashMap<TypeInner, u32>;

/// Those of a module.
pub fn leaves(types: &UniqueArena<Type>) -> Leaves {
    let bare = |(at, ty): (Handle<Type>, &Type)| {
        let none = ty.name.is_none() && mark(&ty.inner).is_none();
        none.then(|| (ty.inner.clone(), word(at)))
    };
    types.iter().filter_map(bare).collect()
}

/// The old number in a type's mark, if it has room for the whole of it.
fn mark(inner: &TypeInner) -> Option<u32> {
    let marked = |word: u32| (word & !ABSTRACT_MARK).checked_sub(FIRST_MARK);
    match *inner {
        TypeInner::Pointer {
            space: AddressSpace::Storage { access },
            ..
        }
        | TypeInner::ValuePointer {
            space: AddressSpace::Storage { access },
            ..
        } => marked(access.bits()),
        TypeInner::Array { stride, .. } => marked(stride),
        TypeInner::Struct { span, .. } => marked(span),
        TypeInner::BindingArray {
            size: ArraySize::Constant(count),
            ..
        } => Some(count.get() - 1),
        _ => None,
    }
}

/// The old number of a type: by its name, by its mark, or as the only one that is such. What else it carries of a
/// number must agree.
pub fn number(ty: &Type, leaves: &Leaves) -> Option<u32> {
    let named = ty.name.as_ref().map(|name| name.parse().ok());
    let number =
        named.unwrap_or_else(|| mark(&ty.inner).or_else(|| leaves.get(&ty.inner).copied()));
    number.filter(|number| carries(&ty.inner, *number))
}

/// Whether what a type carries of an old number is of this one.
fn carries(inner: &TypeInner, old: u32) -> bool {
    if let Some(marked) = mark(inner) {
        return marked == old;
    }
    match *inner {
        TypeInner::Scalar(Scalar::U32) => true,
        TypeInner::Scalar(scalar)
        | TypeInner::Atomic(scalar)
        | TypeInner::Vector { scalar, .. }
        | TypeInner::Matrix { scalar, .. }
        | TypeInner::CooperativeMatrix { scalar, .. }
        | TypeInner::ValuePointer { scalar, .. } => scalar.width == width(old),
        _ => true,
    }
}

/// Whether bases lead from a type to one that has none, or out of the arena.
pub fn has_an_end(flat: &Flat, mut ty: usize) -> bool {
    for _ in 0..=flat.records(TYPES) {
        if ty >= flat.records(TYPES) {
            return true;
        }
        match flat.record(TYPES, ty) {
            [1 | 2, _, base, ..] => ty = *base as usize,
            _ => return true,
        }
    }
    false
}

/// Whether the Rust would ask `is_abstract` of a type that is an array of itself: the crate's then has no
/// end.
pub fn endless(flat: &Flat) -> bool {
    let mut constants = flat.each(CONSTANTS);
    constants.any(|record| record[0] == 1 && !has_an_end(flat, record[1] as usize))
}

/// The module with the abstract flags that `is_abstract` gives its types. Where none is flagged no type is
/// made abstract, and there is nothing to find out. The areas must be such that the Rust can hold them.
pub fn found_flags(flat: &Flat, seed: u64) -> Cow<'_, Flat> {
    let flagged = |record: &[u32]| record[1] & ABSTRACT != 0;
    if !flat.each(TYPES).any(flagged) {
        return Cow::Borrowed(flat);
    }
    let types = arena(flat, None, &mut Rng::new(seed));
    let mut found = flat.clone();
    for (at, ty) in types.iter() {
        let place = at.index();
        if !has_an_end(flat, place) {
            continue;
        }
        // A base that is not there is a panic; such a module is refused, and its flag has no part in it.
        if let Ok(is_abstract) = caught(|| ty.inner.is_abstract(&types)) {
            let flags = &mut found.record_mut(TYPES, place)[1];
            *flags = *flags & NAMED | if is_abstract { ABSTRACT } else { 0 };
        }
    }
    Cow::Owned(found)
}
