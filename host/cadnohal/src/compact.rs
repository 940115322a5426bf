//! Checking and compacting a module.
#![forbid(unsafe_code)]

use crate::{
    ffi,
    handle::{ConstantHandle, ExpressionHandle, GlobalHandle, Handle, OverrideHandle, TypeHandle},
    kinds::{Area, N},
    map::HandleMap,
    module::Module,
    refusal::Refusal,
};

/// Whether a pass keeps what only its name asks for.
#[derive(Clone, Copy, Debug, Default, PartialEq, Eq, Hash)]
pub enum KeepUnused {
    /// Roots are the mentions and the named constants whose type isn't abstract.
    #[default]
    No,
    /// Roots are also every global, every named override and every named type.
    Yes,
}

/// How many records of areas 0 to 6 a pass kept.
#[repr(C)]
#[derive(Clone, Copy, Debug, Default, PartialEq, Eq, Hash)]
pub struct Counts {
    /// Kept types.
    pub types: u32,
    /// Kept constants.
    pub constants: u32,
    /// Kept overrides.
    pub overrides: u32,
    /// Kept globals.
    pub globals: u32,
    /// Kept expressions.
    pub expressions: u32,
    /// Words of the kept member runs.
    pub members: u32,
    /// Words of the kept component runs.
    pub components: u32,
}

impl Counts {
    /// The seven counts in the order of the areas.
    #[rustfmt::skip]
    pub fn to_array(self) -> [u32; 7] {
        let Self { types, constants, overrides, globals, expressions, members, components } = self;
        [types, constants, overrides, globals, expressions, members, components]
    }
}

/// The five maps, one for each arena.
#[derive(Clone, Debug, PartialEq, Eq)]
pub struct Maps {
    /// The types' map.
    pub types: HandleMap<TypeHandle>,
    /// The constants' map.
    pub constants: HandleMap<ConstantHandle>,
    /// The overrides' map.
    pub overrides: HandleMap<OverrideHandle>,
    /// The globals' map.
    pub globals: HandleMap<GlobalHandle>,
    /// The expressions' map.
    pub expressions: HandleMap<ExpressionHandle>,
}

impl Maps {
    /// Maps with exactly as many words as `module` has records, each N.
    pub fn for_module(module: &Module) -> Self {
        fn map<H: Handle>(module: &Module) -> HandleMap<H> {
            HandleMap::from_words(vec![N; module.count(H::AREA)])
        }
        Self {
            types: map(module),
            constants: map(module),
            overrides: map(module),
            globals: map(module),
            expressions: map(module),
        }
    }

    /// The five maps' words in the order of the areas.
    pub fn words(&self) -> [&[u32]; 5] {
        [
            self.types.words(),
            self.constants.words(),
            self.overrides.words(),
            self.globals.words(),
            self.expressions.words(),
        ]
    }

    fn words_mut(&mut self) -> [&mut [u32]; 5] {
        [
            self.types.words_mut(),
            self.constants.words_mut(),
            self.overrides.words_mut(),
            self.globals.words_mut(),
            self.expressions.words_mut(),
        ]
    }
}

/// What an accepted pass answers.
#[derive(Clone, Debug, PartialEq, Eq)]
pub struct Compacted {
    /// How many records were kept.
    pub counts: Counts,
    /// Where each old record went.
    pub maps: Maps,
}

impl Module {
    /// Whether [`compact`](Self::compact) would accept the module.
    pub fn check(&self) -> Result<(), Refusal> {
        self.check_with(&Maps::for_module(self))
    }

    /// Whether [`compact_into`](Self::compact_into) would accept the module with these maps.
    pub fn check_with(&self, maps: &Maps) -> Result<(), Refusal> {
        let answer = ffi::check(Area::ALL.map(|area| self.area(area)), maps.words());
        self.accepted(&answer, maps)
    }

    /// Keeps the roots and all that they refer to, drops the rest, and renumbers all handles, those
    /// of the mentions too. A refusal changes nothing.
    ///
    /// Each area keeps its length: N follows the kept records until [`truncate`](Self::truncate)
    /// cuts it off. Until then add no record, and don't compact again: if something was dropped, a
    /// second pass is refused with 4 or 6, since N is no good record.
    ///
    /// ```
    /// use cadnohal::{
    ///     Expression, ExpressionHandle, KeepUnused, Module, Override, Span, Type, TypeInner, N,
    /// };
    ///
    /// let mut module = Module::new();
    /// let base = module.add_type(Type::new(TypeInner::Leaf, 10));
    /// module.add_expression(Expression::Literal, Span { start: 30, length: 1 }, 20);
    /// let span = Span { start: 45, length: 2 };
    /// let init = module.add_expression(Expression::Literal, span, 21);
    /// let length = Override { named: false, ty: base, init: Some(init), span, tag: 0 };
    /// let size = module.add_override(length);
    /// module.add_type(Type::new(TypeInner::Pending { base, size }, 11).named());
    ///
    /// let compacted = module.compact(KeepUnused::Yes)?;
    /// assert_eq!(compacted.counts.to_array(), [2, 0, 1, 0, 1, 0, 0]);
    /// assert_eq!(compacted.maps.expressions.words(), [N, 0]);
    /// assert_eq!(compacted.maps.expressions.get(init), Some(ExpressionHandle(0)));
    /// assert_eq!(module.expressions.len(), 26);
    ///
    /// module.truncate(&compacted.counts);
    /// assert_eq!(module.expressions, [0, N, N, N, N, N, N, N, N, N, 45, 2, 21]);
    /// assert_eq!(module.overrides, [0, 0, 0, 45, 2, 0]);
    /// assert_eq!(module.compact(KeepUnused::Yes)?.counts, compacted.counts);
    /// # Ok::<(), cadnohal::Refusal>(())
    /// ```
    pub fn compact(&mut self, keep_unused: KeepUnused) -> Result<Compacted, Refusal> {
        let mut maps = Maps::for_module(self);
        let counts = self.compact_into(keep_unused, &mut maps)?;
        Ok(Compacted { counts, maps })
    }

    /// As [`compact`](Self::compact), with maps that the caller lends: one shorter than its arena's
    /// record count is refused with 3, and words past the records stay. A map answers for those
    /// words too.
    pub fn compact_into(
        &mut self,
        keep_unused: KeepUnused,
        maps: &mut Maps,
    ) -> Result<Counts, Refusal> {
        let areas = [
            self.types.as_mut_slice(),
            &mut self.constants,
            &mut self.overrides,
            &mut self.globals,
            &mut self.expressions,
            &mut self.members,
            &mut self.components,
            &mut self.mentions,
        ];
        let keep_unused = u32::from(keep_unused == KeepUnused::Yes);
        let answer = ffi::compact(areas, maps.words_mut(), keep_unused);
        self.accepted(&answer, maps)?;
        Ok(answer.counts)
    }

    /// Cuts each of areas 0 to 6 to what the pass that answered `counts` kept. No mention goes.
    pub fn truncate(&mut self, counts: &Counts) {
        for (area, count) in Area::ALL.into_iter().zip(counts.to_array()) {
            self.area_mut(area).truncate(count as usize * area.width());
        }
    }

    fn accepted(&self, answer: &ffi::Answer, maps: &Maps) -> Result<(), Refusal> {
        match answer.number {
            0 => Ok(()),
            _ => Err(Refusal::new(self, answer, maps)),
        }
    }
}
