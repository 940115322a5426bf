//! Random words and random modules.

mod common;

use cadnohal::{
    Area, Compacted, ConstantHandle, Element, ExpressionHandle, GlobalHandle, KeepUnused, Maps,
    Module, OverrideHandle, TypeHandle, TypeInner, N,
};
use common::{long_maps, refusal_with, tail, Random, ROLES};
use std::collections::BTreeSet;

/// A word that is often small or near N, so that many records are almost good.
fn word(random: &mut Random) -> u32 {
    match random.below(8) {
        0 => N,
        1 => N - random.below(3),
        2 => random.word(),
        3 => random.below(40),
        _ => random.below(4),
    }
}

/// Areas of any words, most of them whole records.
fn words(random: &mut Random) -> Module {
    let mut module = Module::new();
    for area in Area::ALL {
        let ragged = u32::from(random.below(16) == 0);
        let length = random.below(6) * area.width() as u32 + ragged;
        *module.area_mut(area) = (0..length).map(|_| word(random)).collect();
        // Records with all unused slots N are the likelier to be good.
        if area == Area::Expressions && random.below(2) == 0 {
            for record in module.expressions.chunks_exact_mut(area.width()) {
                let named = random.below(5) as usize;
                record[1 + named..area.tail_at()].fill(N);
            }
        }
    }
    module
}

/// Reads everything, and answers how many records are good.
fn read(module: &Module, places: impl Iterator<Item = u32>) -> usize {
    let mut good = 0;
    for place in places {
        good += usize::from(module.type_at(TypeHandle(place)).is_some());
        good += usize::from(module.constant_at(ConstantHandle(place)).is_some());
        good += usize::from(module.override_at(OverrideHandle(place)).is_some());
        good += usize::from(module.global_at(GlobalHandle(place)).is_some());
        good += usize::from(module.expression_at(ExpressionHandle(place)).is_some());
        good += usize::from(module.mention_at(place).is_some());
    }
    good
}

#[test]
fn any_words_can_be_read_and_refused() {
    let mut random = Random(2_463_534_242);
    let (mut good, mut numbers) = (0, [0; 8]);
    for turn in 0..20_000 {
        let module = if turn % 2 == 0 {
            words(&mut random)
        } else {
            almost_accepted(&mut random)
        };
        good += read(&module, (0..7).chain([N - 1, N]));
        let refusal = refusal_with(&module, &long_maps(&module));
        let number = refusal.as_ref().map_or(0, |refusal| refusal.number);
        numbers[number as usize] += 1;
        if let Some(refusal) = refusal {
            assert!(refusal
                .to_string()
                .starts_with(&format!("refusal {number} at ")));
        }
    }
    // The modules are of many sorts: accepted, of wrong lengths, and with faults of records.
    assert!(
        [0, 1, 4, 6, 7].iter().all(|&number| numbers[number] > 50),
        "{numbers:?}"
    );
    assert!(good > 1_000, "{good}");
}

/// An accepted module with one word changed.
fn almost_accepted(random: &mut Random) -> Module {
    let mut module = accepted(random);
    let area = Area::ALL[random.below(8) as usize];
    let value = word(random);
    let words = module.area_mut(area);
    if !words.is_empty() {
        let place = random.below(words.len() as u32) as usize;
        words[place] = value;
    }
    module
}

/// Adds a record with the tail of this tag.
fn add(area: &mut Vec<u32>, words: &[u32], tag: u32) {
    area.extend(words);
    area.extend(tail(tag));
}

/// A module that is accepted: each record names only what was there before it.
fn accepted(random: &mut Random) -> Module {
    let mut module = Module::new();
    for tag in 0..60 {
        let some = |area: Area, random: &mut Random| random.below(module.count(area) as u32);
        match random.below(7) {
            _ if module.types.is_empty() => add(&mut module.types, &[0, 0, N, N], tag),
            _ if module.expressions.is_empty() => {
                add(
                    &mut module.expressions,
                    &[0, N, N, N, N, N, N, N, N, N],
                    tag,
                );
            }
            0 | 1 => {
                let kind = random.below(if module.overrides.is_empty() { 2 } else { 4 });
                let base = some(Area::Types, random);
                let [a, b] = match kind {
                    0 => [N, N],
                    1 => [base, N],
                    2 => [base, some(Area::Overrides, random)],
                    _ => [module.members.len() as u32, random.below(3)],
                };
                if kind == 3 {
                    let run: Vec<_> = (0..b).map(|_| some(Area::Types, random)).collect();
                    module.members.extend(run);
                }
                let flags = [0, 0, 0, 0, 0, 1, 2, 3][random.below(8) as usize];
                add(&mut module.types, &[kind, flags, a, b], tag);
            }
            2 => {
                let [ty, init] = [some(Area::Types, random), some(Area::Expressions, random)];
                let named = u32::from(random.below(4) == 0);
                add(&mut module.constants, &[named, ty, init], tag);
            }
            3 => {
                let [ty, init] = [some(Area::Types, random), some(Area::Expressions, random)];
                let init = [init, N][random.below(2) as usize];
                let named = u32::from(random.below(4) == 0);
                add(&mut module.overrides, &[named, ty, init], tag);
            }
            4 if random.below(3) == 0 => {
                let init = [some(Area::Expressions, random), N][random.below(2) as usize];
                let ty = some(Area::Types, random);
                add(&mut module.globals, &[ty, init], tag);
            }
            _ => {
                let kind = random.below(34);
                let roles = ROLES[kind as usize];
                let missing = roles.contains('.')
                    || roles.contains('c') && module.constants.is_empty()
                    || roles.contains('o') && module.overrides.is_empty();
                if missing {
                    continue;
                }
                let count = random.below(4);
                let mut record = vec![kind];
                for role in roles.chars() {
                    record.push(match role {
                        't' => some(Area::Types, random),
                        'c' => some(Area::Constants, random),
                        'o' => some(Area::Overrides, random),
                        'e' => some(Area::Expressions, random),
                        '?' if random.below(2) == 0 => some(Area::Expressions, random),
                        'f' if kind == 15 => 4,
                        'f' => 0,
                        's' => module.components.len() as u32,
                        'n' => count,
                        _ => N,
                    });
                }
                if kind == 8 {
                    let run: Vec<_> = (0..count)
                        .map(|_| some(Area::Expressions, random))
                        .collect();
                    module.components.extend(run);
                }
                add(&mut module.expressions, &record, tag);
            }
        }
    }
    for _ in 0..random.below(3) {
        let area = random.below(5);
        let count = module.count(Area::ALL[area as usize]) as u32;
        if count > 0 {
            module.mentions.extend([area, random.below(count)]);
        }
    }
    module
}

/// All elements of a module, in the order of areas and places.
fn elements(module: &Module) -> Vec<Element> {
    let of =
        |area| (0..module.count(area) as u32).filter_map(move |place| Element::new(area, place));
    Area::ALL.into_iter().flat_map(of).collect()
}

/// What a record of an accepted module refers to.
fn references(module: &Module, element: Element) -> Vec<Element> {
    let ty_and_init = |ty: TypeHandle, init: Option<ExpressionHandle>| {
        [ty.into()]
            .into_iter()
            .chain(init.map(Element::from))
            .collect()
    };
    let good = "a good record";
    match element {
        Element::Type(handle) => match module.type_at(handle).expect(good).inner {
            TypeInner::Leaf => vec![],
            TypeInner::Base(base) => vec![base.into()],
            TypeInner::Pending { base, size } => vec![base.into(), size.into()],
            TypeInner::Members(members) => members.into_iter().map(Element::from).collect(),
        },
        Element::Constant(handle) => {
            let constant = module.constant_at(handle).expect(good);
            ty_and_init(constant.ty, Some(constant.init))
        }
        Element::Override(handle) => {
            let it = module.override_at(handle).expect(good);
            ty_and_init(it.ty, it.init)
        }
        Element::Global(handle) => {
            let global = module.global_at(handle).expect(good);
            ty_and_init(global.ty, global.init)
        }
        Element::Expression(handle) => {
            let words = module.record(Area::Expressions, handle.0).expect(good);
            let slots = ROLES[words[0] as usize].chars().zip(&words[1..]);
            let mut named: Vec<Element> = slots
                .filter(|&(_, &word)| word != N)
                .filter_map(|(role, &word)| match role {
                    't' => Some(TypeHandle(word).into()),
                    'c' => Some(ConstantHandle(word).into()),
                    'o' => Some(OverrideHandle(word).into()),
                    'e' | '?' => Some(ExpressionHandle(word).into()),
                    _ => None,
                })
                .collect();
            if words[0] == 8 {
                let run = &module.components[words[2] as usize..][..words[3] as usize];
                named.extend(
                    run.iter()
                        .map(|&word| Element::from(ExpressionHandle(word))),
                );
            }
            named
        }
    }
}

/// The smallest set with the roots and all that its members refer to.
fn reachable(module: &Module, keep_unused: KeepUnused) -> BTreeSet<Element> {
    let yes = keep_unused == KeepUnused::Yes;
    let is_root = |element: &Element| match *element {
        Element::Type(handle) => yes && module.type_at(handle).is_some_and(|ty| ty.named),
        Element::Constant(handle) => {
            let constant = module.constant_at(handle).expect("a good record");
            let ty = module.type_at(constant.ty).expect("a good record");
            constant.named && !ty.is_abstract
        }
        Element::Override(handle) => yes && module.override_at(handle).is_some_and(|it| it.named),
        Element::Global(_) => yes,
        Element::Expression(_) => false,
    };
    let mentions = (0..).map_while(|record| module.mention_at(record));
    let mut pending: Vec<_> = elements(module)
        .into_iter()
        .filter(is_root)
        .chain(mentions)
        .collect();
    let mut reached = BTreeSet::new();
    while let Some(element) = pending.pop() {
        if reached.insert(element) {
            pending.extend(references(module, element));
        }
    }
    reached
}

/// The new element of an old one.
fn adjusted(maps: &Maps, element: Element) -> Option<Element> {
    Some(match element {
        Element::Type(handle) => maps.types.get(handle)?.into(),
        Element::Constant(handle) => maps.constants.get(handle)?.into(),
        Element::Override(handle) => maps.overrides.get(handle)?.into(),
        Element::Global(handle) => maps.globals.get(handle)?.into(),
        Element::Expression(handle) => maps.expressions.get(handle)?.into(),
    })
}

#[test]
fn a_pass_keeps_what_the_roots_reach() {
    let mut random = Random(88_172_645);
    let (mut kept, mut dropped) = (0, 0);
    for _ in 0..2_000 {
        let before = accepted(&mut random);
        for keep_unused in [KeepUnused::No, KeepUnused::Yes] {
            let reached = reachable(&before, keep_unused);
            let mut after = before.clone();
            let Compacted { counts, maps } = after.compact(keep_unused).expect("accepted");
            after.truncate(&counts);
            let mut next = [0; 5];
            for element in elements(&before) {
                let area = element.area();
                let new = reached.contains(&element).then(|| {
                    let place = next[area as usize];
                    next[area as usize] += 1;
                    Element::new(area, place).expect("an arena")
                });
                assert_eq!(adjusted(&maps, element), new);
                let Some(new) = new else {
                    dropped += 1;
                    continue;
                };
                kept += 1;
                let named: Option<Vec<_>> = references(&before, element)
                    .into_iter()
                    .map(|old| adjusted(&maps, old))
                    .collect();
                assert_eq!(Some(references(&after, new)), named);
                let tail = |module: &Module, element: Element| {
                    let record = module.record(area, element.index());
                    record.map(|words| words[area.tail_at()..].to_vec())
                };
                assert_eq!(tail(&after, new), tail(&before, element));
                assert_eq!(
                    after.span(area, new.index()),
                    before.span(area, element.index())
                );
            }
            assert_eq!(counts.to_array()[..5], next);
            for record in 0..before.count(Area::Mentions) as u32 {
                let mentioned = before
                    .mention_at(record)
                    .and_then(|old| adjusted(&maps, old));
                assert!(mentioned.is_some() && after.mention_at(record) == mentioned);
            }
            let once = after.clone();
            assert_eq!(
                after.compact(keep_unused).map(|second| second.counts),
                Ok(counts)
            );
            assert_eq!(after, once);
        }
    }
    assert!(kept > 10_000 && dropped > 10_000, "{kept} {dropped}");
}
