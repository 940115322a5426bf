//! Each refusal at each place that it can fall on; number 2 is in limits.rs. `place` sees to it that
//! no word changes.

mod common;

use cadnohal::{Area, HandleMap, Maps, Module, Span, N};
use common::{
    long_maps, maps_of, module, place, place_with, refusal_with, slots, span, tail, tested,
    with_kind, with_slot, words, TESTED,
};

/// A module that passes, with something in every area.
fn good() -> Module {
    module([
        "0 1 N N ~1  1 0 0 N ~2  2 0 0 0 ~3  3 0 0 2 ~4  3 0 2 1 ~5",
        "1 0 0 ~6",
        "1 0 0 ~7  0 0 N ~8",
        "3 1 ~9  0 N ~10",
        "0 9*N ~11  0 9*N ~12  5 0 8*N ~13  6 1 8*N ~14  8 3 0 2 6*N ~15  8 3 2 1 6*N ~16",
        "0 1 3",
        "0 1 4",
        "0 3  1 0  2 0  3 0  4 5",
    ])
}

/// The place of the refusal when one word of the good module is another.
fn with_word(area: Area, record: usize, word: usize, value: u32) -> [u32; 3] {
    let mut module = good();
    module.area_mut(area)[record * area.width() + word] = value;
    place(&module)
}

/// An area of so many records with these words.
fn repeated(area: Area, record: &str, count: usize) -> Module {
    let mut module = Module::new();
    *module.area_mut(area) = words(record).repeat(count);
    module
}

#[test]
fn the_good_module_passes() {
    assert_eq!(place(&good()), [0, 0, 0]);
    assert_eq!(place_with(&good(), &Maps::for_module(&good())), [0, 0, 0]);
}

#[test]
fn number_1_at_each_area() {
    for area in Area::ALL.into_iter().filter(|area| area.width() > 1) {
        let code = area.code();
        for extra in 1..area.width() {
            let mut longer = good();
            longer.area_mut(area).extend(vec![0; extra]);
            assert_eq!(place(&longer), [1, code, 0]);
            let mut shorter = good();
            let length = shorter.area(area).len() - extra;
            shorter.area_mut(area).truncate(length);
            assert_eq!(place(&shorter), [1, code, 0]);
        }
    }
}

#[test]
fn number_1_at_the_first_area() {
    let mut module = good();
    for area in [
        Area::Mentions,
        Area::Expressions,
        Area::Globals,
        Area::Types,
    ] {
        module.area_mut(area).push(0);
        assert_eq!(place(&module), [1, area.code(), 0]);
    }
}

/// The good module's maps, the one of `arena` with so many words.
fn maps_with(arena: usize, length: usize) -> Maps {
    let mut lengths = [5, 1, 2, 2, 6];
    lengths[arena] = length;
    maps_of(lengths.map(|length| vec![7; length]))
}

#[test]
fn number_3_at_each_map() {
    for (arena, count) in [5, 1, 2, 2, 6].into_iter().enumerate() {
        assert_eq!(place_with(&good(), &maps_with(arena, count)), [0, 0, 0]);
        assert_eq!(
            place_with(&good(), &maps_with(arena, count - 1)),
            [3, arena as u32, 0]
        );
        assert_eq!(
            place_with(&good(), &maps_with(arena, 0)),
            [3, arena as u32, 0]
        );
    }
    let short = maps_of([5, 1, 1, 1, 5].map(|length| vec![7; length]));
    assert_eq!(place_with(&good(), &short), [3, 2, 0]);
}

#[test]
fn number_4_at_the_types() {
    for kind in [4, 5, 64, N] {
        assert_eq!(with_word(Area::Types, 0, 0, kind), [4, 0, 0]);
    }
    for flags in [4, 5, 8, N] {
        assert_eq!(with_word(Area::Types, 1, 1, flags), [4, 0, 1]);
    }
    for flags in [0, 1, 2, 3] {
        assert_eq!(with_word(Area::Types, 1, 1, flags), [0, 0, 0]);
    }
    assert_eq!(with_word(Area::Types, 0, 2, 0), [4, 0, 0]);
    assert_eq!(with_word(Area::Types, 0, 3, 0), [4, 0, 0]);
    assert_eq!(with_word(Area::Types, 1, 3, 0), [4, 0, 1]);
}

#[test]
fn number_4_at_the_member_runs() {
    // A start that isn't the sum before it, an end past the pool, and a pool longer than its runs.
    for start in [1, 3, N] {
        assert_eq!(with_word(Area::Types, 3, 2, start), [4, 0, 3]);
    }
    for start in [0, 1, 3, N] {
        assert_eq!(with_word(Area::Types, 4, 2, start), [4, 0, 4]);
    }
    for count in [4, N] {
        assert_eq!(with_word(Area::Types, 3, 3, count), [4, 0, 3]);
    }
    for count in [0, 1, 3] {
        assert_eq!(with_word(Area::Types, 3, 3, count), [4, 0, 4]);
    }
    for count in [2, N - 1, N] {
        assert_eq!(with_word(Area::Types, 4, 3, count), [4, 0, 4]);
    }
    assert_eq!(with_word(Area::Types, 4, 3, 0), [4, 5, 0]);
    let mut longer = good();
    longer.members.push(0);
    assert_eq!(place(&longer), [4, 5, 0]);
    assert_eq!(place(&repeated(Area::Members, "0", 1)), [4, 5, 0]);
}

#[test]
fn number_4_at_the_component_runs() {
    for start in [1, 3, N] {
        assert_eq!(with_word(Area::Expressions, 4, 2, start), [4, 4, 4]);
    }
    for start in [0, 1, 3, N] {
        assert_eq!(with_word(Area::Expressions, 5, 2, start), [4, 4, 5]);
    }
    for count in [4, N] {
        assert_eq!(with_word(Area::Expressions, 4, 3, count), [4, 4, 4]);
    }
    for count in [0, 1, 3] {
        assert_eq!(with_word(Area::Expressions, 4, 3, count), [4, 4, 5]);
    }
    for count in [2, N - 1, N] {
        assert_eq!(with_word(Area::Expressions, 5, 3, count), [4, 4, 5]);
    }
    assert_eq!(with_word(Area::Expressions, 5, 3, 0), [4, 6, 0]);
    let mut longer = good();
    longer.components.push(0);
    assert_eq!(place(&longer), [4, 6, 0]);
    assert_eq!(place(&repeated(Area::Components, "0", 1)), [4, 6, 0]);
}

#[test]
fn empty_runs_start_at_the_sum_before_them() {
    let types = |runs| module([runs, "", "", "", "", "0", "", ""]);
    assert_eq!(
        place(&types("0 0 N N ~0  3 0 0 0 ~1  3 0 0 1 ~2  3 0 1 0 ~3")),
        [0, 0, 0]
    );
    assert_eq!(
        place(&types("0 0 N N ~0  3 0 1 0 ~1  3 0 0 1 ~2  3 0 1 0 ~3")),
        [4, 0, 1]
    );
    assert_eq!(
        place(&types("0 0 N N ~0  3 0 0 0 ~1  3 0 0 1 ~2  3 0 0 0 ~3")),
        [4, 0, 3]
    );
    let expressions = |runs| module(["0 0 N N ~0", "", "", "", runs, "", "0", ""]);
    assert_eq!(
        place(&expressions("0 9*N ~0  8 0 0 1 6*N ~1  8 0 1 0 6*N ~2")),
        [0, 0, 0]
    );
    assert_eq!(
        place(&expressions("0 9*N ~0  8 0 0 1 6*N ~1  8 0 0 0 6*N ~2")),
        [4, 4, 2]
    );
}

#[test]
fn number_4_at_named() {
    for named in [2, 3, N] {
        assert_eq!(with_word(Area::Constants, 0, 0, named), [4, 1, 0]);
        assert_eq!(with_word(Area::Overrides, 1, 0, named), [4, 2, 1]);
    }
}

#[test]
fn number_4_at_the_mentions() {
    for area in [5, 6, 7, 8, N] {
        assert_eq!(with_word(Area::Mentions, 2, 0, area), [4, 7, 2]);
    }
}

#[test]
fn number_4_at_the_expressions() {
    for kind in [34, 64, N] {
        assert_eq!(with_word(Area::Expressions, 1, 0, kind), [4, 4, 1]);
    }
    for (kind, slot, _) in slots().filter(|&(_, _, role)| role == '-') {
        for word in [0, 1, N - 1] {
            assert_eq!(
                place(&with_slot(kind, slot, word)),
                [4, 4, TESTED],
                "{kind} {slot}"
            );
        }
    }
}

/// `ImageSample` with these level form, x and y.
fn sample(form: u32, x: u32, y: u32) -> [u32; 3] {
    let mut module = with_slot(15, 5, form);
    tested(&mut module)[7..9].copy_from_slice(&[x, y]);
    place(&module)
}

#[test]
fn level_forms_name_x_and_y() {
    let unused = [4, 4, TESTED];
    let missing = [6, 4, TESTED];
    let good = [0, 0, 0];
    for form in [0, 1] {
        assert_eq!(sample(form, N, N), good);
        assert_eq!(sample(form, 0, N), unused);
        assert_eq!(sample(form, N, 0), unused);
    }
    for form in [2, 3] {
        assert_eq!(sample(form, 0, N), good);
        assert_eq!(sample(form, N, N), missing);
        assert_eq!(sample(form, 6, N), missing);
        assert_eq!(sample(form, 0, 0), unused);
        assert_eq!(sample(form, 4, N), [7, 4, TESTED]);
    }
    assert_eq!(sample(4, 0, 0), good);
    assert_eq!(sample(4, N, 0), missing);
    assert_eq!(sample(4, 0, N), missing);
    for form in [5, 6, N] {
        assert_eq!(sample(form, N, N), unused);
        assert_eq!(sample(form, 0, 0), unused);
    }
}

/// `ImageQuery` with these form and level.
fn query(form: u32, level: u32) -> [u32; 3] {
    let mut module = with_slot(17, 1, form);
    tested(&mut module)[3] = level;
    place(&module)
}

#[test]
fn query_forms_but_size_have_no_level() {
    assert_eq!(query(0, 0), [0, 0, 0]);
    assert_eq!(query(0, N), [0, 0, 0]);
    assert_eq!(query(0, 6), [6, 4, TESTED]);
    for form in [1, 2, 3] {
        assert_eq!(query(form, N), [0, 0, 0]);
        assert_eq!(query(form, 0), [4, 4, TESTED]);
    }
    for form in [4, 5, N] {
        assert_eq!(query(form, N), [4, 4, TESTED]);
    }
}

#[test]
fn number_5_at_both_kinds_with_any_slots() {
    for kind in [13, 27] {
        for word in [0, 1, 99, N - 1, N] {
            let mut module = with_kind(kind);
            tested(&mut module)[1..10].fill(word);
            assert_eq!(place(&module), [5, 4, TESTED]);
        }
        let mut later = with_kind(kind);
        later.mentions = vec![5, 0];
        assert_eq!(place(&later), [4, 7, 0]);
    }
}

#[test]
fn number_6_at_each_slot_of_each_kind() {
    for (kind, slot, role) in slots() {
        let count = match role {
            't' | 'c' | 'o' => 1,
            'e' | '?' => 6,
            _ => continue,
        };
        for word in [count, count + 1, N - 1] {
            assert_eq!(
                place(&with_slot(kind, slot, word)),
                [6, 4, TESTED],
                "{kind} {slot}"
            );
        }
        let absent = if role == '?' {
            [0, 0, 0]
        } else {
            [6, 4, TESTED]
        };
        assert_eq!(place(&with_slot(kind, slot, N)), absent, "{kind} {slot}");
    }
}

#[test]
fn number_6_at_the_types_and_their_members() {
    for word in [5, 6, N] {
        assert_eq!(with_word(Area::Types, 1, 2, word), [6, 0, 1]);
        assert_eq!(with_word(Area::Types, 2, 2, word), [6, 0, 2]);
        assert_eq!(with_word(Area::Members, 0, 0, word), [6, 0, 3]);
        assert_eq!(with_word(Area::Members, 1, 0, word), [6, 0, 3]);
        assert_eq!(with_word(Area::Members, 2, 0, word), [6, 0, 4]);
    }
    for word in [2, 3, N] {
        assert_eq!(with_word(Area::Types, 2, 3, word), [6, 0, 2]);
    }
}

#[test]
fn number_6_at_constants_overrides_and_globals() {
    for word in [5, N] {
        assert_eq!(with_word(Area::Constants, 0, 1, word), [6, 1, 0]);
        assert_eq!(with_word(Area::Overrides, 1, 1, word), [6, 2, 1]);
        assert_eq!(with_word(Area::Globals, 1, 0, word), [6, 3, 1]);
    }
    for word in [6, N - 1] {
        assert_eq!(with_word(Area::Constants, 0, 2, word), [6, 1, 0]);
        assert_eq!(with_word(Area::Overrides, 1, 2, word), [6, 2, 1]);
        assert_eq!(with_word(Area::Globals, 1, 1, word), [6, 3, 1]);
    }
    assert_eq!(with_word(Area::Constants, 0, 2, N), [6, 1, 0]);
    assert_eq!(with_word(Area::Overrides, 0, 2, N), [0, 0, 0]);
    assert_eq!(with_word(Area::Globals, 0, 1, N), [0, 0, 0]);
}

#[test]
fn number_6_at_the_components() {
    for word in [6, 7, N] {
        assert_eq!(with_word(Area::Components, 0, 0, word), [6, 4, 4]);
        assert_eq!(with_word(Area::Components, 1, 0, word), [6, 4, 4]);
        assert_eq!(with_word(Area::Components, 2, 0, word), [6, 4, 5]);
    }
}

#[test]
fn number_6_at_a_mention_of_each_area() {
    for (area, count) in [5, 1, 2, 2, 6].into_iter().enumerate() {
        assert_eq!(with_word(Area::Mentions, area, 1, count - 1), [0, 0, 0]);
        for word in [count, count + 1, N] {
            assert_eq!(
                with_word(Area::Mentions, area, 1, word),
                [6, 7, area as u32]
            );
        }
    }
}

#[test]
fn number_7_at_the_types() {
    // Itself and a younger type as base, as a sized array's base and as a member.
    for word in [1, 2, 4] {
        assert_eq!(with_word(Area::Types, 1, 2, word), [7, 0, 1]);
    }
    for word in [2, 3, 4] {
        assert_eq!(with_word(Area::Types, 2, 2, word), [7, 0, 2]);
    }
    for word in [3, 4] {
        assert_eq!(with_word(Area::Members, 0, 0, word), [7, 0, 3]);
        assert_eq!(with_word(Area::Members, 1, 0, word), [7, 0, 3]);
    }
    assert_eq!(with_word(Area::Members, 2, 0, 4), [7, 0, 4]);
    // The type of the override that sizes it.
    for word in [2, 3, 4] {
        assert_eq!(with_word(Area::Overrides, 0, 1, word), [7, 0, 2]);
    }
    assert_eq!(with_word(Area::Overrides, 0, 1, 1), [0, 0, 0]);
}

#[test]
fn number_7_at_each_expression_slot_of_each_kind() {
    for (kind, slot, _) in slots().filter(|&(_, _, role)| role == 'e' || role == '?') {
        assert_eq!(place(&with_slot(kind, slot, 3)), [0, 0, 0], "{kind} {slot}");
        for word in [4, 5] {
            assert_eq!(
                place(&with_slot(kind, slot, word)),
                [7, 4, TESTED],
                "{kind} {slot}"
            );
        }
    }
}

#[test]
fn number_7_at_the_components() {
    for word in [4, 5] {
        assert_eq!(with_word(Area::Components, 0, 0, word), [7, 4, 4]);
        assert_eq!(with_word(Area::Components, 1, 0, word), [7, 4, 4]);
    }
    assert_eq!(with_word(Area::Components, 2, 0, 5), [7, 4, 5]);
}

#[test]
fn number_7_at_the_init_behind_a_constant_or_override() {
    for (kind, area) in [(5, Area::Constants), (6, Area::Overrides)] {
        for (init, answer) in [(3, [0, 0, 0]), (4, [7, 4, TESTED]), (5, [7, 4, TESTED])] {
            let mut module = with_kind(kind);
            module.area_mut(area)[2] = init;
            assert_eq!(place(&module), answer, "{kind}");
        }
    }
}

#[test]
fn number_7_at_each_type_behind_an_expression() {
    // Type 2 is a leaf; type 1 before it is sized by override 1, whose init is dep of both.
    for (dep, answer) in [
        (N, [0; 3]),
        (3, [0; 3]),
        (4, [7, 4, TESTED]),
        (5, [7, 4, TESTED]),
    ] {
        for kind in [5, 6, 7, 8, 28, 29, 30] {
            let mut module = with_kind(kind);
            module.types.extend(words("2 0 0 1 ~1  0 0 N N ~2"));
            module.overrides.extend([0, 0, dep]);
            module.overrides.extend(tail(2));
            match kind {
                5 => module.constants[1] = 2,
                6 => module.overrides[1] = 2,
                _ => tested(&mut module)[1] = 2,
            }
            assert_eq!(place(&module), answer, "{kind} {dep}");
        }
    }
}

#[test]
fn what_nothing_names_has_no_order() {
    // The override of type 1 has the last init; constant, override and global of it are accepted.
    let accepted = module([
        "0 0 N N ~0  2 0 0 0 ~0",
        "0 1 1 ~0",
        "0 0 1 ~0  0 1 1 ~0",
        "1 1 ~0",
        "0 9*N ~0  0 9*N ~0",
        "",
        "",
        "",
    ]);
    assert_eq!(place(&accepted), [0, 0, 0]);
}

#[test]
fn numbers_are_tried_in_turn() {
    let mut module = good();
    let mut maps = long_maps(&module);
    module.globals.push(0); // 1
    module.mentions.resize(2 * (Area::Mentions.limit() + 1), 0); // 2
    maps.overrides = HandleMap::from_words(vec![7]); // 3
    module.mentions[0] = 5; // 4
    module.expressions.extend(words("13 9*N ~0")); // 5
    module.constants[2] = 99; // 6
    module.types[Area::Types.width() + 2] = 1; // 7
    maps.expressions = HandleMap::from_words(vec![7; 7]);
    assert_eq!(place_with(&module, &maps), [1, 3, 0]);
    module.globals.pop();
    assert_eq!(place_with(&module, &maps), [2, 7, 0]);
    module.mentions.truncate(10);
    assert_eq!(place_with(&module, &maps), [3, 2, 0]);
    maps.overrides = HandleMap::from_words(vec![7; 2]);
    assert_eq!(place_with(&module, &maps), [4, 7, 0]);
    module.mentions[0] = 0;
    assert_eq!(place_with(&module, &maps), [5, 4, 6]);
    module.expressions.truncate(6 * Area::Expressions.width());
    assert_eq!(place_with(&module, &maps), [6, 1, 0]);
    module.constants[2] = 0;
    assert_eq!(place_with(&module, &maps), [7, 0, 1]);
    module.types[Area::Types.width() + 2] = 0;
    assert_eq!(place_with(&module, &maps), [0, 0, 0]);
}

#[test]
fn the_first_area_and_the_lowest_record_are_named() {
    let mut module = good();
    for (area, record) in [
        (Area::Mentions, 4),
        (Area::Mentions, 1),
        (Area::Expressions, 3),
        (Area::Expressions, 0),
        (Area::Overrides, 1),
        (Area::Constants, 0),
        (Area::Types, 4),
        (Area::Types, 1),
    ] {
        module.area_mut(area)[record * area.width()] = N;
        assert_eq!(place(&module), [4, area.code(), record as u32]);
    }
}

/// How the refusal of `module` reads.
fn text(module: &Module) -> String {
    text_with(module, &long_maps(module))
}

fn text_with(module: &Module, maps: &Maps) -> String {
    refusal_with(module, maps).expect("refused").to_string()
}

#[test]
fn refusals_without_a_record_tell_the_lengths() {
    assert_eq!(
        text(&module(["", "", "", "0 N", "", "", "", ""])),
        "refusal 1 at globals: the area's length isn't a multiple of its record width (length 2, width 5)"
    );
    assert_eq!(
        text(&repeated(Area::Mentions, "0 0", 65_537)),
        "refusal 2 at mentions: the area has more records than its limit (record count 65537, limit 65536)"
    );
    assert_eq!(
        text_with(&good(), &maps_with(4, 2)),
        "refusal 3 at expressions: the map is shorter than the area's record count (map length 2, record count 6)"
    );
    assert_eq!(
        text(&module(["", "", "", "", "", "0 0 0", "", ""])),
        "refusal 4 at members: the pool is longer than its runs (length 3)"
    );
}

#[test]
fn refusals_with_a_record_tell_its_words_and_its_span() {
    let named = module(["", "", "1 0 N 60 9 7  2 0 N 70 8 8", "", "", "", "", ""]);
    assert_eq!(
        text(&named),
        "refusal 4 at overrides, record 1, span 70,8: named is neither 0 nor 1 (words: 2 0 N 70 8 8)"
    );
    assert_eq!(
        text(&module(["", "", "", "", "34 9*N 40 2 5", "", "", ""])),
        "refusal 4 at expressions, record 0, span 40,2: the kind, the form, an unused slot or the run breaks \
         the rules (words: 34 no kind N N N N N N N N N 40 2 5)"
    );
    assert_eq!(
        text(&module(["7*N", "", "", "", "", "", "", ""])),
        "refusal 4 at types, record 0, span N,N: the kind, flags, an unused slot or the run breaks the rules \
         (words: N no kind N N N N N N)"
    );
    assert_eq!(
        text(&module(["", "", "", "", "", "", "", "9 0"])),
        "refusal 4 at mentions, record 0: the mention's area isn't 0 to 4 (words: 9 0)"
    );
    assert_eq!(
        text(&module(["", "", "", "", "27 3 8*N 0 0 1", "", "", ""])),
        "refusal 5 at expressions, record 0: GlobalVariable and CallResult are not of module scope \
         (words: 27 CallResult 3 N N N N N N N N 0 0 1)"
    );
    assert_eq!(
        text(&module(["", "", "", "2 N 0 1 0", "", "", "", ""])),
        "refusal 6 at globals, record 0, span 0,1: a handle that must be there is N, or a handle isn't below \
         its area's record count (words: 2 N 0 1 0)"
    );
    assert_eq!(
        text(&module(["1 0 0 N 1 0 3", "", "", "", "", "", "", ""])),
        "refusal 7 at types, record 0, span 1,0: the type isn't well ordered: something that it rests on must \
         stand before it (words: 1 Base 0 0 N 1 0 3)"
    );
}

#[test]
fn refusals_with_a_run_tell_its_words() {
    let mut component = good();
    component.components[2] = 9;
    let refusal = refusal_with(&component, &long_maps(&component)).expect("refused");
    assert_eq!(refusal.words, words("8 3 2 1 6*N ~16"));
    assert_eq!(refusal.run, [9]);
    let compose = "0 9*N 0 0 0  8 0 0 2 6*N 30 4 16";
    assert_eq!(
        text(&module(["0 0 N N ~0", "", "", "", compose, "", "0 9", ""])),
        "refusal 6 at expressions, record 1, span 30,4: a handle that must be there is N, or a handle isn't \
         below its area's record count (words: 8 Compose 0 0 2 N N N N N N 30 4 16; run: 0 9)"
    );
    assert_eq!(
        text(&module(["3 0 0 18 0 0 0", "", "", "", "", "18*0", "", ""])),
        "refusal 7 at types, record 0: the type isn't well ordered: something that it rests on must stand \
         before it (words: 3 Members 0 0 18 0 0 0; run: 0 0 0 0 0 0 0 0 0 0 0 0 0 0 0 0 and 2 more)"
    );
}

/// The span that the refusal of `module` tells.
fn told(module: &Module, maps: &Maps) -> Option<Span> {
    let refusal = refusal_with(module, maps).expect("refused");
    let in_words = refusal.to_string().contains(", span ");
    assert_eq!(in_words, refusal.span().is_some_and(Span::is_given));
    refusal.span()
}

#[test]
fn a_refusal_about_a_record_tells_its_span() {
    let first_tag = [1, 6, 7, 9, 11];
    for (area, first) in Area::ALL.into_iter().zip(first_tag) {
        for record in 0..good().count(area) {
            // A type handle that isn't there, or a kind.
            let word = match area {
                Area::Constants | Area::Overrides => 1,
                _ => 0,
            };
            let mut module = good();
            module.area_mut(area)[record * area.width() + word] = 99;
            let expected = span(first + record as u32);
            assert_eq!(told(&module, &long_maps(&module)), Some(expected));
            assert_eq!(module.span(area, record as u32), Some(expected));
        }
    }
}

#[test]
fn no_span_without_a_record_that_has_one() {
    for area in Area::ALL.into_iter().filter(|area| area.width() > 1) {
        let mut longer = good();
        longer.area_mut(area).push(0); // 1
        assert_eq!(told(&longer, &long_maps(&longer)), None);
    }
    let many = repeated(Area::Types, "0 0 N N ~5", Area::Types.limit() + 1); // 2
    assert_eq!(told(&many, &long_maps(&many)), None);
    assert_eq!(told(&good(), &maps_with(0, 0)), None); // 3
    for pool in [Area::Members, Area::Components] {
        let mut longer = good();
        longer.area_mut(pool).push(0);
        assert_eq!(told(&longer, &long_maps(&longer)), None);
        assert_eq!(longer.span(pool, 0), None);
    }
    let mut mention = good();
    mention.mentions[0] = 9;
    assert_eq!(told(&mention, &long_maps(&mention)), None);
    assert_eq!(mention.span(Area::Mentions, 0), None);
    for area in Area::ALL {
        let past = good().count(area) as u32;
        assert_eq!([past, N].map(|record| good().span(area, record)), [None; 2]);
    }
}
