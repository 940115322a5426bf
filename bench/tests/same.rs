//! The plain version and the library agree on every word of random modules, good and refused, under both flags.

use bench::flat::*;
use bench::modules::SLOTS;
use bench::random::Random;
use bench::{library, plain};

/// Any words, often N.
fn any_tail(random: &mut Random) -> Tail {
    let mut word = || match random.one_in(4) {
        true => N,
        false => random.word() as u32,
    };
    Tail {
        start: word(),
        length: word(),
        tag: word(),
    }
}

/// Grows a module of random sizes whose handles go by place, as the measured ones; each is accepted.
struct Grower<'a> {
    random: &'a mut Random,
    counts: [usize; 5],
    module: Module,
}

impl Grower<'_> {
    fn below(&mut self, area: usize, end: usize) -> u32 {
        self.random.below(end.min(self.counts[area])) as u32
    }

    fn maybe(&mut self, end: usize) -> u32 {
        match end == 0 || self.counts[EXPRESSIONS] == 0 || self.random.one_in(2) {
            true => N,
            false => self.below(EXPRESSIONS, end),
        }
    }

    /// Appends a record with any tail.
    fn push(&mut self, arena: usize, body: &[u32]) {
        let tail = any_tail(self.random);
        self.module.push(arena, body, tail);
    }

    fn run(&mut self, area: usize, place: usize) -> [u32; 2] {
        let pool = if area == TYPES { MEMBERS } else { COMPONENTS };
        let start = self.module.areas[pool].len() as u32;
        let count = if place == 0 { 0 } else { self.random.below(5) };
        for _ in 0..count {
            let handle = self.below(area, place);
            self.module.areas[pool].push(handle);
        }
        [start, count as u32]
    }

    fn types(&mut self) {
        for place in 0..self.counts[TYPES] {
            let sized = place > 0 && self.counts[OVERRIDES] > 0;
            let [kind, a, b] = match self.random.below(4) {
                1 if place > 0 => [1, self.below(TYPES, place), N],
                2 if sized => [2, self.below(TYPES, place), self.below(OVERRIDES, place)],
                3 => {
                    let [start, count] = self.run(TYPES, place);
                    [3, start, count]
                }
                _ => [0, N, N],
            };
            let flags = self.random.below(4) as u32;
            self.push(TYPES, &[kind, flags, a, b]);
        }
    }

    fn others(&mut self) {
        for area in [CONSTANTS, OVERRIDES, GLOBALS] {
            for place in 0..self.counts[area] {
                let named = u32::from(self.random.one_in(3));
                let ty = self.below(TYPES, place + 1);
                let init = match area {
                    CONSTANTS => self.below(EXPRESSIONS, place / 2 + 1),
                    _ => self.maybe(place / 2 + 1),
                };
                match area {
                    GLOBALS => self.push(area, &[ty, init]),
                    _ => self.push(area, &[named, ty, init]),
                }
            }
        }
    }

    /// A kind whose handles can be had.
    fn kind(&mut self, place: usize) -> u32 {
        loop {
            let kind = self.random.below(34) as u32;
            let can = |slot: u8| match slot {
                b't' => self.counts[TYPES] > 0,
                b'c' => self.counts[CONSTANTS] > 0,
                b'o' => self.counts[OVERRIDES] > 0,
                _ => true,
            };
            let good = SLOTS[kind as usize].bytes().all(can);
            if (place == 0 && kind < 5) || (place > 0 && good && kind != 13 && kind != 27) {
                return kind;
            }
        }
    }

    fn expressions(&mut self) {
        for place in 0..self.counts[EXPRESSIONS] {
            let mut body = [N; BODIES[EXPRESSIONS]];
            body[0] = self.kind(place);
            for (k, slot) in SLOTS[body[0] as usize].bytes().enumerate() {
                body[1 + k] = match slot {
                    b't' => self.below(TYPES, place + 1),
                    b'c' => self.below(CONSTANTS, place + 1),
                    b'o' => self.below(OVERRIDES, place + 1),
                    b'e' => self.below(EXPRESSIONS, place),
                    _ => self.maybe(place),
                };
            }
            self.forms(place, &mut body);
            self.push(EXPRESSIONS, &body);
        }
    }

    fn forms(&mut self, place: usize, body: &mut [u32; BODIES[EXPRESSIONS]]) {
        match body[0] {
            8 => body[2..4].copy_from_slice(&self.run(EXPRESSIONS, place)),
            15 => {
                let form = self.random.below(5);
                body[6] = form as u32;
                for slot in &mut body[7..9][..form / 2] {
                    *slot = self.below(EXPRESSIONS, place);
                }
                body[9] = self.maybe(place);
            }
            17 => {
                body[2] = self.random.below(4) as u32;
                if body[2] == 0 {
                    body[3] = self.maybe(place);
                }
            }
            _ => {}
        }
    }

    fn mentions(&mut self) {
        for _ in 0..self.random.below(6) {
            let area = self.random.below(5);
            if self.counts[area] > 0 {
                let handle = self.random.below(self.counts[area]) as u32;
                self.module.areas[MENTIONS].extend([area as u32, handle]);
            }
        }
    }

    fn maps(&mut self) {
        for area in 0..5 {
            let room = self.counts[area] + self.random.below(3);
            self.module.maps[area] = (0..room).map(|_| self.random.word() as u32).collect();
        }
    }
}

fn good(random: &mut Random) -> Module {
    let most = [2, 5, 20, 80][random.below(4)];
    let mut counts: [usize; 5] = std::array::from_fn(|_| random.below(most + 1));
    if counts[TYPES] == 0 {
        counts[CONSTANTS..=GLOBALS].fill(0);
    }
    if counts[EXPRESSIONS] == 0 {
        counts[CONSTANTS] = 0;
    }
    let mut grower = Grower {
        random,
        counts,
        module: Module::default(),
    };
    grower.types();
    grower.others();
    grower.expressions();
    grower.mentions();
    grower.maps();
    grower.module
}

/// A word that may fit, or hardly: a small one, one near an area's count, N or any.
fn word(random: &mut Random, module: &Module) -> u32 {
    match random.below(6) {
        0 => N,
        1 => random.word() as u32,
        2 => module.records(random.below(8)) as u32,
        3 => random.below(36) as u32,
        _ => random.below(6) as u32,
    }
}

/// Changes a word, a length, a map's length or a kind.
fn damage(random: &mut Random, module: &mut Module) {
    let area = random.below(8);
    match random.below(12) {
        0 => {
            let word = word(random, module);
            module.areas[area].push(word);
        }
        1 => {
            module.areas[area].pop();
        }
        2 => {
            module.maps[area % 5].pop();
        }
        3 if module.records(EXPRESSIONS) > 0 => {
            let record = random.below(module.records(EXPRESSIONS));
            module.areas[EXPRESSIONS][record * WIDTHS[EXPRESSIONS]] = [13, 27][random.below(2)];
        }
        _ if module.areas[area].is_empty() => {}
        _ => {
            let place = random.below(module.areas[area].len());
            module.areas[area][place] = word(random, module);
        }
    }
}

/// Sets a handle of an expression or a type to any in range, which may break the order alone.
fn reorder(random: &mut Random, module: &mut Module) {
    let area = [TYPES, EXPRESSIONS][random.below(2)];
    if module.records(area) == 0 {
        return;
    }
    let record = random.below(module.records(area)) * WIDTHS[area];
    let other = random.below(module.records(area)) as u32;
    let words = &mut module.areas[area][record..];
    match area {
        TYPES if matches!(words[0], 1 | 2) => words[2] = other,
        EXPRESSIONS if SLOTS[words[0] as usize].starts_with('e') => words[1] = other,
        _ => {}
    }
}

/// Both sides' answers and words are the same; answers the number.
fn compare(module: &Module) -> u32 {
    let mut number = 0;
    for keep_unused in [false, true] {
        let (mut by_plain, mut by_library) = (module.clone(), module.clone());
        let (areas, maps) = by_plain.lend();
        let plain_check = plain::check(&areas, &maps);
        let plain = plain::compact(areas, maps, keep_unused);
        let (areas, maps) = by_library.lend();
        let library_check = library::check(&areas, &maps);
        let library = library::compact(areas, maps, keep_unused);
        assert_eq!(plain, library, "{:.4000}", module.to_text());
        assert_eq!(plain_check, library_check, "{:.4000}", module.to_text());
        assert!(by_plain == by_library, "{:.4000}", module.to_text());
        assert!(plain.number == 0 || by_plain == *module);
        number = plain.number;
    }
    number
}

#[test]
fn good_modules() {
    let mut random = Random::new(1);
    for _ in 0..20_000 {
        assert_eq!(compare(&good(&mut random)), 0);
    }
}

#[test]
fn damaged_modules() {
    let mut random = Random::new(2);
    let mut seen = [0; 8];
    for _ in 0..60_000 {
        let mut module = good(&mut random);
        for _ in 0..random.below(3) {
            damage(&mut random, &mut module);
        }
        seen[compare(&module) as usize] += 1;
    }
    assert!(seen[1] > 500 && seen[3] > 500 && seen[4] > 500, "{seen:?}");
    assert!(seen[5] > 500 && seen[6] > 500, "{seen:?}");
}

#[test]
fn reordered_modules() {
    let mut random = Random::new(3);
    let mut seen = [0; 8];
    for _ in 0..40_000 {
        let mut module = good(&mut random);
        for _ in 0..1 + random.below(3) {
            reorder(&mut random, &mut module);
        }
        seen[compare(&module) as usize] += 1;
    }
    assert!(seen[0] > 5000 && seen[7] > 5000, "{seen:?}");
}

/// Other tails change neither the answer nor the maps nor a word before the tails.
#[test]
fn other_tails() {
    let mut random = Random::new(4);
    let mut seen = [0; 8];
    for _ in 0..20_000 {
        let mut module = good(&mut random);
        for _ in 0..random.below(2) {
            damage(&mut random, &mut module);
        }
        let mut other = module.clone();
        each_tail(&mut other, |tail| {
            *tail = any_tail(&mut random).words();
        });
        let keep_unused = random.one_in(2);
        for pass in [plain::compact, library::compact] {
            let [one, two] = [&module, &other].map(|module| {
                let mut after = module.clone();
                let (areas, maps) = after.lend();
                let answer = pass(areas, maps, keep_unused);
                each_tail(&mut after, |tail| tail.fill(0));
                (answer, after)
            });
            assert!(one == two, "{:.4000}", module.to_text());
            seen[one.0.number as usize] += 1;
        }
    }
    assert!(seen[0] > 5000 && seen[4] > 500 && seen[6] > 500, "{seen:?}");
}

/// The tail of each whole record of the arenas.
fn each_tail(module: &mut Module, mut visit: impl FnMut(&mut [u32; TAIL])) {
    for (words, width) in module.areas.iter_mut().zip(WIDTHS).take(BODIES.len()) {
        let tails = words.chunks_exact_mut(width);
        tails.for_each(|record| visit(record.last_chunk_mut().expect("a record has a tail")));
    }
}

#[test]
fn at_the_limits() {
    for area in 0..8 {
        let mut module = Module::default();
        module.areas[area] = vec![0; LIMITS[area] * WIDTHS[area]];
        module.maps = std::array::from_fn(|_| vec![7; LIMITS[TYPES]]);
        assert_ne!(compare(&module), 2);
        module.areas[area].extend(vec![0; WIDTHS[area]]);
        assert_eq!(compare(&module), 2);
    }
}
