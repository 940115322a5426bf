//! The text of recorded cases: what the program `cases` reads, and what it writes.

use crate::flat::*;
use crate::library::{Lent, Library};

/// The word in each place of each map before a recorded pass.
pub const BEFORE: u32 = 7;

/// A case as it is read.
#[derive(Clone, Debug, PartialEq, Eq)]
pub struct Case {
    pub number: u32,
    pub keep: bool,
    pub show: bool,
    pub flat: Flat,
}

/// What the program `cases` has room for: records of each arena and of the mentions, and words of each pool.
const ROOM: usize = 56;

/// And words of each map.
const MAP_ROOM: usize = 2 * ROOM;

impl Case {
    /// Whether the program has room for it.
    #[cfg_attr(not(published), allow(dead_code))]
    pub fn fits(&self) -> bool {
        let records = (0..8).all(|area| self.flat.records(area) <= ROOM);
        records && self.flat.rooms.iter().all(|room| *room <= MAP_ROOM)
    }
}

/// A word as text, N by its name.
pub fn shown(word: u32) -> String {
    if word == N {
        String::from("N")
    } else {
        word.to_string()
    }
}

/// Words with blanks before them, where more than `most` equal ones in a row are written as `n*w`.
fn listed(words: &[u32], most: usize) -> String {
    let mut text = String::new();
    for stretch in words.chunk_by(|a, b| a == b) {
        let word = shown(stretch[0]);
        if stretch.len() > most {
            text.push_str(&format!(" {}*{word}", stretch.len()));
        } else {
            for _ in stretch {
                text.push(' ');
                text.push_str(&word);
            }
        }
    }
    text
}

/// A case as the program reads it.
#[cfg_attr(not(published), allow(dead_code))]
pub fn written(case: &Case) -> String {
    let (keep, show) = (u32::from(case.keep), u32::from(case.show));
    let mut text = format!("{} {keep} {show}\n", case.number);
    for words in &case.flat.areas {
        text.push_str(&format!("{}{}\n", words.len(), listed(words, 2)));
    }
    let rooms = case.flat.rooms.map(|room| room.to_string());
    text.push_str(&rooms.join(" "));
    text.push('\n');
    text
}

/// What the program writes for a case with this answer and these words after it.
pub fn answered(case: &Case, answer: &Answer, areas: &[&[u32]; 8], maps: &[&[u32]; 5]) -> String {
    let counts = answer.counts.map(|count| count.to_string());
    let mut text = format!(
        "{} {} {} {} {}\n",
        case.number,
        answer.number,
        answer.area,
        answer.record,
        counts.join(" ")
    );
    if case.show {
        let slices = areas.iter().chain(maps);
        for (name, words) in AREAS.iter().chain(&MAPS).zip(slices) {
            text.push_str(&format!("{name}{}\n", listed(words, 64)));
        }
    }
    text
}

/// Runs a case on a library and gives what the program would write.
pub fn replayed(library: &dyn Library, case: &Case) -> String {
    let mut lent = Lent::new(&case.flat, |_| BEFORE);
    let answer = library.compact(&mut lent, case.keep);
    let areas = lent.areas.each_ref().map(|slice| slice.get());
    let maps = lent.maps.each_ref().map(|slice| slice.get());
    answered(case, &answer, &areas, &maps)
}

/// The cases of a text.
pub fn parse(text: &str) -> Result<Vec<Case>, String> {
    let mut words = Vec::new();
    for line in text.lines() {
        let line = line.split('#').next().unwrap_or("");
        for token in line.split_whitespace() {
            let (times, word) = match token.split_once('*') {
                Some((times, word)) => (number(times)? as usize, word),
                None => (1, token),
            };
            words.resize(words.len() + times, number(word)?);
        }
    }
    let mut words = words.into_iter();
    let mut cases = Vec::new();
    while let Some(number) = words.next() {
        let case = case(number, &mut words).ok_or(format!("case {number} ends too soon"))?;
        cases.push(case);
    }
    Ok(cases)
}

fn number(word: &str) -> Result<u32, String> {
    match word {
        "N" => Ok(N),
        _ => word.parse().map_err(|_| format!("{word}: no number")),
    }
}

fn case(number: u32, words: &mut impl Iterator<Item = u32>) -> Option<Case> {
    let keep = words.next()? == 1;
    let show = words.next()? == 1;
    let mut flat = Flat::default();
    for area in &mut flat.areas {
        let length = words.next()? as usize;
        *area = words.take(length).collect();
        if area.len() < length {
            return None;
        }
    }
    for room in &mut flat.rooms {
        *room = words.next()? as usize;
    }
    Some(Case {
        number,
        keep,
        show,
        flat,
    })
}
