//! From text to words.

use super::{
    shapes::{Shape, SHAPES},
    singular,
    token::{tokens, Complaint, Token},
    value::{self, Value, Values},
    Text, ARENAS,
};
use crate::failure::quoted;
use cadnohal::{Area, N};

/// What is wrong with a text, and where.
#[derive(Clone, Debug, PartialEq, Eq)]
pub struct Fault {
    /// The line, from 1.
    pub line: usize,
    /// The column, from 1, in characters.
    pub column: usize,
    /// What is wrong.
    pub message: String,
}

/// Reads a module's text; the first fault ends it.
pub fn read(bytes: &[u8]) -> Result<Text, Fault> {
    let text =
        std::str::from_utf8(bytes).map_err(|error| not_utf8(&bytes[..error.valid_up_to()]))?;
    let mut reader = Reader::default();
    for line in text.split('\n') {
        reader.line += 1;
        let line = line.strip_suffix('\r').unwrap_or(line);
        reader.line(&tokens(line)).map_err(|complaint| Fault {
            line: reader.line,
            column: complaint.column,
            message: complaint.message,
        })?;
    }
    Ok(reader.text)
}

/// The fault right behind the good part of a text.
fn not_utf8(good: &[u8]) -> Fault {
    let good = String::from_utf8_lossy(good);
    let last = good.rsplit('\n').next().unwrap_or_default();
    Fault {
        line: good.matches('\n').count() + 1,
        column: last.chars().count() + 1,
        message: "this is not UTF-8".into(),
    }
}

#[derive(Default)]
struct Reader {
    line: usize,
    text: Text,
}

impl Reader {
    fn line(&mut self, tokens: &[Token<'_>]) -> Result<(), Complaint> {
        let Some((&name, rest)) = tokens.split_first() else {
            return Ok(());
        };
        match name.text {
            "type" => self.record(type_shape(name, rest)?, name, rest),
            "constant" => self.record(&SHAPES.constant, name, rest),
            "override" => self.record(&SHAPES.r#override, name, rest),
            "global" => self.record(&SHAPES.global, name, rest),
            "expression" => {
                let (shape, rest) = expression_shape(name, rest)?;
                self.record(shape, name, rest)
            }
            "mention" => self.mention(name, rest),
            "raw" => self.raw(name, rest),
            "room" => self.room(name, rest),
            other => name.complain(format!("there is no record {}", quoted(other))),
        }
    }

    /// A record by its keys; a run goes to the end of its pool.
    fn record(
        &mut self,
        shape: &Shape,
        name: Token<'_>,
        rest: &[Token<'_>],
    ) -> Result<(), Complaint> {
        let values = values(shape, name, rest)?;
        let pool = match shape.area {
            Area::Types => Area::Members,
            _ => Area::Components,
        };
        let start = u32::try_from(self.text.module.area(pool).len()).unwrap_or(N);
        let words = value::to_words(shape, &values, start);
        self.text.append(shape.area, &words, self.line);
        for value in values.iter().flatten() {
            if let Value::List(list) = value {
                self.text.append(pool, list, self.line);
            }
        }
        Ok(())
    }

    fn mention(&mut self, name: Token<'_>, rest: &[Token<'_>]) -> Result<(), Complaint> {
        let what = "type=, constant=, override=, global= or expression=";
        let Some((&element, more)) = rest.split_first() else {
            return name.complain(format!("a mention needs {what}"));
        };
        let (key, number) = element.head('=');
        let Some(area) = ARENAS.into_iter().find(|&area| singular(area) == key.text) else {
            return key.complain(format!("a mention has no {}", quoted(key.text)));
        };
        let Some(number) = number else {
            return key.complain(format!("{} needs a value", quoted(key.text)));
        };
        let handle = number.number()?;
        if let Some(second) = more.first() {
            return second.complain(format!("a mention has one of {what}"));
        }
        self.text
            .append(Area::Mentions, &[area.code(), handle], self.line);
        Ok(())
    }

    fn raw(&mut self, name: Token<'_>, rest: &[Token<'_>]) -> Result<(), Complaint> {
        let (area, words) = area(&Area::ALL, name, rest)?;
        let words: Vec<u32> = words
            .iter()
            .map(|word| word.number())
            .collect::<Result<_, _>>()?;
        self.text.append(area, &words, self.line);
        Ok(())
    }

    fn room(&mut self, name: Token<'_>, rest: &[Token<'_>]) -> Result<(), Complaint> {
        let (area, rest) = area(&ARENAS, name, rest)?;
        let Some((number, more)) = rest.split_first() else {
            return name.complain("a room needs a number of words");
        };
        let number = number.number()?;
        if let Some(second) = more.first() {
            return second.complain("a room has one number of words");
        }
        match self.text.rooms[area as usize].replace(number) {
            None => Ok(()),
            Some(_) => name.complain(format!("the room for {area} is given twice")),
        }
    }
}

/// The area that the first of `rest` names, out of `areas`, and what follows.
fn area<'a, 'b>(
    areas: &[Area],
    name: Token<'_>,
    rest: &'b [Token<'a>],
) -> Result<(Area, &'b [Token<'a>]), Complaint> {
    let what = match name.text {
        "raw" => "area",
        _ => "arena",
    };
    let Some((first, rest)) = rest.split_first() else {
        return name.complain(format!("{} needs an {what}", quoted(name.text)));
    };
    match areas.iter().find(|area| area.name() == first.text) {
        Some(&area) => Ok((area, rest)),
        None => first.complain(format!("there is no {what} {}", quoted(first.text))),
    }
}

/// The kind of type that the keys ask for.
fn type_shape(name: Token<'_>, rest: &[Token<'_>]) -> Result<&'static Shape, Complaint> {
    let given = |key: &str| rest.iter().any(|token| token.head('=').0.text == key);
    let tells = [("leaf", 0), ("members", 3), ("override", 2), ("base", 1)];
    if let Some((_, code)) = tells.into_iter().find(|(key, _)| given(key)) {
        return Ok(&SHAPES.types[code]);
    }
    let of_all = |key: &str| SHAPES.types.iter().all(|ty| ty.place(key).is_some());
    let mut keys = rest.iter().map(|token| token.head('=').0);
    match keys.find(|key| !of_all(key.text)) {
        Some(key) => key.complain(format!("a type has no {}", quoted(key.text))),
        None => name.complain("a type needs leaf, base= or members="),
    }
}

/// The kind of expression that the next word names, and what follows.
fn expression_shape<'a, 'b>(
    name: Token<'_>,
    rest: &'b [Token<'a>],
) -> Result<(&'static Shape, &'b [Token<'a>]), Complaint> {
    let Some((kind, rest)) = rest.split_first() else {
        return name.complain("an expression needs a kind");
    };
    let mut shapes = SHAPES.expressions.iter();
    match shapes.find(|shape| shape.title == kind.text) {
        Some(shape) => Ok((shape, rest)),
        None => kind.complain(format!("there is no expression kind {}", quoted(kind.text))),
    }
}

/// What each key of a record holds.
fn values<'a>(shape: &Shape, name: Token<'_>, rest: &[Token<'_>]) -> Result<Values<'a>, Complaint> {
    let mut values: Values<'a> = vec![None; shape.keys.len()];
    for &token in rest {
        let (key, text) = token.head('=');
        let Some(place) = shape.place(key.text) else {
            return key.complain(format!("{} has no {}", shape.title, quoted(key.text)));
        };
        if values[place].is_some() {
            return key.complain(format!("{} is given twice", quoted(key.text)));
        }
        values[place] = Some(value::from_text(&shape.keys[place], key, text)?);
    }
    let keys = shape.keys.iter().zip(&values);
    let missing: Vec<_> = keys
        .filter(|(key, value)| key.needed() && value.is_none())
        .map(|(key, _)| format!("{}=", key.name))
        .collect();
    match missing.is_empty() {
        true => Ok(values),
        false => name.complain(format!("{} needs {}", shape.title, missing.join(", "))),
    }
}
