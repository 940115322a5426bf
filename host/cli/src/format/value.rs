//! What a key of a record holds: from text, to text, from words and to words.

use super::{
    shapes::{Form, Held, Key, Shape},
    token::{Complaint, Token},
};
use crate::failure::quoted;
use cadnohal::{
    kinds::{SPAN_LENGTH, SPAN_START},
    Area, Module, Span, N,
};
use std::borrow::Cow;

/// What a key that was given holds.
#[derive(Clone, Debug, PartialEq, Eq)]
pub enum Value<'a> {
    /// A word without a value.
    Set,
    /// A number.
    Number(u32),
    /// The words of a run.
    List(Cow<'a, [u32]>),
    /// A form, its number, and the numbers that were given to it.
    Form(&'static Form, u32, Vec<u32>),
    /// A span.
    Span(Span),
}

/// The values of a shape's keys, in the order of its keys; `None` where a key is left out.
pub type Values<'a> = Vec<Option<Value<'a>>>;

/// Reads what stands behind a key; `text` is `None` where there is no `=`.
pub fn from_text<'a>(
    key: &Key,
    name: Token<'_>,
    text: Option<Token<'_>>,
) -> Result<Value<'a>, Complaint> {
    match (key.held, text) {
        (Held::Mark | Held::Bit(_), None) => Ok(Value::Set),
        (Held::Mark | Held::Bit(_), Some(_)) => {
            name.complain(format!("{} takes no value", quoted(key.name)))
        }
        (_, None) => name.complain(format!("{} needs a value", quoted(key.name))),
        (Held::Needed | Held::Optional | Held::Tag, Some(text)) => text.number().map(Value::Number),
        (Held::List(_), Some(text)) if text.text.is_empty() => Ok(Value::List(Cow::default())),
        (Held::List(_), Some(text)) => Ok(Value::List(text.numbers()?.into())),
        (Held::Form(forms), Some(text)) => form_from_text(key.name, forms, text),
        (Held::Span, Some(text)) => match text.numbers()?[..] {
            [start, length] => Ok(Value::Span(Span { start, length })),
            _ => name.complain(format!("{} takes two numbers", quoted(key.name))),
        },
    }
}

/// Reads a form and its numbers.
fn form_from_text<'a>(
    key: &str,
    forms: &'static [Form],
    text: Token<'_>,
) -> Result<Value<'a>, Complaint> {
    let (name, numbers) = text.head(':');
    let mut known = forms.iter().zip(0..);
    let Some((form, code)) = known.find(|(form, _)| form.name == name.text) else {
        return name.complain(format!("there is no {key} {}", quoted(name.text)));
    };
    let numbers = numbers.map_or(Ok(Vec::new()), Token::numbers)?;
    if numbers.len() < form.least || numbers.len() > form.most {
        return name.complain(format!("{} takes {}", quoted(form.name), form.takes()));
    }
    Ok(Value::Form(form, code, numbers))
}

impl Form {
    /// How many numbers it takes, in words.
    fn takes(&self) -> &'static str {
        match (self.least, self.most) {
            (_, 0) => "no number",
            (0, _) => "one number or none",
            (_, 1) => "one number",
            _ => "two numbers",
        }
    }
}

/// Writes a key with what it holds, after a space.
pub fn to_text(key: &Key, value: &Value<'_>, out: &mut String) {
    out.push(' ');
    out.push_str(key.name);
    match value {
        Value::Set => {}
        Value::Number(number) => {
            out.push('=');
            push_number(*number, out);
        }
        Value::List(list) => {
            out.push('=');
            push_numbers(list, out);
        }
        Value::Form(form, _, numbers) => {
            out.push('=');
            out.push_str(form.name);
            if !numbers.is_empty() {
                out.push(':');
                push_numbers(numbers, out);
            }
        }
        Value::Span(span) => out.push_str(&format!("={span}")),
    }
}

/// Writes a number, N by its letter.
pub fn push_number(number: u32, out: &mut String) {
    match number {
        N => out.push('N'),
        _ => out.push_str(&number.to_string()),
    }
}

fn push_numbers(numbers: &[u32], out: &mut String) {
    for (place, &number) in numbers.iter().enumerate() {
        if place > 0 {
            out.push(',');
        }
        push_number(number, out);
    }
}

/// The values of a record's words; `None` if a form or a run is none. Words that no key stands for
/// aren't looked at, so only words that [`to_words`] gives back are held by the values.
pub fn from_words<'a>(shape: &Shape, words: &[u32], module: &'a Module) -> Option<Values<'a>> {
    let value = |key: &Key| {
        let word = words[key.at];
        Some(match key.held {
            Held::Mark => Some(Value::Set),
            Held::Bit(bit) => (word & bit != 0).then_some(Value::Set),
            Held::Needed => Some(Value::Number(word)),
            Held::Optional => (word != N).then_some(Value::Number(word)),
            Held::Tag => (word != 0).then_some(Value::Number(word)),
            Held::Span => {
                let (start, length) = (words[key.at + SPAN_START], words[key.at + SPAN_LENGTH]);
                let span = Span { start, length };
                span.is_given().then_some(Value::Span(span))
            }
            Held::List(pool) => {
                let start = word as usize;
                let end = start.checked_add(words[key.at + 1] as usize)?;
                Some(Value::List(module.area(pool).get(start..end)?.into()))
            }
            Held::Form(forms) => {
                let form = forms.get(word as usize)?;
                let numbers = &words[key.at + 1..][..form.most];
                let left_out = form.least == 0 && numbers.first() == Some(&N);
                let numbers = if left_out { &[] } else { numbers };
                Some(Value::Form(form, word, numbers.into()))
            }
        })
    };
    shape.keys.iter().map(value).collect()
}

/// The words of a record; a run begins at `start`.
pub fn to_words(shape: &Shape, values: &Values<'_>, start: u32) -> Vec<u32> {
    let mut words = blank(shape);
    for (key, value) in shape.keys.iter().zip(values) {
        match (value, key.held) {
            (Some(Value::Set), Held::Bit(bit)) => words[key.at] |= bit,
            (Some(Value::Number(number)), _) => words[key.at] = *number,
            (Some(Value::List(list)), _) => {
                words[key.at] = start;
                words[key.at + 1] = u32::try_from(list.len()).unwrap_or(N);
            }
            (Some(Value::Form(_, code, numbers)), _) => {
                words[key.at] = *code;
                words[key.at + 1..][..numbers.len()].copy_from_slice(numbers);
            }
            (Some(Value::Span(span)), _) => {
                words[key.at + SPAN_START] = span.start;
                words[key.at + SPAN_LENGTH] = span.length;
            }
            (Some(Value::Set) | None, _) => {}
        }
    }
    words
}

/// The words of a record of which no key is given.
fn blank(shape: &Shape) -> Vec<u32> {
    let mut words = vec![N; shape.area.width()];
    words[..shape.area.slots_at()].fill(0);
    if matches!(shape.area, Area::Types | Area::Expressions) {
        words[0] = shape.code;
    }
    words[shape.area.tail_at()..].fill(0);
    words
}
