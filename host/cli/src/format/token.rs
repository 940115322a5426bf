//! Words of a line and their columns.

use crate::failure::quoted;
use cadnohal::N;

/// What is wrong in a line, and the column where.
#[derive(Clone, Debug, PartialEq, Eq)]
pub struct Complaint {
    /// The column of the first character at fault, from 1.
    pub column: usize,
    /// What is wrong.
    pub message: String,
}

/// A part of a line and the column of its first character, from 1.
#[derive(Clone, Copy, Debug, PartialEq, Eq)]
pub struct Token<'a> {
    /// The part itself.
    pub text: &'a str,
    /// Its column.
    pub column: usize,
}

impl<'a> Token<'a> {
    /// What stands before and after the first `mark`.
    pub fn split(self, mark: char) -> Option<(Self, Self)> {
        let (before, after) = self.text.split_once(mark)?;
        let column = self.column + before.chars().count() + 1;
        Some((
            Self {
                text: before,
                ..self
            },
            Self {
                text: after,
                column,
            },
        ))
    }

    /// What stands before the first `mark`, and what after it if there is one.
    pub fn head(self, mark: char) -> (Self, Option<Self>) {
        match self.split(mark) {
            Some((before, after)) => (before, Some(after)),
            None => (self, None),
        }
    }

    /// A complaint about this part.
    pub fn complain<T>(self, message: impl Into<String>) -> Result<T, Complaint> {
        Err(Complaint {
            column: self.column,
            message: message.into(),
        })
    }

    /// The number that this part is.
    pub fn number(self) -> Result<u32, Complaint> {
        match self.text {
            "" => self.complain("a number is missing"),
            "N" => Ok(N),
            digits if digits.bytes().all(|byte| byte.is_ascii_digit()) => {
                digits.parse().or_else(|_| {
                    self.complain(format!(
                        "{} is too large; the largest number is {N}",
                        quoted(digits)
                    ))
                })
            }
            other => self.complain(format!("{} is no number", quoted(other))),
        }
    }

    /// The numbers that this part is, with commas between them; at least one.
    pub fn numbers(self) -> Result<Vec<u32>, Complaint> {
        let mut numbers = Vec::new();
        let mut rest = self;
        while let Some((first, after)) = rest.split(',') {
            numbers.push(first.number()?);
            rest = after;
        }
        numbers.push(rest.number()?);
        Ok(numbers)
    }
}

/// The parts of a line between spaces and tabs, without its comment.
pub fn tokens(line: &str) -> Vec<Token<'_>> {
    let content = line.split_once('#').map_or(line, |(before, _)| before);
    let mut found = Vec::new();
    let mut column = 1;
    for piece in content.split([' ', '\t']) {
        if !piece.is_empty() {
            found.push(Token {
                text: piece,
                column,
            });
        }
        column += piece.chars().count() + 1;
    }
    found
}

#[cfg(test)]
mod tests {
    use super::*;

    fn token(text: &str) -> Token<'_> {
        Token { text, column: 5 }
    }

    #[test]
    fn columns_count_characters_from_one() {
        let found = tokens("  ä\tbc  d#e f");
        let pairs: Vec<_> = found.iter().map(|t| (t.text, t.column)).collect();
        assert_eq!(pairs, [("ä", 3), ("bc", 5), ("d", 9)]);
        assert!(tokens("").is_empty());
        assert!(tokens(" \t # only a comment").is_empty());
    }

    #[test]
    fn numbers_are_words() {
        assert_eq!(token("0").number(), Ok(0));
        assert_eq!(token("4294967295").number(), Ok(u32::MAX));
        assert_eq!(token("N").number(), Ok(u32::MAX));
        assert_eq!(token("0000000000012").number(), Ok(12));
        let faults = [
            ("", "a number is missing"),
            (
                "4294967296",
                "'4294967296' is too large; the largest number is 4294967295",
            ),
            ("+1", "'+1' is no number"),
            ("-1", "'-1' is no number"),
            ("n", "'n' is no number"),
            ("1_000", "'1_000' is no number"),
        ];
        for (text, message) in faults {
            let complaint = token(text).number().unwrap_err();
            assert_eq!((complaint.column, complaint.message.as_str()), (5, message));
        }
    }

    #[test]
    fn a_list_faults_at_its_own_column() {
        assert_eq!(token("1,N,3").numbers(), Ok(vec![1, u32::MAX, 3]));
        assert_eq!(token("1,x").numbers().unwrap_err().column, 7);
        assert_eq!(token("1,,3").numbers().unwrap_err().column, 7);
        assert_eq!(token("1,2,").numbers().unwrap_err().column, 9);
    }
}
