//! What can go wrong, and the exit status for it.

use std::fmt;

/// Why a command wrote nothing to standard output, with the whole text for standard error.
#[derive(Clone, Debug, PartialEq, Eq)]
pub enum Failure {
    /// The library refused the module.
    Refused(String),
    /// Bad usage, or a text that can't be read or written.
    Unusable(String),
    /// This program and the library disagree.
    Internal(String),
}

impl Failure {
    /// The exit status.
    pub fn status(&self) -> u8 {
        match self {
            Self::Refused(_) => 1,
            Self::Unusable(_) => 2,
            Self::Internal(_) => 3,
        }
    }
}

impl fmt::Display for Failure {
    fn fmt(&self, f: &mut fmt::Formatter<'_>) -> fmt::Result {
        let (Self::Refused(text) | Self::Unusable(text) | Self::Internal(text)) = self;
        f.write_str(text)
    }
}

/// Foreign text in quotes: control characters escaped, cut after 40 characters.
pub fn quoted(text: &str) -> String {
    let mut shown: String = text.chars().take(40).flat_map(char::escape_debug).collect();
    if text.chars().nth(40).is_some() {
        shown.push_str("...");
    }
    format!("'{shown}'")
}

#[cfg(test)]
mod tests {
    use super::*;

    #[test]
    fn each_failure_has_its_status() {
        assert_eq!(Failure::Refused(String::new()).status(), 1);
        assert_eq!(Failure::Unusable(String::new()).status(), 2);
        assert_eq!(Failure::Internal(String::new()).status(), 3);
    }

    #[test]
    fn quotes_escape_and_cut() {
        assert_eq!(quoted("Lod"), "'Lod'");
        assert_eq!(quoted("\u{1b}[31m"), "'\\u{1b}[31m'");
        assert_eq!(quoted(&"a".repeat(40)), format!("'{}'", "a".repeat(40)));
        assert_eq!(quoted(&"a".repeat(41)), format!("'{}...'", "a".repeat(40)));
    }
}
