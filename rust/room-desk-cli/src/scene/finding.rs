//! One place that is not as it should be, for people.

use std::ops::Range;

use super::tables::Kind;

/// What was found, and what is allowed instead.
#[derive(Debug, Clone, Default, PartialEq)]
pub struct Finding {
    /// The file's line, from 1; none where the finding is about a whole file.
    pub line: Option<usize>,
    /// The bytes of that line that it is about.
    pub span: Option<Range<usize>>,
    pub what: String,
    pub allowed: String,
    /// The table, its line from 0 (of a count the count), and the column.
    pub field: Option<(Kind, usize, usize)>,
}

impl Finding {
    /// About the whole file, or about recordings.
    pub fn whole(what: impl Into<String>, allowed: impl Into<String>) -> Self {
        Self { what: what.into(), allowed: allowed.into(), ..Self::default() }
    }

    /// About some bytes of a line.
    pub fn at(
        line: usize,
        span: Range<usize>,
        what: impl Into<String>,
        allowed: impl Into<String>,
    ) -> Self {
        Self { line: Some(line), span: Some(span), ..Self::whole(what, allowed) }
    }

    /// About a line, without a word to point at.
    pub fn of_line(line: usize, what: impl Into<String>, allowed: impl Into<String>) -> Self {
        Self { line: Some(line), ..Self::whole(what, allowed) }
    }

    /// With the field that it is about.
    pub fn of_field(self, kind: Kind, at: usize, column: usize) -> Self {
        Self { field: Some((kind, at, column)), ..self }
    }
}

/// 1234567 as `1,234,567`.
pub fn commas(number: impl Into<i128>) -> String {
    let number = number.into();
    let digits = number.abs().to_string();
    let mut text = String::new();
    for (place, digit) in digits.chars().enumerate() {
        if place > 0 && (digits.len() - place) % 3 == 0 {
            text.push(',');
        }
        text.push(digit);
    }
    if number < 0 { format!("-{text}") } else { text }
}

/// `1 sound`, `3 sounds`.
pub fn count(number: usize, one: &str) -> String {
    let s = if number == 1 { "" } else { "s" };
    format!("{} {one}{s}", commas(number as i128))
}
