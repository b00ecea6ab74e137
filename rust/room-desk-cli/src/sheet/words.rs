//! A line of a sheet as words, each with its place, for messages that point at it.

use std::ops::Range;

use super::write::quoted;
use crate::scene::Finding;

/// A word: what it says, and where.
#[derive(Debug, Clone, PartialEq)]
pub struct Word {
    pub text: String,
    pub span: Range<usize>,
}

/// The words of a line that are still to be read.
#[derive(Debug, Clone)]
pub struct Words {
    pub line: usize,
    pub indent: usize,
    words: Vec<Word>,
    next: usize,
    end: usize,
}

impl Words {
    /// Splits at spaces, up to a comment; a word in quotes, straight or curly, may have spaces.
    pub fn of(line: usize, text: &str) -> Result<Self, Finding> {
        let indent = text.len() - text.trim_start_matches(' ').len();
        if let Some(tab) = text.find('\t').filter(|tab| text[..*tab].trim().is_empty()) {
            return Err(Finding::at(
                line,
                tab..tab + 1,
                "a tab",
                "spaces before a line's first word",
            ));
        }
        let mut words = vec![];
        let mut rest = text.char_indices().peekable();
        while let Some((start, first)) = rest.next() {
            match first {
                '#' => break,
                _ if first.is_whitespace() => continue,
                '"' | '“' | '„' | '”' => words.push(in_quotes(line, text, start, &mut rest)?),
                _ => {
                    let plain = |c: char| !c.is_whitespace() && c != '#';
                    while rest.next_if(|(_, c)| plain(*c)).is_some() {}
                    let end = rest.peek().map_or(text.len(), |(at, _)| *at);
                    words.push(Word { text: text[start..end].into(), span: start..end });
                }
            }
        }
        let end = words.last().map_or(0, |word| word.span.end);
        Ok(Self { line, indent, words, next: 0, end })
    }

    pub fn is_empty(&self) -> bool {
        self.next >= self.words.len()
    }

    pub fn peek(&self) -> Option<&str> {
        self.words.get(self.next).map(|word| word.text.as_str())
    }

    /// Every word of the line, those that were read too.
    pub fn all(&self) -> impl Iterator<Item = &Word> {
        self.words.iter()
    }

    /// The word that begins the line.
    pub fn first(&self) -> &str {
        self.words.first().map_or("", |word| &word.text)
    }

    /// `` `play steps-16.wav` ``: such a line, of another file.
    pub fn naming(&self, file: &str) -> String {
        format!("`{} {}`", self.first(), quoted(file))
    }

    /// How many words were read.
    pub fn read(&self) -> usize {
        self.next
    }

    /// The words that were read, from one of them on, as one.
    pub fn since(&self, first: usize) -> Word {
        let words = &self.words[first..self.next];
        let text = words.iter().map(|word| word.text.as_str()).collect::<Vec<_>>().join(" ");
        let ends = words.first().zip(words.last());
        Word { text, span: ends.map_or(0..0, |(first, last)| first.span.start..last.span.end) }
    }

    pub fn next(&mut self, wanted: &str) -> Result<Word, Finding> {
        let word = self.words.get(self.next).cloned();
        self.next += 1;
        word.ok_or_else(|| self.missing(wanted))
    }

    /// Takes the next word if it is this one.
    pub fn take(&mut self, text: &str) -> bool {
        let found = self.peek() == Some(text);
        self.next += usize::from(found);
        found
    }

    pub fn expect(&mut self, text: &str, wanted: &str) -> Result<(), Finding> {
        if self.take(text) {
            return Ok(());
        }
        match self.words.get(self.next) {
            Some(word) => Err(self.wrong(word, "is not understood here", wanted)),
            None => Err(self.missing(wanted)),
        }
    }

    /// Nothing may be left.
    pub fn done(&self, wanted: &str) -> Result<(), Finding> {
        match self.words.get(self.next) {
            None => Ok(()),
            Some(word) => Err(self.wrong(word, "is too much here", wanted)),
        }
    }

    pub fn missing(&self, wanted: &str) -> Finding {
        Finding::at(self.line, self.end..self.end + 1, "the line ends too early", wanted)
    }

    /// `` `six` is no level`` and what is allowed.
    pub fn wrong(&self, word: &Word, why: &str, allowed: impl Into<String>) -> Finding {
        Finding::at(self.line, word.span.clone(), format!("`{}` {why}", word.text), allowed)
    }
}

type Chars<'a> = std::iter::Peekable<std::str::CharIndices<'a>>;

fn in_quotes(line: usize, text: &str, start: usize, rest: &mut Chars) -> Result<Word, Finding> {
    let inside = start + text[start..].chars().next().map_or(0, char::len_utf8);
    for (at, c) in rest.by_ref() {
        if ['"', '”', '“'].contains(&c) {
            return Ok(Word { text: text[inside..at].into(), span: start..at + c.len_utf8() });
        }
    }
    Err(Finding::at(line, start..inside, "a quote that does not end", "a second quote"))
}
