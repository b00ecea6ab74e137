//! The scene file's form (question 2): bytes to numbers, each with the place where it stands.

use std::ops::Range;

use super::finding::Finding;
use super::tables::{Kind, Table, tables};

/// A value line.
#[derive(Debug, Clone, Default, PartialEq)]
pub struct Row {
    /// The file's line, from 1.
    pub line: usize,
    pub numbers: Vec<i64>,
    /// Where each number stands in the line.
    pub spans: Vec<Range<usize>>,
}

/// The numbers of a scene, table by table of the whole list; a table that the format has not is empty.
#[derive(Debug, Clone, Default, PartialEq)]
pub struct Rows([Vec<Row>; 9]);

impl Rows {
    pub fn of(&self, kind: Kind) -> &[Row] {
        &self.0[kind as usize]
    }
}

type Lines<'a> = std::iter::Peekable<Box<dyn Iterator<Item = (usize, &'a [u8])> + 'a>>;

/// Reads a file that passed question 1: it ends with a line feed.
pub fn read(bytes: &[u8]) -> Result<Rows, Vec<Finding>> {
    let body = bytes.strip_suffix(b"\n").unwrap_or(bytes);
    let split = body.split(|&byte| byte == b'\n').enumerate();
    let numbered: Box<dyn Iterator<Item = _>> = Box::new(split.map(|(at, line)| (at + 1, line)));
    let mut lines: Lines = numbered.peekable();
    let mut rows = Rows::default();
    let mut findings = vec![];
    let mut list = tables().peekable();
    while let Some(table) = list.next() {
        names_line(&mut lines, table).map_err(|finding| vec![finding])?;
        let next = list.peek().copied();
        let closed = value_lines(&mut lines, table, next, &mut rows, &mut findings)?;
        if let (None, Some(line)) = (next, closed) {
            findings.push(behind_the_last(line, table));
        }
    }
    if findings.is_empty() { Ok(rows) } else { Err(findings) }
}

fn names_line(lines: &mut Lines, table: &Table) -> Result<(), Finding> {
    let names = table.names();
    let Some((line, text)) = lines.next() else {
        return Err(Finding::whole(
            format!("the file ends before the table of {}", table.title),
            format!("an empty line, then `{names}`, also where the table has no lines"),
        ));
    };
    if text == names.as_bytes() {
        return Ok(());
    }
    let place = format!("where the names of the table of {} must stand", table.title);
    let what = match text {
        [] => format!("an empty line {place}"),
        [.., b'\r'] => "the line ends with a carriage return (a DOS line end)".into(),
        _ => format!("`{}` {place}", String::from_utf8_lossy(text)),
    };
    Err(Finding::at(line, 0..text.len(), what, format!("`{names}`, letter by letter")))
}

/// Reads lines up to an empty one, and gives that one's number; none at the file's end.
fn value_lines(
    lines: &mut Lines,
    table: &Table,
    next: Option<&Table>,
    rows: &mut Rows,
    findings: &mut Vec<Finding>,
) -> Result<Option<usize>, Vec<Finding>> {
    for (line, text) in lines.by_ref() {
        if text.is_empty() {
            return Ok(Some(line));
        }
        if let Some(next) = next.filter(|next| next.names().as_bytes() == text) {
            let what = format!("no empty line before the table of {}", next.title);
            findings.push(Finding::at(line, 0..text.len(), what, "one empty line between tables"));
            return Err(std::mem::take(findings));
        }
        match value_line(line, text, table) {
            Ok(row) => rows.0[table.kind as usize].push(row),
            Err(finding) => findings.push(finding),
        }
    }
    Ok(None)
}

fn behind_the_last(line: usize, table: &Table) -> Finding {
    Finding {
        line: Some(line),
        what: format!("an empty line after the {}", table.title),
        allowed: "nothing behind the last table".into(),
        ..Finding::default()
    }
}

fn value_line(line: usize, text: &[u8], table: &Table) -> Result<Row, Finding> {
    let mut row = Row { line, ..Row::default() };
    let mut place = 0;
    for word in text.split(|&byte| byte == b' ') {
        let span = place..place + word.len();
        place = span.end + 1;
        match number(word) {
            Ok(value) => row.numbers.push(value),
            Err(what) => {
                let allowed = "whole decimal numbers of 32 bits, one space between two";
                return Err(Finding::at(line, span, what, allowed));
            }
        }
        row.spans.push(span);
    }
    if row.numbers.len() == table.fields.len() {
        return Ok(row);
    }
    let what = format!("{}: {} numbers in a line", table.title, row.numbers.len());
    let allowed = format!("{}: {}", table.fields.len(), table.names());
    Err(Finding::at(line, 0..text.len(), what, allowed))
}

fn number(word: &[u8]) -> Result<i64, String> {
    let text = String::from_utf8_lossy(word);
    let digits = word.strip_prefix(b"-").unwrap_or(word);
    let what = match word {
        [] => "two spaces in a row, or one at the line's start or end".into(),
        _ if word.contains(&b'\t') => "a tab".into(),
        [.., b'\r'] => "the line ends with a carriage return (a DOS line end)".into(),
        [b'#', ..] | [b'/', b'/', ..] => "a comment: the scene file has none".into(),
        [b'+', ..] => format!("`{text}`: a plus sign"),
        _ if digits.is_empty() || !digits.iter().all(u8::is_ascii_digit) => {
            let hint = if text.contains('.') {
                " (volumes are thousandths of a decibel, times milliseconds)"
            } else {
                ""
            };
            format!("`{text}` is no whole number{hint}")
        }
        b"-0" => "`-0`: zero is written `0`".into(),
        _ if digits.len() > 1 && digits[0] == b'0' => format!("`{text}` has a leading zero"),
        _ => match text.parse::<i32>() {
            Ok(value) => return Ok(value.into()),
            Err(_) => format!("`{text}` is outside -2147483648..2147483647"),
        },
    };
    Err(what)
}

/// The file of numbers, table by table.
pub fn write(rows: impl Fn(Kind) -> Vec<Vec<i64>>) -> Vec<u8> {
    let written = tables().map(|table| {
        let line = |row: Vec<i64>| row.iter().map(i64::to_string).collect::<Vec<_>>().join(" ");
        let mut lines = vec![table.names()];
        lines.extend(rows(table.kind).into_iter().map(line));
        lines.join("\n") + "\n"
    });
    written.collect::<Vec<_>>().join("\n").into_bytes()
}
