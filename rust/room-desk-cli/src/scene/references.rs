//! Questions 5 to 7: lines that fields name, how deep tracks stand, and what is named twice.

use super::finding::Finding;
use super::model::KINDS;
use super::ranges::Line;
use super::tables::{Kind, Rule, Table, tables};
use super::text::{Row, Rows};

const DEEPEST: usize = 4;

fn lines<'a>(rows: &'a Rows, table: &'static Table) -> impl Iterator<Item = Line<'a>> {
    rows.of(table.kind).iter().enumerate().map(move |(at, row)| Line { table, at, row })
}

pub fn missing_lines(rows: &Rows) -> Vec<Finding> {
    let mut findings = vec![];
    for table in tables() {
        for line in lines(rows, table) {
            for column in 0..table.fields.len() {
                findings.extend(reference(rows, &line, column));
            }
        }
    }
    findings
}

fn reference(rows: &Rows, line: &Line, column: usize) -> Option<Finding> {
    let number = line.row.numbers[column];
    let count = |kind| rows.of(kind).len() as i64;
    match line.table.fields[column].rule {
        Rule::Number(..) => None,
        Rule::Line(kind, least, zero) => {
            let wrong = !(least..=count(kind)).contains(&number);
            wrong.then(|| line.field(column, "", one_of(rows, kind, zero)))
        }
        Rule::Earlier => {
            let earlier = line.at as i64;
            let allowed = match earlier {
                0 => "0, the mixer: no track stands before the first".into(),
                _ => format!("0 (the mixer) or an earlier line of the tracks, 1..{earlier}"),
            };
            let wrong = !(0..=earlier).contains(&number);
            wrong.then(|| line.field(column, "", allowed))
        }
        Rule::Index => index(rows, line, column),
    }
}

fn index(rows: &Rows, line: &Line, column: usize) -> Option<Finding> {
    let (kind, number) = (line.number("kind"), line.row.numbers[column]);
    let note = format!(" (kind {kind}: {})", KINDS.get(kind as usize).copied().unwrap_or(""));
    let of = match kind {
        0 if number == 0 => return None,
        0 => return Some(line.field(column, &note, "0 for the main volume")),
        2 => Kind::Sends,
        3 => Kind::Routes,
        _ => Kind::Tracks,
    };
    let wrong = !(1..=rows.of(of).len() as i64).contains(&number);
    wrong.then(|| line.field(column, &note, one_of(rows, of, "")))
}

/// `0 (the main track) or a line of the tracks, 1..5`
fn one_of(rows: &Rows, kind: Kind, zero: &str) -> String {
    let title = Table::of(kind).title;
    let named = match rows.of(kind).len() {
        0 => format!("no line: the table of {title} is empty"),
        count => format!("a line of the {title}, 1..{count}"),
    };
    if zero.is_empty() { named } else { format!("0 ({zero}) or {named}") }
}

pub fn depths(rows: &Rows) -> Vec<Finding> {
    let table = Table::of(Kind::Tracks);
    let mut findings = vec![];
    for line in lines(rows, table) {
        let path = path(rows.of(Kind::Tracks), line.at + 1);
        if path.len() > DEEPEST {
            let named = path.iter().rev().map(usize::to_string).collect::<Vec<_>>().join(" > ");
            let note = format!(": the track stands at depth {} ({named})", path.len());
            findings.push(line.named("parent", &note, "depth 1 to 4"));
        }
    }
    findings
}

/// A track and those above it; every parent is an earlier line.
fn path(tracks: &[Row], line: usize) -> Vec<usize> {
    let mut path = vec![];
    let mut at = line;
    while at > 0 {
        path.push(at);
        at = tracks[at - 1].numbers[0] as usize;
    }
    path
}

pub fn named_twice(rows: &Rows) -> Vec<Finding> {
    let routes = twice(rows, Kind::Routes, 2, "each track to each send track once");
    let placings = twice(rows, Kind::Placings, 1, "each track once");
    routes.into_iter().chain(placings).collect()
}

/// Lines whose first `columns` numbers stand in an earlier line already.
fn twice(rows: &Rows, kind: Kind, columns: usize, allowed: &str) -> Vec<Finding> {
    let table = Table::of(kind);
    let key = |row: &Row| row.numbers[..columns].to_vec();
    let mut findings = vec![];
    for line in lines(rows, table) {
        let earlier = rows.of(kind)[..line.at].iter().position(|row| key(row) == key(line.row));
        if let Some(at) = earlier {
            let names = table.fields.iter().zip(&line.row.numbers).take(columns);
            let named = names.map(|(f, n)| format!("{} {n}", f.name)).collect::<Vec<_>>();
            let what = format!(
                "{}, line {}: {} stands in line {} already",
                table.title,
                line.at + 1,
                named.join(" with "),
                at + 1
            );
            let span = 0..line.row.spans[columns - 1].end;
            let finding = Finding::at(line.row.line, span, what, allowed);
            findings.push(finding.of_field(kind, line.at, 0));
        }
    }
    findings
}
