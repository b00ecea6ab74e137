//! Question 4: each field in its range, and the rules of lines as a whole.

use super::finding::{Finding, count};
use super::model::KINDS;
use super::tables::{Kind, MOST, Rule, Table, tables};
use super::text::{Row, Rows};

pub fn findings(rows: &Rows) -> Vec<Finding> {
    let blocks = rows.of(Kind::Show).first().map_or(0, |head| head.numbers[4]);
    let mut findings = vec![];
    for table in tables() {
        for (at, row) in rows.of(table.kind).iter().enumerate() {
            let line = Line { table, at, row };
            for column in 0..table.fields.len() {
                findings.extend(line.in_range(column));
            }
            findings.extend(match table.kind {
                Kind::Clocks => line.speed(),
                Kind::Placings => line.apart(),
                Kind::Orders => line.order(blocks),
                _ => vec![],
            });
        }
    }
    findings
}

/// A line of a table, for findings about its fields.
pub struct Line<'a> {
    pub table: &'static Table,
    /// Its place, from 0.
    pub at: usize,
    pub row: &'a Row,
}

impl Line<'_> {
    pub fn number(&self, name: &str) -> i64 {
        self.row.numbers[self.table.column(name)]
    }

    /// `orders, line 6: millis is 0` and a note.
    pub fn field(&self, column: usize, note: &str, allowed: impl Into<String>) -> Finding {
        let what = format!(
            "{}, line {}: {} is {}{note}",
            self.table.title,
            self.at + 1,
            self.table.fields[column].name,
            self.row.numbers[column],
        );
        Finding::at(self.row.line, self.row.spans[column].clone(), what, allowed).of_field(
            self.table.kind,
            self.at,
            column,
        )
    }

    pub fn named(&self, name: &str, note: &str, allowed: impl Into<String>) -> Finding {
        self.field(self.table.column(name), note, allowed)
    }

    fn in_range(&self, column: usize) -> Option<Finding> {
        let Rule::Number(low, high, unit) = self.table.fields[column].rule else { return None };
        if (low..=high).contains(&self.row.numbers[column]) {
            return None;
        }
        let range = if high == MOST { format!("{low} or more") } else { format!("{low}..{high}") };
        let unit = if unit.is_empty() { String::new() } else { format!(" ({unit})") };
        Some(self.field(column, "", format!("{range}{unit}")))
    }

    /// The field is in its own range, so that a rule about two fields can be spoken of.
    fn fits(&self, name: &str) -> bool {
        self.in_range(self.table.column(name)).is_none()
    }

    fn speed(&self) -> Vec<Finding> {
        if !self.fits("unit") || !self.fits("speed") {
            return vec![];
        }
        let speed = self.number("speed") as f64 / 1000.0;
        let ticks = match self.number("unit") {
            0 => 1.0 / speed,
            1 => speed,
            _ => speed / 60.0,
        };
        if ticks <= 1000.0 {
            return vec![];
        }
        let note = format!(", which is {ticks} ticks a second");
        vec![self.named("speed", &note, "at most 1,000 ticks a second")]
    }

    fn apart(&self) -> Vec<Finding> {
        if self.number("near") < self.number("far") {
            return vec![];
        }
        let allowed = format!("more than near, {}", self.number("near"));
        vec![self.named("far", "", allowed)]
    }

    fn order(&self, blocks: i64) -> Vec<Finding> {
        [self.block(blocks), self.volume(), self.part(), self.millis(), self.power()]
            .into_iter()
            .flatten()
            .collect()
    }

    fn block(&self, blocks: i64) -> Option<Finding> {
        let wrong = self.fits("block") && self.number("block") >= blocks;
        let many = count(usize::try_from(blocks).unwrap_or(0), "block");
        let allowed = format!("0..{}: the show has {many}", blocks - 1);
        wrong.then(|| self.named("block", "", allowed))
    }

    fn volume(&self) -> Option<Finding> {
        let kind = self.number("kind");
        let wrong = self.fits("volume") && kind >= 4 && self.number("volume") != 0;
        let name = KINDS.get(kind as usize).copied().unwrap_or("such");
        let allowed = "0 where an order pauses or resumes";
        wrong.then(|| self.named("volume", &format!(" in a {name} order"), allowed))
    }

    fn part(&self) -> Option<Finding> {
        let wrong = self.fits("part") && self.number("clock") == 0 && self.number("part") != 0;
        wrong.then(|| self.named("part", " without a clock", "0 where clock is 0"))
    }

    fn millis(&self) -> Option<Finding> {
        let waits = self.number("clock") != 0 || self.number("when") > 0;
        let wrong = self.number("kind") <= 4 && waits && self.number("millis") == 0;
        let allowed = "1..3600000 where an order of kinds 0 to 4 has a clock or a `when` above 0";
        wrong.then(|| self.named("millis", " in an order that waits", allowed))
    }

    fn power(&self) -> Option<Finding> {
        let (easing, power) = (self.number("easing"), self.number("power"));
        if !self.fits("power") {
            return None;
        }
        match (easing, power) {
            (0, 0) => None,
            (0, _) => Some(self.named("power", " with easing 0 (linear)", "0 for easing 0")),
            (_, 0) => Some(self.named("power", &format!(" with easing {easing}"), "1..8")),
            _ => None,
        }
    }
}
