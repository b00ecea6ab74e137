//! The nine tables and the file's grammar.

use std::ops::RangeInclusive;

/// A table's place in the file.
#[derive(Debug, Clone, Copy, PartialEq)]
pub enum Table {
	Head,
	Clocks,
	Tracks,
	Sends,
	Routes,
	Sounds,
	Listener,
	Placings,
	Orders,
}

/// What question 4 asks of a field by itself; a reference is question 5's.
pub enum Field {
	Range(&'static str, RangeInclusive<i32>),
	Reference(&'static str),
}

use Field::{Range, Reference};

impl Field {
	fn name(&self) -> &'static str {
		match self {
			Range(name, _) | Reference(name) => name,
		}
	}
}

pub struct Layout {
	pub fields: &'static [Field],
	pub lines: RangeInclusive<usize>,
}

impl Layout {
	fn names_line(&self) -> String {
		let names: Vec<&str> = self.fields.iter().map(Field::name).collect();
		names.join(" ")
	}
}

const VOLUME: Field = Range("volume", -96000..=18000);
const X: Field = Range("x", -1_000_000..=1_000_000);
const Y: Field = Range("y", -1_000_000..=1_000_000);
const Z: Field = Range("z", -1_000_000..=1_000_000);

/// In the order of `Table` and of the file.
pub static TABLES: [Layout; 9] = [
	Layout {
		lines: 1..=1,
		fields: &[
			Range("rate", 8000..=192000),
			Range("channels", 1..=8),
			Range("buffer", 1..=256),
			Range("block", 1..=512),
			Range("blocks", 1..=1024),
			VOLUME,
		],
	},
	Layout {
		lines: 0..=8,
		fields: &[
			Range("unit", 0..=2),
			Range("speed", 1..=60_000_000),
			Range("ticking", 0..=1),
		],
	},
	Layout {
		lines: 0..=32,
		fields: &[Reference("parent"), VOLUME],
	},
	Layout {
		lines: 0..=8,
		fields: &[VOLUME],
	},
	Layout {
		lines: 0..=64,
		fields: &[Reference("track"), Reference("send"), VOLUME],
	},
	Layout {
		lines: 0..=64,
		fields: &[
			Reference("track"),
			Range("first", 0..=i32::MAX),
			Range("count", 0..=i32::MAX),
			Range("from", 0..=1),
		],
	},
	Layout {
		lines: 0..=1,
		fields: &[X, Y, Z],
	},
	Layout {
		lines: 0..=32,
		fields: &[
			Reference("track"),
			X,
			Y,
			Z,
			Range("near", 0..=1_000_000),
			Range("far", 0..=1_000_000),
		],
	},
	Layout {
		lines: 0..=128,
		fields: &[
			Range("block", 0..=1023),
			Range("kind", 0..=5),
			Reference("index"),
			VOLUME,
			Reference("clock"),
			Range("when", 0..=3_600_000),
			Range("part", 0..=999),
			Range("millis", 0..=3_600_000),
			Range("easing", 0..=3),
			Range("power", 0..=8),
		],
	},
];

/// The value lines of every table.
pub struct Rows(Vec<Vec<Vec<i32>>>);

impl Rows {
	pub fn of(&self, table: Table) -> &[Vec<i32>] {
		&self.0[table as usize]
	}

	pub fn count(&self, table: Table) -> usize {
		self.of(table).len()
	}

	pub fn tables(&self) -> impl Iterator<Item = (&'static Layout, &[Vec<i32>])> {
		TABLES.iter().zip(self.0.iter().map(Vec::as_slice))
	}

	/// Reads a file whose last byte is a line feed; `None` where it is not
	/// nine tables, each as spelled, with one empty line between two.
	pub fn read(file: &[u8]) -> Option<Self> {
		let text = file.strip_suffix(b"\n")?;
		let mut lines = text.split(|byte| *byte == b'\n');
		let mut tables = vec![];
		for (number, layout) in TABLES.iter().enumerate() {
			if lines.next()? != layout.names_line().as_bytes() {
				return None;
			}
			let last = number + 1 == TABLES.len();
			tables.push(read_table(&mut lines, layout.fields.len(), last)?);
		}
		Some(Self(tables))
	}
}

/// The value lines up to the empty line, or to the file's end in the last table.
fn read_table<'a>(
	lines: &mut impl Iterator<Item = &'a [u8]>,
	fields: usize,
	last: bool,
) -> Option<Vec<Vec<i32>>> {
	let mut rows = vec![];
	loop {
		match lines.next() {
			None => return last.then_some(rows),
			Some(b"") => return (!last).then_some(rows),
			Some(line) => rows.push(read_row(line, fields)?),
		}
	}
}

fn read_row(line: &[u8], fields: usize) -> Option<Vec<i32>> {
	let row: Option<Vec<i32>> = line.split(|byte| *byte == b' ').map(read_number).collect();
	row.filter(|row| row.len() == fields)
}

/// A decimal whole number of 32 bits, with no leading zero, `+` or `-0`.
fn read_number(word: &[u8]) -> Option<i32> {
	let digits = word.strip_prefix(b"-").unwrap_or(word);
	let negative = digits.len() < word.len();
	let plain = match digits {
		b"0" => !negative,
		[b'1'..=b'9', rest @ ..] => rest.iter().all(u8::is_ascii_digit),
		_ => false,
	};
	// Only ASCII is left, and `parse` refuses what 32 bits cannot hold.
	plain.then(|| str::from_utf8(word).ok()?.parse().ok())?
}
