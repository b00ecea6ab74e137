//! A scene file, its tables and the questions asked of it, written from their
//! wording (docs/QUESTIONS.md) and from nothing else.

mod format;
mod questions;

pub use questions::{Refusal, accepted, output_length, sample_questions};

use format::Table;

/// Thousandths of a decibel.
pub type Volume = i32;

#[derive(Debug, Clone, Copy)]
pub struct Head {
	pub rate: usize,
	pub channels: usize,
	pub buffer: usize,
	pub block: usize,
	pub blocks: usize,
	pub volume: Volume,
}

#[derive(Debug, Clone, Copy)]
pub struct Clock {
	pub unit: i32,
	pub speed: i32,
	pub ticking: bool,
}

#[derive(Debug, Clone, Copy)]
pub struct Track {
	pub parent: usize,
	pub volume: Volume,
}

#[derive(Debug, Clone, Copy)]
pub struct Send {
	pub volume: Volume,
}

#[derive(Debug, Clone, Copy)]
pub struct Route {
	pub track: usize,
	pub send: usize,
	pub volume: Volume,
}

#[derive(Debug, Clone, Copy)]
pub struct Sound {
	pub track: usize,
	pub first: usize,
	pub count: usize,
	/// The place of its buffer among the recordings.
	pub from: usize,
}

/// A place in the room, in thousandths.
#[derive(Debug, Clone, Copy)]
pub struct Position {
	pub x: i32,
	pub y: i32,
	pub z: i32,
}

/// Where a track stands, and from which distance to which it falls silent, in
/// thousandths.
#[derive(Debug, Clone, Copy)]
pub struct Placing {
	pub track: usize,
	pub position: Position,
	pub near: i32,
	pub far: i32,
}

/// A sample buffer that sounds play from. `broken`: its bytes end inside a
/// number, as those of a file can.
#[derive(Debug, Clone)]
pub struct Recording {
	pub samples: Vec<f32>,
	pub broken: bool,
}

/// The house's and the visitor's.
pub type Recordings = [Recording; 2];

impl Recording {
	/// Little-endian f32 numbers; a broken last one is left off.
	pub fn read(bytes: &[u8]) -> Self {
		let (whole, rest) = bytes.as_chunks();
		Self {
			samples: whole
				.iter()
				.map(|number| f32::from_le_bytes(*number))
				.collect(),
			broken: !rest.is_empty(),
		}
	}

	/// What the library's routine is lent: the whole numbers alone.
	pub fn whole(bytes: &[u8]) -> Self {
		Self {
			broken: false,
			..Self::read(bytes)
		}
	}
}

#[derive(Debug, Clone, Copy, PartialEq)]
pub enum Start {
	Immediate,
	Delay { millis: u64 },
	ClockTime { clock: usize, tick: u64, part: i32 },
}

impl Start {
	pub fn new(clock: usize, when: u64, part: i32) -> Self {
		match (clock, when) {
			(0, 0) => Self::Immediate,
			(0, millis) => Self::Delay { millis },
			(clock, tick) => Self::ClockTime { clock, tick, part },
		}
	}
}

#[derive(Debug, Clone, Copy)]
pub struct Order {
	pub block: usize,
	pub kind: i32,
	pub index: usize,
	pub volume: Volume,
	pub start: Start,
	pub millis: u64,
	pub easing: i32,
	pub power: i32,
}

/// An accepted scene. Lines count from 1 in every reference.
#[derive(Debug, Clone)]
pub struct Scene {
	pub head: Head,
	pub clocks: Vec<Clock>,
	pub tracks: Vec<Track>,
	pub sends: Vec<Send>,
	pub routes: Vec<Route>,
	pub sounds: Vec<Sound>,
	pub listener: Option<Position>,
	pub placings: Vec<Placing>,
	pub orders: Vec<Order>,
}

impl Scene {
	/// Reads rows whose fields have all been found in range.
	fn read(rows: &format::Rows) -> Self {
		let each = |table: Table| rows.of(table).iter();
		Self {
			head: Head::read(&rows.of(Table::Head)[0]),
			clocks: each(Table::Clocks).map(|row| Clock::read(row)).collect(),
			tracks: each(Table::Tracks).map(|row| Track::read(row)).collect(),
			sends: each(Table::Sends)
				.map(|row| Send { volume: row[0] })
				.collect(),
			routes: each(Table::Routes).map(|row| Route::read(row)).collect(),
			sounds: each(Table::Sounds).map(|row| Sound::read(row)).collect(),
			listener: each(Table::Listener).map(|row| Position::read(row)).next(),
			placings: each(Table::Placings)
				.map(|row| Placing::read(row))
				.collect(),
			orders: each(Table::Orders).map(|row| Order::read(row)).collect(),
		}
	}
}

impl Head {
	fn read(row: &[i32]) -> Self {
		Self {
			rate: row[0] as usize,
			channels: row[1] as usize,
			buffer: row[2] as usize,
			block: row[3] as usize,
			blocks: row[4] as usize,
			volume: row[5],
		}
	}
}

impl Clock {
	fn read(row: &[i32]) -> Self {
		Self {
			unit: row[0],
			speed: row[1],
			ticking: row[2] == 1,
		}
	}
}

impl Track {
	fn read(row: &[i32]) -> Self {
		Self {
			parent: row[0] as usize,
			volume: row[1],
		}
	}
}

impl Route {
	fn read(row: &[i32]) -> Self {
		Self {
			track: row[0] as usize,
			send: row[1] as usize,
			volume: row[2],
		}
	}
}

impl Sound {
	fn read(row: &[i32]) -> Self {
		Self {
			track: row[0] as usize,
			first: row[1] as usize,
			count: row[2] as usize,
			from: row[3] as usize,
		}
	}
}

impl Position {
	fn read(row: &[i32]) -> Self {
		Self {
			x: row[0],
			y: row[1],
			z: row[2],
		}
	}
}

impl Placing {
	fn read(row: &[i32]) -> Self {
		Self {
			track: row[0] as usize,
			position: Position::read(&row[1..4]),
			near: row[4],
			far: row[5],
		}
	}
}

impl Order {
	fn read(row: &[i32]) -> Self {
		Self {
			block: row[0] as usize,
			kind: row[1],
			index: row[2] as usize,
			volume: row[3],
			start: Start::new(row[4] as usize, row[5] as u64, row[6]),
			millis: row[7] as u64,
			easing: row[8],
			power: row[9],
		}
	}
}
