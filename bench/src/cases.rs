//! Scenes that others made, one after the other: where room_desk takes longest next to kira.

use std::{io::Read, time::Duration};

use crate::sides::{self, Side};

/// How many are shown.
const SHOWN: usize = 20;

/// A case that takes so many times kira's time is timed again, `MORE` times as often: most such are slow
/// once, by what else the machine did.
const AGAIN: f64 = 1.25;
const MORE: usize = 8;

struct Case {
	number: usize,
	file: Vec<u8>,
	recordings: [Vec<f32>; 2],
	length: usize,
}

struct Timed {
	number: usize,
	head: String,
	frames: usize,
	/// Ours as a whole, and its reading alone.
	whole: Duration,
	reading: Duration,
	/// A mixer built and the show rendered, from tables that are read.
	kira: Duration,
}

impl Timed {
	/// What is timed of kira.
	fn room_desk(&self) -> Duration {
		self.whole.saturating_sub(self.reading)
	}

	fn ratio(&self) -> f64 {
		self.room_desk().as_secs_f64() / self.kira.as_secs_f64().max(1e-9)
	}

	fn again(self, case: &Case, rounds: usize) -> Timed {
		if self.ratio() < AGAIN {
			return self;
		}
		let other = timed(case, MORE * rounds);
		Timed {
			whole: self.whole.min(other.whole),
			reading: self.reading.min(other.reading),
			kira: self.kira.min(other.kira),
			..self
		}
	}
}

/// Times every case, the fastest of so many rounds, and shows those in which room_desk is slowest next to
/// kira with `powf`. Panics where an output differs from that of kira with the table.
pub fn run(rounds: usize) {
	let cases = read();
	let mut all: Vec<Timed> = cases.iter().map(|case| timed(case, rounds)).collect();
	all = (all.into_iter().zip(&cases))
		.map(|(first, case)| first.again(case, rounds))
		.collect();
	all.sort_by(|a, b| b.ratio().total_cmp(&a.ratio()));
	println!(
		"room_desk/kira   room_desk        kira   ns/frame; rate channels buffer block blocks volume"
	);
	for case in all.iter().take(SHOWN) {
		let a_frame = |time: Duration| time.as_nanos() as f64 / case.frames as f64;
		println!(
			"{:14.3} {:11.1} {:11.1}   case {}: {}",
			case.ratio(),
			a_frame(case.room_desk()),
			a_frame(case.kira),
			case.number,
			case.head
		);
	}
	let slower = all.iter().filter(|case| case.ratio() > 1.0).count();
	println!("{} scenes, {slower} slower than kira", all.len());
}

/// The stream of `oracle batch`: a kind, the lengths of three files and of the output, and the files.
fn read() -> Vec<Case> {
	let mut bytes = vec![];
	std::io::stdin()
		.read_to_end(&mut bytes)
		.expect("standard input");
	let mut rest = &bytes[..];
	let mut cases = vec![];
	while let Some((head, files)) = rest.split_at_checked(20) {
		let word = |k: usize| {
			let bytes = head[4 * k..4 * k + 4].try_into().expect("four bytes");
			u32::from_le_bytes(bytes) as usize
		};
		let (file, files) = files.split_at(word(1));
		let (house, files) = files.split_at(word(2));
		let (visitor, files) = files.split_at(word(3));
		cases.push(Case {
			number: cases.len(),
			file: file.to_vec(),
			recordings: [samples(house), samples(visitor)],
			length: word(4),
		});
		rest = files;
	}
	cases
}

fn samples(bytes: &[u8]) -> Vec<f32> {
	bytes
		.chunks_exact(4)
		.map(|bytes| f32::from_le_bytes(bytes.try_into().expect("four bytes")))
		.collect()
}

fn timed(case: &Case, rounds: usize) -> Timed {
	let tables = scene::accepted(&case.file).expect("an accepted scene");
	let samples: [&[f32]; 2] = [&case.recordings[0], &case.recordings[1]];
	let [mut ours, mut kira] = [(); 2].map(|()| vec![0.0; case.length]);
	let [mut whole, mut reading, mut built] = [Duration::MAX; 3];
	for _ in 0..rounds {
		whole = whole.min(Side::RoomDesk.rendered(&case.file, samples, &mut ours));
		reading = reading.min(sides::asked(&case.file, samples));
		built = built.min(sides::built_and_rendered(&case.file, samples, &mut kira));
	}
	Side::KiraTable.rendered(&case.file, samples, &mut kira);
	assert!(
		(ours.iter().zip(&kira)).all(|(a, b)| a.to_bits() == b.to_bits()),
		"case {}: room_desk and kira with the table differ",
		case.number
	);
	let text = String::from_utf8_lossy(&case.file);
	Timed {
		number: case.number,
		head: text.lines().nth(1).unwrap_or_default().into(),
		frames: tables.head.block * tables.head.blocks,
		whole,
		reading,
		kira: built,
	}
}
