//! The scenes, by fixed rules. All have 48,000 Hz, most two channels, a buffer of
//! 128 and blocks of 512 frames; every sound plays the whole show.

use std::fmt::Write;

const BLOCK: usize = 512;
const SENDS: usize = 8;
/// Tracks of a chain, each below the one before.
const CHAIN: usize = 4;
/// Frames between the first frames of two sounds.
const APART: usize = 997;
/// Of a five-second fade, 468.75 blocks, the end has come.
const SECOND_FADE: usize = 470;

pub const GROWTH: [usize; 6] = [1, 2, 4, 8, 16, 32];

/// The scenes that a word stands for.
pub fn named(word: &str) -> Vec<String> {
	let parts: Vec<String> = match word {
		"growth" => GROWTH.map(|tracks| tracks.to_string()).into(),
		"waiting" => ["single", "steady"].map(String::from).into(),
		"short" => ["1", "4", "16", "block-1", "block-16"]
			.map(String::from)
			.into(),
		_ => return vec![word.into()],
	};
	parts.iter().map(|part| format!("{word}-{part}")).collect()
}

/// A scene file, and how many frames of samples it plays from. Every second
/// sound is from the visitor, whose buffer has the same samples.
pub struct Scene {
	pub name: String,
	pub file: String,
	pub sample_frames: usize,
}

/// The scene of a name, so many blocks long.
pub fn scene(name: &str, blocks: usize) -> Option<Scene> {
	let tables = match name {
		"steady" => steady(32),
		"fading" => Tables {
			orders: fades(blocks),
			..steady(32)
		},
		"single" => single(),
		"paused" => Tables {
			orders: pauses(),
			..steady(32)
		},
		"placed" => Tables {
			placings: placings(32),
			..steady(32)
		},
		"waiting-single" => Tables {
			orders: vec![waits()],
			..single()
		},
		"waiting-steady" => Tables {
			orders: vec![waits()],
			..steady(32)
		},
		"wide" => Tables {
			channels: 8,
			..single()
		},
		"empty" => Tables {
			buffer: 16,
			tracks: vec![],
			sounds: vec![],
			orders: vec![waits()],
			..single()
		},
		_ => match name.split_once('-')? {
			("growth", tracks) => steady(tracks.parse().ok()?),
			("short", part) => short(part, blocks)?,
			_ => return None,
		},
	};
	let sample_frames = match tables.sounds.len() {
		0 => 0,
		sounds => blocks * tables.block + (sounds - 1) * APART,
	};
	Some(Scene {
		name: name.into(),
		file: tables.file(blocks),
		sample_frames,
	})
}

/// Numbers of a linear congruential generator, in -1/64..1/64: the sums of all
/// sounds stay below the clamp, and no product comes near a subnormal number.
pub fn samples(frames: usize) -> Vec<f32> {
	let mut state = 1u32;
	let mut next = || {
		state = state.wrapping_mul(1_664_525).wrapping_add(1_013_904_223);
		((state >> 8) as f32 / (1 << 23) as f32 - 1.0) / 64.0
	};
	(0..2 * frames).map(|_| next()).collect()
}

struct Tables {
	channels: usize,
	buffer: usize,
	block: usize,
	volume: i32,
	tracks: Vec<[usize; 1]>,
	sends: usize,
	routes: Vec<[usize; 2]>,
	/// The track of each.
	sounds: Vec<usize>,
	/// With one, there is a listener too.
	placings: Vec<String>,
	orders: Vec<String>,
}

impl Tables {
	fn file(&self, blocks: usize) -> String {
		let volume = self.volume;
		let tracks = self
			.tracks
			.iter()
			.map(|[parent]| format!("{parent} {volume}"));
		let sends = (0..self.sends).map(|_| volume.to_string());
		let routes = self
			.routes
			.iter()
			.map(|[track, send]| format!("{track} {send} {volume}"));
		let count = blocks * self.block;
		let sounds = self.sounds.iter().zip(0..);
		let sounds = sounds.map(|(track, k)| format!("{track} {} {count} {}", k * APART, k % 2));
		let (channels, buffer, block) = (self.channels, self.buffer, self.block);
		let mut text = format!(
			"rate channels buffer block blocks volume\n48000 {channels} {buffer} {block} {blocks} {volume}\n"
		);
		table(&mut text, "unit speed ticking", []);
		table(&mut text, "parent volume", tracks);
		table(&mut text, "volume", sends);
		table(&mut text, "track send volume", routes);
		table(&mut text, "track first count from", sounds);
		let listener = self.placings.first().map(|_| "1500 -250 125".into());
		table(&mut text, "x y z", listener);
		table(
			&mut text,
			"track x y z near far",
			self.placings.iter().cloned(),
		);
		let orders = "block kind index volume clock when part millis easing power";
		table(&mut text, orders, self.orders.iter().cloned());
		text
	}
}

fn table(text: &mut String, names: &str, lines: impl IntoIterator<Item = String>) {
	write!(text, "\n{names}\n").expect("text grows");
	for line in lines {
		writeln!(text, "{line}").expect("text grows");
	}
}

/// Chains of four tracks, two sounds and two routes a track.
fn steady(tracks: usize) -> Tables {
	let parent = |track: usize| {
		if (track - 1).is_multiple_of(CHAIN) {
			0
		} else {
			track - 1
		}
	};
	let send = |track: usize, step: usize| (track + step) % SENDS + 1;
	Tables {
		channels: 2,
		buffer: 128,
		block: BLOCK,
		volume: -3000,
		tracks: (1..=tracks).map(|track| [parent(track)]).collect(),
		sends: SENDS,
		routes: (1..=tracks)
			.flat_map(|track| [[track, send(track, 0)], [track, send(track, 3)]])
			.collect(),
		sounds: (1..=tracks).flat_map(|track| [track, track]).collect(),
		placings: vec![],
		orders: vec![],
	}
}

/// Fading in short chunks: buffers of so many frames, or blocks.
fn short(part: &str, blocks: usize) -> Option<Tables> {
	let fading = Tables {
		orders: fades(blocks),
		..steady(32)
	};
	match part.split_once('-') {
		Some(("block", block)) => Some(Tables {
			block: block.parse().ok()?,
			..fading
		}),
		Some(_) => None,
		None => Some(Tables {
			buffer: part.parse().ok()?,
			..fading
		}),
	}
}

/// Every track between near and far, each at another distance.
fn placings(tracks: i32) -> Vec<String> {
	(1..=tracks)
		.map(|track| format!("{track} {} {} 0 500 100000", 200 * track, 2000 - 90 * track))
		.collect()
}

/// One track at 0 dB with one sound; the main track at 0 dB too.
fn single() -> Tables {
	Tables {
		channels: 2,
		buffer: 128,
		block: BLOCK,
		volume: 0,
		tracks: vec![[0]],
		sends: 0,
		routes: vec![],
		sounds: vec![1],
		placings: vec![],
		orders: vec![],
	}
}

/// Every track to -20 dB, and back to -3 dB: five seconds each, InOutPowi(3). In
/// a show shorter than two fades the second begins in the middle.
fn fades(blocks: usize) -> Vec<String> {
	let second = if blocks > 2 * SECOND_FADE {
		SECOND_FADE
	} else {
		blocks / 2
	};
	let all = |block: usize, volume: i32| {
		(1..=32).map(move |track| format!("{block} 1 {track} {volume} 0 0 0 5000 3 3"))
	};
	all(0, -20_000).chain(all(second, -3000)).collect()
}

/// Every second chain, by its top track, at once.
fn pauses() -> Vec<String> {
	let tops = (1..=32).step_by(2 * CHAIN);
	tops.map(|track| format!("0 4 {track} 0 0 0 0 0 0 0"))
		.collect()
}

/// The main volume, in an hour: its start is waited for through the whole show.
fn waits() -> String {
	"0 0 0 -6000 0 3600000 0 1 0 0".into()
}
