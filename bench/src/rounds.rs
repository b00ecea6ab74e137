//! The rounds of a scene: the sides in turn, and their outputs compared. A round has every scene once, so
//! that the times of one round lie close together.

use std::time::Duration;

use crate::{
	scenes::Scene,
	sides::{Side, reading},
};

/// What every output sample holds before a render: no output has it.
const BEFORE: f32 = f32::from_bits(0x4444_4444);

/// A scene with its buffers, and the times of the rounds so far.
pub struct Running<'a> {
	scene: &'a Scene,
	samples: &'a [f32],
	frames: usize,
	outputs: [Vec<f32>; 3],
	times: [Vec<Duration>; 3],
	readings: Vec<Duration>,
}

pub struct Measured {
	pub name: String,
	pub frames: usize,
	/// Nanoseconds of each round, in the order of `Side::ALL`.
	pub times: [Vec<f64>; 3],
	pub medians: [f64; 3],
	/// Of the same: a busy machine moves these less.
	pub fastest: [f64; 3],
	pub reading: f64,
	pub outputs: Outputs,
}

/// What the outputs of the last round are.
pub struct Outputs {
	pub samples: usize,
	pub peak: f32,
	pub zeros: usize,
	/// Where kira's `powf` gives another sample than the table, and by how much.
	pub powf_differs: usize,
	pub powf_farthest: f32,
}

impl Measured {
	pub fn per_frame(&self, side: usize) -> f64 {
		self.medians[side] / self.frames as f64
	}
}

impl<'a> Running<'a> {
	pub fn new(scene: &'a Scene, samples: &'a [f32]) -> Self {
		let tables = scene::accepted(scene.file.as_bytes()).expect("an accepted scene");
		Self {
			scene,
			samples: &samples[..2 * scene.sample_frames],
			frames: tables.head.block * tables.head.blocks,
			outputs: Side::ALL.map(|_| vec![BEFORE; scene::output_length(&tables)]),
			times: Side::ALL.map(|_| vec![]),
			readings: vec![],
		}
	}

	/// Panics where room_desk and kira with the table differ in a bit.
	pub fn round(&mut self, round: usize) {
		for turn in 0..Side::ALL.len() {
			// Each side comes first, second and third in turn.
			let place = (turn + round) % Side::ALL.len();
			let output = &mut self.outputs[place];
			output.fill(BEFORE);
			let time = Side::ALL[place].render(self.scene, self.samples, output);
			self.times[place].push(time);
		}
		self.readings.push(reading(self.scene, self.samples));
		assert!(
			same_bits(&self.outputs[0], &self.outputs[2]),
			"{}: room_desk and kira with the table differ",
			self.scene.name
		);
	}

	pub fn measured(&self) -> Measured {
		let times = self.times.clone().map(nanos);
		Measured {
			name: self.scene.name.clone(),
			frames: self.frames,
			medians: times.clone().map(median),
			fastest: times.clone().map(fastest),
			times,
			reading: median(nanos(self.readings.clone())),
			outputs: compared(&self.outputs[1], &self.outputs[2]),
		}
	}
}

/// Renders once with one side, for a profiler.
pub fn once(side: Side, scene: &Scene, samples: &[f32]) -> Duration {
	let tables = scene::accepted(scene.file.as_bytes()).expect("an accepted scene");
	let mut output = vec![BEFORE; scene::output_length(&tables)];
	let time = side.render(scene, &samples[..2 * scene.sample_frames], &mut output);
	assert!(!output.contains(&BEFORE), "a sample was not written");
	time
}

fn same_bits(a: &[f32], b: &[f32]) -> bool {
	a.len() == b.len() && a.iter().zip(b).all(|(x, y)| x.to_bits() == y.to_bits())
}

fn compared(powf: &[f32], table: &[f32]) -> Outputs {
	let apart = |(x, y): (&f32, &f32)| (x - y).abs();
	let pairs = || powf.iter().zip(table);
	Outputs {
		samples: table.len(),
		peak: table.iter().fold(0.0, |peak, x| peak.max(x.abs())),
		zeros: table.iter().filter(|x| **x == 0.0).count(),
		powf_differs: pairs().filter(|pair| apart(*pair) != 0.0).count(),
		powf_farthest: pairs().map(apart).fold(0.0, f32::max),
	}
}

fn nanos(times: Vec<Duration>) -> Vec<f64> {
	times.iter().map(|time| time.as_nanos() as f64).collect()
}

pub fn median(mut times: Vec<f64>) -> f64 {
	times.sort_by(f64::total_cmp);
	let middle = times.len() / 2;
	if times.len().is_multiple_of(2) {
		return (times[middle] + times[middle - 1]) / 2.0;
	}
	times[middle]
}

fn fastest(times: Vec<f64>) -> f64 {
	times.into_iter().fold(f64::INFINITY, f64::min)
}
