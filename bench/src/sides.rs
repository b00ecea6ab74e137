//! The three that render: room_desk, kira with the gain table, kira with its
//! own `powf`. Of each only the rendering is timed.

use std::time::Duration;

use crate::{room_desk, scenes::Scene};

unsafe extern "C" {
	fn clock_gettime(clock: i32, time: &mut Timespec) -> i32;
}

#[repr(C)]
struct Timespec {
	seconds: i64,
	nanoseconds: i64,
}

const CLOCK_THREAD_CPUTIME_ID: i32 = 3;

#[derive(Clone, Copy, PartialEq)]
pub enum Side {
	RoomDesk,
	KiraPowf,
	KiraTable,
}

impl Side {
	pub const ALL: [Self; 3] = [Self::RoomDesk, Self::KiraPowf, Self::KiraTable];

	pub fn named(name: &str) -> Option<Self> {
		match name {
			"room_desk" => Some(Self::RoomDesk),
			"powf" => Some(Self::KiraPowf),
			"table" => Some(Self::KiraTable),
			_ => None,
		}
	}

	/// Renders the whole show. room_desk's time has the reading of the scene and
	/// the samples' check in it; kira's begins when its mixer is built.
	pub fn render(self, scene: &Scene, samples: &[f32], output: &mut [f32]) -> Duration {
		self.rendered(scene.file.as_bytes(), [samples, samples], output)
	}

	/// The same of a scene file, with the house's and the visitor's samples.
	pub fn rendered(self, file: &[u8], samples: [&[f32]; 2], output: &mut [f32]) -> Duration {
		let tables = || scene::accepted(file).expect("an accepted scene");
		match self {
			Self::RoomDesk => {
				let [house, visitor] = samples;
				let (number, time) = timed(|| room_desk::render(file, house, visitor, output));
				assert_eq!(number, 0, "room_desk refuses the scene");
				time
			}
			Self::KiraPowf => {
				let mut show = kira_powf::harness::Show::new(&tables(), &recordings(samples));
				timed(|| show.render(output)).1
			}
			Self::KiraTable => {
				let mut show = kira_table::harness::Show::new(&tables(), &recordings(samples));
				timed(|| show.render(output)).1
			}
		}
	}
}

/// Kira's mixer built and the whole show rendered, from tables that are read.
pub fn built_and_rendered(file: &[u8], samples: [&[f32]; 2], output: &mut [f32]) -> Duration {
	let tables = scene::accepted(file).expect("an accepted scene");
	let recordings = recordings(samples);
	timed(|| kira_powf::harness::Show::new(&tables, &recordings).render(output)).1
}

fn recordings(samples: [&[f32]; 2]) -> scene::Recordings {
	samples.map(|samples| scene::Recording {
		samples: samples.to_vec(),
		broken: false,
	})
}

/// What room_desk does before the first block: a call whose output has a length
/// that question 10 refuses.
pub fn reading(scene: &Scene, samples: &[f32]) -> Duration {
	asked(scene.file.as_bytes(), [samples, samples])
}

pub fn asked(file: &[u8], [house, visitor]: [&[f32]; 2]) -> Duration {
	let (number, time) = timed(|| room_desk::render(file, house, visitor, &mut []));
	assert_eq!(number, 10, "question 10 is the last");
	time
}

fn timed<T>(work: impl FnOnce() -> T) -> (T, Duration) {
	let start = processor_time();
	let result = work();
	(result, processor_time() - start)
}

/// Of this thread: on a busy machine the waits for a processor don't count.
fn processor_time() -> Duration {
	let mut time = Timespec {
		seconds: 0,
		nanoseconds: 0,
	};
	// SAFETY: `time` is as the C library has it on Linux, x86-64.
	let failed = unsafe { clock_gettime(CLOCK_THREAD_CPUTIME_ID, &mut time) };
	assert_eq!(failed, 0, "the thread has a clock");
	Duration::new(time.seconds as u64, time.nanoseconds as u32)
}
