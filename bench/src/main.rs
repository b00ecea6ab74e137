//! Measures `room_desk_render` next to kira. See bench/README.md.

mod cases;
mod report;
#[path = "../../drivers/room_desk.rs"]
mod room_desk;
mod rounds;
mod scenes;
mod sides;

use std::{env, process::ExitCode};

const USAGE: &str = "usage: bench [--rounds N] [--blocks N] [SCENE...]
       bench [--blocks N] --only SIDE SCENE   renders once, for a profiler; SIDE: room_desk powf table
       bench [--rounds N] --cases             scenes of `oracle/scripts/cases.py long` from standard input
scenes: steady fading single paused placed waiting short wide empty growth; all by default
        (waiting: -single -steady; short: -1 -4 -16 -block-1 -block-16; growth: -1 -2 -4 -8 -16 -32)";

struct Options {
	rounds: usize,
	blocks: usize,
	/// One side alone.
	only: Option<sides::Side>,
	/// Scenes from standard input.
	cases: bool,
	names: Vec<String>,
}

fn main() -> ExitCode {
	let words: Vec<String> = env::args().skip(1).collect();
	match options(&words) {
		Some(options) => {
			run(&options);
			ExitCode::SUCCESS
		}
		None => {
			eprintln!("{USAGE}");
			ExitCode::FAILURE
		}
	}
}

fn options(words: &[String]) -> Option<Options> {
	let mut options = Options {
		rounds: 7,
		blocks: 1024,
		only: None,
		cases: false,
		names: vec![],
	};
	let mut words = words.iter();
	while let Some(word) = words.next() {
		match word.as_str() {
			"--rounds" => options.rounds = words.next()?.parse().ok()?,
			"--blocks" => options.blocks = words.next()?.parse().ok()?,
			"--cases" => options.cases = true,
			"--only" => options.only = Some(sides::Side::named(words.next()?)?),
			name => options.names.push(name.into()),
		}
	}
	if options.names.is_empty() {
		options.names = [
			"steady", "fading", "single", "paused", "placed", "waiting", "short", "wide", "empty",
			"growth",
		]
		.map(String::from)
		.into();
	}
	options.names = options
		.names
		.iter()
		.flat_map(|name| scenes::named(name))
		.collect();
	let sizes = (1..=1024).contains(&options.blocks) && options.rounds >= 1;
	let known = (options.names.iter()).all(|name| scenes::scene(name, 1).is_some());
	(sizes && known).then_some(options)
}

fn run(options: &Options) {
	if options.cases {
		cases::run(options.rounds);
		return;
	}
	let scene = |name: &String| scenes::scene(name, options.blocks).expect("a known name");
	let all: Vec<scenes::Scene> = options.names.iter().map(scene).collect();
	if let Some(side) = options.only {
		for scene in &all {
			let time = rounds::once(side, scene, &scenes::samples(scene.sample_frames));
			println!("{}: {:.3} ms", scene.name, time.as_secs_f64() * 1e3);
		}
		return;
	}
	let frames = all
		.iter()
		.map(|scene| scene.sample_frames)
		.max()
		.expect("a scene");
	let samples = scenes::samples(frames);
	report::heading(options.blocks, options.rounds);
	let mut running: Vec<rounds::Running> = all
		.iter()
		.map(|scene| rounds::Running::new(scene, &samples))
		.collect();
	for round in 0..options.rounds {
		for scene in &mut running {
			scene.round(round);
		}
	}
	let measured: Vec<rounds::Measured> = running.iter().map(|scene| scene.measured()).collect();
	for scene in &measured {
		report::row(scene);
	}
	report::summary(&measured);
}
