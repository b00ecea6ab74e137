//! The tables that are printed.

use crate::{
	rounds::{Measured, median},
	scenes::GROWTH,
};

const OURS: usize = 0;
const POWF: usize = 1;
const TABLE: usize = 2;

pub fn heading(blocks: usize, rounds: usize) {
	println!(
		"48,000 Hz, {blocks} blocks, of 512 frames unless a name says otherwise; {rounds} rounds of all scenes, the three in turn."
	);
	println!(
		"Only the rendering is timed, by the processor time of its thread. Before each render the output"
	);
	println!(
		"buffer is filled with 0x44444444, untimed. room_desk's time has the reading of the scene and the"
	);
	println!(
		"samples' check in it (`reading`), kira's has neither. room_desk = kira with the table is checked in"
	);
	println!("every bit of every round; a difference ends the run.\n");
	println!(
		"          | medians                                                                 | fastest round                       |"
	);
	println!(
		"          | room_desk        | kira powf       | kira table      | powf/  table/   |   room    powf   table powf/ table/ | reading"
	);
	println!(
		"scene     |      ms ns/frame |     ms ns/frame |     ms ns/frame |  room    room   |     ms      ms      ms  room   room |      ms"
	);
}

pub fn row(measured: &Measured) {
	let over_ours = |times: &[f64; 3], side: usize| times[side] / times[OURS];
	let (medians, fastest) = (&measured.medians, &measured.fastest);
	print!(
		"{:9} | {:7.2} {:8.2}",
		measured.name,
		medians[OURS] / 1e6,
		measured.per_frame(OURS)
	);
	for side in [POWF, TABLE] {
		print!(
			" | {:6.2} {:8.2}",
			medians[side] / 1e6,
			measured.per_frame(side)
		);
	}
	print!(
		" | {:6.3}  {:6.3}   |",
		over_ours(medians, POWF),
		over_ours(medians, TABLE)
	);
	for time in fastest {
		print!(" {:7.2}", time / 1e6);
	}
	print!(
		" {:5.3}  {:5.3}",
		over_ours(fastest, POWF),
		over_ours(fastest, TABLE)
	);
	println!(" | {:7.3}", measured.reading / 1e6);
}

/// Two times of each round, divided: the machine's speed changes between rounds more than within one.
fn ratios(name: &str, above: &[f64], below: &[f64]) {
	let mut all: Vec<f64> = above.iter().zip(below).map(|(a, b)| a / b).collect();
	all.sort_by(f64::total_cmp);
	let (least, most) = (all[0], all[all.len() - 1]);
	println!("{name:38} {:6.3}   {least:6.3} to {most:6.3}", median(all));
}

pub fn summary(all: &[Measured]) {
	let find = |name: &str| all.iter().find(|measured| measured.name == name);
	println!("\nratios within a round                   median    least     most");
	for measured in all {
		let times = &measured.times;
		for (side, kira) in [(POWF, "powf"), (TABLE, "table")] {
			let name = format!("{}: kira {kira}/room_desk", measured.name);
			ratios(&name, &times[side], &times[OURS]);
		}
	}
	for scene in ["paused", "placed"] {
		let (Some(measured), Some(steady)) = (find(scene), find("steady")) else {
			continue;
		};
		for (side, name) in [(OURS, "room_desk"), (POWF, "kira powf")] {
			let name = format!("{scene}/steady: {name}");
			ratios(&name, &measured.times[side], &steady.times[side]);
		}
	}
	let growth = GROWTH.map(|tracks| (tracks, find(&format!("growth-{tracks}"))));
	if growth.iter().all(|(_, measured)| measured.is_some()) {
		println!("\ngrowth, ns/frame and ns/frame/track");
		println!("tracks   room_desk          kira powf          kira table");
		for (tracks, measured) in growth {
			growth_row(tracks, measured.expect("measured"));
		}
	}
	println!(
		"\noutputs           samples     zeros     peak   powf differs from the table in, at most by"
	);
	for measured in all {
		let outputs = &measured.outputs;
		print!(
			"{:14} {:10} {:9} {:8.4}",
			measured.name, outputs.samples, outputs.zeros, outputs.peak
		);
		println!("   {} {:e}", outputs.powf_differs, outputs.powf_farthest);
	}
}

fn growth_row(tracks: usize, measured: &Measured) {
	print!("{tracks:6}");
	for side in [OURS, POWF, TABLE] {
		let time = measured.per_frame(side);
		print!("  {time:8.2} {:7.2} ", time / tracks as f64);
	}
	println!();
}
