//! The questions, in the words and the order of docs/QUESTIONS.md.

use std::collections::HashSet;

use crate::{
	Recording, Recordings, Scene,
	format::{Field, Layout, Rows, Table},
};

/// The number of the first question that says no.
pub type Refusal = u32;

const LONGEST_FILE: usize = 16_384;
const DEEPEST: usize = 4;

/// Questions 1 to 7: those that look at the file alone.
pub fn accepted(file: &[u8]) -> Result<Scene, Refusal> {
	ask(
		1,
		!file.is_empty() && file.len() <= LONGEST_FILE && file.ends_with(b"\n"),
	)?;
	let rows = Rows::read(file).ok_or(2u32)?;
	ask(3, line_counts_allowed(&rows))?;
	ask(4, fields_in_range(&rows))?;
	ask(5, references_name_lines(&rows))?;
	let scene = Scene::read(&rows);
	ask(6, depths(&scene).into_iter().all(|depth| depth <= DEEPEST))?;
	ask(7, routes_once(&scene))?;
	ask(7, tracks_placed_once(&scene))?;
	Ok(scene)
}

/// Questions 8 and 9, each of the house's samples and then of the visitor's.
pub fn sample_questions(scene: &Scene, recordings: &Recordings) -> Result<(), Refusal> {
	for (from, recording) in recordings.iter().enumerate() {
		ask(8, sounds_fit(scene, from, recording))?;
	}
	for recording in recordings {
		ask(9, samples_in_range(&recording.samples))?;
	}
	Ok(())
}

fn sounds_fit(scene: &Scene, from: usize, recording: &Recording) -> bool {
	let frames = recording.samples.len() / 2;
	let within = |first: usize, count: usize| first as u64 + count as u64 <= frames as u64;
	let mut sounds = scene.sounds.iter().filter(|sound| sound.from == from);
	!recording.broken
		&& recording.samples.len().is_multiple_of(2)
		&& sounds.all(|sound| within(sound.first, sound.count))
}

fn samples_in_range(samples: &[f32]) -> bool {
	samples
		.iter()
		.all(|x| x.is_finite() && (-1.0..=1.0).contains(x))
}

/// Question 10's length.
pub fn output_length(scene: &Scene) -> usize {
	scene.head.block * scene.head.blocks * scene.head.channels
}

fn ask(question: Refusal, yes: bool) -> Result<(), Refusal> {
	if yes { Ok(()) } else { Err(question) }
}

fn line_counts_allowed(rows: &Rows) -> bool {
	let mut tables = rows.tables();
	tables.all(|(layout, rows)| layout.lines.contains(&rows.len()))
}

fn fields_in_range(rows: &Rows) -> bool {
	let blocks = |row: &[i32]| row[0] < rows.of(Table::Head)[0][4];
	rows.tables()
		.all(|(layout, rows)| rows.iter().all(|row| row_in_range(layout, row)))
		&& rows.of(Table::Clocks).iter().all(|row| speed_in_range(row))
		&& rows.of(Table::Placings).iter().all(|row| row[4] < row[5])
		&& rows
			.of(Table::Orders)
			.iter()
			.all(|row| blocks(row) && order_in_range(row))
}

fn row_in_range(layout: &Layout, row: &[i32]) -> bool {
	let mut fields = layout.fields.iter().zip(row);
	fields.all(|(field, value)| match field {
		Field::Range(_, range) => range.contains(value),
		Field::Reference(_) => true,
	})
}

fn speed_in_range(row: &[i32]) -> bool {
	let speed = f64::from(row[1]) / 1000.0;
	let ticks_per_second = match row[0] {
		0 => 1.0 / speed,
		1 => speed,
		_ => speed / 60.0,
	};
	(0.0..=1000.0).contains(&ticks_per_second)
}

/// The rules between the fields of an order.
fn order_in_range(row: &[i32]) -> bool {
	let &[_, kind, _, volume, clock, when, part, millis, easing, power] = row else {
		return false;
	};
	let moves_volume = kind <= 3;
	let waits = clock != 0 || when > 0;
	(moves_volume || volume == 0)
		&& (clock != 0 || part == 0)
		&& (kind == 5 || !waits || millis >= 1)
		&& (easing == 0) == (power == 0)
}

fn references_name_lines(rows: &Rows) -> bool {
	let line = |table: Table, number: i32| (1..=rows.count(table) as i32).contains(&number);
	let line_or_0 = |table: Table, number: i32| number == 0 || line(table, number);
	let named = |kind: i32, index: i32| match kind {
		0 => index == 0,
		2 => line(Table::Sends, index),
		3 => line(Table::Routes, index),
		_ => line(Table::Tracks, index),
	};
	let mut tracks = rows.of(Table::Tracks).iter().zip(0..);
	let mut routes = rows.of(Table::Routes).iter();
	let mut sounds = rows.of(Table::Sounds).iter();
	let mut placings = rows.of(Table::Placings).iter();
	let mut orders = rows.of(Table::Orders).iter();
	tracks.all(|(row, earlier)| (0..=earlier).contains(&row[0]))
		&& routes.all(|row| line(Table::Tracks, row[0]) && line(Table::Sends, row[1]))
		&& sounds.all(|row| line_or_0(Table::Tracks, row[0]))
		&& placings.all(|row| line(Table::Tracks, row[0]))
		&& orders.all(|row| named(row[1], row[2]) && line_or_0(Table::Clocks, row[4]))
}

/// A track right under the mixer has depth 1.
fn depths(scene: &Scene) -> Vec<usize> {
	let mut depths = vec![0];
	for track in &scene.tracks {
		depths.push(depths[track.parent] + 1);
	}
	depths
}

fn routes_once(scene: &Scene) -> bool {
	let mut seen = HashSet::new();
	let mut routes = scene.routes.iter();
	routes.all(|route| seen.insert((route.track, route.send)))
}

fn tracks_placed_once(scene: &Scene) -> bool {
	let mut seen = HashSet::new();
	let mut placings = scene.placings.iter();
	placings.all(|placing| seen.insert(placing.track))
}
