//! kira's small pieces, asked one by one: a request a line, an answer a line.
//! Floats are the decimal numbers of their bits. See oracle/README.md.

use std::io::{self, BufRead, Write};

use kira_table::leaves::{self, Chunk, Clocks, Event};
use scene::{Order, Placing, Position, Start};

pub fn run(input: &mut impl BufRead, output: &mut impl Write) -> io::Result<()> {
	for line in input.lines() {
		let line = line?;
		let answer = answer(&line).ok_or_else(|| io::Error::other(format!("unread: {line}")))?;
		writeln!(output, "{answer}")?;
	}
	output.flush()
}

fn answer(line: &str) -> Option<String> {
	let (name, request) = line.split_once(' ')?;
	let mut words = Words(request.split(' '));
	Some(match name {
		"amplitude" => match leaves::amplitude(words.f32()?) {
			Some(amplitude) => format!("0 {}", amplitude.to_bits()),
			None => "11".into(),
		},
		"rounding" => (words.f64()? as f32).to_bits().to_string(),
		"nanoseconds" => match leaves::nanoseconds(words.f64()?) {
			Some(nanoseconds) => nanoseconds.to_string(),
			None => "none".into(),
		},
		"seconds" => leaves::seconds(words.number()?).to_bits().to_string(),
		"easing" => leaves::eased(words.number()?, words.number()?, words.f64()?)
			.to_bits()
			.to_string(),
		"interpolation" => leaves::interpolated(words.f32()?, words.f32()?, words.f64()?)
			.to_bits()
			.to_string(),
		"attenuation" => attenuation(&mut words)?.to_bits().to_string(),
		"clock" => clock(&mut words)?,
		"parameter" => parameter(request)?,
		"playback" => playback(request)?,
		_ => return None,
	})
}

struct Words<'a>(std::str::Split<'a, char>);

impl Words<'_> {
	fn number<T: std::str::FromStr>(&mut self) -> Option<T> {
		self.0.next()?.parse().ok()
	}

	fn f32(&mut self) -> Option<f32> {
		self.number().map(f32::from_bits)
	}

	fn f64(&mut self) -> Option<f64> {
		self.number().map(f64::from_bits)
	}

	fn flag(&mut self) -> Option<bool> {
		self.number().map(|number: u8| number == 1)
	}

	fn ended(&self) -> bool {
		self.0.clone().next().is_none()
	}
}

/// Reads items until the words end.
fn all<T>(words: &mut Words, mut read: impl FnMut(&mut Words) -> Option<T>) -> Option<Vec<T>> {
	let mut items = vec![];
	while !words.ended() {
		items.push(read(words)?);
	}
	Some(items)
}

/// The fields of a listener's line, and of a placing's but its track.
fn attenuation(words: &mut Words) -> Option<f32> {
	let listener = position(words)?;
	let placing = Placing {
		track: 1,
		position: position(words)?,
		near: words.number()?,
		far: words.number()?,
	};
	Some(leaves::attenuation(listener, &placing))
}

fn position(words: &mut Words) -> Option<Position> {
	Some(Position {
		x: words.number()?,
		y: words.number()?,
		z: words.number()?,
	})
}

fn clock(words: &mut Words) -> Option<String> {
	let (unit, speed, ticking) = (words.number()?, words.number()?, words.flag()?);
	let steps = all(words, |words| words.f64())?;
	let times = leaves::clock(unit, speed, ticking, &steps);
	Some(joined(times, |(ticks, fraction)| {
		format!("{ticks} {}", fraction.to_bits())
	}))
}

fn parameter(request: &str) -> Option<String> {
	let (initial, events) = request.split_once(" | ")?;
	let states = leaves::parameter(initial.parse().ok()?, &read_events(events)?);
	Some(joined(states, |state| {
		let [value, previous, interpolated] =
			[state.value, state.previous, state.interpolated].map(f32::to_bits);
		let finished = u8::from(state.finished);
		format!("{finished} {value} {previous} {interpolated}")
	}))
}

fn playback(request: &str) -> Option<String> {
	let states = leaves::playback(&read_events(request)?);
	Some(joined(states, |state| {
		let [value, previous, interpolated] =
			[state.value, state.previous, state.interpolated].map(f32::to_bits);
		let (changed, advancing) = (u8::from(state.changed), u8::from(state.advancing));
		format!(
			"{changed} {} {advancing} {value} {previous} {interpolated}",
			state.state
		)
	}))
}

fn joined<T>(items: Vec<T>, text: impl FnMut(T) -> String) -> String {
	let texts: Vec<String> = items.into_iter().map(text).collect();
	texts.join(" | ")
}

fn read_events(text: &str) -> Option<Vec<Event>> {
	text.split(" | ").map(read_event).collect()
}

fn read_event(text: &str) -> Option<Event> {
	let mut words = Words(text.split(' '));
	Some(match words.0.next()? {
		"set" => {
			let volume = words.number()?;
			Event::Set(read_order(&mut words, volume)?)
		}
		"pause" => Event::Pause(read_order(&mut words, 0)?),
		"resume" => Event::Resume(read_order(&mut words, 0)?),
		"update" => Event::Update(Chunk {
			dt: words.f64()?,
			amount: words.f64()?,
			clocks: Clocks(all(&mut words, |words| {
				Some((words.flag()?, words.number()?, words.f64()?))
			})?),
		}),
		_ => return None,
	})
}

/// The fields of an order from `clock` on, as a scene has them.
fn read_order(words: &mut Words, volume: i32) -> Option<Order> {
	Some(Order {
		block: 0,
		kind: 0,
		index: 0,
		volume,
		start: Start::new(words.number()?, words.number()?, words.number()?),
		millis: words.number()?,
		easing: words.number()?,
		power: words.number()?,
	})
}
