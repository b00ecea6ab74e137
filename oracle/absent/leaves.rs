// Ours: kira's small pieces, one by one, for the vectors of the lower crates.

use std::time::Duration;

use scene::{Order, Placing, Position, Volume};

use crate::{
	Decibels, Frame, Parameter, StartTime, Tweenable, Value,
	clock::{Clock, ClockId, State},
	harness::{at_once, clock_speed, decibels, easing, position, spatial, start_time, tween},
	info::{Info, MockInfoBuilder},
	playback_state_manager::PlaybackStateManager,
	track::{SpatialTrackBuilder, spatialized},
};

/// The amplitude, where the amplitude routine accepts the number.
pub fn amplitude(decibels: f32) -> Option<f32> {
	(decibels <= 23.0).then(|| Decibels(decibels).as_amplitude())
}

pub fn eased(kind: i32, power: i32, x: f64) -> f64 {
	easing(kind, power).apply(x)
}

pub fn interpolated(a: f32, b: f32, amount: f64) -> f32 {
	Decibels::interpolate(Decibels(a), Decibels(b), amount).0
}

/// What a placed track's frames are multiplied by.
pub fn attenuation(listener: Position, placing: &Placing) -> f32 {
	let builder = spatial(SpatialTrackBuilder::new(), placing);
	let place = position(placing.position);
	spatialized(builder, position(listener), place, Frame::from_mono(1.0)).left
}

/// A clock's ticks and fraction after each step.
pub fn clock(unit: i32, speed: i32, ticking: bool, steps: &[f64]) -> Vec<(u64, f64)> {
	let info = Clocks::default().info();
	let id = Clocks(vec![(false, 0, 0.0)]).id(1);
	let (mut clock, mut handle) = Clock::new(Value::Fixed(clock_speed(unit, speed)), id);
	if ticking {
		handle.start();
	}
	clock.on_start_processing();
	let times = steps.iter().map(|dt| {
		clock.update(*dt, &info);
		match clock.state() {
			State::NotStarted => (0, 0.0),
			State::Started {
				ticks,
				fractional_position,
			} => (ticks, fractional_position),
		}
	});
	times.collect()
}

/// The clocks as a chunk finds them: ticking, ticks, fraction.
#[derive(Clone, Default)]
pub struct Clocks(pub Vec<(bool, u64, f64)>);

impl Clocks {
	fn built(&self) -> (MockInfoBuilder, Vec<ClockId>) {
		let mut builder = MockInfoBuilder::new();
		let add = |clock: &(bool, u64, f64)| builder.add_clock(clock.0, clock.1, clock.2);
		let ids = self.0.iter().map(add).collect();
		(builder, ids)
	}

	fn info(&self) -> Info<'static> {
		self.built().0.build()
	}

	/// A clock has the same id in every chunk: the arena gives keys in turn.
	fn id(&self, clock: usize) -> ClockId {
		self.built().1[clock - 1]
	}
}

/// A chunk: its length, the place inside it that is read, and the clocks.
#[derive(Clone)]
pub struct Chunk {
	pub dt: f64,
	pub amount: f64,
	pub clocks: Clocks,
}

/// What a trace meets in turn. An order's volume and start are read as a
/// scene's orders are; its block, kind and index are not looked at.
#[derive(Clone)]
pub enum Event {
	Set(Order),
	Pause(Order),
	Resume(Order),
	Update(Chunk),
}

#[derive(Debug, Clone, Copy, PartialEq)]
pub struct ParameterState {
	pub finished: bool,
	pub value: f32,
	pub previous: f32,
	pub interpolated: f32,
}

#[derive(Debug, Clone, Copy, PartialEq)]
pub struct PlaybackState {
	pub changed: bool,
	pub state: u8,
	pub advancing: bool,
	pub value: f32,
	pub previous: f32,
	pub interpolated: f32,
}

/// A parameter of decibels after each update of a trace.
pub fn parameter(initial: Volume, events: &[Event]) -> Vec<ParameterState> {
	let mut parameter = Parameter::new(Value::Fixed(decibels(initial)), Decibels::IDENTITY);
	let mut states = vec![];
	for event in events {
		match event {
			Event::Set(order) => {
				let target = Value::Fixed(decibels(order.volume));
				parameter.set(target, tween(order, start(order)));
			}
			Event::Update(chunk) => states.push(ParameterState {
				finished: parameter.update(chunk.dt, &chunk.clocks.info()),
				value: parameter.value().0,
				previous: parameter.previous_value().0,
				interpolated: parameter.interpolated_value(chunk.amount).0,
			}),
			Event::Pause(_) | Event::Resume(_) => unreachable!("not a parameter's event"),
		}
	}
	states
}

/// A playback state manager after each update of a trace.
pub fn playback(events: &[Event]) -> Vec<PlaybackState> {
	let updates = (0..events.len()).filter(|n| matches!(events[*n], Event::Update(_)));
	updates.map(|n| playback_after(&events[..=n])).collect()
}

/// The fade's value is private, but one more update makes it the previous
/// one; so each prefix of a trace is run with a manager of its own.
fn playback_after(events: &[Event]) -> PlaybackState {
	let mut manager = PlaybackStateManager::new(None);
	let (last, before) = events.split_last().expect("an update");
	for event in before {
		run(&mut manager, event);
	}
	let Event::Update(chunk) = last else {
		unreachable!("the last event is an update")
	};
	let changed = run(&mut manager, last);
	let state = manager.playback_state();
	let previous = manager.interpolated_fade_volume(0.0).0;
	let interpolated = manager.interpolated_fade_volume(chunk.amount).0;
	run(&mut manager, last);
	PlaybackState {
		changed,
		state: state as u8,
		advancing: state.is_advancing(),
		value: manager.interpolated_fade_volume(0.0).0,
		previous,
		interpolated,
	}
}

fn run(manager: &mut PlaybackStateManager, event: &Event) -> bool {
	match event {
		Event::Set(_) => unreachable!("not a playback state manager's event"),
		Event::Pause(order) => manager.pause(tween(order, start(order))),
		Event::Resume(order) => manager.resume(start(order), at_once(tween(order, start(order)))),
		Event::Update(chunk) => return manager.update(chunk.dt, &chunk.clocks.info()),
	}
	false
}

fn start(order: &Order) -> StartTime {
	// Eight clocks are the most that a scene has.
	let clocks = Clocks(vec![(false, 0, 0.0); 8]);
	start_time(order.start, |clock| clocks.id(clock))
}

pub fn nanoseconds(seconds: f64) -> Option<u128> {
	Duration::try_from_secs_f64(seconds)
		.ok()
		.map(|d| d.as_nanos())
}

pub fn seconds(millis: u64) -> f64 {
	Duration::from_millis(millis).as_secs_f64()
}
