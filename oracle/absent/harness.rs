// Ours: what kira's `AudioManager` and a game would do. Builds the mixer of a
// scene, writes its orders through kira's command writers and drives kira's
// `Renderer`.

use std::{
	convert::Infallible,
	sync::{Arc, atomic::Ordering},
	time::Duration,
};

use glam::{Quat, Vec3};
use scene::{Order, Placing, Position, Recordings, Scene, Sound as SoundLine, Start, Volume};

use crate::{
	Capacities, Decibels, Easing, Frame, StartTime, Tween, Value,
	backend::{
		Renderer, RendererShared,
		resources::{ResourceControllers, create_resources},
	},
	clock::{Clock, ClockHandle, ClockId, ClockSpeed, ClockTime},
	info::Info,
	listener::{Listener, ListenerHandle, ListenerId},
	sound::{Sound, SoundData},
	track::{
		MainTrackBuilder, SendTrackBuilder, SendTrackHandle, SendTrackId, SpatialTrackBuilder,
		TrackBuilder, TrackHandle,
	},
};

/// Kinds of orders.
const PAUSE: i32 = 4;
const RESUME: i32 = 5;

/// A scene in kira's hands. The handles stand in line order; dropping one
/// would remove what it stands for.
pub struct Show {
	renderer: Renderer,
	controllers: ResourceControllers,
	clocks: Vec<ClockHandle>,
	listener: Option<ListenerHandle>,
	sends: Vec<SendTrackHandle>,
	tracks: Vec<TrackHandle>,
	scene: Scene,
}

impl Show {
	pub fn new(scene: &Scene, recordings: &Recordings) -> Self {
		let shared = Arc::new(RendererShared::new(scene.head.rate as u32));
		let buffer = scene.head.buffer;
		let (resources, controllers) = create_resources(
			Capacities::default(),
			MainTrackBuilder::new().volume(decibels(scene.head.volume)),
			shared.sample_rate.load(Ordering::SeqCst),
			buffer,
		);
		let mut show = Self {
			renderer: Renderer::new(shared.clone(), buffer, resources),
			controllers,
			clocks: vec![],
			listener: None,
			sends: vec![],
			tracks: vec![],
			scene: scene.clone(),
		};
		show.add_clocks();
		show.add_sends();
		let listener = show.add_listener();
		show.add_tracks(&shared, listener);
		show.add_sounds(recordings);
		show
	}

	/// Renders the whole show. The output has question 10's length.
	pub fn render(&mut self, out: &mut [f32]) {
		let channels = self.scene.head.channels;
		for (block, out) in out.chunks_mut(self.scene.head.block * channels).enumerate() {
			self.write_orders(block);
			self.renderer.on_start_processing();
			self.renderer.process(out, channels as u16);
		}
	}

	/// Renders the show chunk by chunk: the tracks' states in line order, once
	/// updated in each chunk, by kira's numbers.
	pub fn states(&mut self) -> Vec<u32> {
		let (channels, mut states) = (self.scene.head.channels, vec![]);
		for block in 0..self.scene.head.blocks {
			self.write_orders(block);
			self.renderer.on_start_processing();
			let mut out = vec![0.0; self.scene.head.block * channels];
			for chunk in out.chunks_mut(self.scene.head.buffer * channels) {
				self.renderer.process(chunk, channels as u16);
				states.extend(self.tracks.iter().map(|track| track.state() as u32));
			}
		}
		states
	}

	fn add_clocks(&mut self) {
		for line in &self.scene.clocks {
			let controller = &mut self.controllers.clock_controller;
			let key = controller.try_reserve().expect("a place for a clock");
			let speed = Value::Fixed(clock_speed(line.unit, line.speed));
			let (clock, mut handle) = Clock::new(speed, ClockId(key));
			if line.ticking {
				handle.start();
			}
			controller.insert_with_key(key, clock);
			self.clocks.push(handle);
		}
	}

	fn add_sends(&mut self) {
		for line in &self.scene.sends {
			let controller = &mut self.controllers.send_track_controller;
			let key = controller.try_reserve().expect("a place for a send track");
			let builder = SendTrackBuilder::new().volume(decibels(line.volume));
			let (track, handle) = builder.build(SendTrackId(key), self.scene.head.buffer);
			controller.insert_with_key(key, track);
			self.sends.push(handle);
		}
	}

	/// The id that spatial tracks name. Without a line it finds nothing, as that
	/// of a listener that was removed.
	fn add_listener(&mut self) -> ListenerId {
		let controller = &mut self.controllers.listener_controller;
		let key = controller.try_reserve().expect("a place for a listener");
		if let Some(line) = self.scene.listener {
			let place = Value::Fixed(position(line));
			let (listener, handle) =
				Listener::new(ListenerId(key), place, Value::Fixed(Quat::IDENTITY));
			controller.insert_with_key(key, listener);
			self.listener = Some(handle);
		}
		ListenerId(key)
	}

	fn add_tracks(&mut self, shared: &Arc<RendererShared>, listener: ListenerId) {
		for number in 1..=self.scene.tracks.len() {
			let builder = self.track_builder(number);
			let mut placings = self.scene.placings.iter();
			let handle = match placings.find(|line| line.track == number).copied() {
				Some(line) => {
					let builder = spatial(builder, &line);
					self.add_spatial_track(
						number,
						shared,
						builder,
						listener,
						position(line.position),
					)
				}
				None => self.add_track(number, shared, TrackBuilder(builder)),
			};
			self.tracks.push(handle);
		}
	}

	fn add_track(
		&mut self,
		number: usize,
		shared: &Arc<RendererShared>,
		builder: TrackBuilder,
	) -> TrackHandle {
		match self.scene.tracks[number - 1].parent {
			0 => {
				let (track, handle) = builder.build(shared.clone(), self.scene.head.buffer);
				let controller = &mut self.controllers.sub_track_controller;
				controller.insert(track).expect("a place for a track");
				handle
			}
			parent => {
				(self.tracks[parent - 1].add_sub_track(builder)).expect("a place for a track")
			}
		}
	}

	fn add_spatial_track(
		&mut self,
		number: usize,
		shared: &Arc<RendererShared>,
		builder: SpatialTrackBuilder,
		listener: ListenerId,
		place: Vec3,
	) -> TrackHandle {
		TrackHandle(match self.scene.tracks[number - 1].parent {
			0 => {
				let buffer = self.scene.head.buffer;
				let (track, handle) =
					builder.build(shared.clone(), buffer, listener, Value::Fixed(place));
				let controller = &mut self.controllers.sub_track_controller;
				controller.insert(track).expect("a place for a track");
				handle
			}
			parent => (self.tracks[parent - 1].add_spatial_sub_track(listener, place, builder))
				.expect("a place for a track"),
		})
	}

	/// With the track's volume and routes; `TrackBuilder` makes a plain track of it.
	fn track_builder(&self, number: usize) -> SpatialTrackBuilder {
		let volume = decibels(self.scene.tracks[number - 1].volume);
		let routes = self.scene.routes.iter();
		routes.filter(|route| route.track == number).fold(
			SpatialTrackBuilder::new().volume(volume),
			|builder, route| builder.with_send(&self.sends[route.send - 1], decibels(route.volume)),
		)
	}

	fn add_sounds(&mut self, recordings: &Recordings) {
		let buffers = recordings.each_ref().map(|recording| {
			let (frames, _) = recording.samples.as_chunks::<2>();
			frames.iter().map(|f| Frame::new(f[0], f[1])).collect()
		});
		for line in &self.scene.sounds {
			let sound = FramesSound::new(line, &buffers[line.from]);
			let played = match line.track {
				0 => self.controllers.main_track_handle.play(sound),
				track => self.tracks[track - 1].play(sound),
			};
			played.expect("a place for a sound");
		}
	}

	/// In file order: the last of alike orders is the one that kira reads.
	fn write_orders(&mut self, block: usize) {
		for number in 0..self.scene.orders.len() {
			let order = self.scene.orders[number];
			if order.block == block && !self.is_dropped(&order) {
				self.write(&order);
			}
		}
	}

	/// Our rule, not kira's, which would read the resume after the pause: where
	/// the last pause line for a block and track stands after the last resume
	/// line, the resume is dropped.
	fn is_dropped(&self, order: &Order) -> bool {
		let last_line = |kind| {
			let named = |other: &Order| {
				(other.block, other.kind, other.index) == (order.block, kind, order.index)
			};
			self.scene.orders.iter().rposition(named)
		};
		order.kind == RESUME && last_line(PAUSE) > last_line(RESUME)
	}

	fn write(&mut self, order: &Order) {
		let start = self.start_time(order.start);
		let tween = tween(order, start);
		let volume = decibels(order.volume);
		// Kind 0 names no line.
		let line = order.index.saturating_sub(1);
		match order.kind {
			0 => (self.controllers.main_track_handle).set_volume(volume, tween),
			1 => self.tracks[line].set_volume(volume, tween),
			2 => self.sends[line].set_volume(volume, tween),
			3 => self.write_route(line, volume, tween),
			PAUSE => self.tracks[line].pause(tween),
			// The start belongs to the resume; its fade begins at once.
			RESUME => self.tracks[line].resume_at(start, at_once(tween)),
			kind => unreachable!("an accepted order has no kind {kind}"),
		}
	}

	fn write_route(&mut self, line: usize, volume: Decibels, tween: Tween) {
		let route = self.scene.routes[line];
		let send = self.sends[route.send - 1].id();
		self.tracks[route.track - 1]
			.set_send(send, volume, tween)
			.expect("the track has this route");
	}

	fn start_time(&self, start: Start) -> StartTime {
		start_time(start, |clock| self.clocks[clock - 1].id())
	}
}

pub(crate) fn decibels(volume: Volume) -> Decibels {
	Decibels(thousandths(volume))
}

fn thousandths(number: i32) -> f32 {
	number as f32 / 1000.0
}

pub(crate) fn position(line: Position) -> Vec3 {
	Vec3::new(
		thousandths(line.x),
		thousandths(line.y),
		thousandths(line.z),
	)
}

/// Loudness by distance alone: linear attenuation, and nothing panned.
pub(crate) fn spatial(builder: SpatialTrackBuilder, line: &Placing) -> SpatialTrackBuilder {
	builder
		.distances((thousandths(line.near), thousandths(line.far)))
		.attenuation_function(Easing::Linear)
		.spatialization_strength(0.0)
}

pub(crate) fn clock_speed(unit: i32, speed: i32) -> ClockSpeed {
	let speed = f64::from(speed) / 1000.0;
	match unit {
		0 => ClockSpeed::SecondsPerTick(speed),
		1 => ClockSpeed::TicksPerSecond(speed),
		_ => ClockSpeed::TicksPerMinute(speed),
	}
}

pub(crate) fn easing(kind: i32, power: i32) -> Easing {
	match kind {
		0 => Easing::Linear,
		1 => Easing::InPowi(power),
		2 => Easing::OutPowi(power),
		_ => Easing::InOutPowi(power),
	}
}

pub(crate) fn start_time(start: Start, clock_id: impl Fn(usize) -> ClockId) -> StartTime {
	match start {
		Start::Immediate => StartTime::Immediate,
		Start::Delay { millis } => StartTime::Delayed(Duration::from_millis(millis)),
		Start::ClockTime { clock, tick, part } => StartTime::ClockTime(ClockTime {
			clock: clock_id(clock),
			ticks: tick,
			fraction: f64::from(part) / 1000.0,
		}),
	}
}

pub(crate) fn tween(order: &Order, start_time: StartTime) -> Tween {
	Tween {
		start_time,
		duration: Duration::from_millis(order.millis),
		easing: easing(order.easing, order.power),
	}
}

pub(crate) fn at_once(tween: Tween) -> Tween {
	Tween {
		start_time: StartTime::Immediate,
		..tween
	}
}

/// Frames in turn, then zeros. Never finished: our scenes remove nothing. The
/// sounds of a show share two buffers, as kira's static sounds can.
struct FramesSound {
	frames: Arc<[Frame]>,
	next: usize,
	end: usize,
}

impl FramesSound {
	fn new(line: &SoundLine, frames: &Arc<[Frame]>) -> Self {
		Self {
			frames: frames.clone(),
			next: line.first,
			end: line.first + line.count,
		}
	}
}

impl SoundData for FramesSound {
	type Error = Infallible;
	type Handle = ();

	fn into_sound(self) -> Result<(Box<dyn Sound>, ()), Infallible> {
		Ok((Box::new(self), ()))
	}
}

impl Sound for FramesSound {
	fn process(&mut self, out: &mut [Frame], _dt: f64, _info: &Info) {
		let count = out.len().min(self.end - self.next);
		let (played, silent) = out.split_at_mut(count);
		played.copy_from_slice(&self.frames[self.next..self.next + count]);
		silent.fill(Frame::ZERO);
		self.next += count;
	}

	fn finished(&self) -> bool {
		false
	}
}
