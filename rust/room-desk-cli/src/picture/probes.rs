//! What a track does, measured: renders of scenes in which one small constant plays on it, or its
//! sounds alone. Samples are made smaller by 2^20, which is exact, so that nothing is cut off.

use std::thread;

use room_desk::{Recordings, Refusal};

use crate::scene::model::PAUSE;
use crate::scene::{Order, Route, Scene, Sound, Track};
use crate::silence::Answer;

const SMALL: f32 = 1.0 / 1_048_576.0;
const SILENT: i64 = -60_000;

type Samples = Vec<f32>;

/// A track's curves, a sample a frame; `adds` has two.
#[derive(Debug)]
pub struct TrackProbes {
    /// Above 0 where it and all above it advance; none where that cannot be measured.
    pub advances: Option<Samples>,
    /// The factor of its pauses and resumes, and of those above it.
    pub fade: Samples,
    /// The same with its own volume.
    pub level: Samples,
    /// What its own sounds add to the output, by all ways; empty where it has none.
    pub adds: Samples,
}

/// A send track's curves.
#[derive(Debug)]
pub struct SendProbes {
    pub level: Samples,
    pub adds: Samples,
}

/// All curves of a show.
#[derive(Debug)]
pub struct Probes {
    /// By line; none where the track is proved silent.
    pub tracks: Vec<Option<TrackProbes>>,
    pub sends: Vec<SendProbes>,
    pub main: Samples,
    /// How many renders it took.
    pub renders: usize,
}

impl Probes {
    pub fn measure(scene: &Scene, samples: Recordings, silence: &Answer) -> Result<Self, Refusal> {
        let small = |samples: &[f32]| samples.iter().map(|sample| sample * SMALL).collect();
        let prober = Prober {
            scene,
            constant: vec![SMALL; scene.frames() * 2],
            house: small(samples.house),
            visitor: small(samples.visitor),
        };
        let lines: Vec<usize> = (1..=scene.tracks.len()).collect();
        let tracks = in_parallel(&lines, |&line| match silence.proved(line) {
            true => Ok(None),
            false => prober.track(line).map(Some),
        })?;
        let lines: Vec<usize> = (1..=scene.sends.len()).collect();
        let sends = in_parallel(&lines, |&line| prober.send(line))?;
        let main = prober.main()?;
        let measured = tracks.iter().flatten();
        let of_tracks: usize = measured.map(|t| 3 + usize::from(!t.adds.is_empty())).sum();
        let renders = 2 + of_tracks + 3 * sends.len();
        Ok(Self { tracks, sends, main, renders })
    }
}

/// Each of a list by a thread of its own, as many at a time as there are processors.
fn in_parallel<T: Sync, R: Send>(
    list: &[T],
    of: impl Fn(&T) -> Result<R, Refusal> + Sync,
) -> Result<Vec<R>, Refusal> {
    let most = thread::available_parallelism().map_or(1, usize::from);
    let each = list.len().div_ceil(most).max(1);
    let parts: Vec<Result<Vec<R>, Refusal>> = thread::scope(|scope| {
        let of = &of;
        let spawn = |part| {
            scope.spawn(move || -> Result<Vec<R>, _> { <[T]>::iter(part).map(of).collect() })
        };
        let running: Vec<_> = list.chunks(each).map(spawn).collect();
        // A thread that panicked did so by a fault of ours, which goes on here.
        running
            .into_iter()
            .map(|run| run.join().unwrap_or_else(|p| std::panic::resume_unwind(p)))
            .collect()
    });
    let mut all = vec![];
    for part in parts {
        all.extend(part?);
    }
    Ok(all)
}

/// The first second in which a track and all above it advance, if there is one; none where that cannot
/// be measured.
pub fn first_advance(scene: &Scene, track: usize) -> Option<Option<f64>> {
    let constant = vec![SMALL; scene.frames() * 2];
    let prober = Prober { scene, constant, house: vec![], visitor: vec![] };
    let advances = prober.advances(track).ok()??;
    let first = advances.iter().position(|sample| *sample != 0.0);
    Some(first.map(|frame| frame as f64 / scene.rate()))
}

struct Prober<'a> {
    scene: &'a Scene,
    constant: Samples,
    house: Samples,
    visitor: Samples,
}

impl Prober<'_> {
    /// A probe's output, made large again.
    fn rendered(&self, probe: &Scene, samples: Recordings) -> Result<Samples, Refusal> {
        let show = room_desk::render(&probe.text(), samples)?;
        Ok(show.samples.into_iter().map(|sample| sample / SMALL).collect())
    }

    fn of_constant(&self, probe: &Scene) -> Result<Samples, Refusal> {
        self.rendered(probe, Recordings::house(&self.constant))
    }

    fn of_recordings(&self, probe: &Scene) -> Result<Samples, Refusal> {
        self.rendered(probe, Recordings { house: &self.house, visitor: &self.visitor })
    }

    /// One channel at 0 dB, the constant on a track; nothing is placed.
    fn bare(&self, track: usize) -> Scene {
        let mut probe = self.scene.clone();
        (probe.head.channels, probe.head.volume) = (1, 0);
        (probe.listener, probe.placings) = (None, vec![]);
        (probe.sends, probe.routes) = (vec![], vec![]);
        let count = self.scene.frames() as i64;
        probe.sounds = vec![Sound { track, first: 0, count, from: 0 }];
        probe.orders.retain(|order| order.kind != 2 && order.kind != 3);
        probe
    }

    fn track(&self, line: usize) -> Result<TrackProbes, Refusal> {
        let mut probe = self.bare(line);
        for track in &mut probe.tracks {
            track.volume = 0;
        }
        let own = |order: &Order| order.kind == 1 && order.index == line;
        probe.orders.retain(|order| order.kind >= PAUSE);
        let fade = self.of_constant(&probe)?;
        probe.tracks[line - 1].volume = self.scene.tracks[line - 1].volume;
        let orders = self.scene.orders.iter().filter(|order| order.kind >= PAUSE || own(order));
        probe.orders = orders.cloned().collect();
        let level = self.of_constant(&probe)?;
        let adds = self.adds(line)?;
        Ok(TrackProbes { advances: self.advances(line)?, fade, level, adds })
    }

    /// The show with one track's sounds alone, by all ways, the sends too.
    fn adds(&self, line: usize) -> Result<Samples, Refusal> {
        let mut probe = self.scene.clone();
        probe.sounds.retain(|sound| sound.track == line);
        probe.head.channels = 2;
        if probe.sounds.is_empty() { Ok(vec![]) } else { self.of_recordings(&probe) }
    }

    /// Where a track and all above it advance: a routed track below it is heard through its send
    /// track whatever the fades above it are. The topmost of the probe is turned down, so that the
    /// send alone sounds. Tracks that are never paused are left out; with four that are, the tree
    /// would be too deep for one more.
    fn advances(&self, line: usize) -> Result<Option<Samples>, Refusal> {
        let paused = |track: &usize| {
            self.scene.orders.iter().any(|order| order.kind >= PAUSE && order.index == *track)
        };
        let path: Vec<usize> = self.scene.path(line).into_iter().rev().filter(paused).collect();
        if path.is_empty() {
            return Ok(Some(vec![1.0; self.scene.frames()]));
        }
        if path.len() > 3 {
            return Ok(None);
        }
        let last = path.len() + 1;
        let mut probe = self.bare(last);
        let volume = |depth| if depth == 0 { SILENT } else { 0 };
        probe.tracks =
            (0..last).map(|depth| Track { parent: depth, volume: volume(depth) }).collect();
        probe.sends = vec![0];
        probe.routes = vec![Route { track: last, send: 1, volume: 0 }];
        let moved =
            self.scene.orders.iter().filter(|order| order.kind >= PAUSE).filter_map(|order| {
                let at = path.iter().position(|track| *track == order.index)?;
                Some(Order { index: at + 1, ..order.clone() })
            });
        probe.orders = moved.collect();
        self.of_constant(&probe).map(Some)
    }

    fn send(&self, line: usize) -> Result<SendProbes, Refusal> {
        // Below a track that is turned down a routed one: the send alone sounds.
        let mut probe = self.bare(2);
        let [quiet, routed] =
            [(0, SILENT), (1, 0)].map(|(parent, volume)| Track { parent, volume });
        probe.tracks = vec![quiet, routed];
        probe.sends = self.scene.sends.clone();
        probe.routes = vec![Route { track: 2, send: line, volume: 0 }];
        probe.orders = self.scene.orders.iter().filter(|order| order.kind == 2).cloned().collect();
        let level = self.of_constant(&probe)?;

        let mut with = self.scene.clone();
        with.head.channels = 2;
        let mut without = with.clone();
        without.sends[line - 1] = -96_000;
        without.orders.retain(|order| order.kind != 2 || order.index != line);
        let (with, without) = (self.of_recordings(&with)?, self.of_recordings(&without)?);
        let adds = with.iter().zip(without).map(|(with, without)| with - without).collect();
        Ok(SendProbes { level, adds })
    }

    fn main(&self) -> Result<Samples, Refusal> {
        let mut probe = self.bare(0);
        probe.head.volume = self.scene.head.volume;
        probe.tracks.clear();
        probe.orders.retain(|order| order.kind == 0);
        self.of_constant(&probe)
    }
}

#[cfg(test)]
mod tests {
    use super::*;
    use crate::scene::{Clock, Head};

    /// A row of numbers that looks random and is the same every time.
    struct Random(u64);

    impl Random {
        fn below(&mut self, most: i64) -> i64 {
            self.0 ^= self.0 << 13;
            self.0 ^= self.0 >> 7;
            self.0 ^= self.0 << 17;
            ((self.0 >> 11) % most as u64) as i64
        }

        fn pick<T: Copy>(&mut self, list: &[T]) -> T {
            list[self.below(list.len() as i64) as usize]
        }
    }

    fn chain(random: &mut Random) -> Scene {
        let depth = 1 + random.below(3);
        let (buffer, block, blocks) = (1 + random.below(64), 1 + random.below(100), 40);
        let head = Head { rate: 8000, channels: 1, buffer, block, blocks, volume: 0 };
        let tracks =
            (0..depth).map(|parent| Track { parent: parent as usize, volume: 0 }).collect();
        let clocks = vec![Clock { unit: 1, speed: 20_000, ticking: 1 }];
        let mut scene = Scene { head, tracks, clocks, ..Scene::default() };
        for _ in 0..random.below(8) {
            let (clock, kind) = (random.below(2) as usize, 4 + random.below(2));
            let when = random.pick(&[0, 0, 20, 45]) / if clock == 1 { 10 } else { 1 };
            let at_once = kind == 5 || (clock == 0 && when == 0);
            let millis = random.pick(&[1, 10, 30, if at_once { 0 } else { 5 }]);
            let index = 1 + random.below(depth) as usize;
            let block = random.below(blocks);
            scene.orders.push(Order {
                block,
                kind,
                index,
                clock,
                when,
                millis,
                ..Order::default()
            });
        }
        scene
    }

    /// The frames that the probe counts are those that a sound has used up.
    #[test]
    fn advancing_is_what_sounds_use_up() {
        let mut random = Random(0x9e37_79b9_7f4a_7c15);
        let mut compared = 0;
        for _ in 0..300 {
            let mut scene = chain(&mut random);
            let (frames, track) = (scene.frames(), scene.tracks.len());
            let ramp: Samples =
                (0..frames).flat_map(|f| [(f + 1) as f32 / 8192.0 * SMALL; 2]).collect();
            let constant = vec![SMALL; frames * 2];
            let prober = Prober { scene: &scene, constant, house: vec![], visitor: vec![] };
            let advances = prober.advances(track).unwrap().unwrap();
            let fade = prober.track(track).unwrap().fade;
            scene.sounds = vec![Sound { track, first: 0, count: frames as i64, from: 0 }];
            let heard = room_desk::render(&scene.text(), Recordings::house(&ramp)).unwrap().samples;
            let mut used = 0;
            for frame in 0..frames {
                used += usize::from(advances[frame] != 0.0);
                if fade[frame] > 0.0 {
                    let at = f64::from(heard[frame] / SMALL) / f64::from(fade[frame]) * 8192.0;
                    assert!(advances[frame] != 0.0 && (at - used as f64).abs() < 0.1);
                    compared += 1;
                }
            }
        }
        assert!(compared > 100_000);
    }
}
