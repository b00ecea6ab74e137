//! Orders that do nothing, or less than they seem to.

use super::target;
use crate::input::Input;
use crate::scene::model::{PAUSE, RESUME};
use crate::scene::tables::Kind;
use crate::scene::{Order, Scene};
use crate::units::{decibels, seconds, thousandths};

pub fn of(input: &Input, scene: &Scene) -> Vec<String> {
    let mut list = vec![];
    for (at, order) in scene.orders.iter().enumerate() {
        let asked = Asked { input, scene, at, order };
        let said = asked.never().or_else(|| asked.not_paused()).or_else(|| asked.still_sent());
        list.extend(said.map(|said| format!("{}: {said}", input.place(order.line))));
    }
    list
}

/// An order, and where it stands.
struct Asked<'a> {
    input: &'a Input,
    scene: &'a Scene,
    at: usize,
    order: &'a Order,
}

impl Asked<'_> {
    /// Why it is never carried out.
    fn never(&self) -> Option<String> {
        let (scene, order) = (self.scene, self.order);
        if scene.overridden(self.at) {
            let what = target(order, scene, &self.input.names);
            return Some(format!("{what}: a later line of the same block takes its place"));
        }
        let begins = scene.begins_at(order);
        if begins.is_some_and(|begins| begins < scene.seconds()) {
            return None;
        }
        let what = match order.clock {
            0 => "what this line asks for".into(),
            _ => self.tick(),
        };
        let when = match begins {
            Some(begins) => {
                let pace = order.clock.checked_sub(1).map(|at| self.clock(at));
                let end = seconds(scene.seconds());
                let pace = pace.unwrap_or_default();
                format!("comes at {}{pace}, after the show's end at {end}", seconds(begins))
            }
            None => {
                format!("never comes, since {} is stopped", self.input.names.clock(order.clock))
            }
        };
        let clock = begins.and(order.clock.checked_sub(1));
        let sooner = clock.map_or(String::new(), |at| self.sooner(at));
        Some(format!("{what} {when}: this line is never carried out{sooner}"))
    }

    /// `tick 18 of pendulum`
    fn tick(&self) -> String {
        let tick = thousandths(self.order.when * 1000 + self.order.part);
        format!("tick {tick} of {}", self.input.names.clock(self.order.clock))
    }

    /// ` (line 7: every 60 s)`
    fn clock(&self, at: usize) -> String {
        let pace = self.scene.clocks[at].pace();
        match self.input.line(self.scene.line_of(Kind::Clocks, at)) {
            Some(line) => format!(" (line {line}: {pace})"),
            None => format!(" ({pace})"),
        }
    }

    /// `; the last tick before the end is tick 0, and a faster clock in line 7 has more`
    fn sooner(&self, at: usize) -> String {
        let (scene, line) = (self.scene, self.scene.line_of(Kind::Clocks, at));
        let last = scene.clocks[at].last_tick(scene.frames() as i64, scene.head.rate);
        let line = self.input.line_name(line);
        format!(
            "; the last tick before the end is tick {last}, and a faster clock in {line} has more"
        )
    }

    /// A resume of a track that plays; one that waits stops its track itself.
    fn not_paused(&self) -> Option<String> {
        let (scene, order) = (self.scene, self.order);
        if order.kind != RESUME || order.waits() || self.input.plays(order.line) {
            return None;
        }
        let before = |o: &&Order| o.index == order.index && self.before(o);
        let last = scene.orders.iter().filter(|o| o.kind >= PAUSE).filter(before);
        if last.max_by_key(|o| (o.block, o.line)).is_some_and(|o| o.kind == PAUSE || o.waits()) {
            return None;
        }
        let name = self.input.names.track(order.index);
        Some(format!("{name} is not paused then{}", self.other_pause().unwrap_or_default()))
    }

    fn before(&self, other: &Order) -> bool {
        (other.block, other.line) < (self.order.block, self.order.line)
    }

    /// A pause of a track below or around the one that is resumed, and that nothing resumes.
    fn other_pause(&self) -> Option<String> {
        let (scene, own) = (self.scene, self.order.index);
        let near = |track: usize| scene.below(track, own) || scene.below(own, track);
        let resumed = |track: usize| {
            scene.orders.iter().any(|o| o.kind == RESUME && !o.waits() && o.index == track)
        };
        let mut pauses = scene.orders.iter().filter(|o| o.kind == PAUSE && self.before(o));
        let pause = pauses.rfind(|o| near(o.index) && !resumed(o.index))?;
        let (line, name) = (self.input.line(pause.line)?, self.input.names.track(pause.index));
        Some(format!(": line {line} pauses {name}, which is never resumed"))
    }

    /// Turning a track down does not stop what tracks below it send.
    fn still_sent(&self) -> Option<String> {
        let (scene, order, names) = (self.scene, self.order, &self.input.names);
        let ways: Vec<String> = scene
            .still_sent(order)
            .into_iter()
            .map(|(at, route)| {
                let line = self.input.line(scene.line_of(Kind::Routes, at));
                let line = line.map_or(String::new(), |line| format!(" (line {line})"));
                format!("{} -> {}{line}", names.track(route.track), names.send(route.send))
            })
            .collect();
        let name = names.track(order.index);
        (!ways.is_empty()).then(|| {
            format!(
                "{name} goes to {}, but what tracks below it send is heard on: {}; `pause {name}` \
                 stops it",
                decibels(order.volume),
                ways.join(", ")
            )
        })
    }
}
