//! Sounds that are cut, that begin late, or that are heard where they were not meant to be.

use crate::input::Input;
use crate::picture::first_advance;
use crate::scene::model::{PAUSE, RESUME};
use crate::scene::tables::Kind;
use crate::scene::{Order, Scene, Sound};
use crate::silence;
use crate::units::{about, exact, millis, seconds};

/// A shorter end of a sound than this is not missed, in seconds.
const NEAR: f64 = 0.001;

pub fn of(input: &Input, scene: &Scene) -> Vec<String> {
    if scene.sounds.is_empty() {
        return vec!["nothing plays: every sample will be zero".into()];
    }
    let sounds = Sounds { input, scene, silence: silence::ask(input) };
    let mut list = vec![];
    for (at, sound) in scene.sounds.iter().enumerate() {
        let line = scene.line_of(Kind::Sounds, at);
        let said = [
            sounds.cut(sound),
            sounds.below_no_track(sound, line),
            sounds.late(sound),
            sounds.kept_silent(sound),
        ];
        let name = sounds.name(at);
        let say = |what: String| format!("{}: {name} {what}", input.place(line));
        list.extend(said.into_iter().flatten().map(say));
    }
    list
}

struct Sounds<'a> {
    input: &'a Input,
    scene: &'a Scene,
    silence: silence::Answer,
}

impl Sounds<'_> {
    fn name(&self, at: usize) -> String {
        let sound = &self.scene.sounds[at];
        let part = self.input.recordings.of(sound.from).part(sound.first, sound.count);
        part.map_or(format!("sound {}", at + 1), |part| part.file.clone())
    }

    fn cut(&self, sound: &Sound) -> Option<String> {
        let begins = begins_at(self.scene, sound.track);
        let end = self.scene.seconds();
        let left = begins + sound.count as f64 / self.scene.rate() - end;
        let cut = left >= NEAR && begins < end;
        cut.then(|| format!("is cut: its last {} lie behind the show's end", seconds(left)))
    }

    /// A `play` line of a sheet that stands at the margin behind a track: perhaps it was meant below it.
    fn below_no_track(&self, sound: &Sound, line: usize) -> Option<String> {
        let first = self.scene.line_of(Kind::Tracks, 0);
        let first = self.input.line(first).filter(|_| !self.scene.tracks.is_empty())?;
        let behind = self.input.sheet.is_some() && Some(first) < self.input.line(line);
        let none = self.owner(sound.track) == 0;
        (behind && none).then(|| "plays below no track, past the one above".into())
    }

    /// The track that a sound was written below: `play ... at` has made one of its own.
    fn owner(&self, track: usize) -> usize {
        match track.checked_sub(1) {
            Some(at) if self.input.plays(self.scene.line_of(Kind::Tracks, at)) => {
                self.scene.tracks[at].parent
            }
            _ => track,
        }
    }

    /// What waits stands still while its track, or one around it, is paused.
    fn late(&self, sound: &Sound) -> Option<String> {
        let (scene, input) = (self.scene, self.input);
        let own = |o: &&Order| o.index == sound.track && input.plays(o.line);
        let order = scene.orders.iter().find(own)?;
        let asked = order.when as f64 / 1000.0;
        if asked >= scene.seconds() || self.silence.proved(sound.track) {
            return None;
        }
        let path = scene.path(sound.track);
        let before = |o: &&Order| scene.begins_at(o).is_some_and(|begins| begins < asked);
        let pauses = scene.orders.iter().filter(|o| o.kind == PAUSE && path.contains(&o.index));
        let pause = pauses.filter(before).min_by_key(|o| (o.block, o.line))?;
        let chunk = scene.head.buffer.min(scene.head.block) as f64 / scene.rate();
        let asked_for = millis(order.when);
        let when = match first_advance(scene, sound.track) {
            Some(Some(first)) if first < asked + chunk => return None,
            Some(Some(first)) => {
                let tenths = (first * 10.0).round() / 10.0;
                format!("begins at about {}, not at {asked_for}", about(tenths))
            }
            Some(None) => "never begins".into(),
            None => format!("begins later than at {asked_for}"),
        };
        let (line, name) = (input.line_name(pause.line), input.names.track(pause.index));
        let at = seconds(scene.starts(pause));
        Some(format!(
            "{when}: {line} pauses {name} at {at}, and what waits there stands still; in a track that \
             is not paused it begins at {asked_for}"
        ))
    }

    /// A part of a recording that a `silent` line keeps from being heard, played on another track.
    fn kept_silent(&self, sound: &Sound) -> Option<String> {
        let (scene, input) = (self.scene, self.input);
        // Where its own `silent` line is not proved, that is refused.
        let asked = |track: &usize| input.silent.iter().any(|s| s.1 == input.names.track(*track));
        let path = scene.path(sound.track);
        if path.iter().any(|track| asked(track) || self.silence.proved(*track)) {
            return None;
        }
        let found = input.silent.iter().find_map(|(line, name)| {
            let (at, both) = self.silent_copy(sound, name)?;
            Some((line, name, input.line_name(scene.line_of(Kind::Sounds, at)), both))
        });
        let (line, name, from, both) = found?;
        let owner = self.owner(sound.track);
        let played = match owner {
            0 => "on the main track".into(),
            track => format!("in {}", input.names.track(track)),
        };
        let (long, mend) = (exact(both, scene.head.rate), self.keeps_silent(owner, name));
        Some(format!(
            "may be heard {played}, though line {line}, `silent {name}`, asks that the same \
             {long}, in {from}, are silent; {mend}"
        ))
    }

    /// What keeps a copy of what is silent silent too: a hold, where nothing else is held by it.
    fn keeps_silent(&self, owner: usize, silent: &str) -> String {
        let inside = |sound: &&Sound| self.scene.path(sound.track).contains(&owner);
        let copy = |sound: &Sound| self.silent_copy(sound, silent).is_some();
        if owner == 0 || !self.scene.sounds.iter().filter(inside).all(copy) {
            return format!("below {silent} it is silent too");
        }
        let own = self.input.names.track(owner);
        let hold = format!("`at 0 s pause {own}` and `silent {own}`");
        format!("{hold} keep it silent there too, and so does a place below {silent}")
    }

    /// A sound in a track that is proved silent, by name, and how many frames of `sound` it has.
    fn silent_copy(&self, sound: &Sound, name: &str) -> Option<(usize, i64)> {
        let scene = self.scene;
        let track = silence::track_named(name, scene, &self.input.names).ok()?;
        let inside = |other: &Sound| scene.path(other.track).contains(&track);
        let ends = |sound: &Sound| sound.first + sound.count;
        let both = |other: &Sound| ends(sound).min(ends(other)) - sound.first.max(other.first);
        let same = |other: &Sound| other.from == sound.from && both(other) > 0 && inside(other);
        let at = scene.sounds.iter().position(same).filter(|_| self.silence.proved(track))?;
        Some((at, both(&scene.sounds[at])))
    }
}

/// When the sounds of a track begin whose only order is a resume that waits, read before block 0.
fn begins_at(scene: &Scene, track: usize) -> f64 {
    let mut states = scene.orders.iter().filter(|o| o.kind >= PAUSE && o.index == track);
    match (states.next(), states.next()) {
        (Some(order), None) if order.kind == RESUME && order.block == 0 && order.clock == 0 => {
            order.when as f64 / 1000.0
        }
        _ => 0.0,
    }
}
