//! Lines that make tracks, send tracks, clocks, routes and places.

use super::build::Builder;
use super::names::{self, SILENCING};
use super::values::{decimal, level_or_zero};
use super::words::{Word, Words};
use crate::scene::tables::{FORMAT, Format, Kind};
use crate::scene::{Clock, Finding, Placing, Route, Track};

const CLOCK: &str =
    "`clock NAME 90 per minute`, `.. 2 per second` or `.. every 0.5 s`, and `stopped` behind it";
const METRES: &str = "metres with at most three digits behind the point";

impl Builder<'_> {
    fn new_name(&self, words: &mut Words) -> Result<String, Finding> {
        let word = words.next("a name")?;
        if !names::allowed(&word.text) {
            return Err(words.wrong(&word, "is no name", "letters, digits and signs, not `main`"));
        }
        let mut taken = self.names.tracks.iter().chain(&self.names.sends);
        if taken.any(|name| *name == word.text) {
            let send = self.names.sends.contains(&word.text);
            let why = if send { "send track" } else { "track" };
            let why = format!("is the name of a {why} already");
            return Err(words.wrong(&word, &why, "another name"));
        }
        Ok(word.text)
    }

    pub fn clock(&mut self, words: &mut Words) -> Result<(), Finding> {
        let name = words.next(CLOCK)?;
        if self.names.clocks.contains(&name.text) {
            return Err(words.wrong(&name, "is the name of a clock already", "another name"));
        }
        let (unit, speed) = if words.take("every") {
            let speed = decimal(words, CLOCK)?;
            words.expect("s", CLOCK)?;
            (0, speed)
        } else {
            let speed = decimal(words, CLOCK)?;
            words.expect("per", CLOCK)?;
            let unit = words.next(CLOCK)?;
            match unit.text.as_str() {
                "second" => (1, speed),
                "minute" => (2, speed),
                _ => return Err(words.wrong(&unit, "is not understood here", CLOCK)),
            }
        };
        let ticking = i64::from(!words.take("stopped"));
        self.names.clocks.push(name.text);
        self.scene.clocks.push(Clock { unit, speed, ticking });
        self.made(Kind::Clocks, words.line);
        Ok(())
    }

    pub fn send(&mut self, words: &mut Words) -> Result<(), Finding> {
        let name = self.new_name(words)?;
        let volume = level_or_zero(words)?;
        self.names.sends.push(name);
        self.scene.sends.push(volume);
        self.made(Kind::Sends, words.line);
        Ok(())
    }

    pub fn track(&mut self, words: &mut Words, word: &Word, owner: usize) -> Result<(), Finding> {
        let name = self.new_name(words)?;
        Self::no_silencing(words, &name)?;
        let volume = level_or_zero(words)?;
        Self::no_silencing(words, &name)?;
        let parent = if words.take("in") { self.track_named(words)? } else { owner };
        // Right under the mixer it would be heard past the track that it was written below.
        if parent == 0 && words.indent > self.margin {
            return Err(self.below_nothing(words, word));
        }
        self.names.tracks.push(name);
        self.scene.tracks.push(Track { parent, volume });
        self.made(Kind::Tracks, words.line);
        self.open.push((words.indent, self.scene.tracks.len()));
        Ok(())
    }

    /// `track donor 0 dB muted`
    fn no_silencing(words: &mut Words, name: &str) -> Result<(), Finding> {
        if !words.peek().is_some_and(|word| SILENCING.contains(&word)) {
            return Ok(());
        }
        let word = words.next("")?;
        Err(words.wrong(&word, "is no word of a track", names::silenced(name)))
    }

    pub fn track_named(&self, words: &mut Words) -> Result<usize, Finding> {
        let word = words.next("the name of a track")?;
        let found = self.names.tracks.iter().position(|name| *name == word.text);
        found.map(|at| at + 1).ok_or_else(|| self.no_track(words, &word))
    }

    pub fn send_named(&self, words: &mut Words) -> Result<usize, Finding> {
        let word = words.next("the name of a send track")?;
        let found = self.names.sends.iter().position(|name| *name == word.text);
        let known = || names::known(&word.text, self.names.sends.iter(), "send track");
        found.map(|at| at + 1).ok_or_else(|| words.wrong(&word, "is no send track here", known()))
    }

    pub fn to(&mut self, words: &mut Words, word: &Word, owner: usize) -> Result<(), Finding> {
        if owner == 0 {
            return Err(self.below_nothing(words, word));
        }
        let send = self.send_named(words)?;
        self.add_route(words, owner, send)
    }

    /// `route TRACK to SEND LEVEL`, for routes in another order than their tracks'.
    pub fn route(&mut self, words: &mut Words) -> Result<(), Finding> {
        let track = self.track_named(words)?;
        words.expect("to", "`route TRACK to SEND LEVEL`")?;
        let send = self.send_named(words)?;
        self.add_route(words, track, send)
    }

    fn add_route(&mut self, words: &mut Words, track: usize, send: usize) -> Result<(), Finding> {
        let volume = level_or_zero(words)?;
        self.scene.routes.push(Route { track, send, volume });
        self.made(Kind::Routes, words.line);
        Ok(())
    }

    fn not_yet(words: &Words, word: &Word) -> Result<(), Finding> {
        if FORMAT >= Format::Distance {
            return Ok(());
        }
        Err(words.wrong(word, "needs a library that has loudness by distance", "no such line"))
    }

    fn point(words: &mut Words) -> Result<[i64; 3], Finding> {
        words.expect("at", "`at X Y Z`")?;
        let point = [decimal(words, METRES)?, decimal(words, METRES)?, decimal(words, METRES)?];
        words.take("m");
        Ok(point)
    }

    pub fn listener(&mut self, words: &mut Words, word: &Word) -> Result<(), Finding> {
        Self::not_yet(words, word)?;
        if self.scene.listener.is_some() {
            return Err(words.wrong(word, "stands here a second time", "one listener"));
        }
        self.scene.listener = Some(Self::point(words)?);
        self.made(Kind::Listener, words.line);
        Ok(())
    }

    pub fn place(&mut self, words: &mut Words, word: &Word, owner: usize) -> Result<(), Finding> {
        Self::not_yet(words, word)?;
        let track = if words.take("on") { self.track_named(words)? } else { owner };
        let track_named = |name: &&str| self.names.tracks.iter().any(|track| track == name);
        let named = words.peek().filter(|name| *name != "at").filter(track_named);
        if let Some(name) = named.map(String::from) {
            let word = words.next("")?;
            let on = format!("`place on {name} at X Y Z near METRES far METRES`");
            return Err(words.wrong(&word, "is a track's name", on));
        }
        if track == 0 {
            let mut finding = self.below_nothing(words, word);
            finding.allowed += ", or `place on TRACK at X Y Z near METRES far METRES`";
            return Err(finding);
        }
        let place = Self::point(words)?;
        words.expect("near", "`near METRES far METRES`")?;
        let near = decimal(words, METRES)?;
        words.expect("far", "`far METRES`")?;
        let far = decimal(words, METRES)?;
        words.take("m");
        self.scene.placings.push(Placing { track, place, near, far });
        self.made(Kind::Placings, words.line);
        Ok(())
    }
}
