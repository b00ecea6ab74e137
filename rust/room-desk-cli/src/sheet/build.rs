//! A sheet's lines, one after another, into the tables of a scene.

use std::collections::HashMap;
use std::path::Path;

use super::names;
use super::orders;
use super::values::{Grid, frames, level, whole};
use super::words::{Word, Words};
use super::{Fault, Made};
use crate::guess::meant;
use crate::input::Names;
use crate::recordings::Both;
use crate::scene::tables::{Kind, tables};
use crate::scene::{Finding, Head, Scene};

/// The words with which a line begins.
const LINES: [&str; 18] = [
    "rate", "speakers", "buffer", "block", "length", "main", "clock", "send", "house", "visitor",
    "listener", "track", "play", "to", "place", "route", "at", "silent",
];

const RATE: &str = "frames a second, a whole number, as `rate 48000`";

const SETTINGS: [&str; 6] = ["rate", "speakers", "buffer", "block", "length", "main"];

/// The words of lines that make a track or stand below one.
const INSIDE: [&str; 4] = ["track", "play", "to", "place"];

/// A line at the margin that has ended tracks: its first word, and they, the innermost first.
pub struct Ended {
    pub line: usize,
    pub first: Word,
    pub tracks: Vec<(usize, usize)>,
}

pub struct Builder<'a> {
    pub scene: Scene,
    pub names: Names,
    pub notes: Vec<(usize, String)>,
    pub folder: &'a Path,
    pub recordings: Both,
    /// Lines of the sheet, by table.
    origins: [Vec<usize>; 9],
    silent: Vec<(Words, Word)>,
    /// Tracks that the next line may stand below: indent and line.
    pub open: Vec<(usize, usize)>,
    /// The line at the margin that ended them.
    pub ended: Option<Ended>,
    /// The line before the one that is read, but for empty ones.
    pub before: usize,
    /// The least indent of the sheet.
    pub margin: usize,
    /// The last line of the tracks.
    pub last: usize,
    /// The number of the `rate` line, with its line.
    pub rate: Option<(usize, Word)>,
    /// Every recording that the sheet names.
    pub named: Vec<String>,
    length: Option<Words>,
    /// The `at` lines, read when all tracks are known.
    pub orders: Vec<Words>,
    /// The settings that have been read.
    settings: Vec<String>,
}

/// The scene of a sheet; recordings that are given already stand before its own.
pub fn compile(sheet: &str, folder: &Path, recordings: Both) -> Result<Made, Fault> {
    let head = Head { rate: 48_000, channels: 2, buffer: 128, block: 512, ..Head::default() };
    let mut builder = Builder {
        scene: Scene { head, ..Scene::default() },
        names: Names::default(),
        notes: vec![],
        folder,
        recordings,
        origins: Default::default(),
        silent: vec![],
        open: vec![],
        ended: None,
        before: 0,
        margin: 0,
        last: 0,
        rate: None,
        named: vec![],
        length: None,
        orders: vec![],
        settings: vec![],
    };
    let lines: Vec<Words> = sheet
        .lines()
        .enumerate()
        .map(|(at, text)| Words::of(at + 1, text))
        .collect::<Result<_, _>>()?;
    if lines.iter().all(Words::is_empty) {
        let allowed = "lines as `room-desk new` prints them";
        return Err(Finding::whole("the sheet says nothing", allowed).into());
    }
    let indents = lines.iter().filter(|words| !words.is_empty()).map(|words| words.indent);
    builder.margin = indents.min().unwrap_or(0);
    let inside = |words: &&Words| INSIDE.contains(&words.first());
    builder.last = lines.iter().rfind(inside).map_or(0, |words| words.line);
    builder.find_grid(&lines)?;
    builder.named = lines.iter().flat_map(recordings_of).collect();
    builder.named.sort();
    builder.named.dedup();
    for words in lines.into_iter().filter(|words| !words.is_empty()) {
        let line = words.line;
        builder.line(words)?;
        builder.before = line;
    }
    builder.finish()
}

/// The recordings that a line names.
fn recordings_of(words: &Words) -> Vec<String> {
    let texts: Vec<String> = words.all().map(|word| word.text.clone()).collect();
    match texts.split_first() {
        Some((first, rest)) if ["house", "visitor"].contains(&first.as_str()) => rest.to_vec(),
        Some((first, rest)) if first == "play" => rest.iter().take(1).cloned().collect(),
        _ => vec![],
    }
}

/// The shortest block that holds the show, so that times land near, and of which a tenth of a second
/// or else a second has a whole number: such times land where they were written.
fn finest_block(frames: i64, rate: i64) -> i64 {
    let most = 512;
    let least = ((frames + 1023) / 1024).clamp(1, most);
    let divides = |part: i64| (least..=most).find(|block| rate % (part * block) == 0);
    divides(10).or_else(|| divides(1)).unwrap_or(least)
}

impl Builder<'_> {
    pub fn grid(&self) -> Grid {
        Grid { rate: self.scene.head.rate.max(1), block: self.scene.head.block.max(1) }
    }

    /// Times need the rate, the block and the length, wherever these stand.
    fn find_grid(&mut self, lines: &[Words]) -> Result<(), Finding> {
        let line = |name: &str| {
            let mut found = lines.iter().find(|words| words.peek() == Some(name)).cloned();
            if let Some(words) = &mut found {
                words.take(name);
            }
            found
        };
        if let Some(mut words) = line("rate") {
            self.scene.head.rate = whole(&mut words, RATE)?;
            self.rate = Some((words.line, words.since(words.read() - 1)));
        }
        self.length = line("length");
        if let Some(mut words) = line("block") {
            self.scene.head.block = whole(&mut words, "a whole number")?;
        } else if let Some(mut words) = self.length.clone() {
            self.scene.head.block =
                finest_block(frames(&mut words, self.grid())?, self.grid().rate);
        }
        Ok(())
    }

    fn line(&mut self, mut words: Words) -> Result<(), Fault> {
        let mut tracks = vec![];
        while let Some(open) = self.open.pop_if(|open| open.0 >= words.indent) {
            tracks.push(open);
        }
        let owner = self.open.last().map_or(0, |open| open.1);
        let first = words.next("a word that begins a line")?;
        if !tracks.is_empty() {
            let ended = Ended { line: words.line, first: first.clone(), tracks };
            self.ended = self.open.is_empty().then_some(ended);
        }
        if !LINES.contains(&first.text.as_str()) {
            let timed = first.text.starts_with(|c: char| c.is_ascii_digit());
            let guess = meant(if timed { "at" } else { &first.text }, LINES.into_iter());
            let allowed = match names::SILENCING.contains(&first.text.as_str()) {
                true => names::silenced(words.peek().unwrap_or("TRACK")),
                false => format!("{}{guess}", LINES.join(", ")),
            };
            return Err(words.wrong(&first, "begins no line of a sheet", allowed).into());
        }
        let inside = INSIDE.contains(&first.text.as_str());
        if owner > 0 && !inside {
            let why = format!("stands below the track {}", self.names.track(owner));
            return Err(words
                .wrong(&first, &why, "at the margin; track, play, to and place go below")
                .into());
        }
        self.once(&words, &first)?;
        match first.text.as_str() {
            "rate" | "block" => words.next("a whole number").map(|_| ())?,
            "speakers" => self.scene.head.channels = whole(&mut words, "1 to 8")?,
            "buffer" => self.scene.head.buffer = whole(&mut words, "1 to 256")?,
            "length" => frames(&mut words, self.grid()).map(|_| ())?,
            "main" => self.scene.head.volume = level(&mut words)?,
            "clock" => self.clock(&mut words)?,
            "send" => self.send(&mut words)?,
            "house" => self.recording(&mut words, 0)?,
            "visitor" => self.recording(&mut words, 1)?,
            "listener" => self.listener(&mut words, &first)?,
            "track" => self.track(&mut words, &first, owner)?,
            "to" => self.to(&mut words, &first, owner)?,
            "route" => self.route(&mut words)?,
            "place" => self.place(&mut words, &first, owner)?,
            "play" => self.play(&mut words, owner)?,
            "silent" => {
                let name = words.next("the name of a track")?;
                self.silent.push((words.clone(), name));
            }
            _ => {
                self.orders.push(words);
                return Ok(());
            }
        }
        let end = if first.text == "rate" { RATE } else { "the line's end, or a comment with #" };
        Ok(words.done(end)?)
    }

    /// A setting stands in one line: which of two counts would be a guess.
    fn once(&mut self, words: &Words, first: &Word) -> Result<(), Finding> {
        if !SETTINGS.contains(&first.text.as_str()) {
            return Ok(());
        }
        if self.settings.contains(&first.text) {
            return Err(words.wrong(first, "stands here a second time", "one such line"));
        }
        self.settings.push(first.text.clone());
        Ok(())
    }

    /// The sheet's line that has made a line of a table, which counts from 0 here.
    pub fn origin(&self, kind: Kind, at: usize) -> usize {
        self.origins[kind as usize][at]
    }

    /// Adds a line to a table's origins.
    pub fn made(&mut self, kind: Kind, line: usize) {
        self.origins[kind as usize].push(line);
    }

    fn finish(mut self) -> Result<Made, Fault> {
        let Some(mut words) = self.length.take() else {
            let what = "the sheet has no line `length`";
            return Err(Finding::whole(what, "one, as `length 10 s`").into());
        };
        let long = frames(&mut words, self.grid())?;
        let block = self.grid().block;
        self.scene.head.blocks = (long + block - 1) / block;
        self.made(Kind::Show, words.line);
        for words in self.orders.clone() {
            orders::order(&mut self, words)?;
        }
        let lines = self.lines();
        // An order knows its line of the scene file, as one that is read from there does.
        let from = lines.keys().max().copied().unwrap_or(0) + 1;
        let count = self.scene.orders.len();
        for (at, order) in self.scene.orders.iter_mut().enumerate() {
            order.line = from + at - count;
        }
        for (words, name) in &self.silent {
            if !self.names.tracks.contains(&name.text) {
                return Err(self.no_track(words, name).into());
            }
        }
        let silent = std::mem::take(&mut self.silent).into_iter();
        Ok(Made {
            scene: self.scene,
            recordings: self.recordings,
            names: self.names,
            lines,
            silent: silent.map(|(words, name)| (words.line, name.text)).collect(),
            notes: self.notes,
        })
    }

    /// From lines of the scene file to the sheet's: a names line, the lines, an empty line.
    fn lines(&self) -> HashMap<usize, usize> {
        let mut map = HashMap::new();
        let mut at = 1;
        for table in tables() {
            for origin in &self.origins[table.kind as usize] {
                at += 1;
                map.insert(at, *origin);
            }
            at += 2;
        }
        map
    }
}
