//! Lines that name recordings and play them.

use std::path::Path;

use super::Fault;
use super::build::Builder;
use super::values::frames;
use super::words::{Word, Words};
use crate::guess::meant;
use crate::recordings::{Both, Form, Refused, Unread, Way, form, stem};
use crate::scene::model::RESUME;
use crate::scene::tables::Kind;
use crate::scene::{Finding, Order, Sound, Track};
use crate::stop::Stop;
use crate::units::{exact, millis, seconds};

const PLAY: &str =
    "from TIME, for TIME, at TIME or on TRACK; the name of a file with spaces stands in \"quotes\"";

impl Builder<'_> {
    pub fn recording(&mut self, words: &mut Words, from: usize) -> Result<(), Fault> {
        while !words.is_empty() {
            let file = words.next("the name of a recording")?;
            self.add_recording(words, &file, from)?;
        }
        Ok(())
    }

    fn add_recording(&mut self, words: &Words, file: &Word, from: usize) -> Result<(), Fault> {
        let path = self.folder.join(&file.text);
        let added = self.recordings.of_mut(from).add(&file.text, &path.display().to_string());
        let part = added.map_err(|unread| match unread {
            Unread::Refused(refused) => not_read(words, file, &refused),
            Unread::File(Stop::File(why) | Stop::Usage(why) | Stop::Refused(why)) => {
                let span = file.span.clone();
                Fault::Missing(Box::new(Finding::at(words.line, span, why, beside(&path))))
            }
        })?;
        part.line = Some(words.line);
        let (path, rate) = (part.path.clone(), part.rate);
        self.same_rate(words, file, &path, rate)?;
        let show = self.scene.head.rate;
        if let Some(rate) = rate.filter(|rate| i64::from(*rate) != show) {
            let note = format!("{} has {rate} frames a second, the show {show}", file.text);
            self.notes.push((words.line, note));
        }
        Ok(())
    }

    pub fn play(&mut self, words: &mut Words, owner: usize) -> Result<(), Fault> {
        let file = words.next("a recording, `house` or `visitor`")?;
        let (mut first, mut count, mut at, mut track) = (0, None, None, owner);
        // The words of `from` and `for`, from the first of them on.
        let (mut begun, mut part) = (None, file.clone());
        while !words.is_empty() {
            let start = words.read();
            let next = words.next("")?;
            match next.text.as_str() {
                "from" => first = frames(words, self.grid())?,
                "for" => count = Some(frames(words, self.grid())?),
                "at" => at = Some(frames(words, self.grid())?),
                "on" => track = self.track_named(words)?,
                _ => return Err(words.wrong(&next, "is not understood here", PLAY).into()),
            }
            if ["from", "for"].contains(&next.text.as_str()) {
                part = words.since(*begun.get_or_insert(start));
            }
        }
        // On the main track it would be heard past the track that it was written below.
        if track == 0 && words.indent > self.margin {
            return Err(self.below_nothing(words, &file).into());
        }
        // The whole line is read before the file is looked for.
        let (from, start, length) = self.source(words, &file)?;
        if start.is_some() && first + count.unwrap_or(0) > length {
            let asked = Asked { first, count, length };
            return Err(self.too_long(words, &file, &part, asked).into());
        }
        let count = count.unwrap_or((length - first).max(0));
        if let Some(at) = at {
            track = self.later(words, &file, track, at);
        }
        self.scene.sounds.push(Sound { track, first: start.unwrap_or(0) + first, count, from });
        self.made(Kind::Sounds, words.line);
        Ok(())
    }

    /// A part that ends behind the end of its file.
    fn too_long(&self, words: &Words, file: &Word, part: &Word, asked: Asked) -> Finding {
        let Asked { first, count, length } = asked;
        let rate = self.grid().rate;
        let of = |frames: i64| seconds(frames as f64 / rate as f64);
        let long = format!("{} is {} long", file.text, of(length));
        let ways = [
            count.filter(|_| first < length).map(|_| (first, length - first)),
            count
                .filter(|count| *count <= length && first > 0)
                .map(|count| (length - count, count)),
        ];
        let written = |(first, count): (i64, i64)| match first {
            0 => format!("`for {}`", exact(count, rate)),
            _ => format!("`from {} for {}`", exact(first, rate), exact(count, rate)),
        };
        let ways: Vec<String> = ways.into_iter().flatten().map(written).collect();
        let allowed = match &ways[..] {
            [] => format!("`from` before {}", of(length)),
            _ => ways.join(" or "),
        };
        let why = match count {
            Some(count) if first < length => {
                format!("ends at {}, but {long}", of(first + count))
            }
            _ => format!("begins behind the end: {long}"),
        };
        words.wrong(part, &why, allowed)
    }

    /// Whose recordings, where the file begins among them (none for all of them), and its frames.
    fn source(&mut self, words: &Words, file: &Word) -> Result<(usize, Option<i64>, i64), Fault> {
        let all = |from| (from, None, (self.recordings.of(from).samples.len() / 2) as i64);
        match file.text.as_str() {
            "house" => return Ok(all(0)),
            "visitor" => return Ok(all(1)),
            _ => {}
        }
        let found = |both: &Both| {
            let parts = [&both.house.parts, &both.visitor.parts].into_iter().enumerate();
            let named =
                parts.map(|(from, parts)| (from, parts.iter().find(|p| p.file == file.text)));
            let mut there = named.filter_map(|(from, part)| part.map(|part| (from, part.clone())));
            there.next()
        };
        if found(&self.recordings).is_none() {
            self.add_recording(words, file, 0)?;
        }
        match found(&self.recordings) {
            Some((from, part)) => {
                self.same_rate(words, file, &part.path, part.rate)?;
                Ok((from, Some(part.first as i64), part.frames as i64))
            }
            None => Err(words.wrong(file, "is no recording", "a recording").into()),
        }
    }

    /// A track of its own for a sound that begins later: a resume that waits, read before block 0.
    fn later(&mut self, words: &Words, file: &Word, parent: usize, at: i64) -> usize {
        let when = (at as f64 * 1000.0 / self.scene.rate()).round() as i64;
        let stem = Path::new(&file.text).file_stem().unwrap_or_default().to_string_lossy();
        let name = format!("{stem}@{}", millis(when)).replace([' ', '#', '"', '<', '>'], "");
        let mut unique = name.clone();
        let mut number = 2;
        while self.names.tracks.contains(&unique) {
            unique = format!("{name}-{number}");
            number += 1;
        }
        self.names.tracks.push(unique);
        self.scene.tracks.push(Track { parent, volume: 0 });
        self.made(Kind::Tracks, words.line);
        let index = self.scene.tracks.len();
        self.scene.orders.push(Order { kind: RESUME, index, when, ..Order::default() });
        self.made(Kind::Orders, words.line);
        index
    }
}

/// The part of a recording that a line asks for, and the recording's frames.
struct Asked {
    first: i64,
    count: Option<i64>,
    length: i64,
}

/// A recording of a kind that is not read, with what mends it.
fn not_read(words: &Words, file: &Word, refused: &Refused) -> Fault {
    let why = match refused.what.as_str() {
        "" => "is not read".into(),
        what => format!("is not read: {what}"),
    };
    let finding = words.wrong(file, &why, mended(words, file, &refused.ways));
    Fault::Recording(Box::new(finding), refused.refusal)
}

/// The first way, then the line to write; the others below it.
fn mended(words: &Words, file: &Word, ways: &[Way]) -> String {
    let [Way { kind, how, ending }, others @ ..] = ways else { return String::new() };
    if ending.is_empty() {
        return how.clone();
    }
    let here = words.naming(&format!("{}{ending}", stem(&file.text)));
    let first = format!("{kind}, by `{how}` or any sound editor; then {here} here");
    let others = others.iter().map(|way| format!("\n    or {}, by `{}`", way.kind, way.how));
    first + &others.collect::<String>()
}

/// The recordings in the folder in which one was looked for.
fn beside(path: &Path) -> String {
    let folder = path.parent().filter(|folder| !folder.as_os_str().is_empty());
    let shown =
        folder.map_or("beside the sheet".into(), |folder| format!("in {}", folder.display()));
    let entries = folder.unwrap_or(Path::new(".")).read_dir().into_iter().flatten().flatten();
    let names = entries.map(|entry| entry.file_name().to_string_lossy().into_owned());
    let mut names: Vec<String> = names.filter(|name| form(name, &[]) != Form::Raw).collect();
    names.sort();
    if names.is_empty() {
        return format!("a recording; there is none {shown}");
    }
    let wanted = path.file_name().unwrap_or_default().to_string_lossy();
    let guess = meant(&wanted, names.iter().map(String::as_str));
    let listed = names.iter().take(12).cloned().collect::<Vec<_>>().join(", ");
    let more = if names.len() > 12 { ", ..." } else { "" };
    format!("a recording {shown}: {listed}{more}{guess}")
}
