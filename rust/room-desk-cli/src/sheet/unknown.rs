//! Names that are no track's, and lines that stand below no track: what was meant.

use super::build::{Builder, Ended};
use super::names;
use super::words::{Word, Words};
use crate::recordings::stem;
use crate::scene::Finding;
use crate::scene::tables::Kind;

/// Where a recording is played: the sheet's line, and the track that the line stands below.
struct Played {
    file: String,
    line: usize,
    track: usize,
}

impl Builder<'_> {
    /// A name of no track; perhaps that of a recording, whose tracks are told then.
    pub fn no_track(&self, words: &Words, word: &Word) -> Finding {
        let known = || names::known(&word.text, self.names.tracks.iter(), "track");
        let found = self.as_recording(words, word);
        found.unwrap_or_else(|| words.wrong(word, "is no track here", known()))
    }

    /// The name of a recording, with or without its ending, where a track was wanted.
    pub fn as_recording(&self, words: &Words, word: &Word) -> Option<Finding> {
        let played = self.played(&word.text);
        let file = &played.first()?.file;
        let places =
            played.iter().map(|p| format!("line {} in {}", p.line, self.names.track(p.track)));
        let places = places.collect::<Vec<_>>().join(", ");
        let why = format!("is no track here: {file} is a recording, played by {places}");
        Some(words.wrong(word, &why, self.instead(words, &played)))
    }

    /// The tracks that play a recording, each once.
    fn played(&self, name: &str) -> Vec<Played> {
        let mut list: Vec<Played> = vec![];
        for (at, sound) in self.scene.sounds.iter().enumerate() {
            let part = self.recordings.of(sound.from).part(sound.first, sound.count);
            let (line, track) = (self.origin(Kind::Sounds, at), self.written_below(at));
            let new = track > 0 && list.iter().all(|other| other.track != track);
            let named = |file: &&str| [*file, stem(file)].contains(&name);
            let file = part.map(|part| part.file.as_str()).filter(named).filter(|_| new);
            list.extend(file.map(|file| Played { file: file.into(), line, track }));
        }
        list
    }

    /// The tracks that can be named for a recording; one that another order takes back comes first.
    fn instead(&self, words: &Words, played: &[Played]) -> String {
        let tracks: Vec<usize> = played.iter().map(|played| played.track).collect();
        let path = self.scene.path(tracks[0]);
        let offered = if tracks.len() > 1 { &tracks } else { &path };
        let pair = offered.iter().find_map(|&track| Some((track, self.taken_back(words, track)?)));
        match (pair, &offered[..]) {
            (Some((_, said)), [_]) => said,
            (Some((track, said)), _) => {
                let others: Vec<usize> = offered.iter().copied().filter(|&t| t != track).collect();
                format!("{said}; or the track {}", self.listed(&others, ", or "))
            }
            (None, [only]) => format!("the track {}", self.names.track(*only)),
            (None, [own, around @ ..]) if tracks.len() == 1 => {
                let own = self.names.track(*own);
                format!("the track {own}, or around it {}", self.listed(around, " or "))
            }
            _ => format!("one of the tracks {}", self.listed(&tracks, ", ")),
        }
    }

    fn listed(&self, tracks: &[usize], between: &str) -> String {
        tracks.iter().map(|&track| self.names.track(track)).collect::<Vec<_>>().join(between)
    }

    /// `` `pause window`, which line 47 resumes``: where that line lacks the pause that this one, of no
    /// track, would be; or the other way round.
    fn taken_back(&self, words: &Words, track: usize) -> Option<String> {
        let (name, verb) = (self.names.track(track), state(words)?.0);
        let states = self.orders.iter().filter_map(|other| Some((other.line, state(other)?)));
        let (before, behind): (Vec<_>, Vec<_>) = states
            .filter(|(_, (_, other))| *other == name)
            .partition(|(line, _)| *line < words.line);
        let (last, next) = (before.last(), behind.first());
        let (other, same) = if verb == "pause" { (next, last) } else { (last, next) };
        let (line, (back, _)) = other.filter(|(_, (back, _))| *back != verb)?;
        let missing = same.is_none_or(|(_, (same, _))| *same != verb);
        missing.then(|| format!("`{verb} {name}`, which line {line} {back}s"))
    }

    /// The track that a sound's line stands below: `play ... at` has made one of its own.
    fn written_below(&self, sound: usize) -> usize {
        let track = self.scene.sounds[sound].track;
        let line = self.origin(Kind::Sounds, sound);
        match track.checked_sub(1) {
            Some(at) if self.origin(Kind::Tracks, at) == line => self.scene.tracks[at].parent,
            _ => track,
        }
    }

    /// What is indented below no track: where a single line at the margin stands between it and its
    /// track, that one is told.
    pub fn below_nothing(&self, words: &Words, word: &Word) -> Finding {
        let ended = self.ended.as_ref().filter(|_| words.indent > self.margin);
        if let Some(finding) = ended.and_then(|ended| self.between(ended, words)) {
            return finding;
        }
        let ended = match ended {
            Some(Ended { line, .. }) => format!("; line {line}, at the margin, has ended the last"),
            None => String::new(),
        };
        words.wrong(word, "stands below no track", format!("indented below a track{ended}"))
    }

    /// A line at the margin right before one that is indented below a track above.
    fn between(&self, ended: &Ended, words: &Words) -> Option<Finding> {
        let (_, track) = ended.tracks.iter().find(|open| open.0 < words.indent)?;
        let (name, line) = (self.names.track(*track), words.line);
        let (first, next) = (ended.first.text.as_str(), words.first());
        let what = format!(
            "`{first}`, at the margin, ends the track {name}: `{next}` in line {line} stands below no \
             track"
        );
        let then = format!("line {line} then stands below {name}");
        let allowed = match first {
            "play" | "to" | "place" => {
                format!("this line indented below {name}, as line {line} is")
            }
            // The tracks name what these make.
            "send" | "house" | "visitor" => format!("this line before the first track; {then}"),
            _ => format!("this line behind line {}, the last of the tracks; {then}", self.last),
        };
        let finding = Finding::at(ended.line, ended.first.span.clone(), what, allowed);
        (ended.line == self.before).then_some(finding)
    }
}

/// Of an order that pauses or resumes: which, and the name behind it.
fn state(words: &Words) -> Option<(&str, &str)> {
    let texts: Vec<&str> = words.all().map(|word| word.text.as_str()).collect();
    let pairs = texts.windows(2).filter(|_| words.first() == "at");
    pairs.map(|pair| (pair[0], pair[1])).find(|pair| ["pause", "resume"].contains(&pair.0))
}
