//! Recordings: WAVE, AIFF or raw files, joined in the order in which they are named.

use room_desk::{Recordings, Refusal, aiff, wave};

use crate::files;
use crate::scene::count;
use crate::stop::Stop;

/// A file's place among the joined frames.
#[derive(Debug, Clone, PartialEq)]
pub struct Part {
    /// What it is called, and where it was found.
    pub file: String,
    pub path: String,
    pub first: usize,
    pub frames: usize,
    /// None for a raw file, which says none.
    pub rate: Option<u32>,
    /// Bytes of a raw file that make no whole sample.
    pub rest: usize,
    /// The sheet's line that names it first.
    pub line: Option<usize>,
}

/// Joined recordings.
#[derive(Debug, Clone, Default, PartialEq)]
pub struct Joined {
    pub samples: Vec<f32>,
    pub parts: Vec<Part>,
}

/// What the house has, and a visitor.
#[derive(Debug, Clone, Default, PartialEq)]
pub struct Both {
    pub house: Joined,
    pub visitor: Joined,
    /// Recordings of another rate than the show's are taken.
    pub any_rate: bool,
}

/// Why a file is not joined.
#[derive(Debug)]
pub enum Unread {
    File(Stop),
    Refused(Refused),
}

impl From<Unread> for Stop {
    fn from(unread: Unread) -> Self {
        match unread {
            Unread::File(stop) => stop,
            Unread::Refused(refused) => Stop::Refused(refused.text()),
        }
    }
}

/// A sound file that is refused.
#[derive(Debug)]
pub struct Refused {
    pub path: String,
    pub refusal: Refusal,
    /// What it is or has; may be empty.
    pub what: String,
    pub ways: Vec<Way>,
}

/// A way to a recording that is read.
#[derive(Debug)]
pub struct Way {
    /// What it makes: `16-bit`.
    pub kind: &'static str,
    /// The command, and what its file's name ends with; without an ending it is no command.
    pub how: String,
    pub ending: &'static str,
}

impl Way {
    fn sox(kind: &'static str, path: &str, options: &str) -> Self {
        let to = quoted(&format!("{}-16.wav", stem(path)));
        let how = format!("sox {} -b 16{options} {to}", quoted(path));
        Self { kind, how, ending: "-16.wav" }
    }

    fn sixteen(path: &str, options: &str) -> Self {
        Self::sox("16-bit", path, options)
    }

    /// With every bit.
    fn float(path: &str) -> Self {
        let to = quoted(&format!("{}-float.wav", stem(path)));
        let how = format!("sndfile-convert -float32 {} {to}", quoted(path));
        Self { kind: "float", how, ending: "-float.wav" }
    }

    /// For a file of the command line.
    fn line(&self) -> String {
        match self.kind {
            "" => self.how.clone(),
            kind => format!("{:<7}  {}", format!("{kind}:"), self.how),
        }
    }
}

impl Both {
    pub fn samples(&self) -> Recordings<'_> {
        Recordings { house: &self.house.samples, visitor: &self.visitor.samples }
    }

    pub fn parts(&self) -> impl Iterator<Item = &Part> {
        self.house.parts.iter().chain(&self.visitor.parts)
    }

    /// By a sound's `from`.
    pub fn of(&self, from: usize) -> &Joined {
        if from == 0 { &self.house } else { &self.visitor }
    }

    pub fn of_mut(&mut self, from: usize) -> &mut Joined {
        if from == 0 { &mut self.house } else { &mut self.visitor }
    }
}

impl Joined {
    /// Reads a file and joins it; `name` is what it is called.
    pub fn add(&mut self, name: &str, path: &str) -> Result<&mut Part, Unread> {
        let bytes = files::read(path).map_err(Unread::File)?;
        let (samples, rate, rest) = match form(path, &bytes) {
            Form::Wave => sound(path, &bytes, wave::read(&bytes))?,
            Form::Aiff => sound(path, &bytes, aiff::read(&bytes))?,
            Form::Raw => (raw(&bytes), None, bytes.len() % 4),
        };
        let first = self.samples.len() / 2;
        self.samples.extend(samples);
        let frames = self.samples.len() / 2 - first;
        let (file, path) = (name.into(), path.into());
        self.parts.push(Part { file, path, first, frames, rate, rest, line: None });
        let last = self.parts.len() - 1;
        Ok(&mut self.parts[last])
    }

    /// The file that has all frames of a sound.
    pub fn part(&self, first: i64, count: i64) -> Option<&Part> {
        let (first, end) = (usize::try_from(first).ok()?, usize::try_from(first + count).ok()?);
        let within = |part: &&Part| part.first <= first && end <= part.first + part.frames;
        self.parts.iter().find(within)
    }
}

#[derive(Debug, Clone, Copy, PartialEq, Eq)]
pub enum Form {
    Wave,
    Aiff,
    Raw,
}

/// By the first bytes; a name that promises a sound file is taken at its word, so that its refusal
/// is told.
pub fn form(path: &str, bytes: &[u8]) -> Form {
    let name = path.to_ascii_lowercase();
    let ends = |endings: &[&str]| endings.iter().any(|ending| name.ends_with(ending));
    match bytes {
        [b'R', b'I', b'F', b'F', ..] => Form::Wave,
        [b'F', b'O', b'R', b'M', ..] => Form::Aiff,
        _ if ends(&[".aif", ".aiff", ".aifc"]) => Form::Aiff,
        _ if ends(&[".wav", ".wave", ".flac", ".mp3", ".ogg", ".opus", ".m4a"]) => Form::Wave,
        _ => Form::Raw,
    }
}

type Samples = (Vec<f32>, Option<u32>, usize);

fn sound(
    path: &str,
    bytes: &[u8],
    read: Result<room_desk::Sound, Refusal>,
) -> Result<Samples, Unread> {
    match read {
        Ok(sound) => Ok((sound.samples, Some(sound.rate), 0)),
        Err(refusal) => Err(Unread::Refused(Refused::of(path, bytes, refusal))),
    }
}

/// What a file that can be read says of its rate.
pub fn rate_of(path: &str) -> Option<u32> {
    let bytes = files::read(path).ok()?;
    match form(path, &bytes) {
        Form::Wave => wave::info(&bytes).ok().map(|info| info.rate),
        Form::Aiff => aiff::info(&bytes).ok().map(|info| info.rate),
        Form::Raw => None,
    }
}

/// The command that makes a recording of the show's rate, and the file that it makes.
pub fn resampled(path: &str, rate: i64) -> String {
    format!("sox {} -r {rate} {}", quoted(path), quoted(&format!("{}-{rate}.wav", stem(path))))
}

pub fn raw(bytes: &[u8]) -> Vec<f32> {
    let words = bytes.chunks_exact(4);
    words.map(|word| f32::from_le_bytes([word[0], word[1], word[2], word[3]])).collect()
}

impl Refused {
    pub fn of(path: &str, bytes: &[u8], refusal: Refusal) -> Self {
        let (what, ways) = match (refusal, format_chunk(bytes)) {
            (Refusal::NotWave | Refusal::NotAiff, chunk) => {
                let ways = match chunk {
                    Some((size, 3, _, _)) if size != 16 => vec![Way::float(path)],
                    Some((size, ..)) if size != 16 => {
                        vec![Way::sixteen(path, ""), Way::float(path)]
                    }
                    _ => vec![Way::sixteen(path, "")],
                };
                (what_it_is(bytes), ways)
            }
            (Refusal::SampleKind, Some((_, kind, channels, bits))) => {
                let what = format!("it has {}", samples_of(kind, bits, channels));
                let two = if channels > 2 { " -c 2" } else { "" };
                (what, vec![Way::sixteen(path, two), Way::float(path)])
            }
            (Refusal::SampleKind, None) => (String::new(), vec![Way::sixteen(path, " -c 2")]),
            (Refusal::BrokenFile, _) => {
                let what = format!("it has {} bytes; does the original?", bytes.len());
                (what, vec![Way { kind: "", how: "copy it again".into(), ending: "" }])
            }
            (Refusal::Not16Bit, _) => {
                (String::new(), vec![Way::sox("rounded to 16 bits", path, "")])
            }
            (Refusal::Rate, _) => {
                (String::new(), vec![Way::sox("at another rate", path, " -r 48000")])
            }
            _ => (String::new(), vec![]),
        };
        Self { path: path.into(), refusal, what, ways }
    }

    /// For a file of the command line.
    pub fn text(&self) -> String {
        let (number, refusal) = (self.refusal.number(), self.refusal);
        let mut text = format!("refused {number}: {}: {refusal}\n", self.path);
        let lines = [self.what.clone()].into_iter().chain(self.ways.iter().map(Way::line));
        lines.filter(|line| !line.is_empty()).for_each(|line| text += &format!("    {line}\n"));
        text
    }
}

/// `24-bit samples in 2 channels`
fn samples_of(kind: u16, bits: u16, channels: u16) -> String {
    let samples = match kind {
        1 => format!("{bits}-bit samples"),
        3 => format!("{bits}-bit float samples"),
        _ => format!("{bits}-bit samples of format {kind}"),
    };
    format!("{samples} in {}", count(channels.into(), "channel"))
}

fn what_it_is(bytes: &[u8]) -> String {
    let known: [(&[u8], &str); 6] = [
        (b"fLaC", "it is a FLAC file"),
        (b"OggS", "it is an Ogg file"),
        (b"ID3", "it is an MP3 file"),
        (b"\xff\xfb", "it is an MP3 file"),
        (b"RF64", "it is an RF64 file"),
        (b"", ""),
    ];
    if bytes.is_empty() {
        return "it is empty".into();
    }
    if bytes.get(8..12) == Some(b"AIFC") {
        return "it is an AIFF-C file; plain AIFF and WAVE are read".into();
    }
    match format_chunk(bytes) {
        Some((size, ..)) if size != 16 => {
            format!("its format chunk has {size} bytes; a plain one of 16 is read")
        }
        _ => known
            .iter()
            .find(|(magic, _)| bytes.starts_with(magic))
            .map(|row| row.1)
            .filter(|text| !text.is_empty())
            .unwrap_or("WAVE and AIFF files are read, and raw 32-bit floats")
            .into(),
    }
}

/// Size, kind, channels and bits of a WAVE file's first format chunk.
fn format_chunk(bytes: &[u8]) -> Option<(u32, u16, u16, u16)> {
    if !bytes.starts_with(b"RIFF") {
        return None;
    }
    let mut at = 12;
    loop {
        let header = bytes.get(at..at + 8)?;
        let size = u32::from_le_bytes([header[4], header[5], header[6], header[7]]);
        if &header[..4] == b"fmt " {
            let body = bytes.get(at + 8..at + 24)?;
            let half = |place: usize| u16::from_le_bytes([body[place], body[place + 1]]);
            return Some((size, half(0), half(2), half(14)));
        }
        at += 8 + size as usize + size as usize % 2;
    }
}

/// A path without its ending.
pub fn stem(path: &str) -> &str {
    path.rsplit_once('.').map_or(path, |(stem, _)| stem)
}

/// A file's name for a shell.
pub fn quoted(path: &str) -> String {
    let plain = |c: char| c.is_ascii_alphanumeric() || "/._-+@%,".contains(c);
    if !path.is_empty() && path.chars().all(plain) {
        return path.into();
    }
    format!("'{}'", path.replace('\'', r"'\''"))
}
