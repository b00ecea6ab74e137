//! `render`: the whole show, or the refusal.

use std::io;
use std::mem::discriminant;
use std::path::Path;

use room_desk::wave::{self, Bits};
use room_desk::{Shape, Show};

use crate::args::Args;
use crate::files;
use crate::input::Input;
use crate::paint::Paint;
use crate::picture::{loudness, peak};
use crate::report;
use crate::scene::count;
use crate::silence;
use crate::stop::{Done, Stop};
use crate::units::seconds;
use crate::warnings;

#[derive(Debug, Clone, Copy, PartialEq, Eq)]
enum Format {
    Wave(Bits),
    Raw,
    Text,
}

pub fn run(args: &Args) -> Done {
    let output = args.value("--output").unwrap_or("out.wav");
    let format = format(args.value("--format"), output)?;
    let paint = Paint::of(args, io::stderr())?;
    let input = Input::load(args)?;
    if format != Format::Text {
        files::not_to_terminal(output, "sound", "out.wav")?;
    }
    let (shape, scene) = input.accepted(paint)?;
    silence::demand(&input, &scene, paint)?;
    if output == "-" && shape.channels > 2 && matches!(format, Format::Wave(_)) {
        let why = format!(
            "{} channels make as many WAVE files: name one with -o, or use -f raw",
            shape.channels
        );
        return Err(Stop::Usage(why));
    }
    let show = room_desk::render(&input.file, input.recordings.samples())
        .map_err(|refusal| Stop::Refused(format!("refused {}: {refusal}\n", refusal.number())))?;
    let made = match format {
        Format::Raw => vec![(output.to_string(), raw(&show))],
        Format::Text => vec![(output.to_string(), listing(&show).into_bytes())],
        Format::Wave(bits) => waves(output, &show, bits)?,
    };
    made.iter().try_for_each(|(name, _)| input.spare(name))?;
    made.iter().try_for_each(|(name, bytes)| files::write(name, bytes))?;
    if !args.has("--quiet") {
        let mut list = warnings::of(&input, &scene);
        list.extend(at_full_scale(&show));
        files::tell(&(report::warnings(&list, paint) + &written(&made, &show)));
    }
    Ok(())
}

/// By its name, else by the ending of the output; the two must agree.
fn format(name: Option<&str>, output: &str) -> Done<Format> {
    let ending = Path::new(output).extension().and_then(|ending| ending.to_str());
    let by_ending = match ending.map(str::to_ascii_lowercase).as_deref() {
        Some("wav" | "wave") => Some(Format::Wave(Bits::Float)),
        Some("raw" | "f32") => Some(Format::Raw),
        Some("txt" | "text") => Some(Format::Text),
        _ => None,
    };
    let format = match (name, ending) {
        (Some("wav"), _) => Format::Wave(Bits::Float),
        (Some("wav16"), _) => Format::Wave(Bits::Sixteen),
        (Some("raw" | "f32"), _) => Format::Raw,
        (Some("text" | "txt"), _) => Format::Text,
        (Some(other), _) => {
            return Err(Stop::Usage(format!("no format `{other}`: wav, wav16, raw or text")));
        }
        (None, None) => Format::Wave(Bits::Float),
        (None, Some(ending)) => by_ending.ok_or_else(|| {
            let why = "is not written; .wav, .raw and .txt are, and any name with -f";
            Stop::Usage(format!("{output}: .{ending} {why}"))
        })?,
    };
    match (name, by_ending) {
        (Some(name), Some(other)) if discriminant(&format) != discriminant(&other) => {
            Err(Stop::Usage(format!("-f {name} does not fit the name {output}")))
        }
        _ => Ok(format),
    }
}

/// What is louder is cut there.
fn at_full_scale(show: &Show) -> Option<String> {
    let full = show.samples.iter().filter(|sample| sample.abs() >= 1.0).count();
    let what = format!("{} at full scale, where louder ones are cut", count(full, "sample"));
    (full > 0).then_some(what)
}

/// `out.wav: 10.000 s at 8000 Hz, 2 channels, peak -6.8 dB`; nothing of standard output.
fn written(made: &[(String, Vec<u8>)], show: &Show) -> String {
    let names: Vec<&str> = made.iter().map(|(name, _)| name.as_str()).collect();
    let names = match names[..] {
        [] | ["-"] => return String::new(),
        [first, .., last] => format!("{first} to {last}"),
        [only] => only.into(),
    };
    let shape = &show.shape;
    format!(
        "{names}: {} at {} Hz, {}, {}\n",
        seconds(shape.seconds()),
        shape.rate,
        count(shape.channels, "channel"),
        loudness(peak(&show.samples)),
    )
}

pub fn raw(show: &Show) -> Vec<u8> {
    show.samples.iter().flat_map(|sample| sample.to_le_bytes()).collect()
}

/// The lines of the render program.
fn listing(show: &Show) -> String {
    let mut text = String::from("block place bits\n");
    let block = show.shape.block * show.shape.channels;
    for (at, sample) in show.samples.iter().enumerate() {
        text += &format!("{} {} {}\n", at / block, at % block, sample.to_bits());
    }
    text
}

/// One file up to two channels, else one mono file a channel.
fn waves(output: &str, show: &Show, bits: Bits) -> Done<Vec<(String, Vec<u8>)>> {
    if show.shape.channels <= 2 {
        let bytes = wave_of(&show.shape, &pairs(show), show.shape.channels, bits)?;
        return Ok(vec![(output.into(), bytes)]);
    }
    let (stem, ending) = match output.rsplit_once('.') {
        Some((stem, ending)) if !ending.contains('/') => (stem, format!(".{ending}")),
        _ => (output, String::new()),
    };
    let mut made = vec![];
    for channel in 0..show.shape.channels {
        let samples: Vec<f32> = show.channel(channel).flat_map(|sample| [sample; 2]).collect();
        let bytes = wave_of(&show.shape, &samples, 1, bits)?;
        made.push((format!("{stem}-{}{ending}", channel + 1), bytes));
    }
    Ok(made)
}

/// Two samples a frame, as the writer takes them; of one channel both are the same.
fn pairs(show: &Show) -> Vec<f32> {
    match show.shape.channels {
        1 => show.samples.iter().flat_map(|&sample| [sample; 2]).collect(),
        _ => show.samples.clone(),
    }
}

fn wave_of(shape: &Shape, samples: &[f32], channels: usize, bits: Bits) -> Done<Vec<u8>> {
    let file = wave::write(shape.rate, channels as u32, bits, samples);
    file.map_err(|refusal| Stop::Refused(format!("refused {}: {refusal}\n", refusal.number())))
}
