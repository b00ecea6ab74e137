//! `compile`: a sheet to a scene file and its recordings.

use std::io;

use room_desk::wave::{self, Bits};

use crate::args::Args;
use crate::files;
use crate::input::{Input, Trouble};
use crate::paint::Paint;
use crate::recordings::Joined;
use crate::report;
use crate::silence;
use crate::stop::{Done, Stop};
use crate::warnings;

pub fn run(args: &Args) -> Done {
    let paint = Paint::of(args, io::stderr())?;
    let input = Input::load(args)?;
    if input.sheet.is_none() {
        return Err(Stop::Usage(format!(
            "{} is no show sheet: its name must end with .show",
            input.name
        )));
    }
    if let Some(output) = args.value("--output").filter(|output| output.ends_with(".show")) {
        return Err(Stop::Usage(format!("{output}: a scene file is no sheet: name it .txt")));
    }
    let scene = input.scene();
    match input.ask() {
        Ok(_) => silence::demand(&input, &input.scene()?, paint)?,
        Err(Trouble::Number(8)) if input.recordings.parts().next().is_none() => {
            eprintln!("{}: no recordings are named, so sounds are not checked", input.name);
        }
        Err(trouble) => return Err(Stop::Refused(report::trouble(&input, &trouble, paint))),
    }
    if !args.has("--quiet") {
        let warnings = report::warnings(&warnings::of(&input, &scene?), paint);
        files::tell(&(report::notes(&input) + &warnings));
    }
    let outputs = ["--samples", "--visitor-samples", "--output"];
    for output in outputs.into_iter().filter_map(|option| args.value(option)) {
        input.spare(output)?;
    }
    recording(args.value("--samples"), &input, &input.recordings.house)?;
    recording(args.value("--visitor-samples"), &input, &input.recordings.visitor)?;
    files::write(args.value("--output").unwrap_or("-"), &input.file)
}

/// Joined recordings as a float WAVE file, or raw where the name does not end with .wav.
fn recording(output: Option<&str>, input: &Input, joined: &Joined) -> Done {
    let Some(output) = output else { return Ok(()) };
    if !output.ends_with(".wav") {
        let bytes: Vec<u8> = joined.samples.iter().flat_map(|s| s.to_le_bytes()).collect();
        return files::write(output, &bytes);
    }
    let rate = input.scene()?.head.rate as u32;
    let file = wave::write(rate, 2, Bits::Float, &joined.samples);
    let file = file.map_err(|r| Stop::Refused(format!("refused {}: {r}\n", r.number())))?;
    files::write(output, &file)
}
