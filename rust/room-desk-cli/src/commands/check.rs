//! `check`: the proved routine's number, with an explanation.

use std::io;

use room_desk::Shape;

use crate::args::Args;
use crate::files;
use crate::input::Input;
use crate::paint::Paint;
use crate::report;
use crate::scene::{Scene, commas, count};
use crate::silence::{self, Answer};
use crate::stop::{Done, Stop};
use crate::units::seconds;
use crate::warnings;

pub fn run(args: &Args) -> Done {
    let paint = Paint::of(args, io::stdout())?;
    let input = match Input::load(args) {
        // What is said of the show goes where its verdict goes; without a number `-q` has none.
        Err(Stop::Refused(text)) if !args.has("--quiet") => {
            files::write("-", text.as_bytes())?;
            return Err(Stop::Refused(String::new()));
        }
        input => input?,
    };
    match input.ask() {
        Ok(shape) => accepted(args, &input, &shape, paint),
        Err(trouble) => {
            let text = match args.has("--quiet") {
                true => format!("{}\n", trouble.number()),
                false => report::trouble(&input, &trouble, paint),
            };
            files::write("-", text.as_bytes())?;
            Err(Stop::Refused(String::new()))
        }
    }
}

fn accepted(args: &Args, input: &Input, shape: &Shape, paint: Paint) -> Done {
    let scene = input.scene()?;
    let answer = silence::ask(input);
    let refusal = silence::refusal(input, &scene, &answer, paint)?;
    let (said, silent) = silence(args, input, &scene, &answer, paint)?;
    let mut text = String::new();
    if args.has("--quiet") {
        text += "0\n";
    } else {
        text += &match refusal.as_str() {
            "" => format!("{}: {}\n", paint.good("accepted"), summary(shape)),
            refusal => refusal.into(),
        };
        text += &report::warnings(&warnings::of(input, &scene), paint);
        text += &report::notes(input);
        text += &said;
    }
    files::write("-", text.as_bytes())?;
    if silent && refusal.is_empty() { Ok(()) } else { Err(Stop::Refused(String::new())) }
}

fn summary(shape: &Shape) -> String {
    format!(
        "{} frames, {} at {} Hz, {}",
        commas(shape.frames() as i128),
        seconds(shape.seconds()),
        shape.rate,
        count(shape.channels, "channel"),
    )
}

/// A line for each track that must be silent, and whether those of `--silent` are proved so. The
/// sheet's own that are not have been refused.
fn silence(
    args: &Args,
    input: &Input,
    scene: &Scene,
    answer: &Answer,
    paint: Paint,
) -> Done<(String, bool)> {
    let own: Vec<&str> = input.silent.iter().map(|(_, name)| name.as_str()).collect();
    let asked = args.values("--silent").filter(|name| !own.contains(name));
    let mut all = own.clone();
    all.extend(asked);
    let mut text = String::new();
    let mut proved = true;
    for (at, name) in all.iter().enumerate().filter(|(at, name)| !all[..*at].contains(name)) {
        let track = silence::track_named(name, scene, &input.names)?;
        if let Some(reason) = answer.reason(track, scene, &input.names) {
            text += &format!("{}: {name}, {reason}\n", paint.good("silent"));
        } else if at >= own.len() {
            proved = false;
            let silence::Against { why, allowed } = silence::against(track, input, scene);
            let first = paint.bad("not proved silent");
            text += &format!("{first}: {name}{why}\n    allowed: {allowed}\n");
        }
    }
    Ok((text, proved))
}
