//! `picture`: the show as a drawing.

use std::ffi::OsStr;
use std::io;
use std::path::Path;

use crate::args::Args;
use crate::files;
use crate::input::Input;
use crate::paint::Paint;
use crate::picture;
use crate::silence;
use crate::stop::{Done, Stop};

pub fn run(args: &Args) -> Done {
    let output = args.value("--output").unwrap_or("-");
    let ending = Path::new(output).extension().unwrap_or(OsStr::new("svg"));
    if !ending.eq_ignore_ascii_case("svg") {
        return Err(Stop::Usage(format!("{output}: a picture is an SVG file: name it .svg")));
    }
    let paint = Paint::of(args, io::stderr())?;
    let input = Input::load(args)?;
    input.spare(output)?;
    let named = Path::new(&input.title()).with_extension("svg");
    files::not_to_terminal(output, "a picture", &named.display().to_string())?;
    let (_, scene) = input.accepted(paint)?;
    let drawn = picture::svg(&input, &scene, &silence::ask(&input))?;
    files::write(output, drawn.as_bytes())?;
    files::tell_of(output, &format!("a picture of {}, for any browser", input.name));
    Ok(())
}
