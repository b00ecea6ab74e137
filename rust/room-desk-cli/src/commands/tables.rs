//! `show`: the tables for people, or as a sheet.

use std::io;

use crate::args::Args;
use crate::files;
use crate::input::{Input, Trouble};
use crate::paint::Paint;
use crate::report;
use crate::sheet;
use crate::show;
use crate::silence;
use crate::stop::{Done, Stop};

pub fn run(args: &Args) -> Done {
    let paint = Paint::of(args, io::stderr())?;
    let input = Input::load(args)?;
    let asked = input.ask();
    // The tables can be read where only the recordings are missing or wrong.
    if let Err(trouble) = &asked
        && !matches!(trouble, Trouble::Number(8 | 9) | Trouble::Rest(..) | Trouble::Rate(..))
    {
        return Err(Stop::Refused(report::trouble(&input, trouble, paint)));
    }
    let scene = input.scene()?;
    let silence = asked.is_ok().then(|| silence::ask(&input));
    let text = match args.has("--sheet") {
        true => sheet::write(&input, &scene),
        false => show::text(&input, &scene, silence),
    };
    let output = args.value("--output").unwrap_or("-");
    input.spare(output)?;
    files::write(output, text.as_bytes())
}
