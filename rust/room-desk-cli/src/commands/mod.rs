//! The commands, one file each.

mod check;
mod compile;
mod convert;
mod draw;
mod render;
mod tables;

use std::ffi::OsStr;
use std::path::Path;

use crate::args::{Args, COMMANDS};
use crate::files;
use crate::guess::meant;
use crate::sheet;
use crate::stop::{Done, Stop};

const HELP: &str = include_str!("../../help/room-desk.txt");

/// Runs the words of a command line, without the program's name.
pub fn run(mut words: Vec<String>) -> Done {
    if words.is_empty() {
        return Err(Stop::Usage("no command is named".into()));
    }
    let command = words.remove(0);
    match command.as_str() {
        "help" => return help(words.first().map(String::as_str)),
        "-h" | "--help" => return help(None),
        "-V" | "--version" => return version(),
        _ if !COMMANDS.contains(&command.as_str()) => {
            let guess = meant(&command, COMMANDS.into_iter());
            let all = COMMANDS.join(", ");
            return Err(Stop::Usage(format!("no command `{command}`: {all}{guess}")));
        }
        _ => {}
    }
    let args = Args::parse(&command, words)?;
    if args.has("--help") {
        return help(Some(&command));
    }
    match command.as_str() {
        "render" => render::run(&args),
        "check" => check::run(&args),
        "show" => tables::run(&args),
        "picture" => draw::run(&args),
        "new" => new(&args),
        "compile" => compile::run(&args),
        _ => convert::run(&args),
    }
}

fn version() -> Done {
    files::write("-", concat!("room-desk ", env!("CARGO_PKG_VERSION"), "\n").as_bytes())
}

fn help(command: Option<&str>) -> Done {
    let text = match command {
        None => HELP,
        Some("render") => include_str!("../../help/render.txt"),
        Some("check") => include_str!("../../help/check.txt"),
        Some("show") => include_str!("../../help/show.txt"),
        Some("picture") => include_str!("../../help/picture.txt"),
        Some("new") => include_str!("../../help/new.txt"),
        Some("compile") => include_str!("../../help/compile.txt"),
        Some("convert") => include_str!("../../help/convert.txt"),
        Some(other) => return Err(Stop::Usage(format!("no command `{other}`"))),
    };
    files::write("-", text.as_bytes())
}

fn new(args: &Args) -> Done {
    if let Some(file) = args.files.first() {
        return Err(Stop::Usage(format!("new takes no file: `{file}`; use -o to name one")));
    }
    let output = args.value("--output").unwrap_or("-");
    let path = Path::new(output);
    if path.is_file() {
        return Err(Stop::File(format!("{output} is there already: new writes over nothing")));
    }
    if output != "-" && !path.exists() && path.extension() != Some(OsStr::new("show")) {
        return Err(Stop::Usage(format!("{output}: the name of a sheet ends with .show")));
    }
    files::write(output, sheet::TEMPLATE.as_bytes())?;
    let next = "a sheet to start from; `room-desk check` says whether it is accepted";
    files::tell_of(output, next);
    Ok(())
}
