//! `room-desk`: arguments in, a status out.
#![forbid(unsafe_code)]

use std::process::ExitCode;

use room_desk_cli::args::COMMANDS;
use room_desk_cli::files;

fn main() -> ExitCode {
    let words = std::env::args_os().skip(1).map(|word| word.to_string_lossy().into_owned());
    let words: Vec<String> = words.collect();
    let command = words.first().cloned().filter(|word| COMMANDS.contains(&word.as_str()));
    let Err(stop) = room_desk_cli::commands::run(words) else {
        return ExitCode::SUCCESS;
    };
    files::tell(&stop.text(command.as_deref()));
    ExitCode::from(stop.status())
}
