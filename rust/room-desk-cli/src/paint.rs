//! Colours, on a terminal only.

use std::env;
use std::io::IsTerminal;

use crate::args::Args;
use crate::stop::{Done, Stop};

/// Whether text is coloured.
#[derive(Debug, Clone, Copy, Default)]
pub struct Paint(bool);

impl Paint {
    /// By `--color`, `NO_COLOR` and whether `stream` is a terminal.
    pub fn of(args: &Args, stream: impl IsTerminal) -> Done<Self> {
        let wanted = env::var_os("NO_COLOR").is_none_or(|value| value.is_empty());
        match args.value("--color") {
            None | Some("auto") => Ok(Self(wanted && stream.is_terminal())),
            Some("always") => Ok(Self(true)),
            Some("never") => Ok(Self(false)),
            Some(when) => Err(Stop::Usage(format!("no colour `{when}`: auto, always or never"))),
        }
    }

    fn on(self, code: &str, text: &str) -> String {
        if self.0 { format!("\x1b[{code}m{text}\x1b[0m") } else { text.into() }
    }

    pub fn bold(self, text: &str) -> String {
        self.on("1", text)
    }

    pub fn good(self, text: &str) -> String {
        self.on("32;1", text)
    }

    pub fn bad(self, text: &str) -> String {
        self.on("31;1", text)
    }

    pub fn warn(self, text: &str) -> String {
        self.on("33;1", text)
    }
}
