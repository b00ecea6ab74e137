//! Why a command ends early.

/// The reason, with what is said of it on standard error.
#[derive(Debug)]
pub enum Stop {
    /// The command line is wrong.
    Usage(String),
    /// A file could not be read or written.
    File(String),
    /// The show or a recording is refused; the text, if any, is whole lines.
    Refused(String),
}

pub type Done<T = ()> = Result<T, Stop>;

impl Stop {
    pub fn status(&self) -> u8 {
        match self {
            Self::Refused(_) => 1,
            Self::Usage(_) => 2,
            Self::File(_) => 3,
        }
    }

    /// For standard error; `command` is the one that was called, if it is known.
    pub fn text(&self, command: Option<&str>) -> String {
        let help = command.map_or(String::new(), |command| format!("{command} "));
        match self {
            Self::Refused(text) => text.clone(),
            Self::Usage(why) => format!("room-desk: {why}\nTry `room-desk {help}--help`.\n"),
            Self::File(why) => format!("room-desk: {why}\n"),
        }
    }
}
