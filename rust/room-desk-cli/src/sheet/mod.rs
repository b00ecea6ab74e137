//! Show sheets: names, comments, seconds and decibels, made into a scene and its recordings, and
//! back. docs/USING.md has the words.

mod build;
mod names;
mod orders;
mod play;
mod rates;
mod reword;
mod tracks;
mod unknown;
mod values;
mod words;
mod write;

pub use build::compile;
pub use reword::reworded;
pub use write::write;

use std::collections::HashMap;

use crate::input::Names;
use room_desk::Refusal;

use crate::recordings::Both;
use crate::scene::{Finding, Scene};

/// A sheet to start from.
pub const TEMPLATE: &str = include_str!("template.show");

/// What a sheet was made into.
#[derive(Debug)]
pub struct Made {
    pub scene: Scene,
    pub recordings: Both,
    pub names: Names,
    /// From lines of the scene file to lines of the sheet.
    pub lines: HashMap<usize, usize>,
    /// Tracks that the sheet says are silent: its line, the name.
    pub silent: Vec<(usize, String)>,
    /// Times that landed elsewhere: the sheet's line, what is said.
    pub notes: Vec<(usize, String)>,
}

/// Why there is no scene.
#[derive(Debug)]
pub enum Fault {
    /// A line of the sheet.
    Line(Box<Finding>),
    /// A recording that cannot be read, by the line that names it.
    Missing(Box<Finding>),
    /// A recording that is refused, by the line that names it.
    Recording(Box<Finding>, Refusal),
}

impl From<Finding> for Fault {
    fn from(finding: Finding) -> Self {
        Self::Line(Box::new(finding))
    }
}

/// A sheet's text with line feeds alone, whatever the editor wrote; else what it has, and where it is
/// no text.
pub fn decoded(bytes: &[u8]) -> Result<String, (String, Finding)> {
    const ALLOWED: &str = "UTF-8 text: choose UTF-8 where the editor saves the file";
    if bytes.starts_with(b"\xff\xfe") || bytes.starts_with(b"\xfe\xff") {
        return Err((String::new(), Finding::whole("the sheet is UTF-16 text", ALLOWED)));
    }
    match std::str::from_utf8(bytes) {
        Ok(text) => {
            let text = text.trim_start_matches('\u{feff}');
            Ok(text.replace("\r\n", "\n").replace('\r', "\n"))
        }
        Err(wrong) => {
            let before = &bytes[..wrong.valid_up_to()];
            let line = before.iter().filter(|&&byte| byte == b'\n').count() + 1;
            let start = before.iter().rev().take_while(|&&byte| byte != b'\n').count();
            let what = "a letter that is not written in UTF-8";
            let lossy = String::from_utf8_lossy(bytes).into_owned();
            Err((lossy, Finding::at(line, start..start + '\u{fffd}'.len_utf8(), what, ALLOWED)))
        }
    }
}
