//! What a command is given: a scene file, a folder, a show sheet or standard input, and recordings.

use std::collections::HashMap;
use std::path::Path;

use room_desk::Shape;

use crate::args::Args;
use crate::files;
use crate::paint::Paint;
use crate::recordings::{Both, Part, quoted};
use crate::report;
use crate::scene::{Finding, Scene, text};
use crate::sheet;
use crate::stop::{Done, Stop};

/// What tracks, send tracks and clocks are called, by line; a scene file has no names.
#[derive(Debug, Clone, Default, PartialEq)]
pub struct Names {
    pub tracks: Vec<String>,
    pub sends: Vec<String>,
    pub clocks: Vec<String>,
}

impl Names {
    pub fn track(&self, line: usize) -> String {
        name(&self.tracks, "track", line)
    }

    pub fn send(&self, line: usize) -> String {
        name(&self.sends, "send", line)
    }

    pub fn clock(&self, line: usize) -> String {
        name(&self.clocks, "clock", line)
    }
}

fn name(names: &[String], kind: &str, line: usize) -> String {
    let given = line.checked_sub(1).and_then(|at| names.get(at)).cloned();
    given.unwrap_or_else(|| format!("{kind}-{line}"))
}

/// A show with its recordings.
#[derive(Debug, Default)]
pub struct Input {
    /// What the file is called.
    pub name: String,
    /// The scene file; a sheet's is made.
    pub file: Vec<u8>,
    pub recordings: Both,
    pub names: Names,
    /// The sheet's text, and from a line of the scene to the sheet's line.
    pub sheet: Option<(String, HashMap<usize, usize>)>,
    /// Tracks that the sheet says are silent, with its lines.
    pub silent: Vec<(usize, String)>,
    /// What the sheet's reader has to say, with its lines: times that landed elsewhere.
    pub notes: Vec<(usize, String)>,
}

impl Input {
    /// The first file is the show, the others are the house's recordings.
    pub fn load(args: &Args) -> Done<Self> {
        let Some((first, rest)) = args.files.split_first() else {
            return Err(Stop::Usage("no scene, folder or show sheet is named".into()));
        };
        let mut house: Vec<String> = rest.to_vec();
        let mut visitor: Vec<String> = args.values("--visitor").map(String::from).collect();
        let named = house.iter().chain(&visitor).chain([first]).filter(|file| *file == "-");
        if named.count() > 1 {
            return Err(Stop::Usage("standard input (-) is named twice".into()));
        }
        if let Some(sheet) = house.iter().find(|file| file.ends_with(".show")) {
            let why = "is a show sheet, not a recording: a command takes one show";
            return Err(Stop::Usage(format!("{sheet} {why}")));
        }
        let name = found(first, &mut house, &mut visitor)?;
        let mut recordings = Both { any_rate: args.has("--any-rate"), ..Both::default() };
        for file in &house {
            recordings.house.add(file, file)?;
        }
        for file in &visitor {
            recordings.visitor.add(file, file)?;
        }
        let file = files::read(&name)?;
        if name.ends_with(".show") {
            return Self::of_sheet(name, &file, recordings);
        }
        Ok(Self { name, file, recordings, ..Self::default() })
    }

    fn of_sheet(name: String, bytes: &[u8], recordings: Both) -> Done<Self> {
        let refused = |sheet: &str, finding: Finding| {
            report::findings(&name, sheet, &[finding], Paint::default())
        };
        let sheet = sheet::decoded(bytes)
            .map_err(|(lossy, finding)| Stop::Refused(refused(&lossy, finding)))?;
        let folder = Path::new(&name).parent().unwrap_or(Path::new(""));
        match sheet::compile(&sheet, folder, recordings) {
            Ok(made) => Ok(Self {
                file: made.scene.text(),
                recordings: made.recordings,
                names: made.names,
                sheet: Some((sheet, made.lines)),
                silent: made.silent,
                notes: made.notes,
                name,
            }),
            Err(sheet::Fault::Line(finding)) => Err(Stop::Refused(refused(&sheet, *finding))),
            Err(sheet::Fault::Missing(finding)) => {
                Err(Stop::File(refused(&sheet, *finding).trim_end().into()))
            }
            Err(sheet::Fault::Recording(finding, refusal)) => {
                let last = report::headline(refusal.number(), Paint::default());
                Err(Stop::Refused(refused(&sheet, *finding) + &last))
            }
        }
    }

    /// Every question by the proved routine, then those of this command: whole samples, equal rates.
    pub fn ask(&self) -> Result<Shape, Trouble> {
        let answer = room_desk::check(&self.file, self.recordings.samples());
        let asked_before_8 = matches!(answer, Err(refusal) if refusal.number() <= 8);
        if let (false, Some(part)) = (asked_before_8, self.recordings.parts().find(|p| p.rest > 0))
        {
            return Err(Trouble::Rest(part.file.clone(), part.rest));
        }
        let shape = answer.map_err(|refusal| Trouble::Number(refusal.number()))?;
        match self.recordings.parts().find(|part| part.rate.is_some_and(|r| r != shape.rate)) {
            Some(part) if !self.recordings.any_rate => {
                Err(Trouble::Rate(part.clone(), part.rate.unwrap_or(0), shape.rate))
            }
            _ => Ok(shape),
        }
    }

    /// Asks, or stops with the refusal for standard error.
    pub fn accepted(&self, paint: Paint) -> Done<(Shape, Scene)> {
        let shape = self.ask().map_err(|t| Stop::Refused(report::trouble(self, &t, paint)))?;
        Ok((shape, self.scene()?))
    }

    /// Nothing is written over what it is made of.
    pub fn spare(&self, output: &str) -> Done {
        let part = self.recordings.parts().find(|part| files::same(&part.path, output));
        let what = match part {
            _ if files::same(&self.name, output) => "the show itself",
            Some(_) => "a recording of this show",
            None => return Ok(()),
        };
        Err(Stop::Usage(format!("{output} is {what}: name another file to write")))
    }

    /// `night.show:12`, by a line of the scene file.
    pub fn place(&self, line: usize) -> String {
        match self.line(line) {
            Some(line) => format!("{}:{line}", self.name),
            None => self.name.clone(),
        }
    }

    /// A `play` line of the sheet has made this line of the scene file.
    pub fn plays(&self, line: usize) -> bool {
        let Some((sheet, lines)) = &self.sheet else { return false };
        let text = lines.get(&line).and_then(|line| sheet.lines().nth(line - 1));
        text.and_then(|text| text.split_whitespace().next()) == Some("play")
    }

    /// The line to show for one of the scene file: a sheet's own.
    pub fn line(&self, line: usize) -> Option<usize> {
        match &self.sheet {
            Some((_, lines)) => lines.get(&line).copied(),
            None => Some(line),
        }
    }

    /// `line 12`, by a line of the scene file.
    pub fn line_name(&self, line: usize) -> String {
        self.line(line).map_or("an order".into(), |line| format!("line {line}"))
    }

    /// The scene as structs, once it is accepted (or refused by 8 or 9 alone).
    pub fn scene(&self) -> Done<Scene> {
        let read = text::read(&self.file).ok().and_then(|rows| Scene::of(&rows));
        read.ok_or_else(|| Stop::File(format!("{}: read in two ways", self.name)))
    }

    /// The show's name, for titles: `first/scene.txt` is called `first`.
    pub fn title(&self) -> String {
        let path = Path::new(&self.name);
        let part = |name: Option<&std::ffi::OsStr>| {
            name.map(|name| name.to_string_lossy().into_owned()).unwrap_or_default()
        };
        let file = part(path.file_name());
        match part(path.parent().and_then(Path::file_name)) {
            folder if file == "scene.txt" && !folder.is_empty() => folder,
            _ if file == "-" => "show".into(),
            _ => file,
        }
    }
}

/// Why a show is not taken.
#[derive(Debug, Clone, PartialEq)]
pub enum Trouble {
    /// The proved routine's number.
    Number(u32),
    /// A raw file with bytes that make no whole sample; the render program's 8.
    Rest(String, usize),
    /// A recording of another rate than the show's.
    Rate(Part, u32, u32),
}

impl Trouble {
    /// The number that is printed; 0 where none of the proved questions says no.
    pub fn number(&self) -> u32 {
        match self {
            Self::Number(number) => *number,
            Self::Rest(..) => 8,
            Self::Rate(..) => 0,
        }
    }
}

/// The file of a show, and the recordings that stand beside it in its folder.
fn found(first: &str, house: &mut Vec<String>, visitor: &mut Vec<String>) -> Done<String> {
    let folder = Path::new(first);
    if !folder.is_dir() {
        return Ok(first.into());
    }
    let beside = |name: &str| {
        let path = folder.join(name);
        path.is_file().then(|| path.display().to_string())
    };
    let Some(scene) = beside("scene.txt") else { return only_sheet(folder) };
    if house.is_empty() {
        house.extend(beside("samples.raw").or_else(|| beside("samples.wav")));
    }
    if visitor.is_empty() {
        visitor.extend(beside("visitor.raw").or_else(|| beside("visitor.wav")));
    }
    Ok(scene)
}

fn only_sheet(folder: &Path) -> Done<String> {
    let shown = folder.display();
    let entries = folder.read_dir().map_err(|why| Stop::File(format!("{shown}: {why}")))?;
    let paths = entries.flatten().map(|entry| entry.path());
    let sheets: Vec<_> =
        paths.filter(|path| path.extension().is_some_and(|e| e == "show")).collect();
    match &sheets[..] {
        [sheet] => Ok(sheet.display().to_string()),
        [] => Err(Stop::File(format!("{shown}: no scene.txt and no show sheet in this folder"))),
        _ => Err(Stop::Usage(format!(
            "{} has {} show sheets: name one",
            quoted(&shown.to_string()),
            sheets.len()
        ))),
    }
}
