//! What the tests share.
#![allow(dead_code)]

use std::fs;
use std::path::{Path, PathBuf};
use std::process::{Command, Output};

use room_desk_cli::input::Input;
use room_desk_cli::recordings::{Both, Joined, raw};

pub fn root() -> PathBuf {
    Path::new(env!("CARGO_MANIFEST_DIR")).join("../..")
}

/// A row of numbers that looks random and is the same every time.
pub struct Random(pub u64);

impl Random {
    pub fn below(&mut self, most: usize) -> usize {
        self.0 ^= self.0 << 13;
        self.0 ^= self.0 >> 7;
        self.0 ^= self.0 << 17;
        (self.0 >> 11) as usize % most.max(1)
    }

    pub fn pick<T: Clone>(&mut self, list: &[T]) -> T {
        list[self.below(list.len())].clone()
    }
}

/// A scene with its samples, as it stands in a folder.
#[derive(Clone)]
pub struct Case {
    pub name: String,
    pub scene: Vec<u8>,
    pub house: Vec<f32>,
    pub visitor: Vec<f32>,
}

impl Case {
    pub fn input(&self) -> Input {
        let joined = |samples: &[f32]| Joined { samples: samples.to_vec(), parts: vec![] };
        let (house, visitor) = (joined(&self.house), joined(&self.visitor));
        let recordings = Both { house, visitor, ..Both::default() };
        Input { name: self.name.clone(), file: self.scene.clone(), recordings, ..Input::default() }
    }
}

/// The stored scenes of the oracle, accepted and refused.
pub fn stored() -> Vec<Case> {
    let mut cases = vec![];
    for entry in fs::read_dir(root().join("oracle/scenes")).unwrap() {
        let folder = entry.unwrap().path();
        let file = |name: &str| fs::read(folder.join(name)).unwrap_or_default();
        cases.push(Case {
            name: folder.file_name().unwrap().to_string_lossy().into_owned(),
            scene: file("scene.txt"),
            house: raw(&file("samples.raw")),
            visitor: raw(&file("visitor.raw")),
        });
    }
    cases.sort_by(|a, b| a.name.cmp(&b.name));
    cases
}

/// Runs the command in a folder.
pub fn run_in(folder: &Path, words: &[&str]) -> Output {
    let mut command = Command::new(env!("CARGO_BIN_EXE_room-desk"));
    command.args(words).current_dir(folder).env_remove("NO_COLOR").output().unwrap()
}

pub fn run(words: &[&str]) -> Output {
    run_in(&root(), words)
}

pub fn status(output: &Output) -> i32 {
    output.status.code().unwrap_or(-1)
}

pub fn text(bytes: &[u8]) -> String {
    String::from_utf8_lossy(bytes).into_owned()
}

/// An empty folder of this test's own.
pub fn folder(name: &str) -> PathBuf {
    let folder = Path::new(env!("CARGO_TARGET_TMPDIR")).join(name);
    let _ = fs::remove_dir_all(&folder);
    fs::create_dir_all(&folder).unwrap();
    folder
}
