//! Files, whole or not at all.

use std::fs::{self, File};
use std::io::{self, IsTerminal, Read, Write};
use std::path::{Path, PathBuf};

use crate::stop::{Done, Stop};

/// The bytes of a file, of standard input for `-`.
pub fn read(path: &str) -> Done<Vec<u8>> {
    let mut bytes = vec![];
    let result = match path {
        "-" => io::stdin().lock().read_to_end(&mut bytes),
        _ => File::open(path).and_then(|mut file| file.read_to_end(&mut bytes)),
    };
    result.map(|_| bytes).map_err(|why| Stop::File(format!("{}: {}", shown(path), plain(&why))))
}

/// Writes to `path`, to standard output for `-`.
pub fn write(path: &str, bytes: &[u8]) -> Done {
    let result = match path {
        "-" => print(bytes),
        _ if fs::metadata(path).is_ok_and(|found| !found.is_file() && !found.is_dir()) => {
            fs::write(path, bytes) // a device or a pipe
        }
        _ => replace(Path::new(path), bytes),
    };
    result.map_err(|why| match no_folder(path) {
        Some(folder) => Stop::File(format!("{path}: there is no folder {}", folder.display())),
        None => Stop::File(format!("{}: {}", shown(path), plain(&why))),
    })
}

/// The folder of a file to write, where there is none.
fn no_folder(path: &str) -> Option<&Path> {
    Path::new(path).parent().filter(|folder| !folder.as_os_str().is_empty() && !folder.exists())
}

/// Both name one file that is there.
pub fn same(one: &str, other: &str) -> bool {
    let found = |path: &str| fs::canonicalize(path).ok().filter(|_| path != "-");
    found(one).is_some_and(|path| path.is_file() && Some(path) == found(other))
}

/// What nobody reads as text is not poured over a terminal.
pub fn not_to_terminal(output: &str, what: &str, instead: &str) -> Done {
    if output != "-" || !io::stdout().is_terminal() {
        return Ok(());
    }
    Err(Stop::Usage(format!("{what} is nothing for a terminal: name a file, as `-o {instead}`")))
}

/// On standard error; nothing can be done where that is closed.
pub fn tell(text: &str) {
    let _ = io::stderr().lock().write_all(text.as_bytes());
}

/// What was written, on standard error; nothing of standard output.
pub fn tell_of(output: &str, what: &str) {
    if output != "-" {
        tell(&format!("{output}: {what}\n"));
    }
}

fn print(bytes: &[u8]) -> io::Result<()> {
    let mut out = io::stdout().lock();
    match out.write_all(bytes).and_then(|()| out.flush()) {
        // Who reads has had enough: `room-desk show x | head`.
        Err(why) if why.kind() == io::ErrorKind::BrokenPipe => Ok(()),
        result => result,
    }
}

/// Under another name first, so that a full disk or a stop leaves what was there.
fn replace(path: &Path, bytes: &[u8]) -> io::Result<()> {
    if path.is_dir() {
        return Err(io::Error::new(io::ErrorKind::IsADirectory, "it is a folder"));
    }
    // A link stays a link: what it names is replaced.
    let path = &fs::canonicalize(path).unwrap_or_else(|_| path.to_path_buf());
    let part = part_of(path);
    let written = File::create_new(&part)
        .and_then(|mut file| file.write_all(bytes).and_then(|()| file.sync_all()))
        .and_then(|()| fs::rename(&part, path));
    if written.is_err() {
        let _ = fs::remove_file(&part);
    }
    written
}

fn part_of(path: &Path) -> PathBuf {
    let mut name = path.file_name().unwrap_or_default().to_os_string();
    name.push(format!(".{}.part", std::process::id()));
    path.with_file_name(name)
}

fn shown(path: &str) -> &str {
    if path == "-" { "standard input or output" } else { path }
}

/// The reason without the system's number.
fn plain(why: &io::Error) -> String {
    let text = why.to_string();
    let end = text.find(" (os error").unwrap_or(text.len());
    text[..end].to_string()
}
