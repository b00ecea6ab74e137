//! The oracle's command line. See oracle/README.md.

mod batch;
mod leaf;

use std::{
	env, fs,
	io::{self, BufWriter, Write},
	path::Path,
	process::ExitCode,
};

use scene::Recording;

const USAGE: &str = "usage: oracle render [FOLDER]        what the render program prints
       oracle check FOLDER LENGTH   the library's number for an output of that length
       oracle raw FOLDER FILE       the library's output, as raw samples, of any length
       oracle folders FOLDER        writes output.txt into each folder below
       oracle batch                 answers cases from standard input
       oracle states                the tracks' states in each chunk, of such cases
       oracle leaf                  answers lines from standard input";

fn main() -> ExitCode {
	let words: Vec<String> = env::args().skip(1).collect();
	let words: Vec<&str> = words.iter().map(String::as_str).collect();
	let done = match words.as_slice() {
		["render"] => render(Path::new(".")),
		["render", folder] => render(Path::new(folder)),
		["check", folder, length] => check(Path::new(folder), length),
		["raw", folder, file] => raw(Path::new(folder), Path::new(file)),
		["folders", folder] => folders(Path::new(folder)),
		["batch"] => batch::run(
			batch::rendered,
			&mut io::stdin().lock(),
			&mut BufWriter::new(io::stdout().lock()),
		),
		["states"] => batch::run(
			batch::states,
			&mut io::stdin().lock(),
			&mut BufWriter::new(io::stdout().lock()),
		),
		["leaf"] => leaf::run(
			&mut io::stdin().lock(),
			&mut BufWriter::new(io::stdout().lock()),
		),
		_ => Err(io::Error::other(USAGE)),
	};
	match done {
		Ok(()) => ExitCode::SUCCESS,
		Err(error) => {
			eprintln!("{error}");
			ExitCode::FAILURE
		}
	}
}

/// The scene file's bytes, and those of the two sample files; a file that won't
/// open counts as empty.
fn read_files(folder: &Path) -> (Vec<u8>, [Vec<u8>; 2]) {
	let read = |name: &str| fs::read(folder.join(name)).unwrap_or_default();
	(
		read("scene.txt"),
		[read("samples.raw"), read("visitor.raw")],
	)
}

fn answer(folder: &Path) -> String {
	let (file, samples) = read_files(folder);
	oracle::printed(&oracle::program(
		&file,
		samples.each_ref().map(Vec::as_slice),
	))
}

fn render(folder: &Path) -> io::Result<()> {
	io::stdout().write_all(answer(folder).as_bytes())
}

fn check(folder: &Path, length: &str) -> io::Result<()> {
	let length = length.parse().map_err(|_| io::Error::other(USAGE))?;
	let (file, samples) = read_files(folder);
	let recordings = samples.each_ref().map(|bytes| Recording::whole(bytes));
	let asked = oracle::library_questions(&file, &recordings, length);
	writeln!(io::stdout(), "{}", asked.err().unwrap_or(0))
}

fn raw(folder: &Path, target: &Path) -> io::Result<()> {
	let (file, samples) = read_files(folder);
	let recordings = samples.each_ref().map(|bytes| Recording::whole(bytes));
	let output = scene::accepted(&file).and_then(|scene| {
		scene::sample_questions(&scene, &recordings)?;
		Ok(oracle::rendered(&scene, &recordings))
	});
	match output {
		Ok(output) => {
			let bytes: Vec<u8> = output.iter().flat_map(|x| x.to_le_bytes()).collect();
			fs::write(target, bytes)
		}
		Err(number) => Err(io::Error::other(format!("refused\n{number}"))),
	}
}

fn folders(folder: &Path) -> io::Result<()> {
	for entry in fs::read_dir(folder)? {
		let path = entry?.path();
		if path.is_dir() {
			fs::write(path.join("output.txt"), answer(&path))?;
		}
	}
	Ok(())
}
