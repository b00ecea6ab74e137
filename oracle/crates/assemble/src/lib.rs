//! Lays kira's text and the files that are absent from it into one source
//! tree, and shows that the text differs from kira's by the patch alone.
//! Used by the build scripts of `kira-table` and `kira-powf`.

use std::{
	collections::BTreeSet,
	env, fs,
	path::{Path, PathBuf},
	process::Command,
};

const SOURCES: &str = "crates/kira/src";
const EDITED: &str = "decibels.rs";

/// A patch of a single line.
struct Edit {
	from: String,
	to: String,
}

/// Writes the source tree into `OUT_DIR/kira`. Panics, and so fails the
/// build, where a checksum or a file's text is not as it must be.
pub fn assemble(with_gain_table: bool) {
	let root = Path::new(env!("CARGO_MANIFEST_DIR")).join("../..");
	let out = PathBuf::from(env::var("OUT_DIR").expect("run by a build script")).join("kira");
	for input in ["kira", "absent", "gain-table.patch"] {
		println!("cargo::rerun-if-changed={}", root.join(input).display());
	}
	check_sums(&root.join("kira"));
	let edit = with_gain_table.then(|| read_edit(&root.join("gain-table.patch")));
	let _ = fs::remove_dir_all(&out);
	let kira = root.join("kira").join(SOURCES);
	copy_all(&kira, &out);
	if let Some(edit) = &edit {
		apply(edit, &out.join(EDITED));
	}
	copy_all(&root.join("absent"), &out);
	check_differences(&kira, &out, edit.as_ref());
}

/// Every listed file has its sum, and every file is listed.
fn check_sums(kira: &Path) {
	let list = read(&kira.join("SHA256SUMS"));
	let listed: BTreeSet<PathBuf> = list
		.lines()
		.map(|line| PathBuf::from(line.split_once("  ").expect("a sum and a name").1))
		.collect();
	let mut present = files(kira);
	present.remove(Path::new("SHA256SUMS"));
	assert_eq!(listed, present, "the checksum list names other files");
	let status = Command::new("sha256sum")
		.args(["--check", "--strict", "--quiet", "SHA256SUMS"])
		.current_dir(kira)
		.status()
		.expect("sha256sum runs");
	assert!(status.success(), "kira's text is not as published");
}

fn read_edit(patch: &Path) -> Edit {
	let text = read(patch);
	let hunk: Vec<&str> = text
		.lines()
		.skip_while(|line| !line.starts_with("@@"))
		.collect();
	let line = |sign: char| {
		let mut found = hunk.iter().filter_map(|line| line.strip_prefix(sign));
		let only = found.next().expect("the patch changes a line");
		assert!(found.next().is_none(), "the patch changes one line");
		only.to_owned()
	};
	Edit {
		from: line('-'),
		to: line('+'),
	}
}

fn apply(edit: &Edit, file: &Path) {
	let text = read(file);
	assert_eq!(text.matches(&edit.from).count(), 1, "one place to patch");
	fs::write(file, text.replace(&edit.from, &edit.to)).expect("the patched file is written");
}

/// A file that is there already would be kira's own: nothing may replace it.
fn copy_all(from: &Path, to: &Path) {
	for name in files(from) {
		let target = to.join(&name);
		assert!(!target.exists(), "{} would be replaced", target.display());
		fs::create_dir_all(target.parent().expect("a folder")).expect("the folder is made");
		fs::copy(from.join(&name), target).expect("the file is copied");
	}
}

/// Compares what will be compiled with kira's text, line by line.
fn check_differences(kira: &Path, out: &Path, edit: Option<&Edit>) {
	let mut found = Vec::new();
	for name in files(kira) {
		let (theirs, ours) = (read(&kira.join(&name)), read(&out.join(&name)));
		assert_eq!(theirs.split('\n').count(), ours.split('\n').count());
		let lines = theirs.split('\n').zip(ours.split('\n'));
		found.extend(
			lines
				.filter(|(their, our)| their != our)
				.map(|(their, our)| (name.clone(), their.to_owned(), our.to_owned())),
		);
	}
	let allowed: Vec<_> = edit
		.map(|edit| (PathBuf::from(EDITED), edit.from.clone(), edit.to.clone()))
		.into_iter()
		.collect();
	assert_eq!(found, allowed, "kira's text differs by the patch alone");
}

/// The files below a folder, by their names relative to it.
fn files(folder: &Path) -> BTreeSet<PathBuf> {
	let mut found = BTreeSet::new();
	let mut folders = vec![folder.to_path_buf()];
	while let Some(current) = folders.pop() {
		for entry in fs::read_dir(&current).expect("the folder is read") {
			let path = entry.expect("an entry").path();
			if path.is_dir() {
				folders.push(path);
			} else {
				found.insert(path.strip_prefix(folder).expect("below it").to_path_buf());
			}
		}
	}
	found
}

fn read(file: &Path) -> String {
	fs::read_to_string(file).unwrap_or_else(|error| panic!("{}: {error}", file.display()))
}
