//! Finds the archive that `rust/archive` writes.

use std::{env, path::Path};

fn main() {
	let folder = Path::new(env!("CARGO_MANIFEST_DIR")).join("../target/product");
	let library = folder.join("libroom_desk.a");
	println!("cargo::rerun-if-changed={}", library.display());
	if !library.exists() {
		println!(
			"cargo::error=no target/product/libroom_desk.a: run `rust/archive` at the repository's root"
		);
		return;
	}
	println!("cargo::rustc-link-search=native={}", folder.display());
	assert_eq!(
		env::var("OPT_LEVEL").as_deref(),
		Ok("3"),
		"build with --release"
	);
}
