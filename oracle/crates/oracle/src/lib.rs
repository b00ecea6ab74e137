//! What the library's rendering routine and the render program answer, with
//! kira in the mixer's place.

use std::fmt::Write;

use kira_table::harness::Show;
use scene::{Recording, Recordings, Refusal, Scene, accepted, output_length, sample_questions};

/// The render program's own limit on whole samples, read and written.
const PROGRAM_LIMIT: usize = 8_192;

/// The library's routine: 0, or the first question that says no, with the
/// output left alone.
pub fn render(file: &[u8], recordings: &Recordings, output: &mut [f32]) -> Refusal {
	match library_questions(file, recordings, output.len()) {
		Ok(scene) => {
			Show::new(&scene, recordings).render(output);
			0
		}
		Err(number) => number,
	}
}

/// Questions 1 to 10.
pub fn library_questions(
	file: &[u8],
	recordings: &Recordings,
	output: usize,
) -> Result<Scene, Refusal> {
	let scene = accepted(file)?;
	sample_questions(&scene, recordings)?;
	if output != output_length(&scene) {
		return Err(10);
	}
	Ok(scene)
}

/// The render program, from its files' bytes to the scene and its output.
pub fn program(file: &[u8], sample_bytes: [&[u8]; 2]) -> Result<(Scene, Vec<f32>), Refusal> {
	let recordings = sample_bytes.map(Recording::read);
	for recording in &recordings {
		if recording.samples.len() > PROGRAM_LIMIT {
			return Err(12);
		}
	}
	let scene = accepted(file)?;
	sample_questions(&scene, &recordings)?;
	if output_length(&scene) > PROGRAM_LIMIT {
		return Err(12);
	}
	let output = rendered(&scene, &recordings);
	Ok((scene, output))
}

pub fn rendered(scene: &Scene, recordings: &Recordings) -> Vec<f32> {
	let mut output = vec![0.0; output_length(scene)];
	Show::new(scene, recordings).render(&mut output);
	output
}

/// The tracks' states in line order, chunk by chunk.
pub fn states(file: &[u8], recordings: &Recordings) -> Result<Vec<u32>, Refusal> {
	let scene = accepted(file)?;
	sample_questions(&scene, recordings)?;
	Ok(Show::new(&scene, recordings).states())
}

/// What the render program prints.
pub fn printed(answer: &Result<(Scene, Vec<f32>), Refusal>) -> String {
	match answer {
		Ok((scene, output)) => listing(scene, output),
		Err(number) => format!("refused\n{number}\n"),
	}
}

fn listing(scene: &Scene, output: &[f32]) -> String {
	let mut text = String::from("block place bits\n");
	let blocks = output.chunks(scene.head.block * scene.head.channels);
	for (number, block) in blocks.enumerate() {
		for (place, sample) in block.iter().enumerate() {
			writeln!(text, "{number} {place} {}", sample.to_bits()).expect("text grows");
		}
	}
	text
}
