//! Many cases in one process.
//!
//! A case is five little-endian u32 numbers and three runs of bytes: kind (0
//! the render program, 1 the library's routine), lengths of the scene file, of
//! the house's sample file and of the visitor's, length of the output (0 for
//! the program), then the three files. A missing file is an empty one.
//!
//! An answer is two u32 numbers and the output's bits: the number, how many
//! samples follow, and they. The library's buffer is answered whole as it
//! stands after the call, on refusal too; it holds `BEFORE` at entry. Of
//! states, the tracks' numbers stand in the samples' place.

use std::io::{self, ErrorKind, Read, Write};

use scene::{Recording, Recordings};

/// 785.0666: finite, and never a sample of an output.
const BEFORE: u32 = 0x4444_4444;

pub struct Case {
	library: bool,
	file: Vec<u8>,
	samples: [Vec<u8>; 2],
	output: usize,
}

pub fn run(
	answer: impl Fn(&Case) -> (u32, Vec<u32>),
	input: &mut impl Read,
	output: &mut impl Write,
) -> io::Result<()> {
	while let Some(case) = read_case(input)? {
		let (number, answers) = answer(&case);
		write_number(output, number)?;
		write_number(output, answers.len() as u32)?;
		for answer in answers {
			write_number(output, answer)?;
		}
	}
	output.flush()
}

/// The output's bits.
pub fn rendered(case: &Case) -> (u32, Vec<u32>) {
	let (number, samples) = render(case);
	(number, samples.into_iter().map(f32::to_bits).collect())
}

/// The tracks' states, chunk by chunk.
pub fn states(case: &Case) -> (u32, Vec<u32>) {
	match oracle::states(&case.file, &whole(case)) {
		Ok(states) => (0, states),
		Err(number) => (number, vec![]),
	}
}

fn whole(case: &Case) -> Recordings {
	case.samples.each_ref().map(|bytes| Recording::whole(bytes))
}

fn render(case: &Case) -> (u32, Vec<f32>) {
	if case.library {
		let mut buffer = vec![f32::from_bits(BEFORE); case.output];
		let number = oracle::render(&case.file, &whole(case), &mut buffer);
		return (number, buffer);
	}
	match oracle::program(&case.file, case.samples.each_ref().map(Vec::as_slice)) {
		Ok((_, samples)) => (0, samples),
		Err(number) => (number, vec![]),
	}
}

/// `None` at the end of the input, if it ends between two cases.
fn read_case(input: &mut impl Read) -> io::Result<Option<Case>> {
	let mut first = [0; 4];
	match input.read_exact(&mut first) {
		Err(error) if error.kind() == ErrorKind::UnexpectedEof => return Ok(None),
		other => other?,
	}
	let lengths = [
		read_number(input)?,
		read_number(input)?,
		read_number(input)?,
		read_number(input)?,
	];
	let [file, house, visitor, output] = lengths.map(|length| length as usize);
	Ok(Some(Case {
		library: u32::from_le_bytes(first) == 1,
		file: read_bytes(input, file)?,
		samples: [read_bytes(input, house)?, read_bytes(input, visitor)?],
		output,
	}))
}

fn read_number(input: &mut impl Read) -> io::Result<u32> {
	let mut bytes = [0; 4];
	input.read_exact(&mut bytes)?;
	Ok(u32::from_le_bytes(bytes))
}

fn read_bytes(input: &mut impl Read, length: usize) -> io::Result<Vec<u8>> {
	let mut bytes = vec![0; length];
	input.read_exact(&mut bytes)?;
	Ok(bytes)
}

fn write_number(output: &mut impl Write, number: u32) -> io::Result<()> {
	output.write_all(&number.to_le_bytes())
}
