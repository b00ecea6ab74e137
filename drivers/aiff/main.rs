//! Answers the cases of tools/aiff_cases.py with the routines of `aiff` and `sound_converter`, a line for each, in the form of the program
//! `test_aiff`.
//!
//! `main read FILE` prints what a file holds and its samples' bits, a line each; `main write RATE CHANNELS FILE` writes the file of the
//! samples that standard input gives as f32, little-endian.

mod routines;

use routines::Info;
use std::io::{self, BufWriter, Read, Write};

fn word(input: &[u8], at: usize) -> u32 {
    u32::from_le_bytes(input[at..at + 4].try_into().unwrap())
}

fn floats(bytes: &[u8]) -> Vec<f32> {
    bytes.chunks_exact(4).map(|b| f32::from_le_bytes(b.try_into().unwrap())).collect()
}

fn read_case(file: &[u8], length: usize, out: &mut impl Write) -> io::Result<()> {
    let mut info = Info { rate: 1, channels: 2, frames: 3 };
    let number = routines::info(file, &mut info);
    write!(out, "{number} {} {} {} ", info.rate, info.channels, info.frames)?;
    let mut rate = 4;
    let mut samples = vec![0.25f32; length];
    let number = routines::read(file, &mut samples, &mut rate);
    write!(out, "{number} {rate} ")?;
    for x in samples {
        write!(out, "{} ", x.to_bits())?;
    }
    writeln!(out)
}

fn file_line(number: u32, file: &[u8], out: &mut impl Write) -> io::Result<()> {
    write!(out, "{number} ")?;
    for b in file {
        write!(out, "{b} ")?;
    }
    writeln!(out)
}

fn write_case(rate: u32, channels: u32, samples: &[f32], length: usize, out: &mut impl Write) -> io::Result<()> {
    let mut file = vec![170u8; length];
    let number = routines::write(rate, channels, samples, &mut file);
    // The length routine says how long a file is, whatever is then asked of its rate and samples.
    if number == 0 {
        assert_eq!(routines::length(samples.len(), channels), length);
    }
    file_line(number, &file, out)
}

fn convert_case(kind: u32, file: &[u8], length: usize, out: &mut impl Write) -> io::Result<()> {
    let mut other = vec![170u8; length];
    let convert = if kind == 2 { routines::wave_to_aiff } else { routines::aiff_to_wave };
    let number = convert(file, &mut other);
    file_line(number, &other, out)
}

fn answer_cases() -> io::Result<()> {
    let mut input = Vec::new();
    io::stdin().read_to_end(&mut input)?;
    let mut out = BufWriter::new(io::stdout());
    let mut at = 0;
    while at < input.len() {
        let end = at + 20 + word(&input, at + 4) as usize;
        let body = &input[at + 20..end];
        let length = word(&input, at + 8) as usize;
        match word(&input, at) {
            0 => read_case(body, length, &mut out)?,
            1 => write_case(word(&input, at + 12), word(&input, at + 16), &floats(body), length, &mut out)?,
            kind => convert_case(kind, body, length, &mut out)?,
        }
        at = end;
    }
    out.flush()
}

fn read_file(path: &str) -> io::Result<()> {
    let file = std::fs::read(path)?;
    let mut info = Info { rate: 0, channels: 0, frames: 0 };
    let number = routines::info(&file, &mut info);
    println!("{number} {} {} {}", info.rate, info.channels, info.frames);
    if number == 0 {
        let mut samples = vec![0f32; 2 * info.frames as usize];
        let mut rate = 0;
        assert_eq!(routines::read(&file, &mut samples, &mut rate), 0);
        let mut out = BufWriter::new(io::stdout());
        for x in samples {
            writeln!(out, "{}", x.to_bits())?;
        }
    }
    Ok(())
}

fn write_file(rate: u32, channels: u32, path: &str) -> io::Result<()> {
    let mut input = Vec::new();
    io::stdin().read_to_end(&mut input)?;
    let samples = floats(&input);
    let mut file = vec![0; routines::length(samples.len(), channels)];
    let number = routines::write(rate, channels, &samples, &mut file);
    println!("{number}");
    if number == 0 {
        std::fs::write(path, file)?;
    }
    Ok(())
}

fn main() -> io::Result<()> {
    let words: Vec<String> = std::env::args().skip(1).collect();
    let words: Vec<&str> = words.iter().map(String::as_str).collect();
    let number = |word: &str| word.parse().expect("a number");
    match words[..] {
        [] => answer_cases(),
        ["read", path] => read_file(path),
        ["write", rate, channels, path] => write_file(number(rate), number(channels), path),
        _ => panic!("usage: main [read FILE | write RATE CHANNELS FILE]"),
    }
}
