//! Answers the cases of tools/wave_cases.py with the routines of `wave`, a line for each, in the form of the program `test_wave`.
//!
//! `main read FILE` prints what a file holds and its samples' bits, a line each; `main write RATE CHANNELS BITS FILE` writes the file of
//! the samples that standard input gives as f32, little-endian.

#[allow(dead_code)]
mod routines;

use routines::Info;
use std::io::{self, BufWriter, Read, Write};

fn word(input: &[u8], at: usize) -> u32 {
    u32::from_le_bytes(input[at..at + 4].try_into().unwrap())
}

fn floats(bytes: &[u8]) -> Vec<f32> {
    bytes.chunks_exact(4).map(|b| f32::from_le_bytes(b.try_into().unwrap())).collect()
}

fn bits(x: f32) -> u32 {
    if x.is_nan() { 0x7fc0_0000 } else { x.to_bits() }
}

fn read_case(file: &[u8], length: usize, out: &mut impl Write) -> io::Result<()> {
    let mut info = Info { rate: 1, channels: 2, bits: 3, frames: 4 };
    let number = routines::info(file, &mut info);
    write!(out, "{number} {} {} {} {} ", info.rate, info.channels, info.bits, info.frames)?;
    let mut rate = 5;
    let mut samples = vec![0.25f32; length];
    let number = routines::read(file, &mut samples, &mut rate);
    write!(out, "{number} {rate} ")?;
    for x in samples {
        write!(out, "{} ", bits(x))?;
    }
    writeln!(out)
}

fn write_case(header: [u32; 3], samples: &[f32], length: usize, out: &mut impl Write) -> io::Result<()> {
    let [rate, channels, bits] = header;
    let mut file = vec![170u8; length];
    let number = routines::write(rate, channels, bits, samples, &mut file);
    // The length routine says how long a file is, whatever is then asked of its rate and samples.
    if number == 0 {
        assert_eq!(routines::length(samples.len(), channels, bits), length);
    }
    write!(out, "{number} ")?;
    for b in file {
        write!(out, "{b} ")?;
    }
    writeln!(out)
}

fn answer_cases() -> io::Result<()> {
    let mut input = Vec::new();
    io::stdin().read_to_end(&mut input)?;
    let mut out = BufWriter::new(io::stdout());
    let mut at = 0;
    while at < input.len() {
        let end = at + 24 + word(&input, at + 4) as usize;
        let body = &input[at + 24..end];
        let length = word(&input, at + 8) as usize;
        if word(&input, at) == 0 {
            read_case(body, length, &mut out)?;
        } else {
            let header = [word(&input, at + 12), word(&input, at + 16), word(&input, at + 20)];
            write_case(header, &floats(body), length, &mut out)?;
        }
        at = end;
    }
    out.flush()
}

fn read_file(path: &str) -> io::Result<()> {
    let file = std::fs::read(path)?;
    let mut info = Info { rate: 0, channels: 0, bits: 0, frames: 0 };
    let number = routines::info(&file, &mut info);
    println!("{number} {} {} {} {}", info.rate, info.channels, info.bits, info.frames);
    if number == 0 {
        let mut samples = vec![0f32; 2 * info.frames as usize];
        let mut rate = 0;
        assert_eq!(routines::read(&file, &mut samples, &mut rate), 0);
        let mut out = BufWriter::new(io::stdout());
        for x in samples {
            writeln!(out, "{}", bits(x))?;
        }
    }
    Ok(())
}

fn write_file(header: [u32; 3], path: &str) -> io::Result<()> {
    let mut input = Vec::new();
    io::stdin().read_to_end(&mut input)?;
    let samples = floats(&input);
    let [rate, channels, bits] = header;
    let mut file = vec![0; routines::length(samples.len(), channels, bits)];
    let number = routines::write(rate, channels, bits, &samples, &mut file);
    println!("{number}");
    if number == 0 {
        std::fs::write(path, file)?;
    }
    Ok(())
}

fn main() -> io::Result<()> {
    let words: Vec<String> = std::env::args().skip(1).collect();
    let words: Vec<&str> = words.iter().map(String::as_str).collect();
    match words[..] {
        [] => answer_cases(),
        ["read", path] => read_file(path),
        ["write", rate, channels, bits, path] => {
            write_file([rate, channels, bits].map(|n| n.parse().expect("a number")), path)
        }
        _ => panic!("usage: main [read FILE | write RATE CHANNELS BITS FILE]"),
    }
}
