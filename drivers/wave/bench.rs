//! How fast the WAVE routines are, next to a plain loop that reads a sample, converts and stores it (hound's way of working), and next
//! to memcpy of the file's bytes. 64 MiB of data of each kind, the best of several rounds, as times and as ratios.

#[allow(dead_code)]
mod routines;

use std::{hint::black_box, time::Instant};

const DATA: usize = 64 << 20;
const ROUNDS: usize = 9;

fn best(mut work: impl FnMut()) -> f64 {
    (0..ROUNDS)
        .map(|_| {
            let start = Instant::now();
            work();
            start.elapsed().as_secs_f64() * 1e3
        })
        .fold(f64::INFINITY, f64::min)
}

// A sample from the front of what is left of the data, as hound's `Samples` gives one after the other.
fn next<'a, const N: usize>(left: &mut &'a [u8]) -> Option<[u8; N]> {
    let (first, rest) = left.split_first_chunk::<N>()?;
    *left = rest;
    Some(*first)
}

fn plain_read(data: &[u8], bits: u32, channels: u32, samples: &mut Vec<f32>) {
    samples.clear();
    let mut left = data;
    loop {
        let x = if bits == 16 {
            next::<2>(&mut left).map(|b| i16::from_le_bytes(b) as f32 / 32768.0)
        } else {
            next::<4>(&mut left).map(f32::from_le_bytes)
        };
        let Some(x) = x else { break };
        samples.push(x);
        if channels == 1 {
            samples.push(x);
        }
    }
}

fn plain_write(samples: &[f32], bits: u32, channels: u32, data: &mut Vec<u8>) -> bool {
    data.clear();
    for (i, x) in samples.iter().enumerate() {
        if !(-1.0..=1.0).contains(x) {
            return false;
        }
        if channels == 1 && i % 2 == 1 {
            continue;
        }
        if bits == 16 {
            let v = (x * 32768.0).round_ties_even().min(32767.0) as i16;
            data.extend_from_slice(&v.to_le_bytes());
        } else {
            data.extend_from_slice(&x.to_le_bytes());
        }
    }
    true
}

fn main() {
    println!("64 MiB of data, ms: the routine, a plain loop, memcpy of the data; how many times as long as each");
    for (bits, channels) in [(16, 2), (16, 1), (32, 2), (32, 1)] {
        let width = bits as usize / 8;
        let frames = DATA / width / channels as usize;
        let samples: Vec<f32> = (0..2 * frames)
            .map(|i| ((i / if channels == 1 { 2 } else { 1 }) as u64 * 7919 % 65535) as f32 / 32768.0 - 0.99997)
            .collect();
        let length = routines::length(samples.len(), channels, bits);
        assert_eq!(length, 44 + DATA);
        let mut file = vec![0u8; length];
        let mut data = Vec::with_capacity(DATA);
        let mut copy = vec![0u8; DATA];
        let write = best(|| assert_eq!(routines::write(48000, channels, bits, black_box(&samples), &mut file), 0));
        let plain = best(|| assert!(plain_write(black_box(&samples), bits, channels, &mut data)));
        let bytes = best(|| black_box(&mut copy).copy_from_slice(black_box(&file[44..])));
        assert!(file[44..] == data[..]);
        row("write", bits, channels, write, plain, bytes);
        let mut back = vec![0f32; 2 * frames];
        let mut plainly = Vec::with_capacity(2 * frames);
        let mut rate = 0;
        let read = best(|| assert_eq!(routines::read(black_box(&file), &mut back, &mut rate), 0));
        let plain = best(|| plain_read(black_box(&file[44..]), bits, channels, &mut plainly));
        assert!(back == plainly);
        row("read", bits, channels, read, plain, bytes);
    }
}

fn row(what: &str, bits: u32, channels: u32, routine: f64, plain: f64, bytes: f64) {
    println!(
        "{what} {bits}-bit {channels} channel{}: {routine:.1} {plain:.1} {bytes:.1}; {:.2} of the plain loop, {:.2} of memcpy",
        if channels == 1 { "" } else { "s" },
        routine / plain,
        routine / bytes
    );
}
