//! Answers the cases of `oracle batch` with `room_desk_render`, so that `cmp` compares the two.
//!
//! A case is five numbers, each a little-endian u32: a kind (1, the library), the bytes of the scene
//! file, of the house's sample file and of the visitor's, the samples of the output; then the three
//! files. An answer is the number, the count of the output's samples, and their bits. Before the call
//! each sample of the output has the bits 0x44444444, so that an output that was written shows.
//!
//! `main STACK` runs all of it on a thread with a stack of that many KiB.

use std::io::{self, Read, Write};

#[path = "../room_desk.rs"]
mod room_desk;

fn words<const N: usize>(input: &mut impl Read) -> Option<[u32; N]> {
    let mut words = [0; N];
    for word in &mut words {
        let mut bytes = [0; 4];
        input.read_exact(&mut bytes).ok()?;
        *word = u32::from_le_bytes(bytes);
    }
    Some(words)
}

fn bytes(input: &mut impl Read, count: u32) -> Vec<u8> {
    let mut bytes = vec![0; count as usize];
    input.read_exact(&mut bytes).expect("a case is cut short");
    bytes
}

fn samples(input: &mut impl Read, count: u32) -> Vec<f32> {
    bytes(input, count).chunks_exact(4).map(|b| f32::from_le_bytes(b.try_into().unwrap())).collect()
}

fn answer_all() {
    let mut input = io::BufReader::new(io::stdin());
    let mut out = io::BufWriter::new(io::stdout());
    while let Some([kind, scene, house, visitor, count]) = words::<5>(&mut input) {
        assert_eq!(kind, 1, "the program's cases are not for this driver");
        let scene = bytes(&mut input, scene);
        let house = samples(&mut input, house);
        let visitor = samples(&mut input, visitor);
        let mut output = vec![f32::from_bits(0x4444_4444); count as usize];
        let number = room_desk::render(&scene, &house, &visitor, &mut output);
        out.write_all(&number.to_le_bytes()).unwrap();
        out.write_all(&count.to_le_bytes()).unwrap();
        for sample in output {
            out.write_all(&sample.to_bits().to_le_bytes()).unwrap();
        }
    }
}

fn main() {
    let stack: usize = std::env::args().nth(1).map_or(1024, |n| n.parse().expect("KiB"));
    let thread = std::thread::Builder::new().stack_size(stack * 1024).spawn(answer_all).unwrap();
    thread.join().unwrap();
}
