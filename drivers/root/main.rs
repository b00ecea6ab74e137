//! Holds the proved root to rustc's `sqrt` at every f32 from 0.0 to the largest sum of squares of a
//! scene, 3 * 2000^2, or to the largest f32, and says what a call costs. docs/ROOT.md says how to
//! build and run it.
//!
//!     root [--all] [--part K] [--threads N]
//!
//! With `--all` up to the largest f32; with `--part K` only every K-th f32.
use std::time::Instant;

#[link(name = "test_root_bench", kind = "static")]
extern "C" {
    fn room_desk_root(x: f32, root: &mut f32) -> u32;
}

const LARGEST_SUM: f32 = 12_000_000.0;

/// What the place holds before a call: no root.
const BEFORE: f32 = -1.0;

/// The number that is returned, and the bits that are left in the place.
fn given(bits: u32) -> (u32, u32) {
    let mut place = BEFORE;
    let number = unsafe { room_desk_root(f32::from_bits(bits), &mut place) };
    (number, place.to_bits())
}

fn print_wrong(bits: u32, right: (u32, u32)) {
    println!("WRONG at {bits:08x} ({}): {:x?}, not {right:x?}", f32::from_bits(bits), given(bits));
}

/// How many roots differ from rustc's.
fn compare(numbers: impl Iterator<Item = u32>) -> (u64, u64) {
    let (mut compared, mut wrong) = (0, 0);
    for bits in numbers {
        compared += 1;
        let right = (0, f32::from_bits(bits).sqrt().to_bits());
        if given(bits) != right {
            wrong += 1;
            if wrong <= 10 {
                print_wrong(bits, right);
            }
        }
    }
    (compared, wrong)
}

/// How many of those that have no root are answered, or change the place.
fn compare_refused() -> (u64, u64) {
    let refused = [1 << 31 | 1, 1 << 31 | 0x80_0000, (-1f32).to_bits(), 0xff7f_ffff, 0xff80_0000, 0x7f80_0000, 0x7f80_0001, 0x7fc0_0000, 0xffc0_0000];
    let right = (11, BEFORE.to_bits());
    let wrong: Vec<u32> = refused.into_iter().filter(|&bits| given(bits) != right).collect();
    wrong.iter().for_each(|&bits| print_wrong(bits, right));
    (refused.len() as u64, wrong.len() as u64)
}

fn compare_all(last: u32, part: u32, threads: u32) -> (u64, u64) {
    std::thread::scope(|scope| {
        let work: Vec<_> = (0..threads)
            .map(|t| scope.spawn(move || compare((t * part..=last).step_by((part * threads) as usize))))
            .collect();
        work.into_iter().map(|w| w.join().unwrap()).fold((0, 0), |a, b| (a.0 + b.0, a.1 + b.1))
    })
}

fn main() {
    let words: Vec<String> = std::env::args().collect();
    let after = |name: &str| words.iter().position(|w| w == name).map(|i| words[i + 1].parse().expect("a number"));
    let last = if words.iter().any(|w| w == "--all") { f32::MAX } else { LARGEST_SUM };
    let start = Instant::now();
    let (compared, wrong) = compare_all(last.to_bits(), after("--part").unwrap_or(1), after("--threads").unwrap_or(1));
    let seconds = start.elapsed().as_secs_f64();
    println!("{compared} f32 from 0 to {last:e}: {wrong} differ from rustc's sqrt; {seconds:.1} s");
    let (refused, answered) = compare_refused();
    println!("{refused} without a root: {answered} answered");
    std::process::exit(i32::from(wrong + answered > 0));
}
