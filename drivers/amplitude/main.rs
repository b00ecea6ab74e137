//! Holds `room_desk_amplitude`, and the form of it that the library uses inside, to the gain table's
//! rule at every f32 from -60 to the limit, says how far the amplitudes lie from 10^(n / 20), and
//! measures what a call of the inside form costs. docs/AMPLITUDE.md says how to build and run it.
//!
//!     amplitude [--threads N] [--part K]   compare, then measure
//!     amplitude --cost                     measure only
//!
//! With `--part K` only every K-th number is compared.
mod rule;

use rule::{Answer, Rule, LIMIT};
use std::hint::black_box;
use std::time::Instant;

#[link(name = "room_desk", kind = "static")]
extern "C" {
    fn room_desk_amplitude(decibels: f32, amplitude: &mut f32) -> u32;
}

#[link(name = "test_amplitude_bench", kind = "static")]
extern "C" {
    fn room_desk_amplitudes(decibels: *const f32, count: usize, amplitudes: *mut f32, places: usize);
}

/// From here to the limit the amplitude must not fall.
const RISING_FROM: f32 = 0.0001;

/// What a place holds before a call: numbers that are no amplitude.
fn before(bits: u32) -> u32 {
    [0xc2f6_e979, 0x7fc0_1234][(bits & 1) as usize]
}

/// The number that the routine returns at an f32, and what it leaves in the place.
fn outside(bits: u32) -> (u32, u32) {
    let mut place = f32::from_bits(before(bits));
    let number = unsafe { room_desk_amplitude(f32::from_bits(bits), &mut place) };
    (number, place.to_bits())
}

/// What the inside form leaves in the places.
fn inside(chunk: &[u32]) -> Vec<f32> {
    let levels: Vec<f32> = chunk.iter().map(|&bits| f32::from_bits(bits)).collect();
    let mut places: Vec<f32> = chunk.iter().map(|&bits| f32::from_bits(before(bits))).collect();
    unsafe { room_desk_amplitudes(levels.as_ptr(), levels.len(), places.as_mut_ptr(), places.len()) };
    places
}

/// By the rule: the number, and what the place holds in the end.
fn expected(rule: &Rule, bits: u32) -> (u32, u32) {
    match rule.amplitude(bits) {
        Answer::Amplitude(amplitude) => (0, amplitude),
        Answer::Refused => (11, before(bits)),
    }
}

/// What was seen of the numbers compared.
#[derive(Default)]
struct Seen {
    compared: u64,
    /// in either form
    wrong: u64,
    /// the largest relative distance from 10^(n / 20), and where: of the amplitude, and of the
    /// straight line between two entries
    curve: (f64, u32),
    line: (f64, u32),
    /// where the amplitude falls although the number rises: from `RISING_FROM` on, and elsewhere
    falls_above: Falls,
    falls: Falls,
}

#[derive(Default)]
struct Falls {
    count: u64,
    first: Vec<u32>,
}

impl Falls {
    fn add(&mut self, bits: u32) {
        self.count += 1;
        if self.first.len() < 10 {
            self.first.push(bits);
        }
    }

    fn with(mut self, other: Falls) -> Falls {
        self.first.extend(other.first);
        self.first.truncate(10);
        Falls { count: self.count + other.count, first: self.first }
    }
}

impl Seen {
    fn with(self, other: Seen) -> Seen {
        Seen {
            compared: self.compared + other.compared,
            wrong: self.wrong + other.wrong,
            curve: farther(self.curve, other.curve),
            line: farther(self.line, other.line),
            falls: self.falls.with(other.falls),
            falls_above: self.falls_above.with(other.falls_above),
        }
    }
}

fn farther(a: (f64, u32), b: (f64, u32)) -> (f64, u32) {
    if b.0 > a.0 { b } else { a }
}

/// How far an amplitude lies from 10^(n / 20), as a part of it.
fn distance(decibels: f32, amplitude: f32) -> f64 {
    (f64::from(amplitude) / 10f64.powf(f64::from(decibels) / 20.0) - 1.0).abs()
}

/// The largest distances and the falls. The bits rise from one number to the next, so that a number
/// below zero falls.
fn look(rule: &Rule, seen: &mut Seen, bits: u32, last: Option<f32>, amplitude: f32) {
    let n = f32::from_bits(bits);
    if !(n > -60.0 && n <= f32::from(LIMIT)) {
        return;
    }
    seen.curve = farther(seen.curve, (distance(n, amplitude), bits));
    seen.line = farther(seen.line, (distance(n, rule.line(n)), bits));
    let Some(last) = last else { return };
    let falls = if n < 0.0 { amplitude > last } else { amplitude < last };
    if falls && n >= RISING_FROM {
        seen.falls_above.add(bits);
    } else if falls {
        seen.falls.add(bits);
    }
}

fn compare(rule: &Rule, mut numbers: impl Iterator<Item = u32>) -> Seen {
    let mut seen = Seen::default();
    let mut last = None;
    loop {
        let chunk: Vec<u32> = numbers.by_ref().take(4096).collect();
        if chunk.is_empty() {
            return seen;
        }
        for (&bits, inside) in chunk.iter().zip(inside(&chunk)) {
            let (given, right) = (outside(bits), expected(rule, bits));
            if given != right || inside.to_bits() != right.1 {
                seen.wrong += 1;
                if seen.wrong <= 10 {
                    println!("WRONG at {bits:08x} ({}): {given:x?}, inside {:x}; the rule says {right:x?}", f32::from_bits(bits), inside.to_bits());
                }
            }
            look(rule, &mut seen, bits, last, inside);
            last = Some(inside);
        }
        seen.compared += chunk.len() as u64;
        if seen.compared % (1 << 27) == 0 {
            eprintln!("{} compared, {} wrong", seen.compared, seen.wrong);
        }
    }
}

/// Both zeros and infinities, NaNs, and the numbers around -60, the limit and 24.
fn boundaries() -> Vec<u32> {
    let mut all = vec![0, 1, 2, 0x7f_ffff, 0x80_0000, 0x7f7f_ffff, 0x7f80_0000];
    all.extend([0x7f80_0001, 0x7fa0_0000, 0x7fbf_ffff, 0x7fc0_0000, 0x7fc0_0001, 0x7fc0_1234, 0x7fff_ffff]);
    for around in [f32::from(LIMIT), 24.0, 60.0] {
        all.extend((around.to_bits() - 16)..(around.to_bits() + 16));
    }
    all.extend([25f32, 61.0, 96.0, 1000.0].map(f32::to_bits));
    let negative: Vec<u32> = all.iter().map(|bits| bits | 1 << 31).collect();
    all.extend(negative);
    all
}

/// 0.0 to the limit and -0.0 to -60.0, cut into pieces for the threads. A piece begins with the last
/// number of the one before, so that no step from one number to the next is left out.
fn compare_all(rule: &Rule, threads: u32, part: usize) -> Seen {
    let mut pieces = Vec::new();
    for (first, last) in [(0u32, f32::from(LIMIT).to_bits()), (1 << 31, (-60f32).to_bits())] {
        let length = (last - first) / threads + 1;
        for t in 0..threads {
            let from = first + t * length;
            pieces.push((t, from - u32::from(t > 0), last.min(from + (length - 1))));
        }
    }
    std::thread::scope(|scope| {
        let work: Vec<_> = (0..threads)
            .map(|t| {
                let own: Vec<_> = pieces.iter().filter(|p| p.0 == t).copied().collect();
                scope.spawn(move || own.iter().map(|&(_, from, to)| compare(rule, (from..=to).step_by(part))).fold(Seen::default(), Seen::with))
            })
            .collect();
        work.into_iter().map(|w| w.join().unwrap()).fold(Seen::default(), Seen::with)
    })
}

fn print_falls(range: &str, falls: &Falls) {
    println!("falls {range}: {}", falls.count);
    for &bits in &falls.first {
        println!("    at {bits:08x} ({})", f32::from_bits(bits));
    }
}

fn print_distance(of: &str, (distance, bits): (f64, u32)) {
    println!("largest distance of {of} from 10^(n / 20): {distance:.3e} of it, at {bits:08x} ({})", f32::from_bits(bits));
}

fn median(mut times: Vec<f64>) -> f64 {
    times.sort_by(f64::total_cmp);
    times[times.len() / 2]
}

/// Nanoseconds a number of one round.
fn timed(count: usize, round: impl FnOnce()) -> f64 {
    let start = Instant::now();
    round();
    start.elapsed().as_nanos() as f64 / count as f64
}

/// The inside form and `powf` over the same numbers, in turn; the medians of the rounds.
fn cost() {
    const COUNT: usize = 1 << 16;
    const ROUNDS: usize = 101;
    let mut state = 1u64;
    let levels: Vec<f32> = (0..COUNT)
        .map(|_| {
            state = state.wrapping_mul(6364136223846793005).wrapping_add(1442695040888963407);
            -60.0 + 78.0 * ((state >> 40) as f32 / (1u64 << 24) as f32)
        })
        .collect();
    let mut amplitudes = vec![0f32; COUNT];
    let (mut inside, mut power) = (Vec::new(), Vec::new());
    for _ in 0..ROUNDS {
        inside.push(timed(COUNT, || unsafe {
            room_desk_amplitudes(black_box(levels.as_ptr()), COUNT, amplitudes.as_mut_ptr(), COUNT)
        }));
        black_box(&amplitudes);
        power.push(timed(COUNT, || {
            for (x, amplitude) in black_box(&levels).iter().zip(&mut amplitudes) {
                *amplitude = 10f32.powf(x / 20.0);
            }
        }));
        black_box(&amplitudes);
    }
    let (inside, power) = (median(inside), median(power));
    println!("cost a call: inside form {inside:.2} ns, 10f32.powf(x / 20.0) {power:.2} ns, ratio {:.2} ({ROUNDS} rounds of {COUNT} numbers)", inside / power);
}

fn option(name: &str) -> Option<u32> {
    let words: Vec<String> = std::env::args().collect();
    let at = words.iter().position(|w| w == name)?;
    Some(words.get(at + 1).and_then(|w| w.parse().ok()).filter(|&n| n > 0).unwrap_or_else(|| panic!("{name} wants a number above 0")))
}

fn main() {
    let mut wrong = 0;
    if !std::env::args().any(|word| word == "--cost") {
        let (threads, part) = (option("--threads").unwrap_or(1), option("--part").unwrap_or(1));
        let start = Instant::now();
        let rule = Rule::new();
        println!("table made in {:.1} s", start.elapsed().as_secs_f64());
        let boundary = compare(&rule, boundaries().into_iter());
        println!("boundaries: {} compared, {} wrong", boundary.compared, boundary.wrong);
        let start = Instant::now();
        let all = compare_all(&rule, threads, part as usize);
        println!("-60 to {LIMIT}: {} compared, {} wrong, in {:.0} s on {threads} thread(s)", all.compared, all.wrong, start.elapsed().as_secs_f64());
        print_distance("the straight line", all.line);
        print_distance("the amplitude", all.curve);
        print_falls(&format!("from {RISING_FROM} to {LIMIT}"), &all.falls_above);
        print_falls("elsewhere", &all.falls);
        wrong = boundary.wrong + all.wrong;
    }
    cost();
    std::process::exit(if wrong == 0 { 0 } else { 1 });
}
