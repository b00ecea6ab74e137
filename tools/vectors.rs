// What Rust itself gives for the inputs of tools/vectors.py: one line in, one line out, both in
// hexadecimal. The argument names the function.
use std::io::{self, BufRead, Write};
use std::time::Duration;

// kira's `SpatialData::spatialize` up to the level, with `Easing::Linear`: the listener's position, the
// track's, and its two distances.
fn attenuation(n: &[f32]) -> f32 {
    let (x, y, z) = (n[0] - n[3], n[1] - n[4], n[2] - n[5]);
    let distance = (x * x + y * y + z * z).sqrt();
    let (min_distance, max_distance) = (n[6], n[7]);
    let relative_distance = (distance.clamp(min_distance, max_distance) - min_distance) / (max_distance - min_distance);
    let relative_volume = f64::from(1.0 - relative_distance) as f32;
    let (a, b, amount) = (-60.0, 0.0, f64::from(relative_volume));
    a + (b - a) * amount as f32
}

fn given(function: &str, inputs: &[u64]) -> String {
    let input = inputs[0];
    match function {
        // `f64 as f32`, from bits to bits
        "rounding" => format!("{:08x}", (f64::from_bits(input) as f32).to_bits()),
        // whole nanoseconds of a number of seconds, from bits
        "nanoseconds" => format!("{:016x}", Duration::from_secs_f64(f64::from_bits(input)).as_nanos()),
        // milliseconds as seconds, to bits
        "seconds" => format!("{:016x}", Duration::from_millis(input).as_secs_f64().to_bits()),
        // the square root, from bits to bits
        "root" => format!("{:08x}", f32::from_bits(input as u32).sqrt().to_bits()),
        // the level at a distance, from bits to bits
        "attenuation" => {
            let n: Vec<f32> = inputs.iter().map(|&bits| f32::from_bits(bits as u32)).collect();
            format!("{:08x}", attenuation(&n).to_bits())
        }
        other => panic!("no function {other}"),
    }
}

fn main() -> io::Result<()> {
    let function = std::env::args().nth(1).expect("the name of a function");
    let mut out = io::BufWriter::new(io::stdout().lock());
    for line in io::stdin().lock().lines() {
        let number = |word| u64::from_str_radix(word, 16).expect("a hexadecimal number");
        let inputs: Vec<u64> = line?.split_whitespace().map(number).collect();
        writeln!(out, "{}", given(&function, &inputs))?;
    }
    out.flush()
}
