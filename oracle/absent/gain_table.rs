// The gain table and the rule for reading it: ours, in the place of `powf`
// in kira's `Decibels::as_amplitude`.

/// Entry n is the whole part of 2^40 · 10^((n - 960) / 320), made by
/// `scripts/gain_table.py`.
const ENTRIES: [u64; 1345] = include!("gain_table_entries.in");

const FIRST: f64 = -960.0;
const UNIT: f64 = (1u64 << 40) as f64;

/// The amplitude of a number of decibels above -60 and at most 23. Inlined, so that kira can leave it
/// out of a loop as it can `powf`.
#[inline]
pub(crate) fn amplitude(decibels: f32) -> f32 {
	// Sixteen times an f32 and its whole part are exact in f64; the rest is rounded.
	let position = f64::from(decibels) * 16.0;
	let whole = position.floor();
	let rest = position - whole;
	(interpolated((whole - FIRST) as usize, rest) / UNIT) as f32
}

#[inline]
fn interpolated(n: usize, rest: f64) -> f64 {
	let this = ENTRIES[n] as f64;
	if rest == 0.0 {
		return this;
	}
	let next = ENTRIES[n + 1] as f64;
	let after = ENTRIES[n + 2] as f64;
	let line = this + (next - this) * rest;
	// Exact: whole numbers below 2^46.
	let second_difference = after - 2.0 * next + this;
	line + rest * (rest - 1.0) / 2.0 * second_difference
}
