//! The amplitude by the gain table's rule, with whole numbers alone. Nothing here is taken from the
//! library: the table is made at the start by its own rule, and every rounding is spelled out.

use std::cmp::Ordering;

/// The largest number of decibels that has an amplitude.
pub const LIMIT: u8 = 23;

/// What is answered to an f32, in bits: the amplitude's bits, or that it is refused with 11.
#[derive(Clone, Copy, PartialEq, Eq, Debug)]
pub enum Answer {
    Amplitude(u32),
    Refused,
}

pub struct Rule {
    table: Vec<u64>,
}

/// digits * 2^exponent, with at most 53 digits: an f64 that is not negative.
#[derive(Clone, Copy)]
struct Number {
    digits: u64,
    exponent: i32,
}

/// n / 2^k to the nearest whole number, ties to even.
fn nearest(n: u128, k: u32) -> u128 {
    if k == 0 {
        return n;
    }
    let (whole, rest, half) = (n >> k, n & ((1 << k) - 1), 1 << (k - 1));
    whole + u128::from(rest > half || (rest == half && whole & 1 == 1))
}

/// n * 2^exponent rounded to f64. Nothing here is near the ends of an f64's exponents.
fn round_to_f64(n: u128, exponent: i32) -> Number {
    let dropped = (128 - n.leading_zeros()).saturating_sub(53);
    Number { digits: nearest(n, dropped) as u64, exponent: exponent + dropped as i32 }
}

/// The bits of the f32 nearest to a number from 2^-126 to 2^127.
fn round_to_f32(x: Number) -> u32 {
    let size = 64 - x.digits.leading_zeros();
    // as an exact number with at least 24 digits, so that the shift is never to the left
    let (digits, exponent) = (u128::from(x.digits) << 24, x.exponent - 24);
    let kept = nearest(digits, size) as u32; // 24 digits, or 2^24
    // the leading digit adds one to the field, and a carry one more
    let field = exponent + size as i32 + 23 + 127 - 1;
    ((field as u32) << 23) + kept
}

impl Rule {
    pub fn new() -> Rule {
        Rule { table: (-960..=384).map(entry).collect() }
    }

    pub fn amplitude(&self, bits: u32) -> Answer {
        let (negative, field, rest) = (bits >> 31 == 1, (bits >> 23 & 255) as i32, bits & 0x7f_ffff);
        if field == 255 {
            // an infinity or a NaN
            return if negative && rest == 0 { Answer::Amplitude(0) } else { Answer::Refused };
        }
        // the number is ±digits * 2^exponent
        let digits = u64::from(if field == 0 { rest } else { rest + 0x80_0000 });
        let exponent = if field == 0 { -149 } else { field - 150 };
        if digits == 0 {
            return Answer::Amplitude(0x3f80_0000);
        }
        if !negative && compare(digits, exponent, LIMIT.into()).is_gt() {
            return Answer::Refused;
        }
        if negative && compare(digits, exponent, 60).is_ge() {
            return Answer::Amplitude(0);
        }
        Answer::Amplitude(self.curve(negative, digits, exponent + 4))
    }

    /// The straight line between two entries, without its correction, at a number above -60 and at
    /// most the limit: only to say how far it lies off, so in plain f64.
    pub fn line(&self, n: f32) -> f32 {
        let steps = f64::from(n) * 16.0;
        let this = (steps.floor() + 960.0) as usize;
        let (low, high) = (self.table[this] as f64, self.table[this + 1] as f64);
        ((low + (high - low) * (steps - steps.floor())) / (1u64 << 40) as f64) as f32
    }

    /// From 16 times the number, ±digits * 2^exponent.
    fn curve(&self, negative: bool, digits: u64, exponent: i32) -> u32 {
        // the whole part below, and the rest as a number of 2^-places
        let places = (-exponent).max(0) as u32;
        let whole = if exponent >= 0 { digits << exponent } else if places < 64 { digits >> places } else { 0 };
        let over = if exponent >= 0 { 0 } else if places < 64 { digits & ((1 << places) - 1) } else { digits };
        let k = if !negative { whole as i64 } else if over == 0 { -(whole as i64) } else { -(whole as i64) - 1 };
        let this = self.table[(k + 960) as usize];
        if over == 0 {
            return round_to_f32(Number { digits: this, exponent: -40 });
        }
        let rest = if negative { one_less(over, places) } else { round_to_f64(u128::from(over), -(places as i32)) };
        let (next, after) = (self.table[(k + 961) as usize], self.table[(k + 962) as usize]);
        let rise = round_to_f64(u128::from(next - this) * u128::from(rest.digits), rest.exponent);
        let line = plus(this, rise);
        let value = minus(line, correction(rest, after - next - (next - this)));
        round_to_f32(Number { digits: value.digits, exponent: value.exponent - 40 })
    }
}

/// digits * 2^exponent next to a small whole number.
fn compare(digits: u64, exponent: i32, whole: u64) -> Ordering {
    if exponent > 0 {
        // 2^24 or more
        return Ordering::Greater;
    }
    let below = (-exponent).min(64) as u32; // at 2^-64 and below every number is below 1
    u128::from(digits).cmp(&(u128::from(whole) << below))
}

/// 1 - over / 2^places rounded to f64, where 0 < over < 2^24 and over < 2^places.
fn one_less(over: u64, places: u32) -> Number {
    if places > 100 {
        // more than half a unit below 1 is 2^-54, and this is less than 2^-76
        return Number { digits: 1, exponent: 0 };
    }
    round_to_f64((1 << places) - u128::from(over), -(places as i32))
}

/// rest (1 - rest) / 2 times a second difference, each step rounded to f64: what is taken off the line.
fn correction(rest: Number, second: u64) -> Number {
    let product = times_f64(rest, one_less_rest(rest));
    round_to_f64(u128::from(product.digits) * u128::from(second), product.exponent - 1)
}

/// 1 - rest rounded to f64, for a rest above 0 and at most 1.
fn one_less_rest(rest: Number) -> Number {
    if rest.exponent < -120 {
        // rest is below 2^-67, and half a unit below 1 is 2^-54
        return Number { digits: 1, exponent: 0 };
    }
    round_to_f64((1 << -rest.exponent) - u128::from(rest.digits), rest.exponent)
}

fn times_f64(a: Number, b: Number) -> Number {
    round_to_f64(u128::from(a.digits) * u128::from(b.digits), a.exponent + b.exponent)
}

/// a - b rounded to f64, for an a from 2^29 to 2^44 and a smaller b.
fn minus(a: Number, b: Number) -> Number {
    if b.exponent < -80 {
        // b is below 2^-27, and half a unit of what is below a is 2^-25 or more
        return a;
    }
    let low = a.exponent.min(b.exponent);
    round_to_f64((u128::from(a.digits) << (a.exponent - low)) - (u128::from(b.digits) << (b.exponent - low)), low)
}

/// A whole number of 2^30 or more and a number below 2^53 added, rounded to f64.
fn plus(whole: u64, x: Number) -> Number {
    if x.exponent >= 0 {
        return round_to_f64(u128::from(whole) + (u128::from(x.digits) << x.exponent), 0);
    }
    let places = (-x.exponent) as u32;
    if places > 80 {
        // x is below 2^-27, and half a unit of the whole number is 2^-23 or more
        return Number { digits: whole, exponent: 0 };
    }
    round_to_f64((u128::from(whole) << places) + u128::from(x.digits), x.exponent)
}

// ---- the table

/// The whole part of 2^40 * 10^(k / 320): the largest r with r^320 * 10^-k <= 2^12800, the power of
/// ten on the other side where k is above 0.
fn entry(k: i32) -> u64 {
    let mut right = vec![0u64; 12800 / 64];
    right.extend(power(10, k.max(0) as u32));
    let ten = power(10, (-k).max(0) as u32);
    let (mut low, mut high) = (0u64, 1u64 << 45);
    while high - low > 1 {
        let middle = (low + high) / 2;
        if at_most(&times(&power(middle, 320), &ten), &right) {
            low = middle;
        } else {
            high = middle;
        }
    }
    low
}

/// Whole numbers of any size, the lowest 64 binary digits first, with no zeros at the end.
fn times(a: &[u64], b: &[u64]) -> Vec<u64> {
    let mut product = vec![0u64; a.len() + b.len()];
    for (i, &x) in a.iter().enumerate() {
        let mut carry = 0u128;
        for (j, &y) in b.iter().enumerate() {
            let sum = u128::from(x) * u128::from(y) + u128::from(product[i + j]) + carry;
            product[i + j] = sum as u64;
            carry = sum >> 64;
        }
        product[i + b.len()] = carry as u64;
    }
    while product.last() == Some(&0) {
        product.pop();
    }
    product
}

fn power(base: u64, exponent: u32) -> Vec<u64> {
    let mut result = vec![1u64];
    for bit in (0..32 - exponent.leading_zeros()).rev() {
        result = times(&result, &result);
        if exponent >> bit & 1 == 1 {
            result = times(&result, &[base]);
        }
    }
    result
}

fn at_most(a: &[u64], b: &[u64]) -> bool {
    if a.len() != b.len() {
        return a.len() < b.len();
    }
    a.iter().rev().le(b.iter().rev())
}
