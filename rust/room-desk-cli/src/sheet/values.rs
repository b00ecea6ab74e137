//! Levels, times and counts of a sheet.

use super::words::{Word, Words};
use crate::scene::Finding;
use crate::units::parse_thousandths;

const LEVEL: &str = "a level, as `-6 dB`: a number with at most three digits behind the point";
const TIME: &str = "a time, as `2.5 s`, `300 ms`, `1 min`, `4096 frames` or `12 blocks`";
const LONG: &str = "a length of whole milliseconds, as `2.5 s`, `300 ms` or `1 min`";

/// What times are counted in.
#[derive(Debug, Clone, Copy)]
pub struct Grid {
    pub rate: i64,
    pub block: i64,
}

/// Of 32 bits, as every number of a scene.
pub fn whole(words: &mut Words, wanted: &str) -> Result<i64, Finding> {
    let word = words.next(wanted)?;
    let number = word.text.parse::<i32>();
    number.map(i64::from).map_err(|_| words.wrong(&word, "is no such number", wanted))
}

/// Thousandths of a number.
pub fn decimal(words: &mut Words, wanted: &str) -> Result<i64, Finding> {
    let word = words.next(wanted)?;
    let why = || no_comma(&word, "is no such number");
    parse_thousandths(&word.text).ok_or_else(|| words.wrong(&word, &why(), wanted))
}

/// Why a word is no number; many languages write a comma for the point.
fn no_comma(word: &Word, why: &str) -> String {
    if word.text.contains(',') { format!("{why}: write a point for the comma") } else { why.into() }
}

/// `-6 dB` or `-6dB`, in thousandths; `db` is understood.
pub fn level(words: &mut Words) -> Result<i64, Finding> {
    let word = words.next(LEVEL)?;
    let joined = ["dB", "db", "DB"].iter().find_map(|unit| word.text.strip_suffix(unit));
    let number = parse_thousandths(joined.unwrap_or(&word.text));
    let why = || no_comma(&word, "is no level");
    let level = number.ok_or_else(|| words.wrong(&word, &why(), LEVEL))?;
    if joined.is_none() && !words.take("db") && !words.take("DB") {
        words.expect("dB", LEVEL)?;
    }
    Ok(level)
}

/// A level, or 0 dB where the line has none.
pub fn level_or_zero(words: &mut Words) -> Result<i64, Finding> {
    match words.peek() {
        None | Some("in") => Ok(0),
        // `track rain room -3 dB`
        Some(word) if !word.contains(|c: char| c.is_ascii_digit()) => {
            let word = words.next(LEVEL)?;
            let allowed = format!("{LEVEL}; a name is one word, as `rain-room`");
            Err(words.wrong(&word, "is no level", allowed))
        }
        Some(_) => level(words),
    }
}

/// A number and its unit: `2.5 s`, `2.5s`.
fn with_unit(words: &mut Words, wanted: &str) -> Result<(f64, Word, String), Finding> {
    let word = words.next(wanted)?;
    let split = word.text.find(|c: char| c.is_ascii_alphabetic()).unwrap_or(word.text.len());
    let (number, unit) = word.text.split_at(split);
    let parsed = number.parse::<f64>().ok().filter(|n| n.is_finite() && *n >= 0.0);
    let why = || no_comma(&word, "is no time");
    let value = parsed.ok_or_else(|| words.wrong(&word, &why(), wanted))?;
    if !unit.is_empty() {
        return Ok((value, word.clone(), unit.to_string()));
    }
    let unit = words.next(wanted)?;
    let text = format!("{} {}", word.text, unit.text);
    Ok((value, Word { text, span: word.span.start..unit.span.end }, unit.text))
}

/// A time in frames, the nearest.
pub fn frames(words: &mut Words, grid: Grid) -> Result<i64, Finding> {
    let (value, word, unit) = with_unit(words, TIME)?;
    let frames = match unit.as_str() {
        "s" => value * grid.rate as f64,
        "min" => value * 60.0 * grid.rate as f64,
        "ms" => value * grid.rate as f64 / 1000.0,
        "frame" | "frames" => value,
        "block" | "blocks" => value * grid.block as f64,
        _ => return Err(words.wrong(&word, "is no time", TIME)),
    };
    whole_part(words, &word, frames)
}

/// The nearest whole number of 32 bits.
fn whole_part(words: &Words, word: &Word, value: f64) -> Result<i64, Finding> {
    if value > f64::from(i32::MAX) {
        return Err(words.wrong(
            word,
            "is too long",
            "less than 2,147,483,648 frames or milliseconds",
        ));
    }
    Ok(value.round() as i64)
}

/// A length in whole milliseconds.
pub fn millis(words: &mut Words) -> Result<i64, Finding> {
    let (value, word, unit) = with_unit(words, LONG)?;
    let millis = match unit.as_str() {
        "s" => value * 1000.0,
        "min" => value * 60_000.0,
        "ms" => value,
        _ => return Err(words.wrong(&word, "is no such length", LONG)),
    };
    if (millis - millis.round()).abs() > 1e-6 {
        return Err(words.wrong(&word, "has a part of a millisecond", LONG));
    }
    whole_part(words, &word, millis)
}
