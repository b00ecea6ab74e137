//! Numbers as people read and write them: decibels, seconds, curves.

/// Thousandths as a decimal without needless zeros: -6250 is `-6.25`.
pub fn thousandths(number: i64) -> String {
    let sign = if number < 0 { "-" } else { "" };
    let (whole, rest) = (number.unsigned_abs() / 1000, number.unsigned_abs() % 1000);
    let text = format!("{sign}{whole}.{rest:03}");
    text.trim_end_matches('0').trim_end_matches('.').to_string()
}

pub fn decibels(volume: i64) -> String {
    format!("{} dB", thousandths(volume))
}

/// Milliseconds as `300 ms` or `2.5 s`.
pub fn millis(millis: i64) -> String {
    if millis < 1000 { format!("{millis} ms") } else { format!("{} s", thousandths(millis)) }
}

/// Seconds to the millisecond; shorter times in milliseconds.
pub fn seconds(seconds: f64) -> String {
    if 0.0 < seconds && seconds < 0.01 { about(seconds) } else { format!("{seconds:.3} s") }
}

/// Frames as seconds where these are exact, as a sheet writes them.
pub fn exact(frames: i64, rate: i64) -> String {
    if frames * 1000 % rate == 0 {
        return format!("{} s", thousandths(frames * 1000 / rate));
    }
    format!("{frames} frames")
}

/// Seconds, short: for labels and sentences.
pub fn about(seconds: f64) -> String {
    if seconds < 1.0 {
        format!("{} ms", (seconds * 10_000.0).round() / 10.0)
    } else {
        format!("{} s", (seconds * 1000.0).round() / 1000.0)
    }
}

/// An order's curve, as a sheet writes it.
pub fn curve(easing: i64, power: i64) -> String {
    match easing {
        1 => format!("in {power}"),
        2 => format!("out {power}"),
        3 => format!("in-out {power}"),
        _ => "linear".into(),
    }
}

pub const PER: [&str; 3] = ["seconds per tick", "ticks per second", "ticks per minute"];

/// A decimal with at most three digits behind the point, in thousandths.
pub fn parse_thousandths(word: &str) -> Option<i64> {
    let (sign, digits) = match word.strip_prefix(['-', '−']) {
        Some(digits) => (-1, digits),
        None => (1, word.strip_prefix('+').unwrap_or(word)),
    };
    let (whole, rest) = digits.split_once('.').unwrap_or((digits, ""));
    let numeric = |text: &str| text.bytes().all(|byte| byte.is_ascii_digit());
    if !numeric(whole) || !numeric(rest) || whole.len() + rest.len() == 0 || whole.len() > 12 {
        return None;
    }
    let rest = rest.trim_end_matches('0');
    if rest.len() > 3 {
        return None;
    }
    let whole: i64 = if whole.is_empty() { 0 } else { whole.parse().ok()? };
    let thousandths: i64 = format!("{rest:0<3}").parse().ok()?;
    Some(sign * (whole * 1000 + thousandths))
}

#[cfg(test)]
mod tests {
    use super::*;

    #[test]
    fn thousandths_come_back() {
        for number in [0, 5, -5, 999, -6000, 6250, -96_000, 18_000, 1_234_567] {
            assert_eq!(parse_thousandths(&thousandths(number)), Some(number));
        }
        assert_eq!(parse_thousandths("+6"), Some(6000));
        assert_eq!(parse_thousandths(".5"), Some(500));
        assert_eq!(parse_thousandths("1.2500"), Some(1250));
        for wrong in ["", "-", ".", "1.2.3", "1e3", "0.0001", "six", "9999999999999"] {
            assert_eq!(parse_thousandths(wrong), None, "{wrong}");
        }
    }
}
