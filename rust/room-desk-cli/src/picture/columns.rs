//! Samples as pixels: the least and greatest of each column, levels as lines, stretches of time.

use std::fmt::Write;

use super::{LEFT, WIDE};

/// The lowest and the highest level that a lane shows, in decibels.
const LOW: f64 = -60.0;
const HIGH: f64 = 18.0;

/// Columns of a lane, each of some frames.
#[derive(Debug, Clone, Copy)]
pub struct Columns {
    pub count: usize,
    pub frames: usize,
}

pub type Bounds = Vec<(f64, f64)>;

impl Columns {
    pub fn new(frames: usize, width: f64) -> Self {
        Self { count: ((WIDE / width) as usize).min(frames), frames }
    }

    pub fn range(&self, column: usize) -> std::ops::Range<usize> {
        let first = column * self.frames / self.count;
        first..((column + 1) * self.frames / self.count).max(first + 1)
    }

    pub fn x(&self, column: usize) -> f64 {
        LEFT + column as f64 / self.count as f64 * WIDE
    }

    /// Few frames are drawn as steps.
    fn steps(&self) -> bool {
        self.count < 400
    }

    /// Least and greatest of each column; all channels together.
    pub fn bounds(&self, samples: &[f32], channels: usize) -> Bounds {
        let of = |column| {
            let range = self.range(column);
            let samples = &samples[range.start * channels..range.end * channels];
            samples.iter().fold((f64::INFINITY, f64::NEG_INFINITY), |(low, high), &sample| {
                (low.min(sample.into()), high.max(sample.into()))
            })
        };
        (0..self.count).map(of).collect()
    }

    /// The root of the mean square of each column, up and down.
    pub fn rms(&self, samples: &[f32]) -> Bounds {
        let of = |column| {
            let part = &samples[self.range(column)];
            let sum: f64 = part.iter().map(|&sample| f64::from(sample).powi(2)).sum();
            let root = (sum / part.len() as f64).sqrt();
            (-root, root)
        };
        (0..self.count).map(of).collect()
    }

    /// A line through one height a column; points on a straight stretch are left out.
    pub fn line(&self, heights: &[f64]) -> String {
        let mut points: Vec<(f64, f64)> = vec![];
        for (column, &y) in heights.iter().enumerate() {
            points.push((self.x(column), y));
            if self.steps() || column + 1 == self.count {
                points.push((self.x(column + 1), y));
            }
        }
        path(&points)
    }

    /// The ground between two lines.
    pub fn area(&self, bounds: &Bounds, middle: f64, scale: f64) -> String {
        let upper: Vec<f64> = bounds.iter().map(|(_, high)| middle - high * scale).collect();
        let lower = bounds.iter().map(|(low, _)| (middle - low * scale).max(middle + 0.3));
        let lower: Vec<f64> = lower.collect();
        let forth = self.line(&upper);
        let back = self.line(&lower);
        let mut points: Vec<&str> = back[1..].split('L').collect();
        points.reverse();
        format!("{forth}L{}Z", points.join("L"))
    }

    /// A level over time, in decibels.
    pub fn level(&self, samples: &[f32], top: f64, height: f64) -> String {
        let bounds = self.bounds(samples, 1);
        let y = |(low, high): &(f64, f64)| {
            let level = decibels_of((low + high) / 2.0).clamp(LOW, HIGH);
            top + height * (HIGH - level) / (HIGH - LOW)
        };
        self.line(&bounds.iter().map(y).collect::<Vec<_>>())
    }

    /// Where 0 dB lies in a lane.
    pub fn zero(top: f64, height: f64) -> f64 {
        top + height * HIGH / (HIGH - LOW)
    }
}

fn path(points: &[(f64, f64)]) -> String {
    let mut data = String::new();
    let tenths = |y: f64| (y * 10.0).round();
    for (at, &(x, y)) in points.iter().enumerate() {
        let flat = |other: Option<&(f64, f64)>| other.is_some_and(|p| tenths(p.1) == tenths(y));
        let between = at > 0 && flat(points.get(at - 1)) && flat(points.get(at + 1));
        if !between {
            let _ = write!(data, "{}{} {}", if at == 0 { "M" } else { "L" }, short(x), short(y));
        }
    }
    data
}

/// One digit behind the point, none where it is 0.
fn short(number: f64) -> String {
    let text = format!("{number:.1}");
    text.strip_suffix(".0").map(String::from).unwrap_or(text)
}

/// Stretches of frames for which something holds.
pub fn stretches(frames: usize, holds: impl Fn(usize) -> bool) -> Vec<(usize, usize)> {
    let mut list = vec![];
    let mut from = None;
    for frame in 0..=frames {
        match (from, frame < frames && holds(frame)) {
            (None, true) => from = Some(frame),
            (Some(first), false) => {
                list.push((first, frame));
                from = None;
            }
            _ => {}
        }
    }
    list
}

pub fn decibels_of(amplitude: f64) -> f64 {
    if amplitude <= 0.0 { f64::NEG_INFINITY } else { 20.0 * amplitude.log10() }
}

pub fn peak(samples: &[f32]) -> f64 {
    samples.iter().fold(0.0, |most, sample| f64::max(most, sample.abs().into()))
}

#[cfg(test)]
mod tests {
    use super::*;

    #[test]
    fn stretches_reach_both_ends() {
        assert_eq!(stretches(5, |frame| frame != 2), [(0, 2), (3, 5)]);
        assert_eq!(stretches(3, |_| false), []);
    }

    #[test]
    fn straight_stretches_are_two_points() {
        let columns = Columns { count: 590, frames: 590 };
        assert_eq!(columns.line(&[7.0; 590]), "M236 7L1416 7");
    }
}
