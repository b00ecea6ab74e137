//! The output: each speaker's samples, and the level of the loudest.

use super::canvas::Canvas;
use super::columns::{Columns, decibels_of, peak, stretches};
use super::{GAP, LEFT, MARGIN, Picture, WIDE, loudness};
use crate::units::seconds;

const LEVEL: f64 = 74.0;
/// The lowest level that is drawn.
const LOW: f64 = -60.0;

impl Picture<'_> {
    pub fn speakers(&self, canvas: &mut Canvas, y: f64) -> f64 {
        let channels = self.show.shape.channels;
        let height = if channels > 4 { 42.0 } else { 60.0 };
        let mut y = y;
        let mut silent = vec![];
        for channel in 0..channels {
            let samples: Vec<f32> = self.show.channel(channel).collect();
            // Many silent speakers are one line.
            if channels > 2 && peak(&samples) == 0.0 {
                silent.push((channel + 1).to_string());
                continue;
            }
            self.speaker(canvas, channel, &samples, y, height);
            y += height + 4.0;
        }
        if !silent.is_empty() {
            canvas.text(MARGIN + 2.0, y + 14.0, "name", &format!("speakers {}", silent.join(", ")));
            canvas.rect("lane", LEFT, y, WIDE, 20.0);
            canvas.text(LEFT + 12.0, y + 14.0, "small", "zero throughout");
            y += 24.0;
        }
        y + GAP - 4.0
    }

    fn speaker(&self, canvas: &mut Canvas, channel: usize, samples: &[f32], y: f64, height: f64) {
        let middle = y + height / 2.0;
        canvas.rect("lane", LEFT, y, WIDE, height);
        canvas.path("zero", &format!("M{LEFT} {middle:.1}h{WIDE}"));
        let label = match (self.show.shape.channels, channel) {
            (2, 0) => "left".into(),
            (2, _) => "right".into(),
            _ => format!("speaker {}", channel + 1),
        };
        canvas.text(MARGIN + 2.0, middle, "name", &label);
        canvas.text(MARGIN + 2.0, middle + 14.0, "small", &loudness(peak(samples)));
        canvas.text(LEFT + WIDE + 6.0, y + 8.0, "scale", "1.0");
        let columns = Columns::new(self.scene.frames(), 1.0);
        let scale = height / 2.0 - 1.0;
        canvas.path("out", &columns.area(&columns.bounds(samples, 1), middle, scale));
        if columns.count >= 400 {
            canvas.path("rms", &columns.area(&columns.rms(samples), middle, scale));
        }
        self.full_scale(canvas, &columns, samples, y);
    }

    /// Marks where samples stand at full scale.
    fn full_scale(&self, canvas: &mut Canvas, columns: &Columns, samples: &[f32], y: f64) {
        let full = |column: &usize| samples[columns.range(*column)].iter().any(|s| s.abs() == 1.0);
        let marks = (0..columns.count).filter(full);
        let data = marks.map(|column| format!("M{:.1} {y:.1}v5", columns.x(column) + 0.5));
        canvas.path("full", &data.collect::<String>());
    }

    /// The level of the loudest channel: peak and mean; gives the lane's end.
    pub fn level(&self, canvas: &mut Canvas, y: f64) -> f64 {
        canvas.rect("lane", LEFT, y, WIDE, LEVEL);
        canvas.text(MARGIN + 2.0, y + 30.0, "name", "level");
        canvas.text(MARGIN + 2.0, y + 44.0, "small", "loudest speaker: peak and mean");
        for level in [0, -12, -24, -36, -48] {
            let at = y + LEVEL * f64::from(level) / LOW;
            canvas.path("zero", &format!("M{LEFT} {at:.1}h{WIDE}"));
            canvas.text(LEFT + WIDE + 6.0, at + 4.0, "scale", &level.to_string());
        }
        let columns = Columns::new(self.scene.frames(), 1.0);
        let height = |amplitude: f64| y + LEVEL * decibels_of(amplitude).clamp(LOW, 0.0) / LOW;
        let (peaks, means) = self.levels(&columns);
        let line =
            |list: &[f64]| columns.line(&list.iter().map(|a| height(*a)).collect::<Vec<_>>());
        let ground = line(&means);
        let end = y + LEVEL;
        canvas.path("mean", &format!("{ground}V{end:.1}H{LEFT}Z"));
        canvas.path("peak", &line(&peaks));
        self.zero_stretches(canvas, y);
        end
    }

    fn levels(&self, columns: &Columns) -> (Vec<f64>, Vec<f64>) {
        let mut peaks = vec![0.0; columns.count];
        let mut means = vec![0.0; columns.count];
        for channel in 0..self.show.shape.channels {
            let samples: Vec<f32> = self.show.channel(channel).collect();
            for (column, (_, root)) in columns.rms(&samples).into_iter().enumerate() {
                means[column] = f64::max(means[column], root);
                peaks[column] = f64::max(peaks[column], peak(&samples[columns.range(column)]));
            }
        }
        (peaks, means)
    }

    fn zero_stretches(&self, canvas: &mut Canvas, y: f64) {
        let channels = self.show.shape.channels;
        let zero = |frame: usize| {
            self.show.samples[frame * channels..(frame + 1) * channels].iter().all(|s| *s == 0.0)
        };
        for (from, to) in stretches(self.scene.frames(), zero) {
            let [from, to] = [from, to].map(|frame| frame as f64 / self.scene.rate());
            let (x, end) = (self.x(from), self.x(to));
            if end - x < 3.0 {
                continue;
            }
            let tip = format!("every sample is zero: {} to {}", seconds(from), seconds(to));
            canvas.titled("still", x, y, end - x, LEVEL, &tip);
            if end - x > 60.0 {
                canvas.text((x + end) / 2.0, y + LEVEL / 2.0 + 4.0, "state", "all zero");
            }
        }
    }
}
