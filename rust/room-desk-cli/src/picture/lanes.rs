//! Lanes of tracks, send tracks and the main track.

use super::canvas::{Canvas, fit};
use super::columns::{Columns, peak, stretches};
use super::probes::TrackProbes;
use super::{BODY, GAP, LEFT, MARGIN, Picture, WIDE, loudness};
use crate::scene::count;
use crate::scene::model::PAUSE;
use crate::units::{decibels, seconds};

const NAME: f64 = 13.0;
const SMALL: f64 = 10.0;
/// Waveforms have a column for so many pixels.
const COARSE: f64 = 2.0;
/// The tallest that a wave is drawn, against its own size.
const MOST_SCALE: f64 = 64.0;

impl Picture<'_> {
    pub fn tracks(&self, canvas: &mut Canvas, y: f64) -> f64 {
        if self.scene.tracks.is_empty() {
            return y;
        }
        let mut y = self.section(canvas, y, "Tracks");
        let mut tops = vec![0.0; self.scene.tracks.len() + 1];
        for (at, line) in self.scene.tree().into_iter().enumerate() {
            tops[line] = y;
            self.branch(canvas, line, &tops);
            let strip = self.strip(|scene, order| match order.kind {
                1 | PAUSE.. => order.index == line,
                3 => order.index > 0 && scene.routes[order.index - 1].track == line,
                _ => false,
            });
            let body = y + strip.height;
            match &self.probes.tracks[line - 1] {
                Some(probes) => self.measured(canvas, line, probes, body),
                None => self.silent(canvas, line, body),
            }
            self.scale(canvas, body, at == 0);
            self.draw_strip(canvas, &strip, y);
            self.track_label(canvas, line, y);
            y = body + BODY + GAP;
        }
        y + 6.0
    }

    /// The line from a track's parent.
    fn branch(&self, canvas: &mut Canvas, line: usize, tops: &[f64]) {
        let parent = self.scene.tracks[line - 1].parent;
        if parent > 0 {
            let x = self.indent(line) - 9.0;
            let (from, to) = (tops[parent] + 44.0, tops[line] + 9.0);
            canvas.path("tree", &format!("M{x:.1} {from:.1}V{to:.1}h7"));
        }
    }

    fn indent(&self, line: usize) -> f64 {
        MARGIN + 2.0 + (self.scene.depth(line) as f64 - 1.0) * 14.0
    }

    fn track_label(&self, canvas: &mut Canvas, line: usize, y: f64) {
        let x = self.indent(line);
        let room = LEFT - x - 12.0;
        canvas.text(x, y + 13.0, "name", &fit(&self.names.track(line), room, NAME));
        let mut about = vec![decibels(self.scene.tracks[line - 1].volume)];
        for route in self.scene.routes.iter().filter(|route| route.track == line) {
            about.push(format!("→ {} {}", self.names.send(route.send), decibels(route.volume)));
        }
        if self.scene.placings.iter().any(|placing| placing.track == line) {
            about.push("placed".into());
        }
        canvas.text(x, y + 27.0, "small", &fit(&about.join("  "), room, SMALL));
        let sounds = self.scene.sounds.iter().filter(|sound| sound.track == line).count();
        let note = match &self.probes.tracks[line - 1] {
            _ if sounds == 0 => "no sounds of its own".into(),
            Some(probes) => format!("{}, {}", count(sounds, "sound"), loudness(peak(&probes.adds))),
            None => count(sounds, "sound"),
        };
        canvas.text(x, y + 40.0, "small", &fit(&note, room, SMALL));
    }

    fn measured(&self, canvas: &mut Canvas, line: usize, probes: &TrackProbes, body: f64) {
        canvas.rect("lane", LEFT, body, WIDE, BODY);
        self.stretches(canvas, line, probes, body);
        self.wave(canvas, &probes.adds, body);
        let columns = Columns::new(self.scene.frames(), 1.0);
        canvas.path("level", &columns.level(&probes.level, body, BODY));
        let leaks = self.scene.leaks(line);
        if !leaks.is_empty() {
            let ways = leaks.iter().map(|route| {
                format!("{} through {}", self.names.track(route.track), self.names.send(route.send))
            });
            let ways = ways.collect::<Vec<_>>().join(", ");
            let note = format!("NOT silent: {} is heard", fit(&ways, WIDE / 2.0, SMALL));
            canvas.badge("leak", LEFT + 8.0, body + BODY - 19.0, &note);
        }
    }

    /// Where a track stands still, and where it runs unheard.
    fn stretches(&self, canvas: &mut Canvas, line: usize, probes: &TrackProbes, body: f64) {
        let frames = self.scene.frames();
        let still = |frame: usize| probes.advances.as_ref().unwrap_or(&probes.fade)[frame] == 0.0;
        let unheard = |frame: usize| probes.fade[frame] == 0.0 && !still(frame);
        for (from, to) in stretches(frames, still) {
            let above = self.stands_still(self.scene.tracks[line - 1].parent, (from + to) / 2);
            let label = if above { "paused above" } else { "paused" };
            self.stretch(canvas, "still", label, "stands still, its sounds wait", (from, to), body);
        }
        for stretch in stretches(frames, unheard) {
            let tip = "runs unheard, its sounds are used up";
            self.stretch(canvas, "unheard", "runs unheard", tip, stretch, body);
        }
    }

    fn stretch(
        &self,
        canvas: &mut Canvas,
        class: &str,
        label: &str,
        tip: &str,
        (from, to): (usize, usize),
        body: f64,
    ) {
        let [from, to] = [from, to].map(|frame| frame as f64 / self.scene.rate());
        let (x, end) = (self.x(from), self.x(to));
        let tip = format!("{tip}: {} to {}", seconds(from), seconds(to));
        canvas.titled(class, x, body, end - x, BODY, &tip);
        if end - x > label.len() as f64 * 6.6 + 6.0 {
            // Above the wave that a send may still carry.
            canvas.text((x + end) / 2.0, body + 13.0, "state", label);
        }
    }

    fn stands_still(&self, line: usize, frame: usize) -> bool {
        let probes = line.checked_sub(1).and_then(|at| self.probes.tracks[at].as_ref());
        probes.is_some_and(|p| p.advances.as_ref().unwrap_or(&p.fade)[frame] == 0.0)
    }

    /// A lane that is proved silent, with the reason.
    fn silent(&self, canvas: &mut Canvas, line: usize, body: f64) {
        canvas.rect("proved", LEFT, body, WIDE, BODY);
        if let Some(reason) = self.silence.reason(line, self.scene, self.names) {
            let text = fit(&format!("cannot be heard: {reason}"), WIDE - 40.0, SMALL);
            canvas.badge("badge", LEFT + 10.0, body + BODY / 2.0 - 7.5, &text);
        }
    }

    /// The line of 0 dB, and at the first lane its scale.
    fn scale(&self, canvas: &mut Canvas, body: f64, labelled: bool) {
        let zero = Columns::zero(body, BODY);
        canvas.path("zero", &format!("M{LEFT} {zero:.1}h{WIDE}"));
        if labelled {
            canvas.text(LEFT + WIDE + 6.0, zero + 3.0, "scale", "0 dB");
            canvas.text(LEFT + WIDE + 6.0, body + BODY, "scale", "-60 dB");
        }
    }

    /// How much larger than the output the waves of tracks are drawn, one factor for all.
    pub fn wave_scale(&self) -> f64 {
        let tracks = self.probes.tracks.iter().flatten().map(|probes| peak(&probes.adds));
        let sends = self.probes.sends.iter().map(|probes| peak(&probes.adds));
        let loudest = tracks.chain(sends).fold(0.0, f64::max);
        if loudest > 0.0 { (1.0 / loudest).min(MOST_SCALE) } else { 1.0 }
    }

    fn wave(&self, canvas: &mut Canvas, adds: &[f32], body: f64) {
        if peak(adds) == 0.0 {
            return;
        }
        let columns = Columns::new(self.scene.frames(), COARSE);
        let half = BODY / 2.0;
        let bounds = columns.bounds(adds, 2);
        let scale = (half - 1.0) * self.wave_scale();
        canvas.path("wave", &columns.area(&bounds, body + half, scale));
    }

    pub fn sends(&self, canvas: &mut Canvas, y: f64) -> f64 {
        if self.scene.sends.is_empty() {
            return y;
        }
        let mut y = self.section(canvas, y, "Send tracks");
        for (at, probes) in self.probes.sends.iter().enumerate() {
            let strip = self.strip(|_, order| order.kind == 2 && order.index == at + 1);
            let body = y + strip.height;
            canvas.rect("lane", LEFT, body, WIDE, BODY);
            self.wave(canvas, &probes.adds, body);
            let columns = Columns::new(self.scene.frames(), 1.0);
            canvas.path("level", &columns.level(&probes.level, body, BODY));
            self.scale(canvas, body, false);
            self.draw_strip(canvas, &strip, y);
            self.send_label(canvas, at + 1, y, peak(&probes.adds));
            y = body + BODY + GAP;
        }
        y + 6.0
    }

    fn send_label(&self, canvas: &mut Canvas, line: usize, y: f64, peak: f64) {
        let (x, room) = (MARGIN + 2.0, LEFT - MARGIN - 14.0);
        canvas.text(x, y + 13.0, "name", &fit(&self.names.send(line), room, NAME));
        let routes = self.scene.routes.iter().filter(|route| route.send == line);
        let from: Vec<String> = routes.map(|route| self.names.track(route.track)).collect();
        let about = format!("{}  ← {}", decibels(self.scene.sends[line - 1]), from.join(", "));
        canvas.text(x, y + 27.0, "small", &fit(&about, room, SMALL));
        canvas.text(x, y + 40.0, "small", &loudness(peak));
    }

    pub fn main(&self, canvas: &mut Canvas, y: f64) -> f64 {
        let y = self.section(canvas, y, "Output");
        let strip = self.strip(|_, order| order.kind == 0);
        let body = y + strip.height;
        canvas.rect("lane", LEFT, body, WIDE, BODY);
        let columns = Columns::new(self.scene.frames(), 1.0);
        canvas.path("level", &columns.level(&self.probes.main, body, BODY));
        self.scale(canvas, body, self.scene.tracks.is_empty());
        self.draw_strip(canvas, &strip, y);
        canvas.text(MARGIN + 2.0, y + 13.0, "name", "main");
        canvas.text(MARGIN + 2.0, y + 27.0, "small", &decibels(self.scene.head.volume));
        let own = self.scene.sounds.iter().filter(|sound| sound.track == 0).count();
        if own > 0 {
            let note = format!("{} of its own", count(own, "sound"));
            canvas.text(MARGIN + 2.0, y + 40.0, "small", &note);
        }
        body + BODY + GAP
    }
}
