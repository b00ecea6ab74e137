//! A show as an SVG. No mixing is done here: every curve is measured on renders by the proved
//! routine, of the show itself and of copies of it in which one thing plays (`probes.rs`).

mod canvas;
mod clocks;
mod columns;
mod labels;
mod lanes;
mod legend;
mod orders;
mod probes;
mod speakers;

use room_desk::{Refusal, Show};

use crate::input::{Input, Names};
use crate::scene::{Scene, count};
use crate::silence::Answer;
use crate::stop::{Done, Stop};
use crate::units::{about, seconds};
use canvas::{Canvas, escape, minus};
use columns::decibels_of;
use probes::Probes;

pub use columns::peak;
pub use probes::first_advance;

/// Where lanes begin, how wide they are, and what is left for scales.
const LEFT: f64 = 236.0;
const WIDE: f64 = 1180.0;
const RIGHT: f64 = 60.0;
const MARGIN: f64 = 16.0;
/// A lane's body, below its orders, and the space between two lanes.
const BODY: f64 = 44.0;
const GAP: f64 = 9.0;
/// Where the first lane begins.
const TOP: f64 = 98.0;
const STYLE: &str = include_str!("style.css");

/// What is drawn.
struct Picture<'a> {
    scene: &'a Scene,
    names: &'a Names,
    silence: &'a Answer,
    probes: Probes,
    show: Show,
    /// From a line of the scene to that of the sheet, where there is one.
    input: &'a Input,
}

pub fn svg(input: &Input, scene: &Scene, silence: &Answer) -> Done<String> {
    let refused = |r: Refusal| Stop::Refused(format!("refused {}: {r}\n", r.number()));
    let samples = input.recordings.samples();
    let show = room_desk::render(&input.file, samples).map_err(refused)?;
    let probes = Probes::measure(scene, samples, silence).map_err(refused)?;
    let picture = Picture { scene, names: &input.names, silence, probes, show, input };
    Ok(picture.draw())
}

impl Picture<'_> {
    fn draw(&self) -> String {
        let mut lanes = Canvas::default();
        let mut y = TOP;
        y = self.clocks(&mut lanes, y);
        y = self.tracks(&mut lanes, y);
        y = self.sends(&mut lanes, y);
        y = self.main(&mut lanes, y);
        y = self.speakers(&mut lanes, y);
        let bottom = self.level(&mut lanes, y);
        let mut legend = Canvas::default();
        let end = self.legend(&mut legend, bottom + 42.0);
        let mut grid = Canvas::default();
        self.grid(&mut grid, bottom);
        self.framed(&[grid, lanes, legend], end)
    }

    fn framed(&self, parts: &[Canvas], height: f64) -> String {
        let width = LEFT + WIDE + RIGHT;
        let title = escape(&self.input.title());
        let head = escape(&minus(&self.head()));
        let drawn: String = parts.iter().map(Canvas::svg).collect();
        format!(
            "<svg xmlns='http://www.w3.org/2000/svg' viewBox='0 0 {width:.0} {height:.0}' \
             width='{width:.0}' height='{height:.0}' role='img' aria-labelledby='title head'>\n\
             <title id='title'>{title}</title>\n<desc id='head'>{head}</desc>\n\
             <defs>\n{}</defs>\n<style>\n{STYLE}</style>\n\
             <rect width='100%' height='100%' fill='#fff'/>\n\
             <text x='{MARGIN}' y='34' class='title'>{title}</text>\n\
             <text x='{MARGIN}' y='54' class='head'>{head}</text>\n{drawn}</svg>\n",
            legend::PATTERNS,
        )
    }

    /// The line below the title.
    fn head(&self) -> String {
        let head = &self.scene.head;
        let samples = &self.show.samples;
        let full = samples.iter().filter(|sample| sample.abs() == 1.0).count();
        let clipped = match full {
            0 => String::new(),
            _ => format!(", {} at full scale", count(full, "sample")),
        };
        format!(
            "{} Hz, {}, {}: {} of {}, chunks of {}. Output {}{clipped}",
            head.rate,
            count(head.channels as usize, "channel"),
            seconds(self.scene.seconds()),
            count(head.blocks as usize, "block"),
            about(head.block as f64 / self.scene.rate()),
            about(head.buffer.min(head.block) as f64 / self.scene.rate()),
            loudness(peak(samples)),
        )
    }

    /// The place of a time; beyond the show's ends it is the end.
    fn x(&self, time: f64) -> f64 {
        LEFT + (time / self.scene.seconds()).clamp(0.0, 1.0) * WIDE
    }

    fn grid(&self, grid: &mut Canvas, bottom: f64) {
        let seconds = self.scene.seconds();
        let steps = [1.0, 2.0, 5.0].into_iter().cycle().zip(0..);
        let mut steps = steps.map(|(step, at)| step * 10f64.powi(at / 3 - 5));
        let step = steps.find(|step| seconds / step <= 12.0).unwrap_or(10.0);
        for at in 0..=(seconds / step + 1e-9) as usize {
            let time = at as f64 * step;
            let x = self.x(time);
            grid.path("grid", &format!("M{x:.1} {:.1}V{bottom:.1}", TOP - 6.0));
            let label = if step >= 0.1 {
                format!("{} s", (time * 10.0).round() / 10.0)
            } else {
                format!("{} ms", (time * 1e5).round() / 100.0)
            };
            grid.text(x, TOP - 12.0, "tick", &label);
            grid.text(x, bottom + 16.0, "tick", &label);
        }
    }

    fn section(&self, canvas: &mut Canvas, y: f64, title: &str) -> f64 {
        canvas.text(MARGIN, y + 8.0, "section", title);
        y + 16.0
    }
}

/// `peak -6.1 dB`, or `all zero`: only a proof says silent.
pub fn loudness(peak: f64) -> String {
    if peak == 0.0 { "all zero".into() } else { format!("peak {:.1} dB", decibels_of(peak)) }
}
