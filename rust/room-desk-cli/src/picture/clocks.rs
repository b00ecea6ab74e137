//! The lanes of clocks: their ticks.

use super::canvas::{Canvas, fit};
use super::{LEFT, MARGIN, Picture, WIDE};
use crate::scene::Clock;
use crate::units::thousandths;

const HEIGHT: f64 = 16.0;
/// No more ticks than this are drawn, and numbers stand at half as many.
const MOST_TICKS: usize = 60;

impl Picture<'_> {
    pub fn clocks(&self, canvas: &mut Canvas, y: f64) -> f64 {
        let mut y = y;
        for (at, clock) in self.scene.clocks.iter().enumerate() {
            canvas.rect("lane", LEFT, y, WIDE, HEIGHT);
            let name = fit(&self.names.clock(at + 1), 110.0, 13.0);
            canvas.text(MARGIN + 2.0, y + 12.0, "name", &name);
            let unit = ["s a tick", "a second", "a minute"][clock.unit.clamp(0, 2) as usize];
            let never = if clock.ticking == 1 { "" } else { ", never runs" };
            let speed = format!("{} {unit}{never}", thousandths(clock.speed));
            canvas.text_before(LEFT - 12.0, y + 12.0, "small", &speed);
            if clock.ticking == 1 {
                self.ticks(canvas, clock, y);
            }
            y += HEIGHT + 4.0;
        }
        if self.scene.clocks.is_empty() { y } else { y + 10.0 }
    }

    fn ticks(&self, canvas: &mut Canvas, clock: &Clock, y: f64) {
        let ticks = (self.scene.seconds() * clock.ticks_per_second()).floor() as usize;
        let steps = [1, 2, 4, 5, 8, 10, 16, 20, 32, 50, 100, 200, 500, 1000, 2000, 5000, 10_000];
        let every = steps.into_iter().find(|step| ticks / step <= MOST_TICKS).unwrap_or(50_000);
        let mut marks = String::new();
        for (count, tick) in (0..=ticks).step_by(every).enumerate() {
            let x = self.x(tick as f64 / clock.ticks_per_second());
            marks += &format!("M{x:.1} {y:.1}v5");
            if ticks / every <= MOST_TICKS / 2 || count % 2 == 0 {
                canvas.text(x, y + 14.0, "beat", &tick.to_string());
            }
        }
        canvas.path("tree", &marks);
    }
}
