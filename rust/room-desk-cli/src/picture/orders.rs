//! The orders of a lane: a mark where each begins, its wait, how long it takes, and its label.

use super::canvas::{Canvas, escape, minus, wide};
use super::labels::{self, Place};
use super::{BODY, LEFT, Picture, WIDE};
use crate::scene::model::{KINDS, PAUSE, RESUME};
use crate::scene::{Order, Scene};
use crate::show::waits;
use crate::units::{about, curve, decibels, millis};

/// A row of orders.
pub const ROW: f64 = 14.0;
const MARK: f64 = 13.0;
const SIZE: f64 = 9.5;

/// An order as it is drawn.
struct Drawn<'a> {
    order: &'a Order,
    lost: bool,
    /// Where it is read, where it begins, and where its change ends.
    read: f64,
    begins: f64,
    ends: f64,
    never: bool,
    label: String,
}

/// The orders of a lane with their rows.
pub struct Strip<'a> {
    drawn: Vec<(Drawn<'a>, Place)>,
    pub height: f64,
}

impl Drawn<'_> {
    /// What it covers in its row: wait, change and label.
    fn stretch(&self) -> (f64, f64) {
        let label = MARK + wide(&self.label, SIZE);
        match self.before() {
            true => (self.read.min(self.begins) - label, self.ends),
            false => (self.read, self.ends.max(self.begins + label)),
        }
    }

    /// The label stands before the mark, since behind it there is no room.
    fn before(&self) -> bool {
        self.begins + MARK + wide(&self.label, SIZE) > LEFT + WIDE
    }

    fn class(&self) -> &'static str {
        match self.order.kind {
            _ if self.lost || self.never => "lost",
            PAUSE => "pause",
            RESUME => "resume",
            _ => "volume",
        }
    }
}

impl Picture<'_> {
    pub fn strip(&self, of: impl Fn(&Scene, &Order) -> bool) -> Strip<'_> {
        let list = self.scene.orders.iter().enumerate();
        let own = list.filter(|(_, order)| of(self.scene, order));
        let mut drawn: Vec<Drawn> = own.map(|(at, order)| self.drawn(at, order)).collect();
        drawn.sort_by(|a, b| a.stretch().0.total_cmp(&b.stretch().0));
        let places = labels::rows(&drawn.iter().map(Drawn::stretch).collect::<Vec<_>>());
        let rows = places.iter().map(|place| place.row + 1).max().unwrap_or(0);
        let height = rows as f64 * ROW + if rows > 0 { 2.0 } else { 0.0 };
        Strip { drawn: drawn.into_iter().zip(places).collect(), height }
    }

    fn drawn<'a>(&self, at: usize, order: &'a Order) -> Drawn<'a> {
        let read = self.scene.read_at(order);
        let begins = self.scene.begins_at(order);
        let start = begins.unwrap_or(read);
        Drawn {
            order,
            lost: self.scene.overridden(at),
            read: self.x(read),
            begins: self.x(start),
            ends: match begins {
                Some(start) => self.x(start + order.millis as f64 / 1000.0),
                None => LEFT + WIDE,
            },
            never: begins.is_none_or(|start| start >= self.scene.seconds()),
            label: self.label(order),
        }
    }

    fn label(&self, order: &Order) -> String {
        let what = match order.kind {
            PAUSE | RESUME => String::new(),
            3 => match order.index.checked_sub(1).and_then(|at| self.scene.routes.get(at)) {
                Some(route) => {
                    format!("to {} {}", self.names.send(route.send), decibels(order.volume))
                }
                None => decibels(order.volume),
            },
            _ => decibels(order.volume),
        };
        match (order.millis, what.is_empty()) {
            (0, _) => what,
            (long, true) => millis(long),
            (long, false) => format!("{what} in {}", millis(long)),
        }
    }

    /// What is shown where one points at an order.
    fn tip(&self, drawn: &Drawn) -> String {
        let order = drawn.order;
        let sheet = self.input.sheet.as_ref().and_then(|(_, lines)| lines.get(&order.line));
        let line = sheet.map_or(order.line, |line| *line);
        let mut said = vec![format!(
            "line {line}: {} read at {} (block {})",
            KINDS.get(order.kind as usize).copied().unwrap_or(""),
            about(self.scene.read_at(order)),
            order.block
        )];
        if order.kind < PAUSE {
            said.push(format!("to {}", decibels(order.volume)));
        }
        said.push(match order.millis {
            0 => "at once".into(),
            long => format!("over {}, {}", millis(long), curve(order.easing, order.power)),
        });
        if order.waits() {
            said.push(waits(order, self.names));
        }
        if drawn.lost {
            said.push("a later line takes its place".into());
        }
        if drawn.never {
            said.push("never begins in this show".into());
        }
        said.join(", ")
    }

    pub fn draw_strip(&self, canvas: &mut Canvas, strip: &Strip, y: f64) {
        for (drawn, place) in &strip.drawn {
            let top = y + place.row as f64 * ROW;
            let tip = escape(&minus(&self.tip(drawn)));
            canvas.raw(&format!("<g class='{}'><title>{tip}</title>", drawn.class()));
            self.draw_order(canvas, drawn, *place, top, y + strip.height + BODY);
            canvas.raw("</g>");
        }
    }

    fn draw_order(&self, canvas: &mut Canvas, drawn: &Drawn, place: Place, top: f64, bottom: f64) {
        let middle = top + ROW / 2.0;
        let x = drawn.begins;
        if drawn.begins > drawn.read + 1.0 || (drawn.never && !drawn.lost) {
            let to = if drawn.never { drawn.ends } else { x };
            canvas.path("wait", &format!("M{:.1} {middle:.1}H{to:.1}", drawn.read));
            canvas.path("dot", &format!("M{:.1} {:.1}v4", drawn.read, middle - 2.0));
        }
        if !drawn.never && drawn.ends > x + 1.0 {
            canvas.rect("span", x, top + 1.0, drawn.ends - x, ROW - 2.0);
        }
        canvas.path("rule", &format!("M{x:.1} {top:.1}V{bottom:.1}"));
        let y = middle - 4.5;
        let mark = match drawn.order.kind {
            PAUSE => format!("M{:.1} {y:.1}h3v9h-3zm5.5 0h3v9h-3z", x + 1.5),
            RESUME => format!("M{:.1} {y:.1}l8 4.5l-8 4.5z", x + 1.5),
            _ => format!("M{:.1} {y:.1}l4.5 4.5l-4.5 4.5l-4.5 -4.5z", x + 6.0),
        };
        canvas.path("mark", &mark);
        match (place.free, drawn.before()) {
            (false, _) => {}
            (true, false) => canvas.text(x + MARK, middle + 3.4, "order", &drawn.label),
            (true, true) => {
                let end = drawn.read.min(x) - 4.0;
                canvas.text_before(end, middle + 3.4, "order", &drawn.label);
            }
        }
    }
}
