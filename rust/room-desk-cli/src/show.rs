//! The tables for people: names, seconds, decibels, orders by time.

use crate::input::{Input, Names};
use crate::scene::model::{Order, PAUSE, Scene};
use crate::scene::{Route, commas, count};
use crate::silence::Answer;
use crate::units::{about, curve, decibels, millis, seconds, thousandths};
use crate::warnings::target;

type Row = Vec<String>;

/// Without an answer about silence the show was not accepted.
pub fn text(input: &Input, scene: &Scene, answer: Option<Answer>) -> String {
    let mut out = head(scene);
    let silence = &answer.clone().unwrap_or_default();
    let view = View { input, scene, names: &input.names, silence };
    section(&mut out, "Clocks", view.clocks());
    section(&mut out, "Tracks", view.tracks());
    section(&mut out, "Send tracks", view.sends());
    section(&mut out, "Orders, by time", view.orders());
    if answer.is_none() {
        out += "\nThe show is refused, so that silence is not asked: `room-desk check` says why.\n";
    }
    out
}

fn head(scene: &Scene) -> String {
    let head = &scene.head;
    let chunk = head.buffer.min(head.block);
    format!(
        "{} at {} Hz, {}, main {}\n{} of {} frames ({}), chunks of {} ({})\n",
        seconds(scene.seconds()),
        head.rate,
        count(head.channels as usize, "channel"),
        decibels(head.volume),
        count(head.blocks as usize, "block"),
        head.block,
        about(head.block as f64 / scene.rate()),
        chunk,
        about(chunk as f64 / scene.rate()),
    )
}

/// Columns as wide as their widest cell.
fn section(out: &mut String, title: &str, rows: Vec<Row>) {
    if rows.is_empty() {
        return;
    }
    *out += &format!("\n{title}\n");
    let columns = rows.iter().map(Vec::len).max().unwrap_or(0);
    let width = |column: usize| {
        let cells = rows.iter().filter_map(|row| row.get(column));
        cells.map(|cell| cell.chars().count()).max().unwrap_or(0)
    };
    let widths: Vec<usize> = (0..columns).map(width).collect();
    for row in &rows {
        let cells = row.iter().zip(&widths).map(|(cell, width)| format!("{cell:width$}"));
        *out += &format!("  {}\n", cells.collect::<Vec<_>>().join("  ").trim_end());
    }
}

struct View<'a> {
    input: &'a Input,
    scene: &'a Scene,
    names: &'a Names,
    silence: &'a Answer,
}

impl View<'_> {
    fn clocks(&self) -> Vec<Row> {
        let rows = self.scene.clocks.iter().enumerate().map(|(at, clock)| {
            let state = if clock.ticking == 1 { "runs" } else { "never runs" };
            vec![self.names.clock(at + 1), clock.pace(), state.into()]
        });
        rows.collect()
    }

    fn tracks(&self) -> Vec<Row> {
        let mut rows = self.sounds(0, 0);
        for line in self.scene.tree() {
            let depth = self.scene.depth(line);
            let indent = "  ".repeat(depth - 1);
            let routes = self.scene.routes.iter().filter(|route| route.track == line);
            let to =
                routes.map(|r| format!("to {} {}", self.names.send(r.send), decibels(r.volume)));
            rows.push(vec![
                format!("{indent}{}", self.names.track(line)),
                decibels(self.scene.tracks[line - 1].volume),
                to.collect::<Vec<_>>().join(", "),
                self.note(line),
            ]);
            rows.extend(self.sounds(line, depth));
        }
        rows
    }

    fn note(&self, line: usize) -> String {
        if let Some(reason) = self.silence.reason(line, self.scene, self.names) {
            return format!("cannot be heard: {reason}");
        }
        self.not_silent(&self.scene.leaks(line)).unwrap_or_else(|| self.place(line))
    }

    /// What is heard though a track above it is turned down.
    fn not_silent(&self, routes: &[&Route]) -> Option<String> {
        let ways = routes.iter().map(|route| {
            format!("{} through {}", self.names.track(route.track), self.names.send(route.send))
        });
        let ways = ways.collect::<Vec<_>>().join(", ");
        (!ways.is_empty()).then(|| format!("NOT silent: {ways} is heard"))
    }

    fn place(&self, line: usize) -> String {
        let placed = self.scene.placings.iter().find(|placing| placing.track == line);
        placed.map_or(String::new(), |p| {
            let at = p.place.map(thousandths).join(" ");
            format!("at {at} m, {} to {} m", thousandths(p.near), thousandths(p.far))
        })
    }

    fn sounds(&self, track: usize, depth: usize) -> Vec<Row> {
        let rate = self.scene.rate();
        let own = self.scene.sounds.iter().enumerate().filter(|(_, sound)| sound.track == track);
        let rows = own.map(|(at, sound)| {
            let from = match self.input.recordings.of(sound.from).part(sound.first, sound.count) {
                Some(part) => {
                    let start = (sound.first - part.first as i64) as f64 / rate;
                    format!("{} from {}", part.file, seconds(start))
                }
                None => {
                    let title = ["the house's", "the visitor's"][sound.from.min(1)];
                    format!("{title} frames from {}", commas(sound.first))
                }
            };
            let name = format!("{}sound {}", "  ".repeat(depth), at + 1);
            vec![name, seconds(sound.count as f64 / rate), from]
        });
        rows.collect()
    }

    fn sends(&self) -> Vec<Row> {
        let rows = self.scene.sends.iter().enumerate();
        rows.map(|(at, &volume)| vec![self.names.send(at + 1), decibels(volume)]).collect()
    }

    fn orders(&self) -> Vec<Row> {
        let mut list: Vec<(usize, &Order)> = self.scene.orders.iter().enumerate().collect();
        list.sort_by(|(_, a), (_, b)| self.scene.starts(a).total_cmp(&self.scene.starts(b)));
        let row = |(at, order)| self.played(order).unwrap_or_else(|| self.order(at, order));
        list.into_iter().map(row).collect()
    }

    /// `play ... at` of a sheet, as it is written there.
    fn played(&self, order: &Order) -> Option<Row> {
        let mut sounds = self.scene.sounds.iter().filter(|_| self.input.plays(order.line));
        let sound = sounds.find(|sound| sound.track == order.index)?;
        let part = self.input.recordings.of(sound.from).part(sound.first, sound.count);
        let file = part.map_or("its recording", |part| &part.file);
        let below = match self.scene.tracks[order.index - 1].parent {
            0 => String::new(),
            parent => format!("in {}", self.names.track(parent)),
        };
        Some(vec![seconds(self.scene.starts(order)), String::new(), format!("play {file}"), below])
    }

    fn order(&self, at: usize, order: &Order) -> Row {
        let to = if order.kind < PAUSE {
            format!("to {}", decibels(order.volume))
        } else {
            String::new()
        };
        let over = match order.millis {
            0 => "at once".into(),
            long => format!("over {}, {}", millis(long), curve(order.easing, order.power)),
        };
        let routes: Vec<&Route> =
            self.scene.still_sent(order).into_iter().map(|(_, route)| route).collect();
        let lost = match self.scene.overridden(at) {
            true => "a later line takes its place".into(),
            false => self.not_silent(&routes).unwrap_or_default(),
        };
        vec![
            seconds(self.scene.starts(order)),
            format!("block {}", order.block),
            target(order, self.scene, self.names),
            to,
            over,
            waits(order, self.names),
            lost,
        ]
    }
}

/// What an order waits for: `waits 500 ms`, `waits for tick 7 of beat`.
pub fn waits(order: &Order, names: &Names) -> String {
    match (order.clock, order.when) {
        (0, 0) => String::new(),
        (0, when) => format!("waits {}", millis(when)),
        (clock, tick) => format!(
            "waits for tick {} of {}",
            thousandths(tick * 1000 + order.part),
            names.clock(clock)
        ),
    }
}
