//! A scene as structs, for everything but the explanation. Lines of tables count from 1.

use super::tables::{Kind, Table, tables};
use super::text::{self, Row, Rows};
use crate::units::thousandths;

/// The first table.
#[derive(Debug, Clone, PartialEq, Default)]
pub struct Head {
    pub rate: i64,
    pub channels: i64,
    pub buffer: i64,
    pub block: i64,
    pub blocks: i64,
    pub volume: i64,
}

#[derive(Debug, Clone, PartialEq)]
pub struct Clock {
    pub unit: i64,
    pub speed: i64,
    pub ticking: i64,
}

#[derive(Debug, Clone, PartialEq)]
pub struct Track {
    pub parent: usize,
    pub volume: i64,
}

#[derive(Debug, Clone, PartialEq)]
pub struct Route {
    pub track: usize,
    pub send: usize,
    pub volume: i64,
}

#[derive(Debug, Clone, PartialEq)]
pub struct Sound {
    pub track: usize,
    pub first: i64,
    pub count: i64,
    pub from: usize,
}

#[derive(Debug, Clone, PartialEq)]
pub struct Placing {
    pub track: usize,
    pub place: [i64; 3],
    pub near: i64,
    pub far: i64,
}

#[derive(Debug, Clone, PartialEq, Default)]
pub struct Order {
    /// The scene file's line, or the sheet's; 0 where it stands in neither.
    pub line: usize,
    pub block: i64,
    pub kind: i64,
    pub index: usize,
    pub volume: i64,
    pub clock: usize,
    pub when: i64,
    pub part: i64,
    pub millis: i64,
    pub easing: i64,
    pub power: i64,
}

/// What the kinds of orders are called.
pub const KINDS: [&str; 6] =
    ["main volume", "track volume", "send track volume", "route volume", "pause", "resume"];
pub const PAUSE: i64 = 4;
pub const RESUME: i64 = 5;
/// At this volume and below, nothing is heard.
pub const SILENT: i64 = -60_000;

/// A scene whose numbers are in their ranges and whose references name lines.
#[derive(Debug, Clone, PartialEq, Default)]
pub struct Scene {
    pub head: Head,
    pub clocks: Vec<Clock>,
    pub tracks: Vec<Track>,
    pub sends: Vec<i64>,
    pub routes: Vec<Route>,
    pub sounds: Vec<Sound>,
    pub listener: Option<[i64; 3]>,
    pub placings: Vec<Placing>,
    pub orders: Vec<Order>,
}

impl Clock {
    /// How fast it ticks, as a sheet writes it.
    pub fn pace(&self) -> String {
        let speed = thousandths(self.speed);
        match self.unit {
            0 => format!("every {speed} s"),
            1 => format!("{speed} per second"),
            _ => format!("{speed} per minute"),
        }
    }

    pub fn ticks_per_second(&self) -> f64 {
        let speed = self.speed as f64 / 1000.0;
        match self.unit {
            0 => 1.0 / speed,
            1 => speed,
            _ => speed / 60.0,
        }
    }

    /// The last whole tick before the end of so many frames.
    pub fn last_tick(&self, frames: i64, rate: i64) -> i64 {
        let (ticks, parts) = match self.unit {
            0 => (frames * 1000, rate * self.speed),
            1 => (frames * self.speed, rate * 1000),
            _ => (frames * self.speed, rate * 60_000),
        };
        (ticks - 1) / parts
    }
}

impl Order {
    /// Two orders of one block for one thing: the later line counts.
    pub fn same_target(&self, other: &Self) -> bool {
        (self.block, self.kind, self.index) == (other.block, other.kind, other.index)
    }

    pub fn waits(&self) -> bool {
        self.clock > 0 || self.when > 0
    }
}

impl Scene {
    /// The numbers of an accepted file.
    pub fn of(rows: &Rows) -> Option<Self> {
        let all = |kind| rows.of(kind).iter();
        let head = all(Kind::Show).next()?;
        Some(Self {
            head: Head {
                rate: head.at(0),
                channels: head.at(1),
                buffer: head.at(2),
                block: head.at(3),
                blocks: head.at(4),
                volume: head.at(5),
            },
            clocks: all(Kind::Clocks)
                .map(|r| Clock { unit: r.at(0), speed: r.at(1), ticking: r.at(2) })
                .collect(),
            tracks: all(Kind::Tracks)
                .map(|r| Track { parent: r.line_at(0), volume: r.at(1) })
                .collect(),
            sends: all(Kind::Sends).map(|r| r.at(0)).collect(),
            routes: all(Kind::Routes)
                .map(|r| Route { track: r.line_at(0), send: r.line_at(1), volume: r.at(2) })
                .collect(),
            sounds: all(Kind::Sounds)
                .map(|r| Sound {
                    track: r.line_at(0),
                    first: r.at(1),
                    count: r.at(2),
                    from: r.line_at(3),
                })
                .collect(),
            listener: all(Kind::Listener).next().map(|r| [r.at(0), r.at(1), r.at(2)]),
            placings: all(Kind::Placings).map(placing).collect(),
            orders: all(Kind::Orders).map(order).collect(),
        })
    }

    /// The scene file.
    pub fn text(&self) -> Vec<u8> {
        text::write(|kind| self.numbers(kind))
    }

    /// The numbers of a table's lines.
    pub fn numbers(&self, kind: Kind) -> Vec<Vec<i64>> {
        let line = |line: usize| line as i64;
        match kind {
            Kind::Show => {
                let h = &self.head;
                vec![vec![h.rate, h.channels, h.buffer, h.block, h.blocks, h.volume]]
            }
            Kind::Clocks => self.clocks.iter().map(|c| vec![c.unit, c.speed, c.ticking]).collect(),
            Kind::Tracks => self.tracks.iter().map(|t| vec![line(t.parent), t.volume]).collect(),
            Kind::Sends => self.sends.iter().map(|&volume| vec![volume]).collect(),
            Kind::Routes => {
                let row = |r: &Route| vec![line(r.track), line(r.send), r.volume];
                self.routes.iter().map(row).collect()
            }
            Kind::Sounds => {
                let row = |s: &Sound| vec![line(s.track), s.first, s.count, line(s.from)];
                self.sounds.iter().map(row).collect()
            }
            Kind::Listener => self.listener.iter().map(|place| place.to_vec()).collect(),
            Kind::Placings => {
                let row = |p: &Placing| {
                    vec![line(p.track), p.place[0], p.place[1], p.place[2], p.near, p.far]
                };
                self.placings.iter().map(row).collect()
            }
            Kind::Orders => self.orders.iter().map(order_numbers).collect(),
        }
    }

    /// The scene file's line of a table's line, which counts from 0 here.
    pub fn line_of(&self, kind: Kind, at: usize) -> usize {
        let before = tables().take_while(|table| table.kind != kind);
        before.map(|table| self.numbers(table.kind).len() + 2).sum::<usize>() + at + 2
    }

    pub fn rate(&self) -> f64 {
        self.head.rate as f64
    }

    pub fn frames(&self) -> usize {
        (self.head.block * self.head.blocks) as usize
    }

    pub fn seconds(&self) -> f64 {
        self.frames() as f64 / self.rate()
    }

    /// When an order is read, in seconds.
    pub fn read_at(&self, order: &Order) -> f64 {
        (order.block * self.head.block) as f64 / self.rate()
    }

    /// When an order's change begins, about; none where its clock never runs.
    pub fn begins_at(&self, order: &Order) -> Option<f64> {
        let read = self.read_at(order);
        let Some(clock) = order.clock.checked_sub(1).and_then(|at| self.clocks.get(at)) else {
            return Some(read + order.when as f64 / 1000.0);
        };
        let tick = order.when as f64 + order.part as f64 / 1000.0;
        (clock.ticking == 1).then(|| (tick / clock.ticks_per_second()).max(read))
    }

    /// When an order's change begins, about; when it is read where it never does.
    pub fn starts(&self, order: &Order) -> f64 {
        self.begins_at(order).unwrap_or(self.read_at(order))
    }

    /// A later line of the same block takes this order's place.
    pub fn overridden(&self, at: usize) -> bool {
        self.orders[at + 1..].iter().any(|later| later.same_target(&self.orders[at]))
    }

    /// A track and those above it, from itself to the one right under the mixer.
    pub fn path(&self, track: usize) -> Vec<usize> {
        let mut path = vec![];
        let mut at = track;
        while at > 0 && path.len() <= self.tracks.len() {
            path.push(at);
            at = self.tracks[at - 1].parent;
        }
        path
    }

    pub fn depth(&self, track: usize) -> usize {
        self.path(track).len()
    }

    /// `track` lies below `above`.
    pub fn below(&self, track: usize, above: usize) -> bool {
        track != above && self.path(track).contains(&above)
    }

    /// The tracks in the order of the tree, each before those below it.
    pub fn tree(&self) -> Vec<usize> {
        let mut list = vec![];
        self.branch(0, &mut list);
        list
    }

    fn branch(&self, parent: usize, list: &mut Vec<usize>) {
        for line in 1..=self.tracks.len() {
            if self.tracks[line - 1].parent == parent {
                list.push(line);
                self.branch(line, list);
            }
        }
    }

    /// At -60 dB or less all through.
    pub fn turned_down(&self, track: usize) -> bool {
        let loud = |o: &&Order| o.kind == 1 && o.index == track && o.volume > SILENT;
        self.tracks[track - 1].volume <= SILENT && !self.orders.iter().any(|o| loud(&o))
    }

    /// The routes through which a track that is turned down is heard: those of tracks below it.
    pub fn leaks(&self, track: usize) -> Vec<&Route> {
        let down = self.turned_down(track);
        self.routes_below(track).filter(|_| down).map(|(_, route)| route).collect()
    }

    /// The routes of tracks below a track, each with its place among all of them.
    pub fn routes_below(&self, track: usize) -> impl Iterator<Item = (usize, &Route)> {
        let routes = self.routes.iter().enumerate();
        routes.filter(move |(_, route)| self.below(route.track, track))
    }

    /// The routes that an order leaves open though it turns the track above them down.
    pub fn still_sent(&self, order: &Order) -> Vec<(usize, &Route)> {
        let down = order.kind == 1 && order.volume <= SILENT;
        let Some(begins) = self.begins_at(order).filter(|_| down) else { return vec![] };
        let until = begins + order.millis as f64 / 1000.0;
        let open = self.routes_below(order.index);
        open.filter(|(at, route)| self.plays(route.track) && !self.shut(*at, route, until))
            .collect()
    }

    /// Something plays on a track or below it.
    fn plays(&self, track: usize) -> bool {
        self.sounds.iter().any(|sound| sound.track > 0 && self.path(sound.track).contains(&track))
    }

    /// Nothing goes through a route at some second: it, an end of it or main is turned down too, or a
    /// track above it is paused.
    fn shut(&self, at: usize, route: &Route, second: f64) -> bool {
        let (track, send) = (self.tracks[route.track - 1].volume, self.sends[route.send - 1]);
        let volumes = [
            (0, 0, self.head.volume),
            (1, route.track, track),
            (2, route.send, send),
            (3, at + 1, route.volume),
        ];
        let quiet = |(kind, index, first): (i64, usize, i64)| {
            let last = self.last(second, |o| (o.kind, o.index) == (kind, index));
            last.map_or(first, |order| order.volume) <= SILENT
        };
        let paused = |track: usize| {
            let last = self.last(second, |o| o.kind >= PAUSE && o.index == track);
            last.is_some_and(|order| order.kind == PAUSE)
        };
        volumes.into_iter().any(quiet) || self.path(route.track).into_iter().any(paused)
    }

    /// The last order of a sort that has begun by some second.
    fn last(&self, second: f64, sort: impl Fn(&Order) -> bool) -> Option<&Order> {
        let begun = |order: &&Order| self.begins_at(order).is_some_and(|begins| begins <= second);
        let all = self.orders.iter().filter(|order| sort(order)).filter(begun);
        all.max_by(|a, b| self.read_at(a).total_cmp(&self.read_at(b)))
    }
}

impl Row {
    fn at(&self, column: usize) -> i64 {
        self.numbers.get(column).copied().unwrap_or(0)
    }

    fn line_at(&self, column: usize) -> usize {
        usize::try_from(self.at(column)).unwrap_or(0)
    }
}

fn placing(row: &Row) -> Placing {
    Placing {
        track: row.line_at(0),
        place: [row.at(1), row.at(2), row.at(3)],
        near: row.at(4),
        far: row.at(5),
    }
}

fn order(row: &Row) -> Order {
    Order {
        line: row.line,
        block: row.at(0),
        kind: row.at(1),
        index: row.line_at(2),
        volume: row.at(3),
        clock: row.line_at(4),
        when: row.at(5),
        part: row.at(6),
        millis: row.at(7),
        easing: row.at(8),
        power: row.at(9),
    }
}

fn order_numbers(o: &Order) -> Vec<i64> {
    let [index, clock] = [o.index, o.clock].map(|line| line as i64);
    let numbers =
        [o.block, o.kind, index, o.volume, clock, o.when, o.part, o.millis, o.easing, o.power];
    debug_assert_eq!(numbers.len(), Table::of(Kind::Orders).fields.len());
    numbers.to_vec()
}
