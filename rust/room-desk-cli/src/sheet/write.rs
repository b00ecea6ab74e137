//! A scene back as a sheet, so that `compile` makes the same scene of it again.

use std::path::Path;

use crate::input::{Input, Names};
use crate::recordings::Part;
use crate::scene::count;
use crate::scene::model::{Order, PAUSE, RESUME, Scene};
use crate::units::{curve, decibels, exact, millis, seconds, thousandths};

pub fn write(input: &Input, scene: &Scene) -> String {
    let sheet = Writer { input, scene, names: &input.names };
    let mut out = format!("# {}\n", input.title());
    out += &sheet.head();
    out += &sheet.recordings();
    out += &sheet.clocks_and_sends();
    out += &sheet.tracks();
    out += &sheet.loose();
    out += &sheet.orders();
    for (_, name) in &input.silent {
        out += &format!("silent {name}\n");
    }
    out
}

struct Writer<'a> {
    input: &'a Input,
    scene: &'a Scene,
    names: &'a Names,
}

/// Lines stand in their tracks' order, so that they can stand below them.
fn in_order(tracks: impl Iterator<Item = usize>) -> bool {
    let tracks: Vec<usize> = tracks.collect();
    tracks.is_sorted()
}

/// A file's name for a sheet.
pub fn quoted(file: &str) -> String {
    let plain = !file.contains([' ', '#', '\t']) && !["house", "visitor"].contains(&file);
    if plain { file.into() } else { format!("\"{file}\"") }
}

impl Writer<'_> {
    fn head(&self) -> String {
        let head = &self.scene.head;
        format!(
            "rate {}\nspeakers {}\nbuffer {}\nblock {}\nlength {}    # {}\nmain {}\n\n",
            head.rate,
            head.channels,
            head.buffer,
            head.block,
            count(head.blocks as usize, "block").replace(',', ""),
            seconds(self.scene.seconds()),
            decibels(head.volume),
        )
    }

    fn recordings(&self) -> String {
        let both = &self.input.recordings;
        let mut out = String::new();
        for (word, joined) in [("house", &both.house), ("visitor", &both.visitor)] {
            for part in &joined.parts {
                out += &format!("{word} {}\n", self.file(part));
            }
        }
        if out.is_empty() { out } else { out + "\n" }
    }

    fn clocks_and_sends(&self) -> String {
        let mut out = String::new();
        for (at, clock) in self.scene.clocks.iter().enumerate() {
            let speed = clock.pace();
            let stopped = if clock.ticking == 1 { "" } else { " stopped" };
            out += &format!("clock {} {speed}{stopped}\n", self.names.clock(at + 1));
        }
        for (at, volume) in self.scene.sends.iter().enumerate() {
            out += &format!("send {} {}\n", self.names.send(at + 1), decibels(*volume));
        }
        if let Some(place) = self.scene.listener {
            out += &format!("listener at {} m\n", place.map(thousandths).join(" "));
        }
        if out.is_empty() { out } else { out + "\n" }
    }

    fn routes_nest(&self) -> bool {
        in_order(self.scene.routes.iter().map(|route| route.track))
    }

    fn sounds_nest(&self) -> bool {
        in_order(self.scene.sounds.iter().map(|sound| sound.track))
    }

    fn placings_nest(&self) -> bool {
        in_order(self.scene.placings.iter().map(|placing| placing.track))
    }

    /// The tracks in the table's order. One that does not follow its parent's branch names it.
    fn tracks(&self) -> String {
        let mut out = String::new();
        let mut open: Vec<usize> = vec![];
        if self.sounds_nest() {
            out += &self.sounds_of(0, "");
        }
        for line in 1..=self.scene.tracks.len() {
            let track = &self.scene.tracks[line - 1];
            let depth = match track.parent {
                0 => Some(0),
                parent => open.iter().position(|open| *open == parent).map(|at| at + 1),
            };
            let indent = "    ".repeat(depth.unwrap_or(0));
            let parent = match depth {
                Some(_) => String::new(),
                None => format!(" in {}", self.names.track(track.parent)),
            };
            let name = self.names.track(line);
            out += &format!("{indent}track {name} {}{parent}\n", decibels(track.volume));
            open.truncate(depth.unwrap_or(0));
            // A track that names its parent opens a branch of its own at the margin.
            open.push(line);
            out += &self.inside(line, &format!("{indent}    "));
        }
        if out.is_empty() { out } else { out + "\n" }
    }

    fn inside(&self, line: usize, indent: &str) -> String {
        let mut out = String::new();
        if self.placings_nest() {
            for placing in self.scene.placings.iter().filter(|placing| placing.track == line) {
                out += &format!("{indent}place {}\n", placed(placing));
            }
        }
        if self.sounds_nest() {
            out += &self.sounds_of(line, indent);
        }
        if self.routes_nest() {
            for route in self.scene.routes.iter().filter(|route| route.track == line) {
                let send = self.names.send(route.send);
                out += &format!("{indent}to {send} {}\n", decibels(route.volume));
            }
        }
        out
    }

    fn sounds_of(&self, track: usize, indent: &str) -> String {
        let own = self.scene.sounds.iter().filter(|sound| sound.track == track);
        own.map(|sound| format!("{indent}play {}\n", self.source(sound))).collect()
    }

    fn source(&self, sound: &crate::scene::Sound) -> String {
        let (name, first) =
            match self.input.recordings.of(sound.from).part(sound.first, sound.count) {
                Some(part) if self.unique(part) => {
                    (self.file(part), sound.first - part.first as i64)
                }
                _ => (["house", "visitor"][sound.from.min(1)].into(), sound.first),
            };
        let rate = self.scene.head.rate;
        format!("{name} from {} for {}", exact(first, rate), exact(sound.count, rate))
    }

    /// A file that is joined twice is not meant by its name.
    fn unique(&self, part: &Part) -> bool {
        self.input.recordings.parts().filter(|other| other.path == part.path).count() == 1
    }

    /// A recording as the sheet names it: beside the show, or by its whole path.
    fn file(&self, part: &Part) -> String {
        let path = Path::new(&part.path);
        let folder = Path::new(&self.input.name).parent().unwrap_or(Path::new(""));
        let beside = path.strip_prefix(folder).ok().filter(|rest| rest.is_relative());
        let named = match beside {
            Some(rest) => rest.to_path_buf(),
            None => std::path::absolute(path).unwrap_or(path.to_path_buf()),
        };
        quoted(&named.display().to_string())
    }

    /// What stands in another order than its tracks.
    fn loose(&self) -> String {
        let mut out = String::new();
        if !self.placings_nest() {
            for placing in &self.scene.placings {
                let track = self.names.track(placing.track);
                out += &format!("place on {track} {}\n", placed(placing));
            }
        }
        if !self.sounds_nest() {
            for sound in &self.scene.sounds {
                let on = match sound.track {
                    0 => String::new(),
                    track => format!(" on {}", self.names.track(track)),
                };
                out += &format!("play {}{on}\n", self.source(sound));
            }
        }
        if !self.routes_nest() {
            for route in &self.scene.routes {
                let (track, send) = (self.names.track(route.track), self.names.send(route.send));
                out += &format!("route {track} to {send} {}\n", decibels(route.volume));
            }
        }
        if out.is_empty() { out } else { out + "\n" }
    }

    fn orders(&self) -> String {
        self.scene.orders.iter().map(|order| self.order(order) + "\n").collect()
    }

    fn order(&self, order: &Order) -> String {
        let wait = match (order.clock, order.when) {
            (0, 0) => String::new(),
            (0, when) => format!(" wait {}", millis(when)),
            (clock, tick) => {
                let tick = thousandths(tick * 1000 + order.part);
                format!(" tick {tick} of {}", self.names.clock(clock))
            }
        };
        let what = match order.kind {
            0 => "set main".into(),
            2 => format!("set {}", self.names.send(order.index)),
            3 => {
                let route = &self.scene.routes[order.index - 1];
                format!("set {} -> {}", self.names.track(route.track), self.names.send(route.send))
            }
            PAUSE => format!("pause {}", self.names.track(order.index)),
            RESUME => format!("resume {}", self.names.track(order.index)),
            _ => format!("set {}", self.names.track(order.index)),
        };
        let to = match order.kind {
            PAUSE.. => String::new(),
            _ => format!(" to {}", decibels(order.volume)),
        };
        let over = if order.millis > 0 {
            format!(" over {}", millis(order.millis))
        } else {
            String::new()
        };
        let curve = match order.easing {
            0 => String::new(),
            easing => format!(" {}", curve(easing, order.power)),
        };
        format!("at {}{wait} {what}{to}{over}{curve}", self.when(order.block))
    }

    /// The shortest seconds that land on the block, else the block.
    fn when(&self, block: i64) -> String {
        let head = &self.scene.head;
        let exact = (block * head.block) as f64 / self.scene.rate();
        for digits in 0..=3 {
            let text = format!("{exact:.digits$}");
            let frames = text.parse::<f64>().unwrap_or(0.0) * self.scene.rate();
            if (frames.round() as i64 + head.block / 2) / head.block == block {
                return format!("{text} s");
            }
        }
        format!("block {block}")
    }
}

fn placed(placing: &crate::scene::Placing) -> String {
    let at = placing.place.map(thousandths).join(" ");
    format!("at {at} m near {} far {} m", thousandths(placing.near), thousandths(placing.far))
}
