//! A refused sheet in its own words: names, seconds and decibels for lines, blocks and thousandths.

use std::ops::Range;

use super::words::{Word, Words};
use crate::input::Input;
use crate::scene::model::PAUSE;
use crate::scene::tables::{Kind, Rule, Table};
use crate::scene::{Finding, Scene, commas, count};
use crate::units::{PER, decibels, millis, parse_thousandths, seconds, thousandths};

const UNITS: [&str; 11] =
    ["dB", "db", "DB", "s", "ms", "min", "m", "frame", "frames", "block", "blocks"];
const DEEPEST: &str = "four deep at most; `play ... at` makes a track of its own";

/// What is wrong, and what is allowed.
type Said = (String, String);

/// A finding about the scene that a sheet was made into, for the sheet.
pub fn reworded(input: &Input, scene: &Scene, number: u32, finding: &Finding) -> Finding {
    let line = finding.line.and_then(|line| input.line(line));
    let own = Finding { line, span: None, ..finding.clone() };
    let Some((kind, at, column)) = finding.field else { return own };
    let field = Field { input, scene, kind, at, column };
    let said = match number {
        3 => field.count(),
        4 => field.range(),
        6 => Some(field.depth()),
        7 => field.twice(),
        _ => None,
    };
    let line = if kind == Kind::Show { field.setting().or(line) } else { line };
    let span = line.filter(|_| number == 4).and_then(|line| field.span(line));
    match said {
        Some((what, allowed)) => Finding { line, span, what, allowed, ..own },
        None => own,
    }
}

/// The last word that has a level, or is followed by its unit, and that says it.
fn level_of(words: &[&Word], says: impl Fn(&Word) -> bool) -> Option<usize> {
    let unit = |at: usize| words.get(at).is_some_and(|w| w.text.to_lowercase().ends_with("db"));
    (0..words.len()).rev().find(|&at| says(words[at]) && (unit(at) || unit(at + 1)))
}

/// A number of the scene, by its place.
struct Field<'a> {
    input: &'a Input,
    scene: &'a Scene,
    kind: Kind,
    at: usize,
    column: usize,
}

impl Field<'_> {
    fn name(&self) -> &'static str {
        Table::of(self.kind).fields[self.column].name
    }

    fn value(&self) -> i64 {
        self.scene.numbers(self.kind)[self.at][self.column]
    }

    /// The range's ends, as `shown` writes them.
    fn between(&self, shown: impl Fn(i64) -> String) -> String {
        match Table::of(self.kind).fields[self.column].rule {
            Rule::Number(low, high, _) => format!("{} to {}", shown(low), shown(high)),
            _ => String::new(),
        }
    }

    /// The line of the sheet that says a field of the show.
    fn setting(&self) -> Option<usize> {
        let word = match self.name() {
            "channels" => "speakers",
            "blocks" => "length",
            "volume" => "main",
            name => name,
        };
        let sheet = &self.input.sheet.as_ref()?.0;
        let first = |line: &str| line.split_whitespace().next().map(String::from);
        Some(sheet.lines().position(|line| first(line).as_deref() == Some(word))? + 1)
    }

    /// The words of the sheet's line that say the field, where they can be told.
    fn span(&self, line: usize) -> Option<Range<usize>> {
        let text = self.input.sheet.as_ref()?.0.lines().nth(line - 1)?;
        let line = Words::of(line, text).ok()?;
        let words: Vec<&Word> = line.all().collect();
        let behind = |names: &[&str]| {
            words.iter().rposition(|word| names.contains(&word.text.as_str())).map(|at| at + 1)
        };
        let at = match (self.kind, self.name()) {
            (Kind::Show, _) => Some(1),
            (Kind::Orders, "block") => Some(1),
            (Kind::Orders, "millis") => behind(&["over"]),
            (Kind::Orders, "when") => behind(&["wait", "tick"]),
            (Kind::Orders, "power") => behind(&["in", "out", "in-out"]),
            (_, "near") => behind(&["near"]),
            (_, "far") => behind(&["far"]),
            (_, "volume") => level_of(&words, |word| self.says(word)),
            _ => words.iter().position(|word| self.says(word)),
        };
        let first = words.get(at?)?;
        let unit = |word: &&&Word| UNITS.contains(&word.text.as_str()) || first.text == "block";
        let last = words.get(at? + 1).filter(unit).unwrap_or(first);
        Some(first.span.start..last.span.end)
    }

    /// A word has the field's number, in thousandths.
    fn says(&self, word: &Word) -> bool {
        let number = word.text.trim_end_matches(['d', 'D', 'b', 'B']);
        parse_thousandths(number) == Some(self.value())
    }

    fn count(&self) -> Option<Said> {
        let table = Table::of(self.kind);
        let own = match self.kind {
            Kind::Tracks | Kind::Orders => "; `play ... at` makes a track and an order of its own",
            _ => "",
        };
        let what = format!("{} {}", commas(self.at as i128), table.title);
        Some((what, format!("at most {}{own}", table.lines.end())))
    }

    fn range(&self) -> Option<Said> {
        let number = self.value();
        let plain = || (format!("{} is {number}", self.name()), self.between(|n| n.to_string()));
        Some(match (self.kind, self.name()) {
            (_, "volume") => {
                (format!("{} {}", self.thing(), decibels(number)), self.levels(number))
            }
            (Kind::Show, "blocks") => self.length(),
            (Kind::Show, "channels") => {
                (count(usize::try_from(number).unwrap_or(0), "speaker"), plain().1)
            }
            (Kind::Show, _) => plain(),
            (Kind::Orders, "power") => (plain().0, "1 to 8".into()),
            (Kind::Clocks, "speed") => self.speed(),
            (Kind::Listener | Kind::Placings, _) => self.metres(),
            (Kind::Orders, "block") => self.time(),
            (Kind::Orders, "when" | "millis") => self.wait(),
            _ => return None,
        })
    }

    /// The range of levels; above it a minus was lost.
    fn levels(&self, number: i64) -> String {
        let range = self.between(decibels);
        match number {
            1..=96_000 => format!("{range} (did you mean `{}`?)", decibels(-number)),
            _ => range,
        }
    }

    /// What has a level.
    fn thing(&self) -> String {
        let (names, line) = (&self.input.names, self.at + 1);
        let route = |at: usize| {
            let route = &self.scene.routes[at];
            format!("{} -> {}", names.track(route.track), names.send(route.send))
        };
        match self.kind {
            Kind::Show => "main is at".into(),
            Kind::Tracks => format!("{} is at", names.track(line)),
            Kind::Sends => format!("{} is at", names.send(line)),
            Kind::Routes => format!("{} is at", route(self.at)),
            _ => "the order's level is".into(),
        }
    }

    fn length(&self) -> Said {
        let head = &self.scene.head;
        let of = |frames: i64| seconds(frames as f64 / self.scene.rate());
        let Rule::Number(_, most, _) = Table::of(Kind::Show).fields[self.column].rule else {
            return Said::default();
        };
        let longest = most * head.block;
        let allowed =
            format!("up to {} at {} Hz, {} frames", of(longest), head.rate, commas(longest));
        (format!("the show is {} long", of(head.blocks * head.block)), allowed)
    }

    fn speed(&self) -> Said {
        let clock = &self.scene.clocks[self.at];
        let unit = PER.get(clock.unit as usize).copied().unwrap_or("");
        let name = self.input.names.clock(self.at + 1);
        let what = format!("{name} has {} {unit}", thousandths(clock.speed));
        (what, format!("{}, and at most 1,000 ticks a second", self.between(thousandths)))
    }

    fn metres(&self) -> Said {
        let what = format!("{} is {} m", self.name(), thousandths(self.value()));
        let placing = self.scene.placings.get(self.at).filter(|_| self.kind == Kind::Placings);
        match placing {
            Some(placing) if self.name() == "far" && placing.near >= placing.far => {
                (what, format!("more than near, {} m", thousandths(placing.near)))
            }
            _ => (what, format!("{} m", self.between(thousandths))),
        }
    }

    fn time(&self) -> Said {
        let order = &self.scene.orders[self.at];
        let end = seconds(self.scene.seconds());
        let what = match order.block {
            ..0 => format!("block {}", order.block),
            _ => format!("the order comes at {}", seconds(self.scene.read_at(order))),
        };
        (what, format!("before the show's end at {end}"))
    }

    fn wait(&self) -> Said {
        let order = &self.scene.orders[self.at];
        match self.name() {
            "when" if order.clock > 0 => {
                (format!("tick {}", order.when), self.between(|n| n.to_string()))
            }
            "when" => (format!("the order waits {}", millis(order.when)), self.between(millis)),
            _ if order.millis == 0 && order.kind <= PAUSE => {
                ("`over 0 s` in an order that waits".into(), "`over 1 ms` or more".into())
            }
            _ => (format!("the change takes {}", millis(order.millis)), self.between(millis)),
        }
    }

    fn depth(&self) -> Said {
        let path = self.scene.path(self.at + 1);
        let names = path.iter().rev().map(|&line| self.input.names.track(line));
        let names: Vec<String> = names.collect();
        let name = self.input.names.track(self.at + 1);
        (format!("{name} stands {} deep: {}", path.len(), names.join(" > ")), DEEPEST.into())
    }

    fn twice(&self) -> Option<Said> {
        let names = &self.input.names;
        if self.kind == Kind::Placings {
            let track = names.track(self.scene.placings.get(self.at)?.track);
            return Some((format!("{track} is placed a second time"), "one place a track".into()));
        }
        let route = self.scene.routes.get(self.at)?;
        let (track, send) = (names.track(route.track), names.send(route.send));
        let allowed = "each track to each send track once";
        Some((format!("{track} goes to {send} a second time"), allowed.into()))
    }
}
