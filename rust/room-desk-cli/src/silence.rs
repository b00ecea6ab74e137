//! Which tracks are proved silent, by the proved routine alone.

use std::ops::Range;

use room_desk::Silence;

use crate::guess::meant;
use crate::input::{Input, Names};
use crate::paint::Paint;
use crate::report;
use crate::scene::model::{PAUSE, RESUME, SILENT};
use crate::scene::{Finding, Order, Scene};
use crate::stop::{Done, Stop};
use crate::units::{decibels, millis, seconds};

/// The routine's answer, a track each; of nothing where it was not asked.
#[derive(Debug, Clone, Default, PartialEq)]
pub struct Answer(Vec<Silence>);

/// Asks about an accepted show.
pub fn ask(input: &Input) -> Answer {
    match room_desk::silent(&input.file, input.recordings.samples()) {
        Ok(tracks) => Answer(tracks),
        Err(_) => Answer::default(),
    }
}

impl Answer {
    /// Of a track's line.
    pub fn of(&self, track: usize) -> Silence {
        self.0.get(track - 1).copied().unwrap_or(Silence::No)
    }

    pub fn proved(&self, track: usize) -> bool {
        self.of(track) != Silence::No
    }

    /// Why a track cannot be heard, for people.
    pub fn reason(&self, track: usize, scene: &Scene, names: &Names) -> Option<String> {
        match self.of(track) {
            Silence::No => None,
            Silence::Muted => {
                Some("muted: at -60 dB or less all through, nothing below it is routed".into())
            }
            Silence::Held => {
                Some("held: paused at once before the first block, never resumed".into())
            }
            Silence::Inside => {
                let outer = scene.path(track).into_iter().skip(1);
                let silent = |t: &usize| matches!(self.of(*t), Silence::Muted | Silence::Held);
                let name = outer.rev().find(silent).map_or("one".into(), |t| names.track(t));
                Some(format!("inside {name}"))
            }
        }
    }
}

/// A track's line, by its name or its number.
pub fn track_named(name: &str, scene: &Scene, names: &Names) -> Done<usize> {
    let by_name = (1..=scene.tracks.len()).find(|&line| names.track(line) == name);
    let by_number = name.parse().ok().filter(|line| (1..=scene.tracks.len()).contains(line));
    by_name.or(by_number).ok_or_else(|| {
        let list = (1..=scene.tracks.len()).map(|line| names.track(line)).collect::<Vec<_>>();
        let guess = meant(name, list.iter().map(String::as_str));
        Stop::Usage(format!("no track `{name}`: {}{guess}", list.join(", ")))
    })
}

/// What stands against a track's silence (docs/SILENCE.md), where it can be seen, and what mends it.
#[derive(Debug, Default)]
pub struct Against {
    /// `, since ...`, or nothing.
    pub why: String,
    pub allowed: String,
}

/// Looks where silence was tried: at the track, then at those around it.
pub fn against(track: usize, input: &Input, scene: &Scene) -> Against {
    let path = scene.path(track);
    let tried = path.iter().find_map(|&outer| {
        let seen = Seen { input, scene, track, outer };
        // Of a track at -60 dB pauses matter only where nothing else stands against it.
        seen.not_muted().or_else(|| seen.not_held())
    });
    tried.unwrap_or_else(|| Against {
        why: format!(", since it is at {}", decibels(scene.tracks[track - 1].volume)),
        allowed: nothing_tried(&input.names.track(track)),
    })
}

/// What makes a track silent for which nothing was tried.
fn nothing_tried(name: &str) -> String {
    let muted = "at -60 dB or less all through and no track below it routed";
    format!("{}; or {name} {muted}", held(name))
}

fn held(name: &str) -> String {
    format!("`at 0 s pause {name}` and no other pause or resume of it")
}

/// A track that should be silent, and itself or one around it that would make it so.
struct Seen<'a> {
    input: &'a Input,
    scene: &'a Scene,
    track: usize,
    outer: usize,
}

impl Seen<'_> {
    /// Why a track that is paused is not held.
    fn not_held(&self) -> Option<Against> {
        let states = self.scene.orders.iter().filter(|o| o.kind >= PAUSE && o.index == self.outer);
        // `play ... at` resumes the track that it makes.
        let states: Vec<&Order> = states.filter(|o| !self.input.plays(o.line)).collect();
        // A track around it that is paused for a while was not meant to hold it.
        let held = states.iter().any(|o| o.kind == PAUSE && o.block == 0)
            || states.iter().all(|o| o.kind == PAUSE);
        if self.outer != self.track && !held {
            return None;
        }
        let mut why: Vec<String> = states.iter().filter_map(|o| self.breaks(o)).collect();
        if why.is_empty() && states.len() > 1 {
            let lines = states.iter().map(|o| self.input.line_name(o.line)).collect::<Vec<_>>();
            let lines = lines.join(" and ");
            why.push(format!("{lines} both pause {}", self.it()));
        }
        self.since(why, self.as_hold(&states))
    }

    /// What makes a hold of a track's pauses and resumes: of a single pause, in its own line.
    fn as_hold(&self, states: &[&Order]) -> String {
        let name = self.input.names.track(self.outer);
        let hold = format!("`at 0 s pause {name}`");
        let [only @ Order { kind: PAUSE, .. }] = states else {
            return format!("{hold} and no other pause or resume of {name}");
        };
        let fades = only.block == 0 && only.millis > 0 && !only.waits();
        let over = if fades { ", without `over`" } else { "" };
        format!("in {}, {hold}{over}", self.input.line_name(only.line))
    }

    /// What an order does other than pausing at once before the first block.
    fn breaks(&self, order: &Order) -> Option<String> {
        let (line, it) = (self.input.line_name(order.line), self.it());
        let at = seconds(self.scene.starts(order));
        match order.kind {
            RESUME if self.outer != self.track => {
                Some(format!("{it} is resumed by {line} at {at}"))
            }
            RESUME => Some(format!("{line} resumes {it} at {at}")),
            _ if order.block > 0 => Some(format!("{line} pauses {it} at {at} only")),
            _ if order.waits() => Some(format!("{line} pauses {it} after a wait")),
            _ if order.millis > 0 => {
                Some(format!("{line} takes {} to pause {it}", millis(order.millis)))
            }
            _ => None,
        }
    }

    /// Why a track at -60 dB is not muted.
    fn not_muted(&self) -> Option<Against> {
        let (scene, names) = (self.scene, &self.input.names);
        if scene.tracks[self.outer - 1].volume > SILENT {
            return None;
        }
        let loud = scene.orders.iter().filter(|o| o.kind == 1 && o.index == self.outer);
        let loud = loud.filter(|order| order.volume > SILENT).map(|order| {
            let line = self.input.line_name(order.line);
            format!("{line} sets {} to {}", self.it(), decibels(order.volume))
        });
        let routed = scene.routes_below(self.outer).map(|(_, route)| {
            let below = names.track(route.track);
            format!("{below} below {} goes to {}", self.it(), names.send(route.send))
        });
        let name = names.track(self.outer);
        let (loud, routed): (Vec<String>, Vec<String>) = (loud.collect(), routed.collect());
        let level = (!loud.is_empty()).then(|| format!("no level of {name} above -60 dB"));
        let route = (!routed.is_empty()).then(|| format!("no route of a track below {name}"));
        let muted = level.into_iter().chain(route).collect::<Vec<_>>().join(" and ");
        self.since([loud, routed].concat(), format!("{muted}; or {}", held(&name)))
    }

    fn it(&self) -> String {
        match self.outer {
            outer if outer == self.track => "it".into(),
            outer => format!("{}, around it,", self.input.names.track(outer)),
        }
    }

    fn since(&self, why: Vec<String>, allowed: String) -> Option<Against> {
        let why = why.join(" and ");
        let said = format!(", since {}", why.strip_suffix(',').unwrap_or(&why));
        (!why.is_empty()).then_some(Against { why: said, allowed })
    }
}

/// The refusal of a sheet whose `silent` lines are not proved; empty where they are.
pub fn refusal(input: &Input, scene: &Scene, answer: &Answer, paint: Paint) -> Done<String> {
    let mut found = vec![];
    let sheet = input.sheet.as_ref().map_or("", |sheet| sheet.0.as_str());
    for (line, name) in &input.silent {
        let track = track_named(name, scene, &input.names)?;
        if !answer.proved(track) {
            let Against { why, allowed } = against(track, input, scene);
            let what = format!("{name} is not proved silent{why}");
            let span = sheet.lines().nth(line - 1).and_then(|text| name_in(text, name));
            found.push(Finding { span, ..Finding::of_line(*line, what, allowed) });
        }
    }
    if found.is_empty() {
        return Ok(String::new());
    }
    let first = format!("{}: a `silent` line is not proved\n", paint.bad("refused"));
    Ok(first + &report::findings(&input.name, sheet, &found, paint))
}

/// Where the name stands in a `silent` line.
fn name_in(text: &str, name: &str) -> Option<Range<usize>> {
    let behind = text.find("silent")? + "silent".len();
    let start = behind + text[behind..].find(name)?;
    Some(start..start + name.len())
}

/// Refuses a sheet whose `silent` lines are not proved.
pub fn demand(input: &Input, scene: &Scene, paint: Paint) -> Done {
    if input.silent.is_empty() {
        return Ok(());
    }
    let text = refusal(input, scene, &ask(input), paint)?;
    if text.is_empty() { Ok(()) } else { Err(Stop::Refused(text)) }
}
