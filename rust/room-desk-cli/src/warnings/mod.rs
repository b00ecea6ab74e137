//! What an accepted scene may not have meant. Nothing is refused for it.

mod orders;
mod sounds;

use crate::input::{Input, Names};
use crate::scene::model::{KINDS, PAUSE, SILENT};
use crate::scene::tables::Kind;
use crate::scene::{Order, Scene};
use crate::units::decibels;

/// Quieter differences than this, in thousandths of a decibel, were meant to be whole decibels.
const UNHEARD: i64 = 100;

pub fn of(input: &Input, scene: &Scene) -> Vec<String> {
    let mut list = vec![];
    list.extend(orders::of(input, scene));
    list.extend(of_volumes(scene, &input.names));
    list.extend(sounds::of(input, scene));
    list.extend(of_leaks(input, scene));
    list.extend(of_placings(scene, &input.names));
    if scene.head.channels > 2 {
        list.push(
            "a show is mixed for left and right: speakers above the second stay at zero".into(),
        );
    }
    list
}

/// What an order is for: `pause whisper`.
pub fn target(order: &Order, scene: &Scene, names: &Names) -> String {
    let kind = KINDS.get(order.kind as usize).copied().unwrap_or("");
    match order.kind {
        0 => kind.into(),
        2 => format!("{kind} of {}", names.send(order.index)),
        3 => match order.index.checked_sub(1).and_then(|at| scene.routes.get(at)) {
            Some(route) => {
                format!("{kind} of {} -> {}", names.track(route.track), names.send(route.send))
            }
            None => kind.into(),
        },
        PAUSE.. => format!("{kind} {}", names.track(order.index)),
        _ => format!("{kind} of {}", names.track(order.index)),
    }
}

fn of_volumes(scene: &Scene, names: &Names) -> Vec<String> {
    let tiny = |volume: i64| volume != 0 && volume.abs() < UNHEARD;
    let tracks = scene.tracks.iter().enumerate().filter(|(_, track)| tiny(track.volume));
    let said = tracks.map(|(at, track)| {
        format!(
            "{}: {} is not heard as a change; -6 dB is written -6000 in a scene file",
            names.track(at + 1),
            decibels(track.volume)
        )
    });
    said.collect()
}

/// A track at -60 dB whose parts below it are heard all the same, by the line of their route.
fn of_leaks(input: &Input, scene: &Scene) -> Vec<String> {
    let mut list = vec![];
    let names = &input.names;
    for track in 1..=scene.tracks.len() {
        let first = if scene.turned_down(track) { "-60 dB or less" } else { "-60 dB at first" };
        let quiet = scene.tracks[track - 1].volume <= SILENT;
        for (at, route) in scene.routes_below(track).filter(|_| quiet) {
            list.push(format!(
                "{}: {} is at {first}, but {} below it is heard through {}",
                input.place(scene.line_of(Kind::Routes, at)),
                names.track(track),
                names.track(route.track),
                names.send(route.send)
            ));
        }
    }
    list
}

fn of_placings(scene: &Scene, names: &Names) -> Vec<String> {
    if scene.listener.is_some() {
        return vec![];
    }
    let said = scene.placings.iter().map(|placing| {
        format!(
            "{} is placed, but there is no listener: it is not heard",
            names.track(placing.track)
        )
    });
    said.collect()
}
