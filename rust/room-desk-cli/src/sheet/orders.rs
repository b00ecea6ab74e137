//! `at` lines: when, what, and how long it takes.

use super::build::Builder;
use super::names::SILENCING;
use super::values::{decimal, frames, level, millis, whole};
use super::words::Words;
use crate::scene::model::{PAUSE, RESUME};
use crate::scene::tables::Kind;
use crate::scene::{Finding, Order};
use crate::units::seconds;

const WHAT: &str = "pause TRACK, resume TRACK, set NAME to LEVEL or set TRACK -> SEND to LEVEL";
const CURVE: &str = "over TIME, and linear, in POWER, out POWER or in-out POWER";
/// A time that lands this near needs no note, in seconds.
const NEAR: f64 = 0.001;

pub fn order(builder: &mut Builder, mut words: Words) -> Result<(), Finding> {
    let mut order = Order { line: words.line, ..Order::default() };
    if words.peek() == Some("tick") {
        tick(builder, &mut words, &mut order)?;
        order.block = before_tick(builder, &order);
    } else {
        order.block = block(builder, &mut words)?;
        if words.take("wait") {
            order.when = millis(&mut words)?;
        } else if words.peek() == Some("tick") {
            tick(builder, &mut words, &mut order)?;
        }
    }
    what(builder, &mut words, &mut order)?;
    how(&mut words, &mut order)?;
    words.done(CURVE)?;
    builder.scene.orders.push(order);
    builder.made(Kind::Orders, words.line);
    Ok(())
}

/// The nearest block, with a note where it is not near.
fn block(builder: &mut Builder, words: &mut Words) -> Result<i64, Finding> {
    if words.take("block") {
        return whole(words, "a block, counted from 0");
    }
    let grid = builder.grid();
    let clock = builder.names.clocks.first().map_or("CLOCK", String::as_str);
    let or_tick = |finding: Finding| {
        let allowed = format!("{}, or `tick 12 of {clock}`", finding.allowed);
        Finding { allowed, ..finding }
    };
    let wanted = frames(words, grid).map_err(or_tick)?;
    let block = (wanted + grid.block / 2) / grid.block;
    let of = |frames: i64| frames as f64 / grid.rate as f64;
    let landed = of(block * grid.block);
    if (landed - of(wanted)).abs() >= NEAR {
        let line = words.line;
        let (from, to) = (seconds(of(wanted)), seconds(landed));
        let note = format!("{from} lands at {to}, the start of block {block}");
        builder.notes.push((line, note));
    }
    Ok(block)
}

/// `tick 7.5 of beat`
fn tick(builder: &Builder, words: &mut Words, order: &mut Order) -> Result<(), Finding> {
    words.expect("tick", "`tick NUMBER of CLOCK`")?;
    let tick = decimal(words, "a tick, as `7` or `7.5`")?;
    words.expect("of", "`of CLOCK`")?;
    let name = words.next("the name of a clock")?;
    let clocks = &builder.names.clocks;
    let found = clocks.iter().position(|clock| *clock == name.text);
    let known = || super::names::known(&name.text, clocks.iter(), "clock");
    order.clock = found.ok_or_else(|| words.wrong(&name, "is no clock here", known()))? + 1;
    (order.when, order.part) = (tick.div_euclid(1000), tick.rem_euclid(1000));
    Ok(())
}

/// A block before the tick's own: an order that waits longer would hold up what moves meanwhile.
fn before_tick(builder: &Builder, order: &Order) -> i64 {
    let clock = &builder.scene.clocks[order.clock - 1];
    let tick = order.when as f64 + order.part as f64 / 1000.0;
    let frames = tick / clock.ticks_per_second() * builder.scene.rate();
    let block = (frames / builder.grid().block as f64).floor() as i64 - 1;
    block.clamp(0, (builder.scene.head.blocks - 1).max(0))
}

fn what(builder: &Builder, words: &mut Words, order: &mut Order) -> Result<(), Finding> {
    let word = words.next(WHAT)?;
    match word.text.as_str() {
        "pause" | "resume" => {
            order.kind = if word.text == "pause" { PAUSE } else { RESUME };
            can_pause(builder, words)?;
            order.index = builder.track_named(words)?;
            Ok(())
        }
        "set" => {
            target(builder, words, order)?;
            words.take("to");
            order.volume = level(words)?;
            Ok(())
        }
        verb if SILENCING.contains(&verb) => {
            let name = words.peek().unwrap_or("TRACK");
            let allowed = format!("`pause {name}`, `resume {name}` or `set {name} to -60 dB`");
            Err(words.wrong(&word, "is no order", allowed))
        }
        _ => Err(words.wrong(&word, "is no order", WHAT)),
    }
}

/// Only tracks are paused; the others are turned down.
fn can_pause(builder: &Builder, words: &mut Words) -> Result<(), Finding> {
    let name = words.peek().unwrap_or_default().to_string();
    let what = match name.as_str() {
        "main" => "the main track",
        name if builder.names.sends.iter().any(|send| send == name) => "a send track",
        _ => return Ok(()),
    };
    let word = words.next("the name of a track")?;
    let why = format!("is {what}, which cannot be paused");
    Err(words.wrong(&word, &why, format!("a track, or `set {name} to -60 dB`")))
}

fn target(builder: &Builder, words: &mut Words, order: &mut Order) -> Result<(), Finding> {
    if words.take("main") {
        return Ok(());
    }
    let name = words.peek().unwrap_or_default().to_string();
    if builder.names.sends.contains(&name) {
        order.kind = 2;
        order.index = builder.send_named(words)?;
        return Ok(());
    }
    let mut all = builder.names.tracks.iter().chain(&builder.names.sends);
    if !all.any(|known| *known == name) {
        let word = words.next("the name of a track or a send track")?;
        if let Some(finding) = builder.as_recording(words, &word) {
            return Err(finding);
        }
        let all = builder.names.tracks.iter().chain(&builder.names.sends);
        let known = super::names::known(&name, all, "track or send track");
        return Err(words.wrong(&word, "is no track and no send track here", known));
    }
    order.kind = 1;
    order.index = builder.track_named(words)?;
    if words.take("->") {
        let track = order.index;
        let word = words.peek().unwrap_or_default().to_string();
        let send = builder.send_named(words)?;
        let routed = |r: &crate::scene::Route| (r.track, r.send) == (track, send);
        let Some(at) = builder.scene.routes.iter().position(routed) else {
            let what = format!("{name} is not routed to {word}");
            let allowed = "a send track that stands in a `to` line of the track";
            return Err(Finding::of_line(words.line, what, allowed));
        };
        (order.kind, order.index) = (3, at + 1);
    }
    Ok(())
}

fn how(words: &mut Words, order: &mut Order) -> Result<(), Finding> {
    // What waits moves for at least a millisecond; a resume's wait is its own.
    order.millis = i64::from(order.waits() && order.kind != RESUME);
    if words.take("over") {
        order.millis = millis(words)?;
    }
    if words.take("linear") {
        return Ok(());
    }
    for (easing, name) in [(1, "in"), (2, "out"), (3, "in-out")] {
        if words.take(name) {
            order.easing = easing;
            order.power = whole(words, "a power from 1 to 8")?;
        }
    }
    Ok(())
}
