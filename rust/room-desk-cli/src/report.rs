//! Refusals and findings as lines for people.

use room_desk::Refusal;

use crate::input::{Input, Trouble};
use crate::paint::Paint;
use crate::recordings::{Part, quoted, resampled, stem};
use crate::scene::{Finding, commas, count, explain};
use crate::sheet;

/// How many places are shown of one refusal.
const SHOWN: usize = 8;
/// Longer lines are not repeated.
const WIDEST: usize = 160;

/// The number, its sentence, and every place where the explanation agrees with the number.
pub fn trouble(input: &Input, trouble: &Trouble, paint: Paint) -> String {
    match trouble {
        Trouble::Number(number) => refusal(input, *number, paint),
        Trouble::Rest(file, rest) => {
            let first = headline(8, paint);
            format!(
                "{first}{file}: {rest} bytes behind the last whole sample\n    allowed: a multiple of 4 bytes\n"
            )
        }
        Trouble::Rate(part, rate, show) => other_rate(input, part, *rate, *show, paint),
    }
}

fn other_rate(input: &Input, part: &Part, rate: u32, show: u32, paint: Paint) -> String {
    let percent = (f64::from(show) / f64::from(rate).max(1.0) - 1.0).abs() * 100.0;
    let way = if show > rate { "high" } else { "low" };
    let (file, mend) = (&part.file, resampled(&part.path, show.into()));
    let mut place = String::new();
    if input.recordings.parts().all(|part| part.rate == Some(rate)) {
        place += "    all recordings have it: a show of that rate takes them\n";
    }
    format!(
        "{}: {file} has {rate} frames a second, the show {show}: it would sound {percent:.1} % too {way}\n    \
         at the show's rate:  {mend}\n    \
         as it is:            --any-rate\n{place}",
        paint.bad("refused"),
    )
}

pub fn headline(number: u32, paint: Paint) -> String {
    let sentence = Refusal::from_number(number);
    format!("{} {number}: {sentence}\n", paint.bad("refused"))
}

fn refusal(input: &Input, number: u32, paint: Paint) -> String {
    let first = headline(number, paint);
    // Only an explanation of the same number explains.
    let explained = explain(&input.file, input.recordings.samples());
    let Some((_, mut found)) = explained.filter(|explained| explained.0 == number) else {
        return first;
    };
    let loud = if number == 9 { loud_parts(input) } else { vec![] };
    match (&input.sheet, input.scene()) {
        (Some((sheet, _)), Ok(scene)) => {
            let reword = |finding| sheet::reworded(input, &scene, number, finding);
            found = if loud.is_empty() { found.iter().map(reword).collect() } else { loud };
            found.dedup();
            // Places first: who writes sheets knows no numbers.
            findings(&input.name, sheet, &found, paint) + &first
        }
        _ => {
            let scene = String::from_utf8_lossy(&input.file);
            found = if loud.is_empty() { found } else { loud };
            first + &findings(&input.name, &scene, &found, paint) + like_a_sheet(&scene)
        }
    }
}

/// A sheet that was saved under another ending is read as a scene file, and refused as one.
fn like_a_sheet(scene: &str) -> &'static str {
    let long = |line: &str| line.trim_start().starts_with("length ");
    match scene.lines().any(long) {
        true => "    it reads like a show sheet: the name of one ends with .show\n",
        false => "",
    }
}

/// The recordings that have samples out of range, by the sheet's lines that name them.
fn loud_parts(input: &Input) -> Vec<Finding> {
    let both = [&input.recordings.house, &input.recordings.visitor];
    let parts = both.into_iter().flat_map(|joined| joined.parts.iter().map(move |p| (joined, p)));
    let said = parts.filter_map(|(joined, part)| {
        let samples = joined.samples.get(2 * part.first..2 * (part.first + part.frames))?;
        let wrong = |sample: &f32| !(-1.0..=1.0).contains(sample);
        let first = samples.iter().position(wrong)?;
        let many = count(samples.iter().filter(|sample| wrong(sample)).count(), "sample");
        let what = format!(
            "{}: {many} out of range, the first in frame {}: {}",
            part.file,
            commas(first as i128 / 2),
            samples[first]
        );
        let (stem, from) = (stem(&part.path), quoted(&part.path));
        let mend = match part.rate {
            Some(_) => {
                format!("; sox --norm=-1 {from} -b 16 {}", quoted(&format!("{stem}-16.wav")))
            }
            None => String::new(),
        };
        let allowed = format!("numbers in -1.0..1.0, frames counted from 0{mend}");
        Some(Finding { line: part.line, ..Finding::whole(what, allowed) })
    });
    said.collect()
}

/// Each finding with its place, the line, a mark below it, and what is allowed.
pub fn findings(name: &str, text: &str, found: &[Finding], paint: Paint) -> String {
    let lines: Vec<&str> = text.split('\n').collect();
    let mut out = String::new();
    for finding in found.iter().take(SHOWN) {
        let (line, span) = (finding.line, finding.span.clone());
        let place = match (line, &span) {
            (Some(line), Some(span)) => format!("{name}:{line}:{}", span.start + 1),
            (Some(line), None) => format!("{name}:{line}"),
            _ => name.to_string(),
        };
        out += &format!("{}: {}\n", paint.bold(&place), finding.what);
        let shown = line.and_then(|line| lines.get(line.wrapping_sub(1)));
        if let Some(shown) = shown.filter(|shown| shown.len() <= WIDEST) {
            out += &excerpt(shown, span, paint);
        }
        if !finding.allowed.is_empty() {
            out += &format!("    allowed: {}\n", finding.allowed);
        }
    }
    if found.len() > SHOWN {
        out += &format!("and {} more places\n", found.len() - SHOWN);
    }
    out
}

fn excerpt(line: &str, span: Option<std::ops::Range<usize>>, paint: Paint) -> String {
    let visible = |c: char| if c.is_control() { '·' } else { c };
    let mut out = format!("    {}\n", line.chars().map(visible).collect::<String>());
    if let Some(span) = span {
        let width = |bytes: Option<&str>| bytes.map_or(0, |part| part.chars().count());
        let before = width(line.get(..span.start));
        let marked = width(line.get(span)).max(1);
        out += &format!("    {}{}\n", " ".repeat(before), paint.bad(&"^".repeat(marked)));
    }
    out
}

/// `note: night.show:12: ...`, a line each.
pub fn notes(input: &Input) -> String {
    let said = |(line, text): &(usize, String)| format!("note: {}:{line}: {text}\n", input.name);
    input.notes.iter().map(said).collect()
}

/// `warning: ...`, a line each.
pub fn warnings(list: &[String], paint: Paint) -> String {
    list.iter().map(|text| format!("{}: {text}\n", paint.warn("warning"))).collect()
}
