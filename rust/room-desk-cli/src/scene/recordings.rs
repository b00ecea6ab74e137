//! Questions 8 and 9: sounds within their recordings, samples within their range.

use room_desk::Recordings;

use super::finding::{Finding, commas};
use super::ranges::Line;
use super::tables::{Kind, Table};
use super::text::Rows;

/// The two buffers, as a sound's `from` names them.
fn buffers<'a>(samples: Recordings<'a>) -> [(&'static str, &'a [f32]); 2] {
    [("the house's recordings", samples.house), ("the visitor's recordings", samples.visitor)]
}

pub fn lengths(rows: &Rows, samples: Recordings) -> Vec<Finding> {
    let mut findings = vec![];
    for (from, (title, buffer)) in buffers(samples).into_iter().enumerate() {
        if buffer.len() % 2 == 1 {
            let what = format!("{title} have {} samples", commas(buffer.len() as i128));
            findings.push(Finding::whole(what, "an even number: left and right of each frame"));
        }
        let table = Table::of(Kind::Sounds);
        for (at, row) in rows.of(Kind::Sounds).iter().enumerate() {
            let line = Line { table, at, row };
            if line.number("from") == from as i64 {
                findings.extend(past_the_end(&line, title, buffer.len() as i64 / 2));
            }
        }
    }
    findings
}

fn past_the_end(line: &Line, title: &str, frames: i64) -> Option<Finding> {
    let end = line.number("first") + line.number("count");
    let note = format!(": first + count is {}", commas(end));
    let allowed = match frames {
        0 => format!("at most 0: {title} have no frames (are they named?)"),
        _ => format!("at most {}, the frames of {title}", commas(frames)),
    };
    (end > frames).then(|| line.named("count", &note, allowed))
}

pub fn values(samples: Recordings) -> Vec<Finding> {
    let mut findings = vec![];
    for (title, buffer) in buffers(samples) {
        let wrong = |sample: &f32| !(-1.0..=1.0).contains(sample);
        let Some(first) = buffer.iter().position(wrong) else { continue };
        let count = buffer.iter().filter(|sample| wrong(sample)).count();
        let side = if first % 2 == 0 { "left" } else { "right" };
        let what = format!(
            "{title}: {} out of range, the first on the {side} of frame {}: {}",
            super::finding::count(count, "sample"),
            commas(first as i128 / 2),
            buffer[first],
        );
        findings.push(Finding::whole(what, "numbers in -1.0..1.0, frames counted from 0"));
    }
    findings
}
