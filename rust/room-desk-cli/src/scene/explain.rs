//! Why a scene is refused: the first question that says no, and every place where it does. Nothing
//! here is proved, so an explanation is shown only where its number is the proved routine's.

use room_desk::Recordings;

use super::finding::{Finding, commas};
use super::tables::tables;
use super::text::{self, Rows};
use super::{ranges, recordings, references};

const LONGEST: usize = 16_384;

/// The number and the findings; none where no question from 1 to 9 says no.
pub fn explain(file: &[u8], samples: Recordings) -> Option<(u32, Vec<Finding>)> {
    if let Some(finding) = size(file) {
        return Some((1, vec![finding]));
    }
    let rows = match text::read(file) {
        Ok(rows) => rows,
        Err(findings) => return Some((2, findings)),
    };
    let questions: [(u32, &dyn Fn() -> Vec<Finding>); 7] = [
        (3, &|| line_counts(&rows)),
        (4, &|| ranges::findings(&rows)),
        (5, &|| references::missing_lines(&rows)),
        (6, &|| references::depths(&rows)),
        (7, &|| references::named_twice(&rows)),
        (8, &|| recordings::lengths(&rows, samples)),
        (9, &|| recordings::values(samples)),
    ];
    let mut asked = questions.iter().map(|(number, ask)| (*number, ask()));
    asked.find(|(_, findings)| !findings.is_empty())
}

fn size(file: &[u8]) -> Option<Finding> {
    let allowed = "1 to 16,384 bytes, the last a line feed";
    match file {
        [] => Some(Finding::whole("the file is empty", allowed)),
        _ if file.len() > LONGEST => {
            let bytes = commas(file.len() as i128);
            Some(Finding::whole(format!("the file has {bytes} bytes"), allowed))
        }
        [.., b'\n'] => None,
        _ => Some(Finding {
            line: Some(file.split(|&byte| byte == b'\n').count()),
            what: "the last line does not end with a line feed".into(),
            allowed: allowed.into(),
            ..Finding::default()
        }),
    }
}

fn line_counts(rows: &Rows) -> Vec<Finding> {
    let mut findings = vec![];
    for table in tables() {
        let lines = rows.of(table.kind);
        if table.lines.contains(&lines.len()) {
            continue;
        }
        let first_too_many = lines.get(*table.lines.end()).map(|row| row.line);
        let (least, most) = (table.lines.start(), table.lines.end());
        findings.push(Finding {
            line: first_too_many,
            what: format!("{}: {} lines", table.title, lines.len()),
            allowed: if least == most { format!("{least}") } else { format!("{least}..{most}") },
            field: Some((table.kind, lines.len(), 0)),
            ..Finding::default()
        });
    }
    findings
}
