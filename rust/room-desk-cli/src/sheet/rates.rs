//! The rate of a show and of its recordings, compared before anything is reckoned from a length.

use super::build::Builder;
use super::words::{Word, Words};
use crate::recordings::{rate_of, resampled, stem};
use crate::scene::Finding;

impl Builder<'_> {
    /// The recording that a line names has the show's rate.
    pub fn same_rate(
        &self,
        words: &Words,
        file: &Word,
        path: &str,
        rate: Option<u32>,
    ) -> Result<(), Finding> {
        let show = self.scene.head.rate;
        let rate = rate.map_or(show, i64::from);
        if rate == show || self.recordings.any_rate {
            return Ok(());
        }
        if let Some(finding) = self.wrong_rate_line() {
            return Err(finding);
        }
        let since = if self.rate.is_none() { ", since there is no `rate` line" } else { "" };
        let why = format!("has {rate} frames a second, the show {show}{since}");
        let here = words.naming(&format!("{}-{show}.wav", stem(&file.text)));
        let mend = resampled(path, show);
        Err(words.wrong(file, &why, format!("{here}, made by `{mend}`; or `--any-rate`")))
    }

    /// All or most of the recordings have one rate, and it is not the show's.
    fn wrong_rate_line(&self) -> Option<Finding> {
        let paths = self.named.iter().map(|name| self.folder.join(name).display().to_string());
        let rates: Vec<i64> = paths.filter_map(|path| rate_of(&path)).map(i64::from).collect();
        let with = |rate: &i64| rates.iter().filter(|other| *other == rate).count();
        let usual = rates.iter().copied().max_by_key(with)?;
        let show = self.scene.head.rate;
        if usual == show || 2 * with(&usual) <= rates.len() {
            return None;
        }
        let many = if with(&usual) == rates.len() { "all" } else { "most" };
        let what = format!("the rate is {show}; {many} recordings have {usual}");
        let line = format!("the line `rate {usual}`");
        Some(match &self.rate {
            Some((at, word)) => Finding::at(*at, word.span.clone(), what, line),
            None => {
                let what = format!("there is no `rate` line, so {what}");
                Finding::whole(what, format!("{line}, at the sheet's head"))
            }
        })
    }
}
