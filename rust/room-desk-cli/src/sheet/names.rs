//! Names of tracks, send tracks and clocks.

use crate::guess::meant;

/// A name that is used: no space, no `#`, no quote, and none of the sheet's own words.
pub fn allowed(name: &str) -> bool {
    let plain = |c: char| !c.is_whitespace() && !c.is_control() && !"#\"<>".contains(c);
    !name.is_empty() && name.chars().all(plain) && !["main", "->", "to", "in"].contains(&name)
}

/// Words that people try for what `pause` and -60 dB do.
pub const SILENCING: [&str; 7] = ["mute", "muted", "unmute", "hold", "held", "off", "silence"];

/// How a track is silenced.
pub fn silenced(name: &str) -> String {
    format!("`at 0 s pause {name}`: never heard, at any level; or `track {name} -60 dB`")
}

/// `a track of this sheet: a, b (did you mean a?)`; names that `play ... at` has made stand last.
pub fn known<'a>(wanted: &str, names: impl Iterator<Item = &'a String>, kind: &str) -> String {
    let mut names: Vec<&str> = names.map(String::as_str).collect();
    names.sort_by_key(|name| name.contains('@'));
    if names.is_empty() {
        return format!("no {kind} stands in this sheet");
    }
    let guess = meant(wanted, names.iter().copied());
    let listed = names.iter().take(12).copied().collect::<Vec<_>>().join(", ");
    let more = if names.len() > 12 { ", ..." } else { "" };
    format!("a {kind} of this sheet: {listed}{more}{guess}")
}
