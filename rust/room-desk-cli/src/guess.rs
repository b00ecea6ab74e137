//! A good guess where a word is misspelled.

/// The known word that is nearest, where it is near.
pub fn near<'a>(wanted: &str, known: impl Iterator<Item = &'a str>) -> Option<&'a str> {
    let wanted = wanted.to_lowercase();
    let counted = known.map(|word| (distance(&wanted, &word.to_lowercase()), word));
    let (far, word) = counted.min_by_key(|(far, _)| *far)?;
    (far <= 2 && far < wanted.chars().count()).then_some(word)
}

/// ` (did you mean ...?)`, or nothing.
pub fn meant<'a>(wanted: &str, known: impl Iterator<Item = &'a str>) -> String {
    near(wanted, known).map_or(String::new(), |word| format!(" (did you mean `{word}`?)"))
}

/// How many letters to add, remove or change.
fn distance(a: &str, b: &str) -> usize {
    let b: Vec<char> = b.chars().collect();
    let mut row: Vec<usize> = (0..=b.len()).collect();
    for (i, x) in a.chars().enumerate() {
        let mut corner = row[0];
        row[0] = i + 1;
        for (j, y) in b.iter().enumerate() {
            let changed = corner + usize::from(x != *y);
            corner = row[j + 1];
            row[j + 1] = changed.min(row[j] + 1).min(corner + 1);
        }
    }
    row[b.len()]
}

#[cfg(test)]
mod tests {
    use super::*;

    #[test]
    fn distances() {
        assert_eq!(distance("bells", "bells"), 0);
        assert_eq!(distance("bell", "bells"), 1);
        assert_eq!(distance("blels", "bells"), 2);
        assert_eq!(distance("", "abc"), 3);
    }

    #[test]
    fn guesses() {
        let words = ["track", "to", "play"];
        assert_eq!(near("Trakc", words.into_iter()), Some("track"));
        assert_eq!(near("PLAY", words.into_iter()), Some("play"));
        assert_eq!(near("at", words.into_iter()), None);
    }
}
