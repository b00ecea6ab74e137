//! Labels that would collide go to rows below each other.

/// Rows of one lane, at most.
pub const MOST_ROWS: usize = 8;
const SPACE: f64 = 4.0;

/// Which row a stretch stands in, and whether it has it for itself.
#[derive(Debug, Clone, Copy, PartialEq)]
pub struct Place {
    pub row: usize,
    pub free: bool,
}

/// The first row that is free from a stretch's start on; where none is, the one that is free first.
/// Stretches come in the order of their starts.
pub fn rows(stretches: &[(f64, f64)]) -> Vec<Place> {
    let mut ends: Vec<f64> = vec![];
    let mut places = vec![];
    for &(start, end) in stretches {
        let free = ends.iter().position(|taken| *taken + SPACE <= start);
        let row = free.unwrap_or_else(|| {
            if ends.len() < MOST_ROWS {
                ends.push(f64::NEG_INFINITY);
                return ends.len() - 1;
            }
            let by_end = |a: &usize, b: &usize| ends[*a].total_cmp(&ends[*b]);
            (0..ends.len()).min_by(by_end).unwrap_or(0)
        });
        let free = ends[row] + SPACE <= start;
        if free {
            ends[row] = end;
        }
        places.push(Place { row, free });
    }
    places
}

#[cfg(test)]
mod tests {
    use super::*;

    #[test]
    fn free_places_do_not_overlap() {
        let stretches: Vec<(f64, f64)> =
            (0..60).map(|n| (f64::from(n * n % 97) * 9.0, 0.0)).collect();
        let mut stretches: Vec<_> = stretches.iter().map(|s| (s.0, s.0 + 80.0)).collect();
        stretches.sort_by(|a, b| a.0.total_cmp(&b.0));
        let places = rows(&stretches);
        for (at, place) in places.iter().enumerate() {
            for other in 0..at {
                let both = place.free && places[other].free && place.row == places[other].row;
                assert!(!both || stretches[other].1 < stretches[at].0);
            }
        }
        assert!(places.iter().any(|place| !place.free));
    }
}
