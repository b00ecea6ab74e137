//! THE LIST OF TABLES of a scene file, as docs/SCENE.md has them: names line, line limits, and each
//! field's rule. A new table or field is a row here, and a struct's field in `model.rs`.

use std::ops::RangeInclusive;

/// The forms that the scene file has had, each with the tables of those before it.
#[derive(Debug, Clone, Copy, PartialEq, Eq, PartialOrd, Ord)]
pub enum Format {
    /// Sounds from the house's recordings or a visitor's: seven tables.
    Visitors,
    /// Loudness by distance, with a listener and placed tracks: nine tables.
    Distance,
}

/// The form that the linked library takes. The test `format_is_the_librarys` asks it.
pub const FORMAT: Format = Format::Distance;

/// A table, by what its lines are.
#[derive(Debug, Clone, Copy, PartialEq, Eq)]
pub enum Kind {
    Show,
    Clocks,
    Tracks,
    Sends,
    Routes,
    Sounds,
    Listener,
    Placings,
    Orders,
}

/// What a number of a field may be.
#[derive(Debug, Clone, Copy, PartialEq, Eq)]
pub enum Rule {
    /// A number of a range, and what it is in, for people.
    Number(i64, i64, &'static str),
    /// A line of a table, from 0 where 0 stands for something else, which the text names.
    Line(Kind, i64, &'static str),
    /// 0, the mixer, or an earlier line of the same table.
    Earlier,
    /// An order's index: a line of the table that its kind names.
    Index,
}

/// A column.
#[derive(Debug, Clone, Copy)]
pub struct Field {
    pub name: &'static str,
    pub rule: Rule,
}

/// A table.
#[derive(Debug)]
pub struct Table {
    pub kind: Kind,
    pub since: Format,
    /// What its lines are called, many and one.
    pub title: &'static str,
    pub one: &'static str,
    pub lines: RangeInclusive<usize>,
    pub fields: &'static [Field],
}

impl Table {
    /// The names line.
    pub fn names(&self) -> String {
        self.fields.iter().map(|field| field.name).collect::<Vec<_>>().join(" ")
    }

    /// The table of a kind, whatever the format.
    pub fn of(kind: Kind) -> &'static Self {
        &TABLES[kind as usize]
    }

    /// The place of a field, by name.
    pub fn column(&self, name: &str) -> usize {
        self.fields.iter().position(|field| field.name == name).unwrap_or(0)
    }
}

/// The tables of the library's format, in the file's order.
pub fn tables() -> impl Iterator<Item = &'static Table> {
    TABLES.iter().filter(|table| table.since <= FORMAT)
}

const fn number(name: &'static str, low: i64, high: i64) -> Field {
    Field { name, rule: Rule::Number(low, high, "") }
}

const fn line(name: &'static str, kind: Kind) -> Field {
    Field { name, rule: Rule::Line(kind, 1, "") }
}

const fn coordinate(name: &'static str) -> Field {
    Field { name, rule: Rule::Number(-1_000_000, 1_000_000, "thousandths of a metre") }
}

const fn millis(name: &'static str) -> Field {
    Field { name, rule: Rule::Number(0, 3_600_000, "milliseconds, an hour at most") }
}

const VOLUME: Field = Field {
    name: "volume",
    rule: Rule::Number(-96_000, 18_000, "thousandths of a decibel: -96 dB to 18 dB"),
};
/// The greatest number of the file.
pub const MOST: i64 = i32::MAX as i64;

static TABLES: [Table; 9] = [
    Table {
        kind: Kind::Show,
        since: Format::Visitors,
        title: "show",
        one: "show",
        lines: 1..=1,
        fields: &[
            number("rate", 8_000, 192_000),
            number("channels", 1, 8),
            number("buffer", 1, 256),
            number("block", 1, 512),
            number("blocks", 1, 1_024),
            VOLUME,
        ],
    },
    Table {
        kind: Kind::Clocks,
        since: Format::Visitors,
        title: "clocks",
        one: "clock",
        lines: 0..=8,
        fields: &[number("unit", 0, 2), number("speed", 1, 60_000_000), number("ticking", 0, 1)],
    },
    Table {
        kind: Kind::Tracks,
        since: Format::Visitors,
        title: "tracks",
        one: "track",
        lines: 0..=32,
        fields: &[Field { name: "parent", rule: Rule::Earlier }, VOLUME],
    },
    Table {
        kind: Kind::Sends,
        since: Format::Visitors,
        title: "send tracks",
        one: "send track",
        lines: 0..=8,
        fields: &[VOLUME],
    },
    Table {
        kind: Kind::Routes,
        since: Format::Visitors,
        title: "routes",
        one: "route",
        lines: 0..=64,
        fields: &[line("track", Kind::Tracks), line("send", Kind::Sends), VOLUME],
    },
    Table {
        kind: Kind::Sounds,
        since: Format::Visitors,
        title: "sounds",
        one: "sound",
        lines: 0..=64,
        fields: &[
            Field { name: "track", rule: Rule::Line(Kind::Tracks, 0, "the main track") },
            number("first", 0, MOST),
            number("count", 0, MOST),
            Field { name: "from", rule: Rule::Number(0, 1, "0 the house's, 1 the visitor's") },
        ],
    },
    Table {
        kind: Kind::Listener,
        since: Format::Distance,
        title: "listener",
        one: "listener",
        lines: 0..=1,
        fields: &[coordinate("x"), coordinate("y"), coordinate("z")],
    },
    Table {
        kind: Kind::Placings,
        since: Format::Distance,
        title: "spatial tracks",
        one: "spatial track",
        lines: 0..=32,
        fields: &[
            line("track", Kind::Tracks),
            coordinate("x"),
            coordinate("y"),
            coordinate("z"),
            number("near", 0, 1_000_000),
            number("far", 0, 1_000_000),
        ],
    },
    Table {
        kind: Kind::Orders,
        since: Format::Visitors,
        title: "orders",
        one: "order",
        lines: 0..=128,
        fields: &[
            number("block", 0, 1_023),
            Field {
                name: "kind",
                rule: Rule::Number(
                    0,
                    5,
                    "0 main volume, 1 track, 2 send track, 3 route, 4 pause, 5 resume",
                ),
            },
            Field { name: "index", rule: Rule::Index },
            VOLUME,
            Field { name: "clock", rule: Rule::Line(Kind::Clocks, 0, "no clock") },
            millis("when"),
            number("part", 0, 999),
            millis("millis"),
            Field {
                name: "easing",
                rule: Rule::Number(0, 3, "0 linear, 1 in, 2 out, 3 in and out"),
            },
            number("power", 0, 8),
        ],
    },
];

#[cfg(test)]
mod tests {
    use super::*;

    #[test]
    fn tables_stand_at_their_kinds() {
        for (place, table) in TABLES.iter().enumerate() {
            assert_eq!(table.kind as usize, place);
        }
    }

    /// A scene of names lines and one show line, in either form: the library spells one of them.
    #[test]
    fn format_is_the_librarys() {
        let scene = |format| {
            let named = TABLES.iter().filter(|table| table.since <= format).map(|table| {
                let lines = if table.kind == Kind::Show { "8000 1 1 1 1 0\n" } else { "" };
                format!("{}\n{lines}", table.names())
            });
            named.collect::<Vec<_>>().join("\n")
        };
        let spelled = |format| {
            let number = room_desk::check(scene(format).as_bytes(), Default::default());
            number != Err(room_desk::Refusal::Spelling)
        };
        let taken: Vec<Format> =
            [Format::Visitors, Format::Distance].into_iter().filter(|&f| spelled(f)).collect();
        assert_eq!(taken, [FORMAT], "set FORMAT in tables.rs to the form that the library takes");
    }
}
