//! The command line: options before, between or behind the files, `--name=value`, and `--`.

use crate::guess::meant;
use crate::stop::{Done, Stop};

/// An option: its names, whether a value follows, and the commands that take it.
pub struct Spec {
    pub long: &'static str,
    pub short: &'static str,
    pub value: bool,
    pub commands: &'static [&'static str],
}

const fn spec(
    long: &'static str,
    short: &'static str,
    value: bool,
    commands: &'static [&'static str],
) -> Spec {
    Spec { long, short, value, commands }
}

pub const COMMANDS: [&str; 7] = ["render", "check", "show", "picture", "new", "compile", "convert"];

pub const SPECS: [Spec; 11] = [
    spec("--output", "-o", true, &["render", "show", "picture", "new", "compile"]),
    spec("--format", "-f", true, &["render"]),
    spec("--visitor", "", true, &["render", "check", "show", "picture", "compile"]),
    spec("--any-rate", "", false, &["render", "check", "show", "picture", "compile"]),
    spec("--quiet", "-q", false, &["render", "check", "compile"]),
    spec("--silent", "", true, &["check"]),
    spec("--sheet", "", false, &["show"]),
    spec("--samples", "-s", true, &["compile"]),
    spec("--visitor-samples", "", true, &["compile"]),
    spec("--color", "", true, &COMMANDS),
    spec("--help", "-h", false, &COMMANDS),
];

/// Options of which a second value would silently undo the first.
const ONCE: [&str; 4] = ["--output", "--format", "--samples", "--visitor-samples"];

/// What was given to a command.
#[derive(Debug, Default)]
pub struct Args {
    pub files: Vec<String>,
    given: Vec<(&'static str, String)>,
}

impl Args {
    pub fn parse(command: &str, words: Vec<String>) -> Done<Self> {
        let mut args = Self::default();
        let mut words = words.into_iter();
        while let Some(word) = words.next() {
            if word == "--" {
                args.files.extend(words);
                break;
            }
            if word == "-" || !word.starts_with('-') {
                args.files.push(word);
                continue;
            }
            let (name, inline) = match word.split_once('=') {
                Some((name, value)) if name.starts_with("--") => (name, Some(value.to_string())),
                _ => (word.as_str(), None),
            };
            let spec = find(command, name)?;
            let value = match (spec.value, inline) {
                (true, Some(value)) => value,
                (true, None) => match words.next() {
                    Some(value) => value,
                    None => return Err(Stop::Usage(format!("{name} needs a value"))),
                },
                (false, None) => String::new(),
                (false, Some(_)) => return Err(Stop::Usage(format!("{name} takes no value"))),
            };
            if let Some(before) = args.value(spec.long).filter(|before| *before != value)
                && ONCE.contains(&spec.long)
            {
                let why = format!("{} is given twice: {before} and {value}", spec.long);
                return Err(Stop::Usage(why));
            }
            args.given.push((spec.long, value));
        }
        Ok(args)
    }

    pub fn has(&self, long: &str) -> bool {
        self.given.iter().any(|given| given.0 == long)
    }

    /// The value that was given last.
    pub fn value(&self, long: &'static str) -> Option<&str> {
        self.values(long).last()
    }

    pub fn values(&self, long: &'static str) -> impl DoubleEndedIterator<Item = &str> {
        self.given.iter().filter(move |given| given.0 == long).map(|given| given.1.as_str())
    }
}

fn find(command: &str, name: &str) -> Done<&'static Spec> {
    let Some(spec) = SPECS.iter().find(|spec| name == spec.long || name == spec.short) else {
        let taken = SPECS.iter().filter(|spec| spec.commands.contains(&command));
        let guess = meant(name, taken.map(|spec| spec.long));
        return Err(Stop::Usage(format!("no option `{name}`{guess}")));
    };
    if spec.commands.contains(&command) {
        return Ok(spec);
    }
    Err(Stop::Usage(format!("{command} takes no {name}")))
}

#[cfg(test)]
mod tests {
    use super::*;

    fn parse(words: &[&str]) -> Done<Args> {
        Args::parse("render", words.iter().map(|word| word.to_string()).collect())
    }

    #[test]
    fn options_stand_anywhere() {
        let args = parse(&["a", "-o", "x", "--format=raw", "-", "--", "-b", "--any-rate"]).unwrap();
        assert_eq!(args.files, ["a", "-", "-b", "--any-rate"]);
        assert_eq!((args.value("--output"), args.value("--format")), (Some("x"), Some("raw")));
        assert!(!args.has("--any-rate"));
    }

    #[test]
    fn wrong_options_are_named() {
        for words in [
            &["-o"] as &[_],
            &["--sheet"],
            &["--what"],
            &["--any-rate=1"],
            &["-x"],
            &["-o", "a", "-o", "b"],
        ] {
            assert!(matches!(parse(words), Err(Stop::Usage(_))), "{words:?}");
        }
    }
}
