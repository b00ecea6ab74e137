//! What a new user met in a trial without the pages: a show, ten broken sheets, and what each says.

mod common;

use std::fs;
use std::path::{Path, PathBuf};

use common::{Random, folder, root, run_in, status, text};
use room_desk::wave::{self, Bits};
use room_desk_cli::input::Input;
use room_desk_cli::paint::Paint;
use room_desk_cli::recordings::Both;
use room_desk_cli::sheet::Fault;
use room_desk_cli::{report, sheet, show, silence, warnings};

/// The evening round, as it should be.
const EVENING: &str = "\
# The clockmaker's workshop, room 4. Evening round.
rate 8000
speakers 2
length 24 s
main -1 dB

clock pendulum 60 per minute

send chapel -7 dB

track workshop -3 dB
    play rain.wav
    play rain.wav at 12 s
    track bench -2 dB
        play clockwork.wav
        play clockwork.wav at 10 s
        to chapel -9 dB
    track apprentice -4 dB
        play letter.wav from 3 s for 4 s at 6 s
    track window 0 dB
        track street 0 dB
            play steps.wav at 10 s
            place at 3 1.6 -4 near 3 far 15

track organ -5 dB
    play \"organ 1902.wav\"
    to chapel -6 dB

track patron -60 dB
    play patron.wav
    track patron-short -6 dB
        play patron.wav from 1 s

track reserve 0 dB
    play letter.wav for 3 s

listener at 0 1.6 0

at 0 s      pause reserve
at 0 s      pause organ
at 3 s      resume organ over 1.5 s
at 5.5 s    set organ to -18 dB over 1 s in-out 2
at 6 s      set bench to -20 dB over 800 ms
at 10.5 s   set bench to -2 dB over 1 s out 2
at 11 s     set organ -> chapel to -20 dB over 2 s
at 13 s     pause window over 600 ms
at 15 s     resume window over 400 ms
at tick 18 of pendulum   set workshop to -16 dB over 2 s
at 20 s     set chapel to -60 dB over 2 s
at 21.5 s   set main to -60 dB over 2 s in 2

silent patron
silent reserve
";

const RECORDINGS: [(&str, usize); 6] = [
    ("clockwork.wav", 10),
    ("letter.wav", 7),
    ("organ 1902.wav", 9),
    ("patron.wav", 3),
    ("rain.wav", 12),
    ("steps.wav", 8),
];

/// A quiet recording of some seconds.
fn recording(rate: u32, seconds: usize) -> Vec<u8> {
    wave::write(rate, 1, Bits::Sixteen, &vec![0.01; 2 * seconds * rate as usize]).unwrap()
}

/// A folder with the show's recordings.
fn evening(name: &str) -> PathBuf {
    let folder = folder(name);
    for (file, seconds) in RECORDINGS {
        fs::write(folder.join(file), recording(8000, seconds)).unwrap();
    }
    folder
}

/// What `check` says of the evening with some words changed, with its status.
fn checked(folder: &Path, changes: &[(&str, &str)]) -> (i32, String) {
    let sheet = changes.iter().fold(EVENING.to_string(), |sheet, (from, to)| {
        assert!(sheet.contains(from), "{from}");
        sheet.replacen(from, to, 1)
    });
    fs::write(folder.join("evening.show"), sheet).unwrap();
    let output = run_in(folder, &["check", "evening.show"]);
    (status(&output), text(&output.stdout) + &text(&output.stderr))
}

/// A sheet with such changes is refused, and the answer begins so.
fn refused(folder: &Path, changes: &[(&str, &str)], expected: &str) {
    let (code, said) = checked(folder, changes);
    assert!(code == 1 && said.starts_with(expected), "{changes:?}: {code}: {said}");
}

#[test]
fn the_evening_is_accepted_without_a_warning() {
    let (code, said) = checked(&evening("trial-evening"), &[]);
    assert!(code == 0 && said.starts_with("accepted: 192,000 frames"), "{said}");
    assert!(!said.contains("warning") && !said.contains("note"), "{said}");
}

/// A sheet with such changes is accepted with this warning alone, or with none.
fn warned(folder: &Path, changes: &[(&str, &str)], expected: &str) {
    let (code, said) = checked(folder, changes);
    let warnings: Vec<&str> = said.lines().filter_map(|l| l.strip_prefix("warning: ")).collect();
    let only = if expected.is_empty() { vec![] } else { vec![expected] };
    assert!(code == 0 && warnings == only, "{changes:?}: {code}: {said}");
}

/// Sheet 05: rates are compared before anything is reckoned from a length.
#[test]
fn rates_come_first() {
    let folder = evening("trial-rates");
    refused(
        &folder,
        &[("rate 8000\n", "")],
        "evening.show: there is no `rate` line, so the rate is 48000; all recordings have 8000\n    \
         allowed: the line `rate 8000`, at the sheet's head\n",
    );
    refused(
        &folder,
        &[("rate 8000\n", "rate 44100\n")],
        "evening.show:2:6: the rate is 44100; all recordings have 8000\n    rate 44100\n         \
         ^^^^^\n    allowed: the line `rate 8000`\n",
    );
    fs::write(folder.join("steps.wav"), recording(16_000, 8)).unwrap();
    let other = "evening.show:22:18: `steps.wav` has 16000 frames a second, the show 8000\n";
    refused(&folder, &[], other);
    let (_, said) = checked(&folder, &[]);
    let mend = "`play steps-8000.wav`, made by `sox steps.wav -r 8000 steps-8000.wav`";
    assert!(said.contains(mend), "{said}");
    let any = run_in(&folder, &["check", "evening.show", "--any-rate"]);
    assert_eq!(status(&any), 0, "{}", text(&any.stdout));
    let most =
        "evening.show: there is no `rate` line, so the rate is 48000; most recordings have 8000";
    refused(&folder, &[("rate 8000\n", "")], most);
}

/// Sheet 08: the part is marked, and parts that fit are proposed.
#[test]
fn parts_that_are_too_long() {
    let folder = evening("trial-parts");
    let part = "from 3 s for 4 s";
    refused(
        &folder,
        &[(part, "from 4 s for 4 s")],
        "evening.show:19:25: `from 4 s for 4 s` ends at 8.000 s, but letter.wav is 7.000 s long\n",
    );
    for (written, what, allowed) in [
        ("from 4 s for 4 s", "ends at 8.000 s", "`from 4 s for 3 s` or `from 3 s for 4 s`"),
        ("from 6.5 s for 1 s", "ends at 7.500 s", "`from 6.5 s for 0.5 s` or `from 6 s for 1 s`"),
        ("for 9 s", "ends at 9.000 s", "`for 7 s`"),
        ("from 8 s", "begins behind the end: letter.wav is 7.000 s long", "`from` before 7.000 s"),
        ("from 8 s for 2 s", "begins behind the end", "`from 5 s for 2 s`"),
    ] {
        let (code, said) = checked(&folder, &[(part, written)]);
        let first = format!("evening.show:19:25: `{written}` {what}");
        assert!(code == 1 && said.starts_with(&first), "{said}");
        let mark = format!("{}{}\n", " ".repeat(28), "^".repeat(written.len()));
        assert!(said.contains(&mark) && said.contains(&format!("allowed: {allowed}\n")), "{said}");
    }
}

/// Sheet 02: the line, what the file has, what to write instead and how to make it.
#[test]
fn a_recording_of_another_kind() {
    let folder = evening("trial-kinds");
    let mut deep = recording(8000, 8);
    deep[34] = 24;
    fs::write(folder.join("steps.wav"), deep).unwrap();
    refused(
        &folder,
        &[],
        "evening.show:22:18: `steps.wav` is not read: it has 24-bit samples in 1 channel\n                \
         play steps.wav at 10 s\n                     ^^^^^^^^^\n    \
         allowed: 16-bit, by `sox steps.wav -b 16 steps-16.wav` or any sound editor; then `play \
         steps-16.wav` here\n    or float, by `sndfile-convert -float32 steps.wav steps-float.wav`\n\
         refused 15: the samples",
    );
    // A name with spaces is quoted for the shell, and for the sheet.
    let (mut long, mut cut) = (recording(8000, 9), recording(8000, 8));
    (long[16], long[20]) = (18, 3);
    cut.pop();
    fs::write(folder.join("organ 1902.wav"), long).unwrap();
    fs::write(folder.join("steps.wav"), cut).unwrap();
    let steps = ("play steps.wav at 10 s\n", "\n");
    for (changes, allowed) in [
        (
            vec![steps],
            "float, by `sndfile-convert -float32 'organ 1902.wav' 'organ 1902-float.wav'` or any sound \
             editor; then `play \"organ 1902-float.wav\"` here\nrefused 13",
        ),
        (vec![], "copy it again\nrefused 14"),
    ] {
        let (code, said) = checked(&folder, &changes);
        assert!(code == 1 && said.contains(&format!("    allowed: {allowed}")), "{said}");
    }
}

/// Sheet 07: what a `silent` line keeps silent is heard on another track.
#[test]
fn what_is_kept_silent_is_heard_elsewhere() {
    let folder = evening("trial-elsewhere");
    let below = "    track patron-short -6 dB\n        play patron.wav from 1 s\n";
    let beside = "track patron-short -6 dB\n    play patron.wav from 1 s\n";
    warned(
        &folder,
        &[(below, beside)],
        "evening.show:32: patron.wav may be heard in patron-short, though line 52, `silent patron`, \
         asks that the same 2 s, in line 30, are silent; `at 0 s pause patron-short` and `silent \
         patron-short` keep it silent there too, and so does a place below patron",
    );
    // What it says is enough.
    let held = ("at 0 s      pause organ", "at 0 s pause patron-short\nat 0 s      pause organ");
    let asked = ("silent patron\n", "silent patron\nsilent patron-short\n");
    warned(&folder, &[(below, beside), held, asked], "");
    // A hold of what plays other sounds too would keep them silent.
    for (from, line, played) in [
        ("        play clockwork.wav at 10 s", 16, "in bench"),
        ("listener at 0 1.6 0", 37, "on the main track"),
    ] {
        let indent = " ".repeat(from.len() - from.trim_start().len());
        let to = format!("{indent}play patron.wav for 1 s at 10 s");
        let warning = format!(
            "evening.show:{line}: patron.wav may be heard {played}, though line 52, `silent patron`, asks \
             that the same 1 s, in line 30, are silent; below patron it is silent too"
        );
        let (code, said) = checked(&folder, &[(from, &to)]);
        assert!(code == 0 && said.contains(&format!("warning: {warning}\n")), "{said}");
    }
    // Another part of the recording is no breach, and neither is one that is silent too.
    warned(&folder, &[("play letter.wav for 3 s", "play letter.wav for 2 s")], "");
    warned(&folder, &[("play letter.wav for 3 s", "play patron.wav")], "");
}

/// What waits to be played stands still while its track, or one around it, is paused.
#[test]
fn a_pause_makes_later_sounds_late() {
    let folder = evening("trial-late");
    let pause = ("at 13 s     pause window over 600 ms", "at 6 s pause window over 500 ms");
    let resume = ("at 15 s     resume window over 400 ms", "at 8 s resume window");
    warned(
        &folder,
        &[pause, resume],
        "evening.show:22: steps.wav begins at about 11.5 s, not at 10 s: line 46 pauses window at \
         6.000 s, and what waits there stands still; in a track that is not paused it begins at 10 s",
    );
    warned(
        &folder,
        &[pause, (resume.0, "")],
        "evening.show:22: steps.wav never begins: line 46 pauses window at 6.000 s, and what waits \
         there stands still; in a track that is not paused it begins at 10 s",
    );
    // A pause that is taken back at once makes nothing late.
    warned(&folder, &[("pause organ", "pause organ\nat 5 s pause bench\nat 5 s resume bench")], "");
    // A track that is held is silent, as it was meant.
    warned(&folder, &[("play letter.wav for 3 s", "play letter.wav for 3 s at 2 s")], "");
}

/// A group that is turned down goes on sending; one that is paused does not.
#[test]
fn turning_a_group_down_does_not_stop_its_sends() {
    let folder = evening("trial-sends");
    let order = "at 5.5 s    set organ to -18 dB over 1 s in-out 2";
    let down = (order, "at 5.5 s set workshop to -60 dB");
    warned(
        &folder,
        &[down],
        "evening.show:42: workshop goes to -60 dB, but what tracks below it send is heard on: bench \
         -> chapel (line 17); `pause workshop` stops it",
    );
    let shut = "at 5 s set bench -> chapel to -60 dB\nat 5.5 s set workshop to -60 dB";
    warned(&folder, &[(order, shut)], "");
    warned(&folder, &[(order, "at 5.5 s set organ to -60 dB")], "");
    warned(
        &folder,
        &[("track workshop -3 dB", "track workshop -60 dB")],
        "evening.show:17: workshop is at -60 dB at first, but bench below it is heard through chapel",
    );
}

/// Sheet 04, and orders for what is not so.
#[test]
fn orders_that_do_nothing() {
    let folder = evening("trial-orders");
    for (pace, comes, last) in [
        ("every 60 s", "1080.000 s", 0),
        // A tick at the very end is not before it.
        ("every 1.5 s", "27.000 s", 15),
        ("0.5 per second", "36.000 s", 11),
        ("45 per minute", "24.000 s", 17),
        ("44 per minute", "24.545 s", 17),
    ] {
        warned(
            &folder,
            &[("60 per minute", pace)],
            &format!(
                "evening.show:48: tick 18 of pendulum comes at {comes} (line 7: {pace}), after the \
                 show's end at 24.000 s: this line is never carried out; the last tick before the end \
                 is tick {last}, and a faster clock in line 7 has more"
            ),
        );
    }
    warned(
        &folder,
        &[("60 per minute", "60 per minute stopped")],
        "evening.show:48: tick 18 of pendulum never comes, since pendulum is stopped: this line is \
         never carried out",
    );
    warned(
        &folder,
        &[("pause window", "pause street")],
        "evening.show:47: window is not paused then: line 46 pauses street, which is never resumed",
    );
    warned(
        &folder,
        &[("at 0 s      pause organ\n", "")],
        "evening.show:40: organ is not paused then",
    );
    warned(
        &folder,
        &[("play rain.wav at 12 s", "play rain.wav at 120 s")],
        "evening.show:13: what this line asks for comes at 120.000 s, after the show's end at 24.000 s: \
         this line is never carried out",
    );
    warned(&folder, &[("play rain.wav at 12 s", "play rain.wav at 0 s")], "");
    // Paused and never resumed is no mistake.
    warned(&folder, &[("at 15 s     resume window over 400 ms", "")], "");
}

/// Sheet 03: a hold that is broken names the line that breaks it, also where it holds a track around.
#[test]
fn a_broken_hold_names_its_line() {
    let folder = evening("trial-holds");
    let pause = "at 0 s      pause reserve\n";
    let fade = "at 0 s      pause reserve over 500 ms\n";
    let first = "refused: a `silent` line is not proved\nevening.show:53:8: reserve is not proved \
                 silent, since line 39 takes 500 ms to pause it\n    silent reserve\n           \
                 ^^^^^^^\n    allowed: in line 39, `at 0 s pause reserve`, without `over`\n";
    refused(&folder, &[(pause, fade)], first);
    let inner =
        ("    play letter.wav for 3 s\n", "    track reading\n        play letter.wav for 3 s\n");
    let asked = ("silent reserve", "silent reading");
    for (to, why, allowed) in [
        (
            "at 0 s pause reserve\nat 10 s resume reserve\n",
            "since reserve, around it, is resumed by line 41 at 10.000 s\n",
            "`at 0 s pause reserve` and no other pause or resume of reserve\n",
        ),
        (
            "at 0 s pause reserve\nat 0 s pause reserve\n",
            "since line 40 and line 41 both pause reserve, around it\n",
            "`at 0 s pause reserve` and no other pause or resume of reserve\n",
        ),
        (
            fade,
            "since line 40 takes 500 ms to pause reserve, around it\n",
            "in line 40, `at 0 s pause reserve`, without `over`\n",
        ),
        (
            "at 2 s pause reserve\n",
            "line 40 pauses reserve, around it, at 2.000 s only\n",
            "in line 40, `at 0 s pause reserve`\n",
        ),
        ("at 2 s set organ to -9 dB\n", "since it is at 0 dB\n", "`at 0 s pause reading` and"),
    ] {
        let (code, said) = checked(&folder, &[(pause, to), inner, asked]);
        let parts = ["reading is not proved silent, ", why, "    allowed: ", allowed];
        assert!(code == 1 && parts.iter().all(|part| said.contains(part)), "{said}");
    }
    // Of a track at -60 dB a pause is not the cause.
    let leak =
        ("    track patron-short -6 dB\n", "    track patron-short -6 dB\n        to chapel\n");
    let (_, said) = checked(&folder, &[leak, ("pause organ", "pause organ\nat 1 s pause patron")]);
    assert!(
        said.contains("patron is not proved silent, since patron-short below it goes to chapel\n")
    );
    assert!(said.contains("allowed: no route of a track below patron; or `at 0 s pause patron`"));
    // A pause for a while around it was not meant to hold it.
    let (_, said) = checked(&folder, &[asked, ("silent reading", "silent street")]);
    assert!(said.contains("street is not proved silent, since it is at 0 dB\n"), "{said}");
}

/// Sheet 01: the line that ends the track is told, not the one behind it.
#[test]
fn a_line_among_the_tracks() {
    let folder = evening("trial-among");
    let order = "at 13 s     pause window over 600 ms\n";
    let window = "    track window 0 dB\n";
    let moved = format!("{window}{order}");
    refused(
        &folder,
        &[(order, ""), (window, &moved)],
        "evening.show:21:1: `at`, at the margin, ends the track window: `track` in line 22 stands below \
         no track\n    at 13 s     pause window over 600 ms\n    ^^\n    allowed: this line behind line \
         36, the last of the tracks; line 22 then stands below window\n",
    );
    // What it says is enough.
    let last = "    play letter.wav for 3 s\n";
    warned(&folder, &[(order, ""), (last, &format!("{last}{order}"))], "");
    // What the tracks name stands before them.
    let (code, said) = checked(&folder, &[(window, &format!("{window}send yard\n"))]);
    let first = "allowed: this line before the first track; line 22 then stands below window\n";
    assert!(code == 1 && said.contains(first), "{said}");
    // Among the orders the indented line is the one.
    refused(
        &evening("trial-orders-among"),
        &[("at 20 s     set", "    play rain.wav\nat 20 s     set")],
        "evening.show:49:10: `rain.wav` stands below no track\n        play rain.wav\n             \
         ^^^^^^^^\n    allowed: indented below a track; line 37, at the margin, has ended the last\n",
    );
}

/// Sheet 06: a recording's name where a track's was wanted; made names stand last.
#[test]
fn a_recording_for_a_track() {
    let folder = evening("trial-names");
    refused(
        &folder,
        &[("pause window", "pause steps")],
        "evening.show:46:19: `steps` is no track here: steps.wav is a recording, played by line 22 in \
         street\n    at 13 s     pause steps over 600 ms\n                      ^^^^^\n    allowed: \
         `pause window`, which line 47 resumes; or the track street, or workshop\n",
    );
    let resume = ("resume window", "resume steps");
    let around = "allowed: the track street, or around it window or workshop\n";
    for (changes, allowed) in [
        (
            vec![resume],
            "allowed: `resume window`, which line 46 pauses; or the track street, or workshop\n",
        ),
        // What is paused already, or resumed by another line, needs no other order.
        (vec![("at 15 s     resume", "at 14 s resume window\nat 15 s     resume"), resume], around),
        (vec![("pause window", "pause steps"), ("resume window", "resume organ")], around),
        (
            vec![("pause organ", "pause patron.wav"), ("resume organ", "resume patron-short")],
            "allowed: `pause patron-short`, which line 41 resumes; or the track patron\n",
        ),
        (
            vec![("pause organ", "pause \"organ 1902.wav\"")],
            "allowed: `pause organ`, which line 41 resumes\n",
        ),
    ] {
        let (code, said) = checked(&folder, &changes);
        assert!(code == 1 && said.contains(allowed), "{changes:?}: {said}");
    }
    for (from, to, parts) in [
        (
            "silent patron",
            "silent patron.wav",
            ["evening.show:52:8: `patron.wav` is", "patron-short"],
        ),
        (
            "set bench to -20",
            "set clockwork to -20",
            ["evening.show:43:17: `clock", "the track bench"],
        ),
        (
            "silent patron",
            "silent nobody",
            ["patron, patron-short, reserve, rain@12s", "evening.show:52:8"],
        ),
    ] {
        let (code, said) = checked(&folder, &[(from, to)]);
        assert!(code == 1 && parts.iter().all(|part| said.contains(part)), "{said}");
    }
}

/// Sheets 09 and 10: the place and the cause, then the number.
#[test]
fn places_come_before_numbers() {
    let folder = evening("trial-places");
    refused(
        &folder,
        &[("to -20 dB over 800", "to 20 dB over 800")],
        "evening.show:43:26: the order's level is 20 dB\n    at 6 s      set bench to 20 dB over 800 ms\n\
         \x20                            ^^^^^\n    allowed: -96 dB to 18 dB (did you mean `-20 dB`?)\n\
         refused 4: a field is out of its range\n",
    );
    refused(
        &folder,
        &[("at 21.5 s   set", "at 215 s    set")],
        "evening.show:50:4: the order comes at 215.000 s\n    at 215 s    set main to -60 dB over 2 s in \
         2\n       ^^^^^\n    allowed: before the show's end at 24.000 s\nrefused 4: a field",
    );
    // A level above 0 is one.
    warned(&folder, &[("to -20 dB over 800", "to 18 dB over 800")], "");
}

/// Words that a new user tried.
#[test]
fn words_that_are_tried() {
    let folder = evening("trial-words");
    let silenced = "`at 0 s pause reserve`: never heard, at any level; or `track reserve -60 dB`";
    for (from, to, what, allowed) in [
        ("at tick 18 of", "at beat 18 of", "48:4: `beat` is no time", "or `tick 12 of pendulum`"),
        ("\nat 0 s      pause reserve", "\nmute reserve", "39:1: `mute` begins no line", silenced),
        ("track reserve 0 dB", "track reserve 0 dB muted", "34:20: `muted` is no word", silenced),
        ("track reserve 0 dB", "track reserve muted", "34:15: `muted` is no word", silenced),
        ("pause reserve", "mute reserve", "39:13: `mute` is no order", "`pause reserve`, `resume"),
        (
            "listener at 0 1.6 0",
            "listener at 0 1.6 0\nplace organ at 1 0 0 near 1 far 9",
            "38:7: `organ` is a track's name",
            "`place on organ at X Y Z near METRES far METRES`",
        ),
        (
            "listener at 0 1.6 0",
            "listener at 0 1.6 0\nplace at 1 0 0 near 1 far 9",
            "38:1: `place` stands below no track",
            "or `place on TRACK at X Y Z near METRES far METRES`",
        ),
    ] {
        let (code, said) = checked(&folder, &[(from, to)]);
        assert!(code == 1 && said.starts_with(&format!("evening.show:{what}")), "{said}");
        assert!(said.contains(allowed), "{said}");
    }
    // They are still names.
    warned(
        &folder,
        &[
            ("track reserve", "track off"),
            ("pause reserve", "pause off"),
            ("silent reserve", "silent off"),
        ],
        "",
    );
}

/// What `check` says of a show goes where its verdict goes; trouble with files does not.
#[test]
fn one_stream() {
    let folder = evening("trial-streams");
    for (from, to, expected) in [
        ("rate 8000\n", "", 1),
        ("pause window", "pause steps", 1),
        ("from 3 s for 4 s", "from 4 s for 4 s", 1),
        ("to -20 dB over 800", "to 20 dB over 800", 1),
        ("pause reserve", "pause reserve over 1 s", 1),
        ("60 per minute", "every 60 s", 0),
    ] {
        fs::write(folder.join("x.show"), EVENING.replacen(from, to, 1)).unwrap();
        let output = run_in(&folder, &["check", "x.show"]);
        let said = text(&output.stdout);
        assert!(status(&output) == expected && said.contains("x.show:"), "{to}: {said}");
        assert!(output.stderr.is_empty(), "{to}: {}", text(&output.stderr));
    }
    fs::write(folder.join("x.show"), EVENING.replacen("rain.wav", "rian.wav", 1)).unwrap();
    let output = run_in(&folder, &["check", "x.show"]);
    assert!(status(&output) == 3 && output.stdout.is_empty());
    assert!(text(&output.stderr).contains("did you mean `rain.wav`?"));
    // A sheet that is not understood has no number.
    fs::write(folder.join("x.show"), EVENING.replacen("pause window", "pause steps", 1)).unwrap();
    let output = run_in(&folder, &["check", "-q", "x.show"]);
    assert!(status(&output) == 1 && output.stdout.is_empty() && !output.stderr.is_empty());
}

/// `show` lists what is played later at the second that the sheet names.
#[test]
fn shows_are_listed_by_time() {
    let folder = evening("trial-show");
    let sheet =
        EVENING.replacen("at 11 s     set organ -> chapel", "at 11 s set workshop to -60 dB #", 1);
    fs::write(folder.join("x.show"), sheet).unwrap();
    let said = text(&run_in(&folder, &["show", "x.show"]).stdout);
    let orders = said.split_once("Orders, by time\n").unwrap().1;
    let words = |line: &str| line.split_whitespace().collect::<Vec<_>>().join(" ");
    let orders: Vec<String> = orders.lines().map(words).collect();
    assert!(orders.is_sorted_by_key(|line| {
        (line.split_once(' ').unwrap().0.parse::<f64>().unwrap() * 1000.0) as i64
    }));
    for line in [
        "6.000 s play letter.wav in apprentice",
        "10.000 s play clockwork.wav in bench",
        "12.000 s play rain.wav in workshop",
        "18.000 s block 719 track volume of workshop to -16 dB over 2 s, linear waits for tick 18 of \
         pendulum",
        "11.000 s block 440 track volume of workshop to -60 dB at once NOT silent: bench through chapel \
         is heard",
    ] {
        assert!(orders.iter().any(|order| order == line), "{line}: {said}");
    }
    assert!(said.contains("pendulum  60 per minute  runs"), "{said}");
}

/// `new` shows how a track is never heard, and says what it wrote; so does `picture`.
#[test]
fn a_new_sheet_shows_how() {
    let folder = folder("trial-new");
    let output = run_in(&folder, &["new", "-o", "x.show"]);
    assert!(text(&output.stderr).starts_with("x.show: a sheet to start from"));
    let sheet = fs::read_to_string(folder.join("x.show")).unwrap();
    for part in ["# held: never heard, at any level", "-60 dB", "silent ", "tick 0 is at 0 s"] {
        assert!(sheet.contains(part), "{part}");
    }
    assert!(
        ["in-out 2", "`in 2`", "`out 2`", "`linear`"].iter().all(|curve| sheet.contains(curve))
    );
    let output = run_in(&folder, &["check", "x.show"]);
    let said = text(&output.stdout);
    assert!(status(&output) == 0 && said.contains("silent: spare, held"), "{said}");
    assert!(said.contains("silent: donor, muted"), "{said}");
    let output = run_in(&folder, &["picture", "x.show", "-o", "x.svg"]);
    assert_eq!(text(&output.stderr), "x.svg: a picture of x.show, for any browser\n");
    assert!(run_in(&folder, &["new"]).stderr.is_empty());
}

/// What docs/USING.md shows as the command's answers is what it answers.
#[test]
fn the_page_shows_what_is_said() {
    let page = fs::read_to_string(root().join("docs/USING.md")).unwrap();
    let night = fs::read_to_string(root().join("examples/night/night.show")).unwrap();
    let folder = folder("trial-page");
    for entry in fs::read_dir(root().join("examples/night")).unwrap() {
        let path = entry.unwrap().path();
        fs::copy(&path, folder.join(path.file_name().unwrap())).unwrap();
    }
    for (from, to) in
        [("at 8.5 s  set", "at 14 s  set"), ("at 6 s    pause guide", "at 6 s set donor to 0 dB")]
    {
        assert!(night.contains(from), "{from}");
        fs::write(folder.join("night.show"), night.replacen(from, to, 1)).unwrap();
        let said = text(&run_in(&folder, &["check", "night.show"]).stdout);
        let refusal = said.lines().take_while(|line| !line.starts_with("warning"));
        let refusal = refusal.filter(|line| !line.starts_with("silent:"));
        let shown: String = refusal.map(|line| format!("    {line}\n")).collect();
        assert!(shown.lines().count() > 4 && page.contains(&shown), "{shown}");
    }
    let leak = text(&run_in(&root().join("examples/leak"), &["check", "leak.show"]).stdout);
    let warning = leak.lines().find(|line| line.contains("donor-low below it")).unwrap();
    assert!(page.contains(&format!("\n    {warning}\n")), "{warning}");
}

/// Everything that is said of a sheet, wherever it stops.
fn all_that_is_said(sheet: &str, folder: &Path) -> (bool, String) {
    let paint = Paint::default();
    let made = match sheet::compile(sheet, folder, Both::default()) {
        Ok(made) => made,
        Err(Fault::Line(found) | Fault::Missing(found) | Fault::Recording(found, _)) => {
            return (false, report::findings("x.show", sheet, &[*found], paint));
        }
    };
    let input = Input {
        name: "x.show".into(),
        file: made.scene.text(),
        recordings: made.recordings,
        names: made.names,
        sheet: Some((sheet.into(), made.lines)),
        silent: made.silent,
        notes: made.notes,
    };
    if let Err(trouble) = input.ask() {
        return (false, report::trouble(&input, &trouble, paint));
    }
    let scene = input.scene().unwrap();
    let answer = silence::ask(&input);
    let mut said = silence::refusal(&input, &scene, &answer, paint).unwrap();
    said += &report::warnings(&warnings::of(&input, &scene), paint);
    (true, said + &show::text(&input, &scene, Some(answer)))
}

/// One thing that a hand might do to a sheet.
fn damage(lines: &mut Vec<String>, random: &mut Random) {
    const ODD: [&str; 14] = [
        "0", "60", "-60 dB", "patron", "window", "organ", "steps", "pause", "resume", "at", "s",
        "1e9", "\"", "é",
    ];
    let (at, other) = (random.below(lines.len()), random.below(lines.len()));
    let line = lines[at].clone();
    let (indent, rest) = line.split_at(line.len() - line.trim_start().len());
    let mut words: Vec<&str> = rest.split(' ').filter(|word| !word.is_empty()).collect();
    let word = random.below(words.len());
    match random.below(7) {
        0 => drop(lines.remove(at)),
        1 => lines.swap(at, other),
        2 => lines.insert(at, lines[other].clone()),
        3 => lines[at] = rest.to_string(),
        4 => lines[at] = format!("    {line}"),
        5 if !words.is_empty() => {
            words[word] = ODD[random.below(ODD.len())];
            lines[at] = format!("{indent}{}", words.join(" "));
        }
        _ if !words.is_empty() => {
            words.remove(word);
            lines[at] = format!("{indent}{}", words.join(" "));
        }
        _ => {}
    }
}

/// Sheets with lines and words changed, moved or left out: something is said of each.
#[test]
fn damaged_evenings_are_answered() {
    let folder = evening("trial-damaged");
    let mut random = Random(0x0ddb_a11c_0ffe);
    let (mut accepted, mut warned) = (0, 0);
    for _ in 0..1500 {
        let mut lines: Vec<String> = EVENING.lines().map(String::from).collect();
        for _ in 0..1 + random.below(3) {
            damage(&mut lines, &mut random);
        }
        let sheet = lines.join("\n") + "\n";
        let (made, said) = all_that_is_said(&sheet, &folder);
        assert!(!said.is_empty(), "{sheet}");
        accepted += usize::from(made);
        warned += usize::from(said.contains("warning: "));
    }
    assert!(accepted > 300 && warned > 50, "{accepted} accepted, {warned} warned of");
}
