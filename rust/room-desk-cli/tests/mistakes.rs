//! Mistakes that people make, each with the words from which it can be mended.

mod common;

use std::fs;
use std::path::Path;
use std::process::{Command, Stdio};

use common::{folder, root, run_in, status, text};

/// A folder with the night show and its recordings.
fn night(name: &str) -> (std::path::PathBuf, String) {
    let folder = folder(name);
    for entry in fs::read_dir(root().join("examples/night")).unwrap() {
        let path = entry.unwrap().path();
        if path.extension().is_some_and(|ending| ending == "wav") {
            fs::copy(&path, folder.join(path.file_name().unwrap())).unwrap();
        }
    }
    let sheet = fs::read_to_string(root().join("examples/night/night.show")).unwrap();
    fs::write(folder.join("night.show"), &sheet).unwrap();
    (folder, sheet)
}

/// Runs the command; its status and all that it said.
fn answer(folder: &Path, words: &[&str]) -> (i32, String) {
    let output = run_in(folder, words);
    (status(&output), text(&output.stdout) + &text(&output.stderr))
}

#[test]
fn lines_of_a_sheet() {
    let (folder, night) = night("mistakes-lines");
    for (from, to, expected, parts) in [
        (
            "set bells to -18",
            "set blels to -18",
            1,
            ["no track and no send track", "did you mean `bells`?"],
        ),
        ("track guide -6", "trak guide -6", 1, ["`trak` begins no line", "did you mean `track`?"]),
        (
            "track guide -6",
            "Track guide -6",
            1,
            ["`Track` begins no line", "did you mean `track`?"],
        ),
        (
            "at 6 s    pause guide",
            "6 s pause guide",
            1,
            ["`6` begins no line", "did you mean `at`?"],
        ),
        (
            "track guide",
            "track hall",
            1,
            ["`hall` is the name of a send track already", "another name"],
        ),
        ("track guide -6", "track guide room -6", 1, ["`room` is no level", "a name is one word"]),
        ("track guide -6 dB", "track guide -6,5 dB", 1, ["is no level", "a point for the comma"]),
        ("length 10 s", "length 10 hours", 1, ["`10 hours` is no time", "`2.5 s`"]),
        ("rate 8000", "rate 8 kHz", 1, ["`kHz` is too much", "as `rate 48000`"]),
        (
            "    play name.wav\n",
            "send extra\n    play name.wav\n",
            1,
            [
                "night.show:25:1: `send`, at the margin, ends the track donor",
                "`play` in line 26 stands",
            ],
        ),
        (
            "    track donor-low 0 dB\n",
            "send extra\n    track donor-low 0 dB\n",
            1,
            [
                "night.show:26:1: `send`, at the margin, ends the track donor",
                "`track` in line 27 stands",
            ],
        ),
        (
            "    play name.wav\n",
            "play name.wav\n    to hall\n",
            1,
            [
                "`play`, at the margin, ends the track donor",
                "this line indented below donor, as line 26",
            ],
        ),
        (
            "pause guide",
            "pause hall",
            1,
            ["is a send track, which cannot be paused", "`set hall to -60 dB`"],
        ),
        (
            "pause guide",
            "pause main",
            1,
            ["is the main track, which cannot be paused", "`set main to -60 dB`"],
        ),
        (
            "play bells.wav",
            "play bell.wav",
            3,
            ["night.show:15:14: bell.wav: No such file", "did you mean `bells.wav`?"],
        ),
        (
            "play bells.wav",
            "play big bells.wav",
            1,
            ["`bells.wav` is not understood here", "stands in \"quotes\""],
        ),
        (
            "clock beat 60 per minute",
            "clock beat 60 bpm",
            1,
            ["`bpm` is not understood here", "90 per minute"],
        ),
    ] {
        assert!(night.contains(from), "{from}");
        fs::write(folder.join("x.show"), night.replacen(from, to, 1)).unwrap();
        let (code, said) = answer(&folder, &["check", "x.show"]);
        let said = said.replace("x.show", "night.show");
        assert!(code == expected && parts.iter().all(|part| said.contains(part)), "{to}: {said}");
    }
}

/// The proved routine's number, and the sheet's own words: names, seconds, decibels, metres.
#[test]
fn refusals_in_the_words_of_the_sheet() {
    let (folder, night) = night("mistakes-refusals");
    let place = "track guide -6 dB\n            place at 0 0 0 near 9 far 1";
    let twice = "track guide -6 dB\n            place at 0 0 0 near 1 far 9\n            place at 1 0 0 near 1 far 9";
    for (from, to, parts) in [
        (
            "track guide -6",
            "track guide 60",
            ["refused 4", "x.show:21:21: guide is at 60 dB", "to 18 dB (did you mean `-60 dB`?)"],
        ),
        ("main -2", "main 20", ["refused 4", "x.show:5:6: main is at 20 dB", "-96 dB to 18 dB"]),
        ("set bells to -18", "set bells to 19", ["refused 4", "level is 19 dB", "-96 dB to 18 dB"]),
        (
            "length 10 s",
            "length 3 min",
            ["refused 4", "the show is 180.", "up to 65.536 s at 8000 Hz, 524,288 frames"],
        ),
        ("speakers 2", "speakers 12", ["refused 4", "x.show:3:10: 12 speakers", "1 to 8"]),
        (
            "rate 8000",
            "rate 4000",
            ["x.show:2:6: the rate is 4000", "all recordings", "`rate 8000`"],
        ),
        (
            "at 8.5 s",
            "at 10.5 s",
            ["refused 4", "comes at 10.500 s", "before the show's end at 10.000 s"],
        ),
        ("in-out 2", "in-out 20", ["refused 4", "power is 20", "1 to 8"]),
        (
            "60 per minute",
            "5000 per second",
            ["refused 4", "beat has 5000 ticks per second", "at most 1,000 ticks"],
        ),
        ("track guide -6 dB", place, ["refused 4", "far is 1 m", "more than near, 9 m"]),
        ("track guide -6 dB", twice, ["refused 7", "guide is placed a second time", "one place"]),
        ("over 2 s", "over 2000 min", ["refused 4", "takes 120000 s", "0 ms to 3600 s"]),
        (
            "to hall -6 dB",
            "to hall -6 dB\n        to hall -9 dB",
            ["refused 7", "bells goes to hall a second time", "once"],
        ),
        (
            "play whisper.wav from 1 s for 3 s",
            "track a 0 dB\n                track b 0 dB",
            ["refused 6", "b stands 5 deep: room > voices > guide > a > b", "four deep"],
        ),
    ] {
        assert!(night.contains(from), "{from}");
        fs::write(folder.join("x.show"), night.replacen(from, to, 1)).unwrap();
        let (code, said) = answer(&folder, &["check", "x.show"]);
        assert!(code == 1 && parts.iter().all(|part| said.contains(part)), "{to}: {said}");
    }
    let many: String = (0..40).map(|n| format!("track t{n}\n")).collect();
    fs::write(folder.join("x.show"), format!("length 1 s\n{many}")).unwrap();
    let (_, said) = answer(&folder, &["check", "x.show"]);
    assert!(said.contains("x.show:34: 40 tracks") && said.contains("at most 32; `play"), "{said}");
}

/// A sheet as editors save it.
#[test]
fn sheets_of_every_editor() {
    let (folder, night) = night("mistakes-editors");
    let check = |bytes: &[u8]| {
        fs::write(folder.join("x.show"), bytes).unwrap();
        answer(&folder, &["check", "x.show"])
    };
    let curly =
        night.replacen("play bells.wav", "play “bells.wav”", 1).replacen("-4 dB", "−4 db", 1);
    for good in [
        night.replace('\n', "\r\n").into_bytes(),
        night.replace('\n', "\r").into_bytes(),
        format!("\u{feff}{night}").into_bytes(),
        night.trim_end().as_bytes().to_vec(),
        curly.into_bytes(),
    ] {
        let (code, said) = check(&good);
        assert!(code == 0 && said.starts_with("accepted: 80,000 frames"), "{said}");
    }
    let (code, said) =
        check(&night.replace('\n', "\r\n").replacen("pause guide", "pause gide", 1).into_bytes());
    assert!(code == 1 && said.contains("    at 6 s    pause gide\n"), "{said}");
    let wide: Vec<u8> =
        [0xfeff].into_iter().chain(night.encode_utf16()).flat_map(u16::to_le_bytes).collect();
    let latin: Vec<u8> = b"rate 8000\n# Mus\xe9e\nlength 1 s\n".to_vec();
    for (bytes, parts) in [
        (wide.as_slice(), ["the sheet is UTF-16 text", "choose UTF-8"]),
        (&latin, ["x.show:2:6: a letter that is not written in UTF-8", "choose UTF-8"]),
        (b"", ["the sheet says nothing", "`room-desk new`"]),
        (b"# later\n", ["the sheet says nothing", "`room-desk new`"]),
    ] {
        let (code, said) = check(bytes);
        assert!(code == 1 && parts.iter().all(|part| said.contains(part)), "{said}");
    }
    fs::write(folder.join("night.txt"), &night).unwrap();
    let (code, said) = answer(&folder, &["check", "night.txt"]);
    assert!(code == 1 && said.contains("the name of one ends with .show"), "{said}");
}

#[test]
fn recordings_name_their_line() {
    let (folder, night) = night("mistakes-recordings");
    let wave = fs::read(folder.join("bells.wav")).unwrap();
    let mut deep = wave.clone();
    deep[34] = 24;
    fs::write(folder.join("deep.wav"), deep).unwrap();
    let mut fast = wave.clone();
    fast[24..28].copy_from_slice(&16_000u32.to_le_bytes());
    fs::write(folder.join("fast.wav"), fast).unwrap();
    let loud: Vec<u8> = [0.5f32, 0.5, 1.5, 0.0].iter().flat_map(|s| s.to_le_bytes()).collect();
    fs::write(folder.join("loud.raw"), loud).unwrap();
    for (file, parts) in [
        (
            "deep.wav",
            ["x.show:15:14: `deep.wav` is not read: it has 24-bit samples", "sox deep.wav"],
        ),
        ("fast.wav", ["x.show:15:14: `fast.wav` has 16000", "sox fast.wav -r 8000 fast-8000.wav"]),
        (
            "loud.raw",
            ["x.show:15: loud.raw: 1 sample out of range, the first in frame 1: 1.5", "-1.0..1.0"],
        ),
    ] {
        fs::write(
            folder.join("x.show"),
            night.replacen("play bells.wav", &format!("play {file}"), 1),
        )
        .unwrap();
        let (code, said) = answer(&folder, &["check", "x.show"]);
        assert!(code == 1 && parts.iter().all(|part| said.contains(part)), "{said}");
    }
    fs::write(folder.join("x.show"), "rate 8000\nlength 1 s\nplay fast.wav\n").unwrap();
    let (_, said) = answer(&folder, &["check", "x.show"]);
    assert!(said.contains("the rate is 8000; all recordings have 16000"), "{said}");
}

/// Why a track is not proved silent, by every command that makes something of the sheet.
#[test]
fn silence_that_is_not_proved() {
    let (folder, night) = night("mistakes-silence");
    let low = "    track donor-low 0 dB\n";
    for (from, to, why) in [
        (
            low,
            "    track donor-low 0 dB\n        to hall\n",
            "since donor-low below it goes to hall",
        ),
        ("track donor -60", "track donor -50", "since it is at -50 dB"),
        ("at 6 s    pause guide", "at 6 s set donor to 0 dB", "since line 37 sets it to 0 dB"),
        ("at 0 s    pause spare", "at 1 s pause spare", "since line 32 pauses it at 1.000 s only"),
        ("at 0 s    pause spare", "at 0 s pause spare over 1 s", "line 32 takes 1 s to pause it"),
        ("at 0 s    pause spare", "at 0 s wait 1 s pause spare", "line 32 pauses it after a wait"),
        ("at 6 s    pause guide", "at 6 s resume spare", "line 37 resumes it at 6.000 s"),
    ] {
        assert!(night.contains(from), "{from}");
        fs::write(folder.join("x.show"), night.replacen(from, to, 1)).unwrap();
        for command in ["check", "render", "compile"] {
            let (code, said) = answer(&folder, &[command, "x.show"]);
            let refused = said.starts_with("refused: a `silent` line is not proved\nx.show:");
            assert!(code == 1 && refused && said.contains(why), "{to}: {said}");
            assert!(said.contains("is not proved silent") && said.contains("    allowed: "));
        }
        assert!(!folder.join("out.wav").exists());
    }
    let (_, said) =
        answer(&folder, &["check", "night.show", "--silent", "donor", "--silent", "bells"]);
    assert_eq!(said.matches("silent: donor,").count(), 1, "{said}");
    assert!(said.contains("not proved silent: bells, since it is at -3 dB"), "{said}");
}

#[test]
fn warnings_have_places_and_come_with_the_render() {
    let (folder, night) = night("mistakes-warnings");
    let leak = night
        .replacen("    track donor-low 0 dB\n", "    track donor-low 0 dB\n        to hall\n", 1)
        .replace("silent donor\n", "");
    for (sheet, part) in [
        (leak, "donor is at -60 dB or less, but donor-low below it is heard through hall"),
        (
            night.replacen("play sea.wav at 5 s", "play sea.wav at 8 s", 1),
            "x.show:13: sea.wav is cut: its last 4.000 s lie",
        ),
        (
            night.replacen("per minute", "per minute stopped", 1),
            "x.show:38: tick 7 of beat never comes, since beat is stopped: this line is never",
        ),
        (night.replacen("speakers 2", "speakers 4", 1), "speakers above the second stay at zero"),
        ("rate 8000\nlength 1 s\n".into(), "nothing plays: every sample will be zero"),
        (
            "rate 8000\nlength 3 s\ntrack donor -60 dB\nplay name.wav\n".into(),
            "x.show:4: name.wav plays below no track, past the one above",
        ),
        (
            "rate 8000\nlength 4 s\ntrack donor -60 dB\nplay name.wav at 1 s\n".into(),
            "x.show:4: name.wav plays below no track, past the one above",
        ),
        (
            "rate 8000\nlength 1 s\nmain 18 dB\nplay bells.wav for 1 s\n".into(),
            "at full scale, where louder ones are cut",
        ),
    ] {
        fs::write(folder.join("x.show"), sheet).unwrap();
        let (code, all) = answer(&folder, &["render", "x.show", "-o", "x.wav"]);
        assert!(code == 0 && all.contains("warning: ") && all.contains(part), "{all}");
        assert_eq!(answer(&folder, &["render", "-q", "x.show", "-o", "x.wav"]), (0, String::new()));
    }
    let (_, said) = answer(&folder, &["render", "night.show"]);
    assert!(said.contains("\nout.wav: 10.000 s at 8000 Hz, 2 channels, peak -"), "{said}");
}

/// Nothing is written over what a show is made of, and no file gets a name that promises another form.
#[test]
fn files_that_are_not_written() {
    let (folder, night) = night("mistakes-outputs");
    let sea = fs::read(folder.join("sea.wav")).unwrap();
    for (words, expected, part) in [
        (
            &["render", "night.show", "-o", "sea.wav"] as &[&str],
            2,
            "sea.wav is a recording of this show",
        ),
        (
            &["show", "--sheet", "night.show", "-o", "./night.show"],
            2,
            "night.show is the show itself",
        ),
        (&["compile", "night.show", "-s", "bells.wav"], 2, "bells.wav is a recording of this show"),
        (&["compile", "night.show", "-o", "x.show"], 2, "name it .txt"),
        (&["picture", "night.show", "-o", "x.png"], 2, "a picture is an SVG file: name it .svg"),
        (&["new", "-o", "night.show"], 3, "night.show is there already"),
        (&["new", "-o", "other.txt"], 2, "the name of a sheet ends with .show"),
        (&["render", "night.show", "-o", "x.mp3"], 2, ".mp3 is not written; .wav"),
        (
            &["render", "night.show", "-f", "raw", "-o", "x.wav"],
            2,
            "-f raw does not fit the name x.wav",
        ),
        (
            &["render", "night.show", "-o", "a.wav", "-o", "b.wav"],
            2,
            "given twice: a.wav and b.wav",
        ),
        (&["render", "night.show", "-o", "no/x.wav"], 3, "there is no folder no"),
        (&["render", "--outptu", "x.wav", "night.show"], 2, "did you mean `--output`?"),
        (&["rendr", "night.show"], 2, "did you mean `render`?"),
        (&["check", "night.show", "night.show"], 2, "is a show sheet, not a recording"),
        (&["check", "night.show", "--silent", "doner"], 2, "did you mean `donor`?"),
        (&["render"], 2, "Try `room-desk render --help`"),
    ] {
        let (code, said) = answer(&folder, words);
        assert!(code == expected && said.contains(part), "{words:?}: {said}");
    }
    assert_eq!(fs::read(folder.join("sea.wav")).unwrap(), sea);
    assert_eq!(fs::read_to_string(folder.join("night.show")).unwrap(), night);
    assert_eq!(fs::read_dir(&folder).unwrap().count(), 5);
}

/// Drawings and samples are not poured over a terminal; `script` of util-linux plays one.
#[test]
fn a_terminal_is_spared() {
    let (folder, _) = night("mistakes-terminal");
    let command = env!("CARGO_BIN_EXE_room-desk");
    for (words, part) in
        [("picture night.show", "-o night.svg"), ("render night.show -o -", "-o out.wav")]
    {
        let mut script = Command::new("script");
        script
            .args(["-qec", &format!("'{command}' {words}"), "/dev/null"])
            .current_dir(&folder)
            .stdin(Stdio::null());
        let Ok(output) = script.output() else { return };
        let said = text(&output.stdout);
        assert!(said.contains("is nothing for a terminal") && said.contains(part), "{said}");
    }
}
