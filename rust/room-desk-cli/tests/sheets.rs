//! Show sheets: what they are made into, what comes back, and how they are refused.

mod common;

use std::fs;
use std::path::Path;

use common::{Random, folder, root, run, run_in, status, stored, text};
use room_desk_cli::input::Input;
use room_desk_cli::recordings::Both;
use room_desk_cli::scene::tables::{FORMAT, Format};
use room_desk_cli::scene::{Scene, explain, text::read};
use room_desk_cli::sheet::{self, Fault};

fn compile(sheet: &str) -> Result<sheet::Made, Fault> {
    sheet::compile(sheet, Path::new(""), Both::default())
}

fn made(sheet: &str) -> Scene {
    compile(sheet).unwrap_or_else(|fault| panic!("{sheet}\n{fault:?}")).scene
}

/// The line, the marked word and the message of a sheet that is not understood.
fn refused(sheet: &str) -> (usize, String) {
    match compile(sheet) {
        Err(Fault::Line(finding)) => {
            (finding.line.unwrap_or(0), format!("{} | {}", finding.what, finding.allowed))
        }
        other => panic!("{other:?}"),
    }
}

/// Every stored scene that is accepted, as a sheet and back, is the same bytes.
#[test]
fn scenes_come_back() {
    let mut count = 0;
    for case in stored() {
        let input = case.input();
        if input.ask().is_err() {
            continue;
        }
        let scene = Scene::of(&read(&case.scene).unwrap()).unwrap();
        let written = sheet::write(&input, &scene);
        let again = compile(&written).unwrap_or_else(|f| panic!("{}: {f:?}\n{written}", case.name));
        assert_eq!(text(&again.scene.text()), text(&case.scene), "{}\n{written}", case.name);
        count += 1;
    }
    assert!(count > 50);
}

#[test]
fn the_template_is_a_show() {
    let made = made(sheet::TEMPLATE);
    assert!(room_desk::check(&made.text(), Default::default()).is_ok());
}

/// The sheet that docs/USING.md shows is one.
#[test]
fn the_page_shows_a_sheet() {
    let page = fs::read_to_string(root().join("docs/USING.md")).unwrap();
    let lines = page.lines().skip_while(|line| *line != "    rate 8000");
    let shown = lines.take_while(|line| line.is_empty() || line.starts_with("    "));
    let sheet: String = shown.map(|line| line.get(4..).unwrap_or("").to_string() + "\n").collect();
    let made = sheet::compile(&sheet, &root().join("examples/night"), Both::default()).unwrap();
    assert!(room_desk::check(&made.scene.text(), made.recordings.samples()).is_ok());
    assert_eq!(made.silent.len(), 1);
}

#[test]
fn every_word_of_a_sheet() {
    let scene = made(
        "rate 8000\nspeakers 1\nbuffer 64\nblock 80\nlength 2 s\nmain -1.5dB\n\
         clock a 90 per minute\nclock b 2.5 per second stopped\nclock c every 0.25 s\n\
         send s -3 dB\ntrack x\n    to s -12 dB\n    track y -6 dB\ntrack z -60 dB in x\n\
         route z to s\nplay house from 10 frames for 1 s on y\n\
         at 0.5 s pause x over 200 ms\nat 1 s wait 250 ms resume x\nat 1.2s set s to 3 dB\n\
         at block 7 tick 2.125 of a set x -> s to -20 dB over 1 s in 3\n\
         at 0 s set main -6 dB over 1.5 s out 2\nat tick 1 of c set y to 0 dB\n",
    );
    let empty = "x y z\n\ntrack x y z near far\n\n";
    let lines = text(&scene.text()).replace(empty, "");
    let expected = "rate channels buffer block blocks volume\n8000 1 64 80 200 -1500\n\n\
        unit speed ticking\n2 90000 1\n1 2500 0\n0 250 1\n\nparent volume\n0 0\n1 -6000\n1 -60000\n\n\
        volume\n-3000\n\ntrack send volume\n1 1 -12000\n3 1 0\n\ntrack first count from\n2 10 8000 0\n\n\
        block kind index volume clock when part millis easing power\n50 4 1 0 0 0 0 200 0 0\n\
        100 5 1 0 0 250 0 0 0 0\n120 2 1 3000 0 0 0 0 0 0\n7 3 1 -20000 1 2 125 1000 1 3\n\
        0 0 0 -6000 0 0 0 1500 2 2\n24 1 2 0 3 1 0 1 0 0\n";
    assert_eq!(lines, expected);
}

#[test]
fn a_sound_that_begins_later_has_a_track_of_its_own() {
    let made =
        compile("rate 8000\nlength 2 s\ntrack x\n    play house for 1 s at 0.5 s\n").unwrap();
    assert_eq!(made.names.tracks, ["x", "house@500ms"]);
    let text = text(&made.scene.text());
    assert!(text.contains("parent volume\n0 0\n1 0\n"));
    assert!(text.contains("2 0 8000 0\n") && text.ends_with("0 5 2 0 0 500 0 0 0 0\n"));
}

#[test]
fn times_land_on_blocks_and_say_so() {
    let made = compile("rate 8000\nblock 512\nlength 2 s\nat 1 s set main to -6 dB\n").unwrap();
    let note = "1.000 s lands at 1.024 s, the start of block 16";
    assert_eq!(made.notes, [(4, note.to_string())]);
    let made = compile("rate 8000\nlength 2 s\nat 1 s set main to -6 dB\n").unwrap();
    assert!(made.notes.is_empty());
    // Tenths of seconds land where they are written, at every rate and length that allow it.
    for (rate, long, block) in
        [(48_000, 6, 300), (44_100, 9, 441), (16_000, 12, 200), (8000, 60, 500)]
    {
        let sheet = format!("rate {rate}\nlength {long} s\nat 1.1 s set main to -6 dB\n");
        let made = compile(&sheet).unwrap();
        assert_eq!(made.scene.head.block, block, "{sheet}");
        assert_eq!(made.notes.is_empty(), rate * 11 / 10 % block == 0, "{sheet}");
    }
}

#[test]
fn wrong_lines_are_named() {
    let head = "rate 8000\nlength 1 s\nsend hall\ntrack bells\n";
    for (line, part) in [
        ("sing", "begins no line"),
        ("rate 9000", "stands here a second time"),
        ("buffer 99999999999", "is no such number"),
        ("at 99999999999 s set main to 0 dB", "is too long"),
        ("track bells", "is the name of a track already"),
        ("track main", "is no name"),
        ("to hall", "stands below no track"),
        ("    to hal", "did you mean `hall`?"),
        ("    rate 9000", "stands below the track bells"),
        ("at 1 s pause bell", "did you mean `bells`?"),
        ("at 1 s stop bells", "is no order"),
        ("at 1 m pause bells", "is no time"),
        ("at 1 s set bells to six dB", "is no level"),
        ("at 1 s set bells to -6", "the line ends too early"),
        ("at 1 s set bells -> hall to 0 dB", "bells is not routed to hall"),
        ("at 1 s pause bells over 0.5 ms", "a part of a millisecond"),
        ("at tick 1 of beat pause bells", "is no clock here"),
        ("at 1 s pause bells quickly", "is too much here"),
        ("\ttrack x", "a tab"),
        ("play \"sea.wav", "a quote that does not end"),
        ("silent nobody", "is no track here"),
    ] {
        let (at, said) = refused(&format!("{head}{line}\n"));
        assert!(at == 5 && said.contains(part), "{line}: line {at}: {said}");
    }
    assert_eq!(refused("rate 8000\n").0, 0);
}

/// Places, in the format that has them; else they are refused.
#[test]
fn tracks_have_places() {
    let sheet = "rate 8000\nlength 1 s\nlistener at 0 1.5 0 m\ntrack x\n    place at -2 0 0.25 m near 1 far 12.5 m\n";
    if FORMAT < Format::Distance {
        assert!(refused(sheet).1.contains("loudness by distance"));
        return;
    }
    let scene = made(sheet);
    let lines = text(&scene.text());
    assert!(lines.contains("x y z\n0 1500 0\n\ntrack x y z near far\n1 -2000 0 250 1000 12500\n"));
    let input = Input { file: scene.text(), ..Input::default() };
    assert_eq!(made(&sheet::write(&input, &scene)), scene);
}

#[test]
fn a_refused_sheet_names_its_own_line() {
    let folder = folder("sheet-lines");
    fs::write(folder.join("loud.show"), "rate 8000\nlength 1 s\n\n# much\ntrack x 30 dB\n")
        .unwrap();
    let output = run_in(&folder, &["check", "loud.show"]);
    assert_eq!(status(&output), 1);
    let said = text(&output.stdout);
    assert!(
        said.contains(
            "loud.show:5:9: x is at 30 dB\n    track x 30 dB\n            ^^^^^\n    allowed: -96 dB to 18 dB"
        ),
        "{said}"
    );
}

/// The render of a sheet is that of its scene and samples, and of the sheet that comes back.
#[test]
fn a_sheet_sounds_as_its_scene() {
    let folder = folder("sheet-scene");
    let at = |name: &str| folder.join(name).display().to_string();
    let (scene, samples) = (at("night.txt"), at("night.wav"));
    let [one, two, three] = ["1.wav", "2.wav", "3.wav"].map(at);
    let again = at("again.show");
    for words in [
        &["compile", "-q", "examples/night/night.show", "-o", &scene, "-s", &samples] as &[&str],
        &["render", "examples/night", "-o", &one],
        &["render", &scene, &samples, "-o", &two],
        &["show", "--sheet", &scene, &samples, "-o", &again],
        &["render", &again, "-o", &three],
    ] {
        let output = run(words);
        assert_eq!(status(&output), 0, "{words:?}: {}", text(&output.stderr));
    }
    let [one, two, three] = [one, two, three].map(|file| fs::read(file).unwrap());
    assert!(one.len() > 600_000 && one == two && one == three);
}

/// Sheets with words changed, moved or left out are made into something or refused by a line; what is
/// made is explained as the proved routine answers, and comes back where it is accepted.
#[test]
fn damaged_sheets_are_answered() {
    let night = fs::read_to_string(root().join("examples/night/night.show")).unwrap();
    let night: String =
        night.lines().filter(|l| !l.contains("play")).map(|l| format!("{l}\n")).collect();
    let odd = [
        "-1",
        "0",
        "1e9",
        "99999999999",
        "-60 dB",
        "hall",
        "donor",
        "\"",
        "#",
        "->",
        "in",
        "s",
        "é",
    ];
    let mut random = Random(0xfeed_beef_1234);
    let (mut accepted, mut lines) = (0, 0);
    for _ in 0..3000 {
        let mut words: Vec<String> = night.split_inclusive([' ', '\n']).map(String::from).collect();
        for _ in 0..1 + random.below(3) {
            let (at, other) = (random.below(words.len()), random.below(words.len()));
            match random.below(4) {
                0 => drop(words.remove(at)),
                1 => words.swap(at, other),
                2 => words[at] = random.pick(&odd).to_string() + " ",
                _ => words.insert(at, words[other].clone()),
            }
        }
        let Ok(made) = compile(&words.concat()) else {
            lines += 1;
            continue;
        };
        let input = Input { file: made.scene.text(), names: made.names, ..Input::default() };
        let proved = room_desk::check(&input.file, Default::default());
        let explained = explain(&input.file, Default::default());
        assert_eq!(explained.map(|e| e.0), proved.err().map(|refusal| refusal.number()));
        if proved.is_ok() {
            assert_eq!(self::made(&sheet::write(&input, &made.scene)).text(), input.file);
            accepted += 1;
        }
    }
    assert!(accepted > 300 && lines > 300, "{accepted} accepted, {lines} lines refused");
}

/// What lies inside a track at -60 dB, or one that is held, is not heard; with a send it is.
#[test]
fn silent_tracks_hide_what_lies_inside() {
    let night = fs::read_to_string(root().join("examples/night/night.show")).unwrap();
    let render = |sheet: &str| {
        let made = sheet::compile(sheet, &root().join("examples/night"), Both::default()).unwrap();
        room_desk::render(&made.scene.text(), made.recordings.samples()).unwrap().samples
    };
    let other = night
        .replace("    track donor-low 0 dB", "    play bells.wav\n    track donor-low 6 dB")
        .replace(
            "    play name.wav for 1 s",
            "    play whisper.wav\n    track more\n        play sea.wav",
        );
    assert!(other != night && render(&night) == render(&other));
    let leak =
        night.replace("    track donor-low 0 dB", "    track donor-low 0 dB\n        to hall");
    assert!(render(&night) != render(&leak));
}
