//! The command as people and scripts meet it: statuses, streams, wrong calls, files that fail.

mod common;

use std::fs;
use std::io::Write;
use std::process::{Command, Stdio};

use common::{folder, root, run, run_in, status, stored, text};

const FIRST: &str = "examples/first";

#[test]
fn statuses() {
    for (words, expected, stream) in [
        (&["check", FIRST] as &[&str], 0, "accepted: 2 frames"),
        (&["check", "-q", FIRST], 0, "0\n"),
        (&["check", "examples/first/scene.txt"], 1, "refused 8"),
        (&["check", "-q", "examples/first/scene.txt"], 1, "8\n"),
        (&["render", "examples/first/scene.txt", "-o", "/nowhere/x.wav"], 1, "refused 8"),
        (&["show", FIRST], 0, "2 channels"),
        (&["show", "examples/first/scene.txt"], 0, "so that silence is not asked"),
        (&["new"], 0, "# A show sheet"),
        (&[], 2, "no command is named"),
        (&["play"], 2, "no command `play`"),
        (&["render"], 2, "no scene"),
        (&["render", "--sheet", FIRST], 2, "render takes no --sheet"),
        (&["render", FIRST, "-f", "mp3"], 2, "no format `mp3`"),
        (&["render", FIRST, "-o"], 2, "-o needs a value"),
        (&["check", "--color=pink", FIRST], 2, "no colour `pink`"),
        (&["check", "-", "-"], 2, "named twice"),
        (&["check", "-", "--visitor", "-"], 2, "named twice"),
        (&["check", "--silent", "1", FIRST], 1, "silen"),
        (&["check", "--", "--nothing"], 3, "--nothing: No such file"),
        (&["check", "/nowhere"], 3, "/nowhere: No such file"),
        (&["check", "docs"], 3, "docs: no scene.txt and no show sheet"),
        (&["render", FIRST, "-o", "/nowhere/x.wav"], 3, "/nowhere/x.wav"),
        (&["render", FIRST, "-o", "docs"], 3, "docs: it is a folder"),
        (&["compile", FIRST], 2, "is no show sheet"),
        (&["convert", "a"], 2, "convert takes two files"),
        (&["help", "nothing"], 2, "no command `nothing`"),
    ] {
        let output = run(words);
        let said = text(&output.stdout) + &text(&output.stderr);
        assert_eq!(status(&output), expected, "{words:?}: {said}");
        assert!(said.contains(stream), "{words:?}: {said}");
    }
}

/// A track that is at -60 dB, one that is held, one inside, one that leaks.
#[test]
fn silence_is_the_routines() {
    let output = run(&["check", "examples/night"]);
    let said = text(&output.stdout);
    assert!(status(&output) == 0 && said.contains("silent: donor, muted"), "{said}");
    assert!(said.contains("silent: spare, held"), "{said}");
    let output = run(&["check", "examples/night", "--silent", "donor-low", "--silent", "bells"]);
    let said = text(&output.stdout);
    assert!(status(&output) == 1 && said.contains("silent: donor-low, inside donor"), "{said}");
    assert!(said.contains("not proved silent: bells"), "{said}");
    let output = run(&["check", "examples/leak", "--silent", "donor"]);
    let said = text(&output.stdout);
    let why = "not proved silent: donor, since donor-low below it goes to hall";
    assert!(status(&output) == 1 && said.contains(why), "{said}");
}

#[test]
fn help_of_every_command() {
    for words in [&["--help"] as &[_], &["-h"], &["help"], &["help", "render"]] {
        let output = run(words);
        assert!(status(&output) == 0 && text(&output.stdout).contains("usage: room-desk"));
    }
    for command in room_desk_cli::args::COMMANDS {
        let output = run(&[command, "--help"]);
        assert_eq!(status(&output), 0);
        let said = text(&output.stdout);
        assert!(said.starts_with(&format!("usage: room-desk {command}")), "{said}");
        for spec in &room_desk_cli::args::SPECS {
            let everywhere = ["--help", "--color"].contains(&spec.long);
            let named = said.contains(spec.long);
            assert_eq!(
                named,
                spec.commands.contains(&command) && !everywhere,
                "{command} {}",
                spec.long
            );
        }
    }
    assert!(text(&run(&["--version"]).stdout).starts_with("room-desk 0."));
}

/// `render -f text` of each stored scene is what is stored.
#[test]
fn stored_scenes_as_text() {
    for case in stored() {
        let folder = format!("oracle/scenes/{}", case.name);
        let expected = fs::read_to_string(root().join(&folder).join("output.txt")).unwrap();
        let output = run(&["render", &folder, "-f", "text", "-o", "-"]);
        match expected.strip_prefix("refused\n") {
            None => assert_eq!(text(&output.stdout), expected, "{folder}"),
            Some(number) => {
                let first = format!("refused {}: ", number.trim());
                let said = text(&output.stderr);
                assert!(status(&output) == 1 && said.starts_with(&first), "{folder}: {said}");
                assert!(output.stdout.is_empty());
            }
        }
    }
}

#[test]
fn standard_input_is_a_scene() {
    let scene = fs::read(root().join("examples/first/scene.txt")).unwrap();
    let mut command = Command::new(env!("CARGO_BIN_EXE_room-desk"));
    command.args(["check", "-", "examples/first/samples.raw"]).current_dir(root());
    let mut child = command.stdin(Stdio::piped()).stdout(Stdio::piped()).spawn().unwrap();
    child.stdin.take().unwrap().write_all(&scene).unwrap();
    let output = child.wait_with_output().unwrap();
    assert!(output.status.success() && text(&output.stdout).starts_with("accepted"));
}

#[test]
fn a_full_device_is_told_and_leaves_nothing() {
    for words in [
        &["render", FIRST, "-o", "/dev/full"] as &[_],
        &["picture", FIRST, "-o", "/dev/full"],
        &["new", "-o", "/dev/full"],
    ] {
        let output = run(words);
        assert_eq!(status(&output), 3, "{words:?}");
        assert!(text(&output.stderr).contains("No space left on device"));
    }
    let full = fs::OpenOptions::new().write(true).open("/dev/full").unwrap();
    let mut command = Command::new(env!("CARGO_BIN_EXE_room-desk"));
    let status = command.args(["show", FIRST]).current_dir(root()).stdout(full).status().unwrap();
    assert_eq!(status.code(), Some(3));
}

#[test]
fn a_closed_pipe_is_no_trouble() {
    let mut command = Command::new("sh");
    let script = format!(
        "'{}' render examples/night -f text -o - | head -n 1; exit 0",
        env!("CARGO_BIN_EXE_room-desk")
    );
    let output = command.args(["-c", &script]).current_dir(root()).output().unwrap();
    assert_eq!(text(&output.stdout), "block place bits\n");
    assert!(!text(&output.stderr).contains("panicked"));
}

#[test]
fn a_refusal_leaves_the_old_file() {
    let folder = folder("old-file");
    let old = folder.join("x.wav");
    fs::write(&old, "old").unwrap();
    let path = old.display().to_string();
    assert_eq!(status(&run(&["render", "examples/first/scene.txt", "-o", &path])), 1);
    assert_eq!(fs::read(&old).unwrap(), b"old");
    assert_eq!(status(&run(&["render", FIRST, "-o", &path])), 0);
    assert!(fs::read(&old).unwrap().starts_with(b"RIFF"));
    assert_eq!(fs::read_dir(&folder).unwrap().count(), 1);
}

/// Above two channels there is one mono file a channel.
#[test]
fn many_channels_are_many_files() {
    let folder = folder("channels");
    let scene = fs::read_to_string(root().join("examples/first/scene.txt")).unwrap();
    fs::write(folder.join("scene.txt"), scene.replace("8192 2 128", "8192 4 128")).unwrap();
    fs::copy(root().join("examples/first/samples.raw"), folder.join("samples.raw")).unwrap();
    assert_eq!(status(&run_in(&folder, &["render", ".", "-o", "out.wav"])), 0);
    for channel in 1..=4 {
        let file = fs::read(folder.join(format!("out-{channel}.wav"))).unwrap();
        let info = room_desk::wave::info(&file).unwrap();
        assert_eq!((info.channels, info.frames, info.rate), (1, 2, 8192));
    }
    let output = run_in(&folder, &["render", ".", "-o", "-"]);
    assert!(status(&output) == 2 && text(&output.stderr).contains("-f raw"));
}

#[test]
fn float_files_have_every_sample() {
    let folder = folder("float");
    let path = |name: &str| folder.join(name).display().to_string();
    let (wav, raw, sixteen) = (path("n.wav"), path("n.raw"), path("n16.wav"));
    for words in [
        &["render", "examples/night", "-o", &wav] as &[&str],
        &["render", "examples/night", "-o", &raw],
        &["render", "examples/night", "-f", "wav16", "-o", &sixteen],
    ] {
        assert_eq!(status(&run(words)), 0);
    }
    let sound = room_desk::wave::read(&fs::read(&wav).unwrap()).unwrap();
    let exact: Vec<u8> = sound.samples.iter().flat_map(|sample| sample.to_le_bytes()).collect();
    assert_eq!(exact, fs::read(&raw).unwrap());
    assert_eq!(room_desk::wave::info(&fs::read(&sixteen).unwrap()).unwrap().bits, 16);
}

#[test]
fn recordings_of_another_rate_are_refused() {
    let words = ["check", "examples/first/scene.txt", "examples/night/name.wav"];
    let output = run(&words);
    let said = text(&output.stdout);
    assert!(status(&output) == 1 && said.contains("8000 frames a second, the show 8192"), "{said}");
    assert!(said.contains("sox examples/night/name.wav -r 8192"), "{said}");
    let any: Vec<&str> = words.into_iter().chain(["--any-rate"]).collect();
    assert_eq!(status(&run(&any)), 0);
}

#[test]
fn wrong_recordings_are_answered_with_what_mends_them() {
    let folder = folder("recordings");
    let wave = fs::read(root().join("examples/night/name.wav")).unwrap();
    let put = |name: &str, bytes: &[u8]| fs::write(folder.join(name), bytes).unwrap();
    let mut deep = wave.clone();
    deep[34] = 24;
    put("deep.wav", &deep);
    let mut long = wave.clone();
    long[16] = 18;
    put("long format.wav", &long);
    put("cut.wav", &wave[..wave.len() - 7]);
    put("song.flac", b"fLaC and more");
    put("odd.raw", &[0; 11]);
    let scene = root().join("examples/first/scene.txt").display().to_string();
    for (file, parts) in [
        ("deep.wav", ["refused 15", "sox deep.wav -b 16 deep-16.wav"]),
        ("long format.wav", ["its format chunk has 18 bytes", "sox 'long format.wav' -b 16"]),
        ("cut.wav", ["refused 14", "copy it again"]),
        ("song.flac", ["refused 13", "it is a FLAC file"]),
    ] {
        let output = run_in(&folder, &["check", &scene, file]);
        let said = text(&output.stdout);
        assert!(status(&output) == 1 && parts.iter().all(|part| said.contains(part)), "{said}");
    }
    let first = root().join("examples/first/samples.raw").display().to_string();
    let output = run_in(&folder, &["check", &scene, &first, "odd.raw"]);
    assert!(text(&output.stdout).contains("odd.raw: 3 bytes behind the last whole sample"));
}

#[test]
fn converting_there_and_back() {
    let folder = folder("convert");
    let wave = fs::read(root().join("examples/night/name.wav")).unwrap();
    fs::write(folder.join("a.wav"), &wave).unwrap();
    assert_eq!(status(&run_in(&folder, &["convert", "a.wav", "b.aiff"])), 0);
    assert_eq!(status(&run_in(&folder, &["convert", "b.aiff", "c.wav"])), 0);
    assert_eq!(fs::read(folder.join("c.wav")).unwrap(), wave);
    assert_eq!(status(&run_in(&folder, &["convert", "a.wav", "d.wav"])), 2);
    assert_eq!(status(&run_in(&folder, &["convert", "a.wav", "d.mp3"])), 2);
}

#[test]
fn colours_on_demand() {
    let coloured = run(&["check", "--color", "always", FIRST]);
    assert!(text(&coloured.stdout).starts_with("\x1b[32;1maccepted"));
    assert!(text(&run(&["check", FIRST]).stdout).starts_with("accepted"));
}
