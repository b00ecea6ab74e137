//! The routines as a Rust program meets them: the stored scenes of the oracle, and a small stack.

use std::fs;
use std::path::{Path, PathBuf};
use std::thread;

use room_desk::{Recordings, Refusal};

fn root() -> PathBuf {
    Path::new(env!("CARGO_MANIFEST_DIR")).join("../..")
}

fn samples(path: PathBuf) -> Vec<f32> {
    let bytes = fs::read(path).unwrap_or_default();
    let words = bytes.chunks_exact(4);
    words.map(|word| f32::from_le_bytes(word.try_into().unwrap())).collect()
}

/// What the render program would print, of the same scene by the library.
fn printed(folder: &Path) -> String {
    let scene = fs::read(folder.join("scene.txt")).unwrap_or_default();
    let (house, visitor) =
        (samples(folder.join("samples.raw")), samples(folder.join("visitor.raw")));
    match room_desk::render(&scene, Recordings { house: &house, visitor: &visitor }) {
        Err(refusal) => format!("refused\n{}\n", refusal.number()),
        Ok(show) => {
            let block = show.shape.block * show.shape.channels;
            let mut text = String::from("block place bits\n");
            for (at, sample) in show.samples.iter().enumerate() {
                text += &format!("{} {} {}\n", at / block, at % block, sample.to_bits());
            }
            text
        }
    }
}

#[test]
fn stored_scenes_sound_as_stored() {
    let mut count = 0;
    for entry in fs::read_dir(root().join("oracle/scenes")).unwrap() {
        let folder = entry.unwrap().path();
        let expected = fs::read_to_string(folder.join("output.txt")).unwrap();
        assert!(printed(&folder) == expected, "{}", folder.display());
        count += 1;
    }
    assert!(count >= 69, "{count} scenes");
}

/// The first example's tables with other lines, by their names lines.
fn scene(lines: &[(&str, String)]) -> Vec<u8> {
    let first = fs::read_to_string(root().join("examples/first/scene.txt")).unwrap();
    let names = first.trim_end().split("\n\n").map(|table| table.lines().next().unwrap());
    let table = |names: &str| {
        let own = lines.iter().find(|(of, _)| *of == names).map_or("", |(_, lines)| lines);
        format!("{names}\n{own}")
    };
    names.map(table).collect::<Vec<_>>().join("\n").into_bytes()
}

/// 32 tracks in chains of four, 64 sounds, 64 routes, 8 send tracks, 8 clocks, 8 channels.
fn largest() -> Vec<u8> {
    let parent = |line: usize| if line.is_multiple_of(4) { 0 } else { line };
    let route = |route: usize| format!("{} {} -6000\n", route / 2 + 1, route % 8 + 1);
    scene(&[
        ("rate channels buffer block blocks volume", "48000 8 256 512 1024 0\n".into()),
        ("unit speed ticking", "0 500 1\n".repeat(8)),
        ("parent volume", (0..32).map(|line| format!("{} -3000\n", parent(line))).collect()),
        ("volume", "-3000\n".repeat(8)),
        ("track send volume", (0..64).map(route).collect()),
        (
            "track first count from",
            (0..64).map(|s| format!("{} {s} 8000 0\n", s % 32 + 1)).collect(),
        ),
    ])
}

#[test]
fn the_largest_show_fits_a_small_stack() {
    let samples: Vec<f32> = (0..20_000).map(|n| (n % 64) as f32 / 4096.0).collect();
    let thread = thread::Builder::new().stack_size(512 * 1024);
    let render = move || room_desk::render(&largest(), Recordings::house(&samples));
    let show = thread.spawn(render).unwrap().join().unwrap().unwrap();
    assert_eq!(show.samples.len(), show.shape.output_length());
    assert_eq!(show.shape.frames(), 524_288);
}

/// What the header says that a render needs, refused or not.
#[test]
fn a_show_and_a_refusal_need_less_than_288_kib() {
    let first = root().join("examples/first");
    let shows = [(fs::read(first.join("scene.txt")).unwrap(), true), (largest(), false)];
    for (scene, accepted) in shows {
        let samples = samples(first.join("samples.raw"));
        let mut output = vec![0.0; 512 * 1024 * 8];
        let thread = thread::Builder::new().stack_size(288 * 1024);
        let render = move || {
            let length = if accepted { 4 } else { output.len() };
            room_desk::render_into(&scene, Recordings::house(&samples), &mut output[..length])
        };
        let answer = thread.spawn(render).unwrap().join().unwrap();
        assert_eq!(answer.is_ok(), accepted, "{answer:?}");
    }
}

#[test]
fn a_refusal_writes_nothing() {
    let mut output = [7.0; 3];
    let refused = room_desk::render_into(&largest(), Recordings::default(), &mut output);
    assert_eq!(refused, Err(Refusal::SoundPastSamples));
    assert_eq!(output, [7.0; 3]);
}
