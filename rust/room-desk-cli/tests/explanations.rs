//! Damaged scenes: the explanation's number is always the proved routine's, and it names places.
//! ROOM_DESK_ROUNDS sets how many; ROOM_DESK_CASES names a stream of oracle/scripts/cases.py.

mod common;

use std::{env, fs};

use common::{Case, Random, stored};
use room_desk_cli::input::Trouble;
use room_desk_cli::paint::Paint;
use room_desk_cli::recordings::raw;
use room_desk_cli::report;
use room_desk_cli::scene::explain;

const VALUES: [&str; 34] = [
    "0",
    "1",
    "-1",
    "2",
    "3",
    "4",
    "5",
    "6",
    "8",
    "9",
    "33",
    "512",
    "513",
    "999",
    "1000",
    "1023",
    "1024",
    "18000",
    "18001",
    "-96000",
    "-96001",
    "60000000",
    "1000000",
    "1000001",
    "2147483647",
    "2147483648",
    "-2147483648",
    "7999",
    "00",
    "-0",
    "+1",
    "",
    "x",
    "1.5",
];

fn lines(text: &[u8]) -> Vec<Vec<u8>> {
    text.split(|&byte| byte == b'\n').map(<[u8]>::to_vec).collect()
}

/// One thing that a hand or a program might do to a scene.
fn damage(case: &mut Case, random: &mut Random) {
    let text = &mut case.scene;
    match random.below(20) {
        0 if !text.is_empty() => {
            let at = random.below(text.len());
            text[at] = random.pick(b" \n0-19a\r\t#");
        }
        1 if !text.is_empty() => {
            text.remove(random.below(text.len()));
        }
        2 => text.insert(random.below(text.len() + 1), random.pick(b" \n0-1")),
        3..=6 => {
            let mut all = lines(text);
            let at = random.below(all.len());
            let line = all[at].clone();
            let times = random.pick(&[1, 1, 2, 40, 130]);
            all.splice(at..at, std::iter::repeat_n(line, times));
            *text = all.join(&b'\n');
        }
        7 if !case.house.is_empty() => {
            let at = random.below(case.house.len());
            let value = random.pick(&[f32::NAN, 1.0, -1.0, 1.000_000_1, -0.0, f32::INFINITY]);
            case.house[at] = value;
        }
        8 => case.house.truncate(random.below(case.house.len() + 1)),
        9 => case.visitor = vec![random.pick(&[0.0, 2.0, f32::NAN]); random.below(4)],
        _ => {
            let mut all = lines(text);
            let at = random.below(all.len());
            let mut words: Vec<Vec<u8>> =
                all[at].split(|&b| b == b' ').map(<[u8]>::to_vec).collect();
            let word = random.below(words.len());
            if words[word].first().is_some_and(|byte| !byte.is_ascii_alphabetic()) {
                words[word] = random.pick(&VALUES).into();
            }
            all[at] = words.join(&b' ');
            *text = all.join(&b'\n');
        }
    }
}

/// The proved number, which the explanation must have too.
fn compare(case: &Case, seen: &mut [usize; 11]) {
    let input = case.input();
    let samples = input.recordings.samples();
    let proved = room_desk::check(&case.scene, samples).err().map_or(0, |refusal| refusal.number());
    let explained = explain(&case.scene, samples);
    let number = explained.as_ref().map_or(0, |explained| explained.0);
    assert_eq!(number, proved, "{}:\n{}", case.name, String::from_utf8_lossy(&case.scene));
    seen[proved as usize] += 1;
    if proved > 0 {
        assert!(explained.is_some_and(|explained| !explained.1.is_empty()));
        let text = report::trouble(&input, &Trouble::Number(proved), Paint::default());
        assert!(text.starts_with(&format!("refused {proved}: ")) && text.contains("allowed: "));
    }
}

#[test]
fn damaged_scenes_are_explained() {
    let rounds = env::var("ROOM_DESK_ROUNDS").ok().and_then(|n| n.parse().ok()).unwrap_or(20_000);
    let stored = stored();
    let mut random = Random(0x1234_5678_9abc_def1);
    let mut seen = [0; 11];
    for _ in 0..rounds {
        let mut case = random.pick(&stored);
        for _ in 0..1 + random.below(3) {
            damage(&mut case, &mut random);
        }
        compare(&case, &mut seen);
    }
    println!("{rounds} damaged scenes, numbers 0 to 9: {:?}", &seen[..10]);
    assert!(seen[..10].iter().all(|&count| count > rounds / 2000), "{seen:?}");
}

#[test]
fn stored_scenes_are_explained() {
    let mut seen = [0; 11];
    for case in stored() {
        compare(&case, &mut seen);
    }
}

/// The cases that the oracle's scripts damage, each question in its own ways.
#[test]
fn cases_of_a_stream_are_explained() {
    let Some(path) = env::var_os("ROOM_DESK_CASES") else { return };
    let bytes = fs::read(path).unwrap();
    let mut rest = &bytes[..];
    let mut seen = [0; 11];
    while !rest.is_empty() {
        let mut word = || {
            let (first, behind) = rest.split_at(4);
            rest = behind;
            u32::from_le_bytes(first.try_into().unwrap()) as usize
        };
        let [_kind, scene, house, visitor, _output] = [word(), word(), word(), word(), word()];
        let mut part = |length| {
            let (first, behind) = rest.split_at(length);
            rest = behind;
            first.to_vec()
        };
        let name = "a case of the stream".into();
        let (scene, house, visitor) = (part(scene), raw(&part(house)), raw(&part(visitor)));
        compare(&Case { name, scene, house, visitor }, &mut seen);
    }
    println!("{} cases, numbers 0 to 9: {:?}", seen.iter().sum::<usize>(), &seen[..10]);
}

#[test]
fn a_refusal_points_at_the_field() {
    let mut case = stored().into_iter().find(|case| case.name == "row-sample-scene").unwrap();
    case.name = "night.txt".into();
    let text = String::from_utf8(case.scene.clone()).unwrap();
    let names = "block kind index volume clock when part millis easing power\n";
    let until = text.find(names).unwrap() + names.len();
    case.scene = (text[..until].to_string() + "0 1 1 -6000 0 500 0 0 0 0\n").into_bytes();
    let line = String::from_utf8_lossy(&case.scene).lines().count();
    let text = report::trouble(&case.input(), &Trouble::Number(4), Paint::default());
    let expected = format!(
        "refused 4: a field is out of its range\n\
         night.txt:{line}:21: orders, line 1: millis is 0 in an order that waits\n    \
         0 1 1 -6000 0 500 0 0 0 0\n                        ^\n    \
         allowed: 1..3600000 where an order of kinds 0 to 4 has a clock or a `when` above 0\n"
    );
    assert_eq!(text, expected);
}
