//! Pictures: the stored ones, well-formed markup, names that try to break out of it.

mod common;

use std::fs;

use common::{folder, root, run, run_in, status, text};

fn picture(show: &str) -> String {
    let output = run(&["picture", show]);
    assert_eq!(status(&output), 0, "{}", text(&output.stderr));
    text(&output.stdout)
}

/// Tags close in the order in which they open, and `&` begins an entity.
fn assert_well_formed(svg: &str) {
    let mut open = vec![];
    for part in svg.split('<').skip(1) {
        let (tag, behind) = part.split_once('>').expect("a tag that does not end");
        let name = tag.split([' ', '/']).find(|word| !word.is_empty()).unwrap_or("");
        match (tag.starts_with('/'), tag.ends_with('/')) {
            (true, _) => assert_eq!(open.pop().as_deref(), Some(name)),
            (false, true) => {}
            (false, false) => open.push(name.to_string()),
        }
        assert_eq!(tag.matches('\'').count() % 2, 0, "{tag}");
        for entity in behind.split('&').skip(1) {
            assert!(["amp;", "lt;", "gt;", "#39;"].iter().any(|known| entity.starts_with(known)));
        }
    }
    assert!(open.is_empty());
}

/// `rust/run --pictures` writes them anew, to be looked at before they are kept.
#[test]
fn stored_pictures() {
    for show in ["examples/night/night", "examples/leak/leak"] {
        let drawn = picture(&format!("{show}.show"));
        assert_well_formed(&drawn);
        let path = root().join(format!("{show}.svg"));
        if std::env::var_os("ROOM_DESK_PICTURES").is_some() {
            fs::write(&path, &drawn).unwrap();
        }
        let stored = fs::read_to_string(&path).unwrap_or_default();
        assert!(drawn == stored, "{show}.svg is not what is drawn now");
    }
}

#[test]
fn a_leak_is_red() {
    let leak = picture("examples/leak/leak.show");
    assert!(leak.contains("NOT silent: donor-low through hall is heard"));
    assert!(!picture("examples/night/night.show").contains("NOT silent"));
}

#[test]
fn every_stored_scene_is_drawn() {
    for case in common::stored() {
        if case.input().ask().is_ok() {
            assert_well_formed(&picture(&format!("oracle/scenes/{}", case.name)));
        }
    }
}

#[test]
fn names_are_escaped() {
    let folder = folder("names");
    let sheet =
        "rate 8000\nlength 10 ms\ntrack a&b'c\n    play house\nat 1 ms set a&b'c to -3 dB\n";
    fs::write(folder.join("x&'y.show"), sheet).unwrap();
    let output = run_in(&folder, &["picture", "x&'y.show"]);
    let drawn = text(&output.stdout);
    assert_eq!(status(&output), 0, "{}", text(&output.stderr));
    assert_well_formed(&drawn);
    assert!(drawn.contains("a&amp;b&#39;c") && drawn.contains("x&amp;&#39;y.show"));
}
