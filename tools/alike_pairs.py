#!/usr/bin/env python3
"""Writes the stored pairs of scenes of the crate `test_alike_pairs`, on which the definition of `alike` is computed.

    tools/alike_pairs.py             writes specs/Pairs.antt, specs/Computed.antt and proofs/laws/Computed.antt, and prints what the pairs are examples of
    tools/alike_pairs.py --check     writes nothing, and says whether the files are as they would be written, spaces and line ends aside

The pairs are those of oracle/scripts/pairs.py, small ones of the seeds below: alike ones with an example of everything in FEATURES, and a control pair of
each kind, in which one rule is broken. `stored()` gives them to tools/render_vectors.py, so that their outputs are run too.
"""
import pathlib
import re
import sys

ROOT = pathlib.Path(__file__).resolve().parent.parent
sys.path.insert(0, str(ROOT / "oracle/scripts"))
import pairs  # noqa: E402

CRATE = ROOT / "crates/test_alike_pairs"
SEED, EACH, TRIES = 12, 3, 20000
# control pairs that no output tells apart: tools/render_vectors.py asks that all do
UNHEARD = {("loud-volume-order", 396)}
TABLES = tuple(pairs.NAMES)


def rows(scene):
    return sum(len(scene.tables[name]) for name in TABLES)


def sampled(scene):
    return len(scene.samples) + len(scene.visitor)


def work(scene):
    """About how much there is to compute: a declaration's steps are limited."""
    return 4 * rows(scene) + sampled(scene) + 2 * sum(row[2] for row in scene.sounds)


def small(pair, most_samples):
    return all(rows(s) <= 26 and sampled(s) <= most_samples and s.output_length() <= 300 for s in pair.scenes)


def silenced(pair):
    """The kinds of the chosen tracks of the first scene."""
    scene, chosen = pair.scenes[0], pair.chosen[0]
    return {"muted" if pairs.is_muted(scene, t) else "held" for t in chosen}


def sends_inside(pair):
    scene, chosen = pair.scenes[0], pair.chosen[0]
    held = [t for t in chosen if not pairs.is_muted(scene, t)]
    return any(row[0] in pairs.below(scene, t) for t in held for row in scene.routes)


def placed_outside(pair):
    """A spatial track outside, and a listener."""
    scene, chosen = pair.scenes[0], pair.chosen[0]
    inside = set(chosen).union(*(pairs.below(scene, t) for t in chosen))
    return scene.listener and any(row[0] not in inside for row in scene.placings)


FEATURES = {
    "both kinds mixed": lambda p: silenced(p) == {"muted", "held"},
    "other line numbers": lambda p: p.chosen[0] != p.chosen[1],
    "other counts of lines inside": lambda p: rows(p.scenes[0]) != rows(p.scenes[1]),
    "other sample lengths": lambda p: len(p.scenes[0].samples) != len(p.scenes[1].samples),
    "other visitor's lengths": lambda p: len(p.scenes[0].visitor) != len(p.scenes[1].visitor),
    "sounds inside from other buffers": lambda p: pairs.origins(p.scenes[0]) != pairs.origins(p.scenes[1]),
    "a spatial track outside": placed_outside,
    "other poses of silent tracks": lambda p: p.scenes[0].listener and pairs.poses(p, 0, True) != pairs.poses(p, 1, True),
    "other poses below silent tracks": lambda p: p.scenes[0].listener and pairs.poses(p, 0, False) != pairs.poses(p, 1, False),
    "nothing chosen": lambda p: not p.chosen[0],
    "a held track whose children have sends": sends_inside,
}


def corner_scene(inside, samples, visitor):
    """Tracks by name, four of which are silent, each at a corner of the words: `deep` is muted at depth 4 and has a volume order of exactly -60 dB,
    `muted` is not held, `held` is at depth 3 and not muted, `below` is held below a track that is paused itself. `inside` has the lines that may
    differ: tracks by (name, parent), sounds by (track, first, count, from), and placings by (track, pose). The last sound outside is from
    `inside["last"]`: the visitor has its frames too. `a` is spatial."""
    outside = [("a", None, 0), ("b", "a", 0), ("c", "b", 0), ("deep", "c", -60000), ("muted", "a", -60000), ("held", "b", 0), ("paused", None, 0)]
    outside.append(("below", "paused", 0))
    lines = []
    for name, parent, volume in outside:
        lines += [(name, parent, volume)] + [(inner, name, -300) for inner, owner in inside["tracks"] if owner == name]
    line = {name: i for i, (name, _, _) in enumerate(lines, 1)} | {None: 0}
    sounds = [("a", 0, 6, 0), ("c", 2, 4, 0), ("b", *inside["last"])] + inside["sounds"]
    pauses = [[0, 4, line[name], 0, 0, 0, 0, 0, 0, 0] for name in ("held", "below", "paused")]
    volumes = [[1, 1, line["deep"], -60000, 0, 0, 0, 2, 0, 0], [0, 1, line["muted"], -61000, 0, 1, 0, 1, 1, 2], [1, 0, 0, -3000, 0, 0, 0, 1, 0, 0]]
    made = pairs.Scene(
        head=[[8192, 2, 4, 8, 3, 0]],
        tracks=[[line[parent], volume] for _, parent, volume in lines],
        sends=[[0]],
        routes=[[line["b"], 1, -2000], [line["muted"], 1, 0]],
        sounds=[[line[track], *place] for track, *place in sounds],
        listener=[[0, 1000, -500]],
        placings=[[line[track], *pose] for track, *pose in inside["placings"] + [("a", 500, 1000, 0, 100, 9000)]],
        orders=pauses + volumes,
        samples=[pairs.bits(x / 16) for x in samples],
        visitor=[pairs.bits(x / 16) for x in visitor],
    )
    return made, [line[name] for name in ("deep", "muted", "held", "below")]


def corners():
    """A pair with all of them at once, so that a definition that asks more of silent tracks than it should says no to it."""
    heard = [8, -4, 3, 5, -7, 2, 6, 1, -2, 4, 9, -3]
    inside = {"tracks": [("x", "muted")], "sounds": [("deep", 0, 4, 0), ("x", 1, 3, 1), ("held", 2, 2, 0)], "last": (1, 5, 0)}
    inside["placings"] = [("x", 0, 0, 0, 0, 1), ("held", 5, 5, 5, 2, 7)]
    one = corner_scene(inside, heard + [1, 1], [5, 5, 5, 5, 5, 5, 5, 5])
    tracks = [("x", "muted"), ("y", "held"), ("z", "below")]
    inside = {"tracks": tracks, "sounds": [("muted", 5, 2, 1), ("y", 6, 2, 0), ("z", 0, 6, 1), ("below", 6, 1, 0)], "last": (2, 5, 1)}
    inside["placings"] = [("muted", -1000000, 0, 0, 0, 1000000), ("held", 5, 5, 5, 2, 8), ("z", 1, 2, 3, 4, 5)]
    other = corner_scene(inside, heard + [16, -16, 15, 7], [1, 2, 3, 4] + heard[2:])
    return pairs.Pair([one[0], other[0]], [one[1], other[1]])


def stored():
    """(name, pair) of the alike ones, and of the control pairs."""
    found, counts = [], dict.fromkeys(FEATURES, 0)
    for n in range(TRIES):
        if min(counts.values()) >= EACH:
            break
        pair = pairs.from_seed(SEED, n)
        if not small(pair, 160):
            continue
        here = [name for name, test in FEATURES.items() if test(pair)]
        if any(counts[name] < EACH for name in here):
            assert pairs.alike(pair)
            for name in here:
                counts[name] += 1
            found.append((f"pair{n}", pair))
    assert min(counts.values()) >= EACH and len(found) >= 12, counts
    found.append(("corners", corners()))
    assert pairs.alike(found[-1][1])
    controls = []
    for kind in pairs.CONTROLS:
        best = None
        for n in range(400):
            pair = pairs.from_seed(SEED, n, kind)
            size = sum(map(work, pair.scenes))
            if (best is None or size < best[0]) and (kind, n) not in UNHEARD:
                best = (size, pair)
        assert not pairs.alike(best[1])
        controls.append((kind, best[1]))
    return found, controls, counts


def listed(items):
    return " ∷ ".join([*items, "[]"])


def raised(n):
    return f"raised {n}" if n >= 0 else f"raised_minus {-n}"


def table(lines):
    return listed("(" + listed(raised(n) for n in line) + ")" for line in lines)


def side(scene, chosen):
    tables = listed("(" + table(scene.tables[name]) + ")" for name in TABLES)
    samples, visitor = (listed(str(b) for b in buffer) for buffer in scene.recordings())
    lines = listed(str(t - 1) for t in chosen)
    return f"record {{ tables = {tables}; bits = {samples}; visiting = {visitor}; chosen = {lines} }}"


def named(name):
    return re.sub(r"-(?=\d)", "", name).replace("-", "_")


def text(found, controls):
    out = [
        "-- Stored pairs of scenes, made by tools/alike_pairs.py: alike ones, and control pairs in which one rule is broken.",
        "use Rattle.std.specs.Prelude.{List, [], ◌∷◌}",
        "use Rattle.test_alike_pairs.specs.Side.{Pair}",
        "use Rattle.scene_tables.specs.Tables.{raised, raised_minus}",
        "",
    ]
    for names, group in (("alike_pairs", found), ("control_pairs", controls)):
        for name, pair in group:
            sides = [side(s, c) for s, c in zip(pair.scenes, pair.chosen)]
            out += [f"abbrev pub {named(name)} : Pair", f"{named(name)} =", f"    record {{", f"      one = {sides[0]};", f"      other = {sides[1]};", "    }", ""]
        out += [f"abbrev pub {names} : List Pair", f"{names} = {listed(named(name) for name, _ in group)}", ""]
    return "\n".join(out).rstrip("\n") + "\n"


CLAIM = """-- `alike` says yes of each stored pair that is alike, and no of each control pair; made by tools/alike_pairs.py. A pair has a declaration of its own, since
-- what one declaration may compute is limited.
"""
EACH_OF = CLAIM + """use Rattle.std.specs.Prelude.{Bool, List, [], ◌∷◌, T}
use Rattle.test_alike_pairs.specs.Side.{Pair}

-- every pair of a list
abbrev pub Each : (Pair → Bool) → List Pair → Type 0
Each f [] = Unit {0}
Each f (p ∷ l) = T (f p) × Each f l
"""
HEAD = CLAIM + """use mathlib.Core.Bool.{not}
use lib.Dec.{T}
use lib.Ieee.{to_bits, of_bits}
use Rattle.recordings.specs.Recordings.{recording}
use Rattle.laws.specs.Loop.{upto, changed}
use Rattle.laws.specs.Kept.{rank, kept_of}
use Rattle.scene_tables.specs.Bytes.{every}
use Rattle.scene_questions.specs.Questions.{parent_of}
use Rattle.noninterference.specs.Removed.{new_line, inside_within, inside, removed_track, names_removed, removed_route, removed_sound, removed_placing, removed_order, left_tables, renumbered, renumbered_order, lines_left}
use Rattle.noninterference.specs.Silent.{silent_volume, names, muted, held, pauses_or_resumes, is_holding}
use Rattle.noninterference.specs.Alike.{same, unplaced, same_tables, chosen_left, frames_left, same_bits, silent_choice, alike}
use Rattle.test_alike_pairs.specs.Side.{choice_of, alike_pair}
use Rattle.test_alike_pairs.specs.Pairs.{PAIRS}
use Rattle.test_alike_pairs.specs.Computed.{Each}
"""
UNFOLDED = (
    "alike_pair choice_of recording alike same_tables same unplaced chosen_left frames_left same_bits silent_choice to_bits of_bits left_tables "
    "lines_left kept_of changed renumbered renumbered_order new_line rank inside_within inside removed_track removed_route removed_sound "
    "removed_placing removed_order names_removed parent_of muted silent_volume names held pauses_or_resumes is_holding every upto"
)


def computed(found, controls):
    all_names = [named(name) for name, _ in found + controls] + ["alike_pairs", "control_pairs"]
    out = [HEAD.replace("PAIRS", ", ".join(all_names))]
    for group, claim, suffix in ((found, "alike_pair {}", "_alike"), (controls, "not (alike_pair {})", "-not")):
        for name, _ in group:
            own = f"{named(name)}{suffix}"
            out.append(f"{own} : T ({claim.format(named(name))})\nunfolding {UNFOLDED}\n{own} = tt\n")
    for name, test, group, suffix, pairs_name in (
        ("all_alike", "alike_pair", found, "_alike", "alike_pairs"),
        ("no_control", "(λ p. not (alike_pair p))", controls, "-not", "control_pairs"),
    ):
        proofs = ", (".join(f"{named(n)}{suffix}" for n, _ in group)
        out.append(f"pub {name} : Each {test} {pairs_name}\n{name} = ({proofs}, tt{')' * len(group)}\n")
    return "\n".join(out)


def main():
    found, controls, counts = stored()
    files = {"specs/Pairs.antt": text(found, controls), "specs/Computed.antt": EACH_OF, "proofs/laws/Computed.antt": computed(found, controls)}
    if sys.argv[1:] == ["--check"]:
        same = all((CRATE / name).read_text().split() == written.split() for name, written in files.items())
        print("as they would be written" if same else "not as they would be written")
        sys.exit(not same)
    for name, written in files.items():
        (CRATE / name).write_text(written)
    print(f"{len(found)} alike pairs:", ", ".join(f"{name} {n}" for name, n in counts.items()))
    print(f"{len(controls)} control pairs:", ", ".join(kind for kind, _ in controls))


if __name__ == "__main__":
    main()
