#!/usr/bin/env python3
"""Writes the list of the program `test_render`: scenes, and the oracle's answers.

    tools/render_vectors.py ORACLE             writes crates/test_render/stdin and stdout
    tools/render_vectors.py ORACLE --check     writes nothing, and says whether they are as it would write them

The scenes are the stored ones of oracle/scenes whose output is at most 600 samples long, generated ones with short outputs (seed below), and both scenes of
each pair of tools/alike_pairs.py and of some generated alike pairs that sound. It fails unless 200 scenes are there beside the pairs, and among them 1, 2, 3 and 8 channels, every easing, and orders of
every kind; and unless the two outputs of each alike pair are equal in every bit, and those of each control pair differ.
"""
import pathlib
import struct
import subprocess
import sys

import alike_pairs
import scene_vectors
from case_stream import answers, as_library, joined, split, store, stored

ROOT = pathlib.Path(__file__).resolve().parent.parent
CRATE = ROOT / "crates/test_render"
SEED, MADE, WANTED = 8, 6000, 170
PAIRS_MADE, PAIRS_WANTED = 800, 12
ROOM = 500000  # bytes that the program can read
HELD = struct.unpack("<I", struct.pack("<f", 0.75))[0]  # what the program's output holds before a call, so that a refusal that clears it is seen


def tables_of(scene):
    return [[line.split() for line in block.split("\n")[1:] if line] for block in scene.decode().split("\n\n")]


def sampled(case):
    """The bytes of both sample files."""
    return len(case[2]) + len(case[3])


def marks(scene):
    """What a scene is an example of."""
    tables = tables_of(scene)
    found = {("channels", tables[0][0][1])} | {("from", sound[3]) for sound in tables[5]}
    if tables[7]:
        found.add(("spatial", "heard" if tables[6] else "without a listener"))
    for order in tables[8]:
        found |= {("kind", order[1]), ("easing", order[8], order[9])}
        found |= {("start", "clock" if order[4] != "0" else "delay" if order[5] != "0" else "at once")}
    return found


def chosen(oracle):
    named = [(0, *stored(folder), 0) for folder in sorted((ROOT / "oracle/scenes").iterdir())]
    named = [case for case in as_library(oracle, named) if case[-1] <= 600 and sampled(case) <= 16384]
    command = [sys.executable, ROOT / "oracle/scripts/cases.py", "scenes", str(SEED), str(MADE)]
    made = as_library(oracle, split(subprocess.run(command, stdout=subprocess.PIPE, check=True).stdout))
    made = [case for case in made if 0 < case[-1] <= 200 and len(case[1]) + sampled(case) <= 3200]
    seen, picked, others = set().union(*(marks(case[1]) for case in named if case[-1])), [], []
    for case in made:
        new = marks(case[1]) - seen
        seen |= new
        (picked if new else others).append(case)
    cases = named + picked + others[: max(0, WANTED - len(picked))]
    missing = {("channels", n) for n in "1238"} | {("kind", n) for n in "012345"} | {("easing", "0", "0")}
    missing |= {("easing", e, p) for e in "123" for p in "12345678"}
    missing |= {("start", how) for how in ("at once", "delay", "clock")}
    missing |= {("from", n) for n in "01"} | {("spatial", how) for how in ("heard", "without a listener")}
    missing -= set().union(*(marks(case[1]) for case in cases if case[-1]))
    assert not missing, missing
    assert len(cases) >= 200, len(cases)
    return cases


def both_cases(pair):
    return [(1, scene.text(), *scene.sample_bytes(), scene.output_length()) for scene in pair.scenes]


def sounding(oracle):
    """Alike pairs with some track chosen, ten samples of whose outputs sound: most stored pairs are silent."""
    made = [alike_pairs.pairs.from_seed(SEED, n) for n in range(PAIRS_MADE)]
    made = [pair for pair in made if pair.chosen[0] and alike_pairs.pairs.alike(pair)]
    made = [both for both in map(both_cases, made) if all(case[-1] <= 200 and sampled(case) <= 2400 for case in both)]
    loud = [both for both in made if sum(n % 2**31 > 0 for n in answers([oracle, "batch"], both)[0][1]) >= 10]
    assert len(loud) >= PAIRS_WANTED, len(loud)
    return loud[:PAIRS_WANTED]


def paired(oracle):
    """The scenes of pairs, the two of a pair in turn: of the alike ones, and of the control pairs."""
    alike, control = ([both_cases(pair) for _, pair in group] for group in alike_pairs.stored()[:2])
    return sum(alike + sounding(oracle), []), sum(control, [])


def differing(answered):
    """Of how many pairs, all accepted, the two outputs differ in some bit."""
    assert all(number == 0 for number, _ in answered)
    return sum(one != other for one, other in zip(answered[::2], answered[1::2]))


def refused():
    """For each number from 1 to 10 the first three small inputs that get it, with an output of some samples: it must keep what it held."""
    picked = []
    for number in range(1, 11):
        found = [v for v in scene_vectors.VECTORS if v[1] == number and len(v[2]) <= 2000 and 0 < v[-1] <= 200][:3]
        assert found, number
        picked += [(1, text, *(struct.pack(f"<{len(samples)}f", *samples) for samples in both), length) for _, _, text, *both, length in found]
    return picked


def main():
    oracle = sys.argv[1]
    groups = [chosen(oracle), *paired(oracle), refused()]
    by_group = [answers([oracle, "batch"], group) for group in groups]
    alike, control = (len(group) // 2 for group in groups[1:3])
    assert [differing(group) for group in by_group[1:3]] == [0, control]
    assert {number for number, _ in by_group[3]} == set(range(1, 11))
    cases, answered = sum(groups, []), sum(by_group, [])
    lines = [n for case, (number, samples) in zip(cases, answered) for n in (number, *(samples if number == 0 else [HELD] * case[-1]))]
    files = {"stdin": joined(cases), "stdout": "".join(f"{n}\n" for n in lines).encode()}
    assert len(files["stdin"]) <= ROOM, len(files["stdin"])
    store(CRATE, files, sys.argv[2:] == ["--check"])
    silent = sum(not any(samples) for number, samples in answered if number == 0)
    print(f"{len(cases)} scenes, {len(lines) - len(cases)} samples, {silent} silent, {len(files['stdin'])} bytes in, {len(files['stdout'])} out")
    print(f"{alike} alike pairs, outputs equal in every bit; {control} control pairs, outputs that differ")


main()
