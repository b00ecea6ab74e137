#!/usr/bin/env python3
"""Runs all that the oracle must show, and says how often.

    check.py            5,000 scenes, 5,000 damaged inputs, 2,000 pairs, 300 of each control
    check.py --quick    a tenth of each
"""
import itertools
import struct
import subprocess
import sys
import time
from collections import Counter

import cases
import features
import gain_table
import models
import named
import pairs
import scenes
import vectors
from tables import Random, bits, double_bits

ORACLE = named.FOLDER.parent / "target" / "release" / "oracle"
SEED = 20260101
BATCH = 250
results = []


def report(name, passed, text=""):
    results.append(passed)
    print(f"{'ok    ' if passed else 'FAILED'} {name}{': ' if text else ''}{text}", flush=True)


def oracle(*words, data=b""):
    return subprocess.run([ORACLE, *words], input=data, stdout=subprocess.PIPE, check=True).stdout


def leaf(requests):
    return oracle("leaf", data="".join(f"{r}\n" for r in requests).encode()).decode().splitlines()


def answers(cases):
    """The number and the output's bytes of each case, with the case."""
    cases = iter(cases)
    while batch := list(itertools.islice(cases, BATCH)):
        data = oracle("batch", data=b"".join(case.stream() for case in batch))
        at = 0
        for case in batch:
            number, length = struct.unpack_from("<2I", data, at)
            yield case, number, data[at + 8 : at + 8 + 4 * length]
            at += 8 + 4 * length
        assert at == len(data)


# The worked examples that need no scene.


def check_rows():
    half, quarter, three = (double_bits(x) for x in (0.5, 0.25, 0.75))
    chunk = f"update {double_bits(128 / 8192)} {double_bits(1.0)}"
    rows = {
        "-0.0 dB is 1.0": ("amplitude 2147483648", f"0 {bits(1.0)}"),
        "-60 dB is 0.0": (f"amplitude {bits(-60.0)}", "0 0"),
        "NaN is 11": ("amplitude 2143289344", "11"),
        "InPowi(2) at 0.5": (f"easing 1 2 {half}", double_bits(0.25)),
        "OutPowi(2) at 0.5": (f"easing 2 2 {half}", double_bits(0.75)),
        "InOutPowi(2) at 0.25": (f"easing 3 2 {quarter}", double_bits(0.125)),
        "InOutPowi(2) at 0.75": (f"easing 3 2 {three}", double_bits(0.875)),
    }
    for name, (request, expected) in rows.items():
        report(f"row: {name}", leaf([request]) == [str(expected)])
    fade = trace(f"playback pause 0 0 0 125 0 0{f' | {chunk}' * 8}")
    report("row: the fade of a linear pause", [fade[0][3], fade[6][3]] == [bits(-7.5), bits(-52.5)])
    report("row: the pause is over in chunk 8", [fade[6][1:3], fade[7][1:3]] == [[1, 1], [2, 0]])
    resume = trace(f"playback pause 0 0 0 0 0 0 | {chunk} | resume 0 125 0 125 0 0{f' | {chunk}' * 9}")
    silence = bits(-60.0)
    report("row: a delayed resume waits for 7 chunks", all(state[1] == 3 for state in resume[1:8]))
    report("row: it resumes in chunk 8 at -60 dB", resume[8][1:4] == [4, 1, silence])
    report("row: its fade moves in chunk 9", resume[9][3] != silence)
    volume = trace(f"parameter 0 | set -6000 0 125 0 125 0 0{f' | {chunk}' * 9}")
    report("row: a delayed volume moves in chunk 9", [s[1] == 0 for s in volume] == [True] * 8 + [False])
    clock = trace(f"clock 1 2000 1{f' {double_bits(1 / 64)}' * 32}")
    report("row: 2 ticks a second, chunk 32", clock[31] == [1, 0] and clock[30][0] == 0)


WHOLE_OUTPUTS = {
    "row-sample-scene": [1056964608, 3196059648, 1065353216, 0],
    "row-three-channels": [bits(1.0), 0, 0],
}


def check_whole_outputs():
    for name, samples in WHOLE_OUTPUTS.items():
        lines = ["block place bits", *(f"0 {place} {sample}" for place, sample in enumerate(samples))]
        printed = oracle("render", named.FOLDER / name).decode()
        report(f"row: all of {name}", printed == "".join(f"{line}\n" for line in lines))


def trace(request):
    return [[int(word) for word in state.split()] for state in leaf([request])[0].split(" | ")]


def check_leaves(count):
    for name in vectors.LEAVES:
        requests = vectors.requests(name, SEED, count)
        wrong = [
            (request, got, expected)
            for request, got in zip(requests, leaf(requests), strict=True)
            if (expected := models.answer(request)) not in (None, got)
        ]
        modelled = models.answer(requests[0]) is not None
        compared = "equal to the rule" if modelled else "answered"
        report(f"leaf {name}", not wrong, f"{count} {compared} {wrong[:1] or ''}")


# Scenes.


def check_named():
    for name, function in named.NAMED.items():
        scene, shown = function()
        folder = named.FOLDER / name
        printed = oracle("render", folder)
        stored = (folder / "scene.txt").read_bytes() == scene.text()
        for file, content in zip(cases.Case.FILES, scene.sample_bytes()):
            stored = stored and (folder / file).exists() >= bool(content)
            stored = stored and (not content or (folder / file).read_bytes() == content)
        stored = stored and (folder / "output.txt").read_bytes() == printed
        report(f"scene {name}", stored and shows(scene, shown, printed.decode().splitlines()))
    extra = {path.name for path in named.FOLDER.iterdir()} - set(named.NAMED)
    report("every stored scene has a name", not extra)


def shows(scene, shown, printed):
    if isinstance(shown, int):
        return printed == ["refused", str(shown)]
    output = [int(line.split()[2]) for line in printed[1:]]
    return printed[0] == "block place bits" and shown(named.chunks(scene, output))


def check_missing_files(folder):
    """The files that won't open, and a sample file that ends inside a number."""
    sample = named.FOLDER / "row-sample-scene"
    expected = {"": 1, "scene": 8, "samples": 1, "scene samples tail": 8, "scene samples visitor-tail": 8}
    for present, number in expected.items():
        case = folder / (present or "nothing").replace(" ", "-")
        scene = (sample / "scene.txt").read_bytes() if "scene" in present else None
        samples = (sample / "samples.raw").read_bytes() if "samples" in present else None
        words = present.split()
        visitor = b"\0" if "visitor-tail" in words else None
        cases.Case(scene, [samples + b"\0" if "tail" in words else samples, visitor]).write(case)
        report(f"files: {present or 'none'}", oracle("render", case) == f"refused\n{number}\n".encode())


def check_features(count):
    """Every feature that the generator is there for occurs."""
    found = Counter()
    for n in range(count):
        found.update(features.of(scenes.from_seed(SEED, n)))
    rare = min(features.ALL, key=lambda name: found[name])
    text = f"{len(features.ALL)}, the rarest in {found[rare]} of {count} scenes ({rare})"
    report("generated features", found[rare] > 0, text)


def check_scenes(count):
    numbers, sounding, total = Counter(), 0, 0
    for _, number, output in answers(cases.of_scenes(SEED, count)):
        numbers[number] += 1
        sounding += any(output)
        total += len(output) // 4
    text = f"{count} rendered, {total} samples, {sounding} outputs not all +0.0"
    report("generated scenes", numbers == {0: count}, text)


def check_spatial(count):
    """One track with a steady sound: each frame is the sample times the model's
    amplitude, and the listener stays where it is from chunk to chunk."""
    made, wrong = [], []
    for n in range(count):
        rng = Random(SEED, n)
        listener = [scenes.listener(rng)] if rng.chance(7, 8) else []
        pose = scenes.pose(rng, listener[0] if listener else None)
        sample = rng.pick([1.0, -1.0, 0.5])
        made.append((listener, pose, sample, named.show(3, named.steady(24, sample), listener=listener, placings=[[1, *pose]])))
    both = [cases.of_scene(scene, True) for *_, scene in made]
    heard = 0
    for (listener, pose, sample, _), (_, number, output) in zip(made, answers(both)):
        amplitude = int(models.attenuation(*listener[0], *pose)) if listener else 0
        expected = bits(0.0 + named.number(amplitude) * sample)
        heard += expected != 0
        if (number, {*struct.unpack("<24I", output)}) != (0, {expected}):
            wrong.append((listener, pose, sample))
    report("spatial tracks by the model", not wrong, f"{count}, {heard} heard {wrong[:1] or ''}")


def check_damaged(count):
    numbers, foretold, wrong = Counter(), 0, []
    for case, number, _ in answers(cases.of_damaged(SEED, count)):
        numbers[number] += 1
        foretold += case.expected is not None
        if case.expected not in (None, number):
            wrong.append((case.expected, number, case.text))
    every = set(numbers) >= {*range(1, 11), 12}
    text = f"{count}, the number of {foretold} foretold: {dict(sorted(numbers.items()))} {wrong[:1] or ''}"
    report("damaged input", every and not wrong, text)


def check_pairs(count, kind=None):
    made = [pairs.from_seed(SEED, n, kind) for n in range(count)]
    both = [cases.of_scene(scene, n % 2 == 1) for n, pair in enumerate(made) for scene in pair.scenes]
    found = [(number, output) for _, number, output in answers(both)]
    accepted = all(number == 0 for number, _ in found)
    differing = sum(found[2 * n] != found[2 * n + 1] for n in range(count))
    alike = sum(map(pairs.alike, made))
    if kind is None:
        kinds = Counter(name for pair in made for name in pairs.kinds(pair))
        text = f"{alike} alike, {differing} outputs differ; {dict(sorted(kinds.items()))}"
        report("pairs", accepted and alike == count and differing == 0, text)
    else:
        right = accepted and alike == 0 and 3 * differing >= count
        report(f"control {kind}", right, f"{differing} of {count} differ")


def main():
    share = 10 if "--quick" in sys.argv[1:] else 1
    started = time.monotonic()
    report("the gain table is the rule's", gain_table.TABLE.read_text() == gain_table.text(gain_table.table()))
    check_rows()
    check_whole_outputs()
    check_leaves(2000 // share)
    check_named()
    check_missing_files(ORACLE.parent / "missing-files")
    check_features(5000 // share)
    check_scenes(5000 // share)
    check_spatial(2000 // share)
    check_damaged(5000 // share)
    check_pairs(2000 // share)
    for kind in pairs.CONTROLS:
        check_pairs(300 // share, kind)
    print(f"{time.monotonic() - started:.0f} seconds")
    print(f"{sum(results)} passed, {len(results) - sum(results)} failed")
    sys.exit(not all(results))


if __name__ == "__main__":
    main()
