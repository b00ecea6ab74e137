#!/usr/bin/env python3
"""Compares `room_desk_render` with the oracle at full size, in runs that can be stopped and taken up again.

    tools/long_compare.py ORACLE DRIVER [--runs N] [--first SEED] [--jobs N] [--minutes N] [--state FILE]

A run has its own seed and 2,000 scenes, 200 pairs and 200 damaged inputs (tools/render_compare.py says how one is compared). 500 runs, the
default, are 1,000,000 scenes, 100,000 pairs and 100,000 damaged inputs, with the seeds 1001 and on. Each run that is done adds a line to
FILE (target/long_compare by default); runs that it has are not run again. `--minutes` begins no run after so long; `--jobs` runs so
many at a time. The sums over all runs that are done are printed at the end. Exit status 1 where anything differs; the first case that does
is written to target/differs. Begin anew, with another FILE, when a program has changed.
"""
import argparse
import json
import multiprocessing
import pathlib
import sys
import time
from collections import Counter

from case_stream import as_library, split
from render_compare import ROOT, Tally, compare

sys.path.insert(0, str(ROOT / "oracle/scripts"))
import cases  # noqa: E402
import pairs  # noqa: E402
import scenes  # noqa: E402

SIZES = {"scenes": 2000, "pairs": 200, "damaged": 200}


def made(kind, seed, count, oracle):
    """Cases for the library. Of damaged inputs half are the program's, whose output's length the oracle says."""
    if kind == "scenes":
        each = (cases.of_scene(scenes.from_seed(seed, n), True) for n in range(count))
    elif kind == "pairs":
        each = (cases.of_scene(scene, True) for n in range(count) for scene in pairs.from_seed(seed, n).scenes)
    else:
        each = cases.of_damaged(seed, count)
    stream = b"".join(case.stream() for case in each)
    return as_library(oracle, split(stream))


def one_run(work):
    """What the state file keeps of a run."""
    oracle, driver, seed = work
    started, kinds = time.monotonic(), {}
    for kind, count in SIZES.items():
        tally = compare(oracle, driver, made(kind, seed, count, oracle), kind == "pairs")
        kinds[kind] = {**vars(tally), "numbers": {str(n): k for n, k in sorted(tally.numbers.items())}}
    return {"seed": seed, "seconds": round(time.monotonic() - started, 1), "kinds": kinds}


def read(state):
    lines = state.read_text().splitlines() if state.exists() else []
    return {run["seed"]: run for run in map(json.loads, lines)}


def summed(runs, kind):
    total = Tally()
    for run in runs:
        found = run["kinds"][kind]
        for name in ("cases", "samples", "differ", "apart"):
            setattr(total, name, getattr(total, name) + found[name])
        total.numbers += Counter({int(n): k for n, k in found["numbers"].items()})
    return total


def report(runs, asked):
    """Prints the sums; how many cases or pairs differ."""
    wrong = 0
    print(f"{len(runs)} of {asked} runs, {sum(run['seconds'] for run in runs):.0f} s")
    for kind in SIZES:
        total = summed(runs, kind)
        wrong += total.differ + total.apart
        within = f", {total.cases // 2} pairs, {total.apart} apart" if kind == "pairs" else ""
        print(f"{kind}: {total.cases} cases, {total.samples} samples, {total.differ} differ{within}; numbers {total.listed()}")
    return wrong


def main():
    parser = argparse.ArgumentParser()
    parser.add_argument("oracle")
    parser.add_argument("driver")
    parser.add_argument("--runs", type=int, default=500)
    parser.add_argument("--first", type=int, default=1001)
    parser.add_argument("--jobs", type=int, default=1)
    parser.add_argument("--minutes", type=float, default=1e6)
    parser.add_argument("--state", type=pathlib.Path, default=ROOT / "target/long_compare")
    options = parser.parse_args()
    oracle, driver = (str(pathlib.Path(path).resolve()) for path in (options.oracle, options.driver))
    asked = range(options.first, options.first + options.runs)
    left = [seed for seed in asked if seed not in read(options.state)]
    end = time.monotonic() + 60 * options.minutes
    options.state.parent.mkdir(exist_ok=True)
    with multiprocessing.Pool(options.jobs) as pool, options.state.open("a") as state:
        for first in range(0, len(left), options.jobs):
            if time.monotonic() >= end:
                break
            for run in pool.imap_unordered(one_run, [(oracle, driver, seed) for seed in left[first : first + options.jobs]]):
                state.write(json.dumps(run) + "\n")
                state.flush()
    done = read(options.state)
    sys.exit(report([done[seed] for seed in asked if seed in done], options.runs) != 0)


if __name__ == "__main__":
    main()
