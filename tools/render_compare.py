#!/usr/bin/env python3
"""Compares `room_desk_render` with the oracle on generated scenes, damaged inputs and pairs, byte by byte.

    tools/render_compare.py ORACLE DRIVER [--seed N] [--scenes N] [--long N] [--damaged N] [--pairs N]

ORACLE is oracle/target/release/oracle, DRIVER the driver of drivers/render (docs/COMPARISON.md says how to build both). The cases come
from oracle/scripts/cases.py; one for the render program is asked of the library, with the output's length that the oracle answered. Of a
pair the two answers must be equal to each other too. Exit status 1 where anything differs; the first case that does is written to
target/differs.
"""
import argparse
import pathlib
import struct
import sys
from collections import Counter
from dataclasses import dataclass, field

from case_stream import as_library, joined, made, raw_answers

ROOT = pathlib.Path(__file__).resolve().parent.parent
MOST = 200  # cases at a time, so that streams stay small


def largest():
    """The largest scene: every table full but the orders, 8 channels, 1,024 blocks of 512 frames."""
    tracks = [(0 if t % 4 == 0 else t, -3000 - 10 * t) for t in range(32)]
    routes = [(r // 2 + 1, (r + r // 16) % 8 + 1, -6000) for r in range(64)]
    sounds = [(k % 33, 16 * k, 4096 - 16 * k, k % 2) for k in range(64)]
    placings = [(t + 1, 1000 * t, -500 * t, 7 * t, 10 * t, 90000 + t) for t in range(32)]
    tables = (
        ("rate channels buffer block blocks volume", [(48000, 8, 128, 512, 1024, 0)]),
        ("unit speed ticking", [(1, 2000, 1)] * 8),
        ("parent volume", tracks),
        ("volume", [(-2000,)] * 8),
        ("track send volume", routes),
        ("track first count from", sounds),
        ("x y z", [(1234, -5678, 910)]),
        ("track x y z near far", placings),
        ("block kind index volume clock when part millis easing power", []),
    )
    file = "\n".join(names + "\n" + "".join(" ".join(map(str, line)) + "\n" for line in lines) for names, lines in tables)
    house, visitor = (b"".join(struct.pack("<f", ((i * step) % 2001 - 1000) / 1000) for i in range(8192)) for step in (7919, 7907))
    return [(1, file.encode(), house, visitor, 512 * 1024 * 8)]


@dataclass
class Tally:
    """What a comparison found. `apart`: pairs whose two answers differ."""

    cases: int = 0
    samples: int = 0
    differ: int = 0
    apart: int = 0
    numbers: Counter = field(default_factory=Counter)

    def listed(self):
        return ", ".join(f"{n}: {self.numbers[n]}" for n in sorted(self.numbers))


def keep(case):
    """The first case that differs is kept."""
    path = ROOT / "target/differs"
    if not path.exists():
        path.parent.mkdir(exist_ok=True)
        path.write_bytes(joined([case]))


def compare(oracle, driver, cases, paired=False):
    """The library's cases through both programs; of pairs, both of a pair in turn."""
    tally = Tally()
    for first in range(0, len(cases), MOST):
        part = cases[first : first + MOST]
        theirs, ours = raw_answers([oracle, "batch"], part), raw_answers([driver], part)
        for case, expected, found in zip(part, theirs, ours, strict=True):
            number, samples = struct.unpack_from("<2I", expected)
            tally.cases += 1
            tally.samples += samples
            tally.numbers[number] += 1
            if expected != found:
                tally.differ += 1
                keep(case)
        if paired:
            tally.apart += sum(one != other for one, other in zip(ours[::2], ours[1::2]))
    return tally


def main():
    parser = argparse.ArgumentParser()
    parser.add_argument("oracle")
    parser.add_argument("driver")
    parser.add_argument("--seed", type=int, default=6)
    parser.add_argument("--scenes", type=int, default=10000)
    parser.add_argument("--long", type=int, default=200)
    parser.add_argument("--damaged", type=int, default=2000)
    parser.add_argument("--pairs", type=int, default=2000)
    options = parser.parse_args()
    (ROOT / "target/differs").unlink(missing_ok=True)
    wrong = 0
    kinds = (("scenes", options.scenes), ("long", options.long), ("damaged", options.damaged), ("pairs", options.pairs), ("largest", 1))
    for kind, count in kinds:
        if count == 0:
            continue
        cases = largest() if kind == "largest" else as_library(options.oracle, made(kind, options.seed, count))
        tally = compare(options.oracle, options.driver, cases, kind == "pairs")
        wrong += tally.differ + tally.apart
        within = f", {tally.apart} pairs apart" if kind == "pairs" else ""
        print(f"{kind}: seed {options.seed}, {tally.cases} cases, {tally.samples} samples, {tally.differ} differ{within}; numbers {tally.listed()}", flush=True)
    sys.exit(wrong != 0)


if __name__ == "__main__":
    main()
