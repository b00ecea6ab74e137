#!/usr/bin/env python3
"""Writes the list of the program `test_month`: months in pieces, and what is printed for them.

    tools/month_vectors.py             writes crates/test_month/stdin and stdout
    tools/month_vectors.py --check     writes nothing, and says whether they are as it would write them

What is stored is what tools/month.py prints. The months decided by hand come first, each cut in another way, then months from a seed.
"""
import pathlib
import random
import struct
import sys

import month
import month_cases
from case_stream import store

CRATE = pathlib.Path(__file__).resolve().parent.parent / "crates/test_month"
ROOM = 65536  # bytes that the program can read
PIECES = (1, 2, 3, 4, 5, 7, 8, 13, 64, 65536)
SEED, DRAWN, LONGEST = 2026, 150, 400


def case(piece, text, files):
    """Files up to the last that is there; a missing one in front of it is empty, which counts the same."""
    held = [files.get(i, b"") for i in range(1, max(files, default=0) + 1)]
    body = b"".join(struct.pack("<I", len(raw)) + raw for raw in held)
    return struct.pack("<3I", piece - 1, len(text), len(body)) + text + body


def main():
    months = [(text, files) for _, _, text, files in month_cases.by_hand()]
    hand = len(months)
    chance = random.Random(SEED)
    while len(months) < hand + DRAWN:
        text, files = month_cases.drawn(chance)
        if len(case(1, text, files)) <= LONGEST:
            months.append((text, files))
    cases = [case(PIECES[i % len(PIECES)], text, files) for i, (text, files) in enumerate(months)]
    texts = [month.printed(text, lambda i, files=files: files.get(i, b"")) for text, files in months]
    made = {"stdin": b"".join(cases), "stdout": b"".join(texts)}
    assert len(made["stdin"]) <= ROOM, len(made["stdin"])
    numbers = {n: sum(number == n for number in map(month.number_of, texts)) for n in (0, 24, 25, 26)}
    print(f"{len(months)} months, {hand} decided by hand, by number {numbers}, {len(made['stdin'])} bytes in, {len(made['stdout'])} out")
    store(CRATE, made, sys.argv[1:] == ["--check"])


main()
