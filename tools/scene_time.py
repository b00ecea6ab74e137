#!/usr/bin/env python3
"""What reading the largest accepted scene costs, by `test_scene`.

    scene_time.py PROGRAM

Runs the compiled program over as many copies of one case as it has room for, and over one copy, in turn, and divides
the difference of the medians by the copies more. A case's time has the input, the samples and the output in it.
"""
import statistics
import subprocess
import sys
import tempfile
import time

import scene_vectors
from scene_cases import ROOM, packed, text_of

ROUNDS = 101
FRAMES = 2048


def seconds(program, stream, answers):
    with tempfile.TemporaryFile() as file:
        file.write(stream)
        file.flush()
        file.seek(0)
        start = time.perf_counter()
        out = subprocess.run([program], stdin=file, stdout=subprocess.PIPE, check=True).stdout
        took = time.perf_counter() - start
    assert out.split() == answers, out
    return took


def cost(program, one, answer):
    copies = ROOM // len(one)
    pairs = [
        (seconds(program, one * copies, [answer] * copies), seconds(program, one, [answer])) for _ in range(ROUNDS)
    ]
    many, single = (statistics.median(times) for times in zip(*pairs))
    return copies, (many - single) / (copies - 1) * 1e6


def main(program):
    samples = [0.5, -0.5] * FRAMES
    accepted = text_of(scene_vectors.largest(FRAMES))
    longest = scene_vectors.padded(16384)
    for name, text, held, length, answer in (
        ("the largest accepted file", accepted, samples, 4194304, b"0"),
        ("the longest file, refused by 3", longest, samples[:8], 8, b"3"),
        ("an empty file", b"", samples[:8], 8, b"1"),
    ):
        copies, micros = cost(program, packed(text, held, held, length), answer)
        print(f"{name}: {len(text)} bytes, twice {len(held)} samples: {micros:.1f} microseconds a case ({copies} copies, medians of {ROUNDS})")


if __name__ == "__main__":
    main(sys.argv[1])
