#!/usr/bin/env python3
"""Compares the month program with tools/month.py, every byte that it prints: the months decided by hand, the longest mix and one
that is a sample longer, and months from seeds.

    tools/month_compare.py PROGRAM [--seed N] [--months N] [--pipes N]

PROGRAM is crates/month_report/out/month_report. Of the months from seeds the first `--pipes` are given as named pipes into which a thread writes a few bytes at
a time, so that numbers are cut between reads. Exit status 1 where anything differs; the first folder that does is kept in target/differs.
"""
import argparse
import collections
import os
import pathlib
import random
import shutil
import subprocess
import sys
import tempfile
import threading

import month
import month_cases

ROOT = pathlib.Path(__file__).resolve().parent.parent


def run(program, folder, text):
    return subprocess.run([program], cwd=folder, input=text, stdout=subprocess.PIPE, stderr=subprocess.DEVNULL, check=True, timeout=120).stdout


def feed(path, raw, seed):
    """Writes the bytes into a pipe, from one to nine at a time."""
    chance = random.Random(seed)
    try:
        with open(path, "wb", buffering=0) as pipe:
            at = 0
            while at < len(raw):
                step = chance.randint(1, 9)
                pipe.write(raw[at : at + step])
                at += step
    except BrokenPipeError:
        pass


def through_pipes(program, folder, text, files):
    threads = []
    for i, raw in files.items():
        path = folder / f"mix{i}.raw"
        os.mkfifo(path)
        threads.append((path, threading.Thread(target=feed, args=(path, raw, i), daemon=True)))
        threads[-1][1].start()
    answer = run(program, folder, text)
    for path, thread in threads:
        reader = os.open(path, os.O_RDONLY | os.O_NONBLOCK)  # lets a writer go whose pipe the program did not open
        while thread.is_alive():
            try:
                os.read(reader, 65536)
            except BlockingIOError:
                pass
            thread.join(0.001)
        os.close(reader)
    return answer


def through_files(program, folder, text, files):
    for i, raw in files.items():
        (folder / f"mix{i}.raw").write_bytes(raw)
    return run(program, folder, text)


def longest(program):
    """The longest mix, and one sample more, as files without blocks on the disk; answers how many differ."""
    differ = 0
    for samples, expected in ((month.MOST_SAMPLES, month.NAMES + b"1 8388608 0 0 1 1 0\n"), (month.MOST_SAMPLES + 1, month.refused(26))):
        with tempfile.TemporaryDirectory() as folder:
            with open(pathlib.Path(folder) / "mix1.raw", "wb") as file:
                file.truncate(4 * samples)
            answer = run(program, folder, b"2\n" if samples % 2 == 0 else b"1\n")
        if answer != expected:
            differ += 1
            print(f"{samples} samples: expected {expected!r}, found {answer!r}")
    return differ


def main():
    parser = argparse.ArgumentParser()
    parser.add_argument("program", type=pathlib.Path)
    parser.add_argument("--seed", type=int, default=13)
    parser.add_argument("--months", type=int, default=1000)
    parser.add_argument("--pipes", type=int, default=200)
    options = parser.parse_args()
    program = options.program.resolve()
    shutil.rmtree(ROOT / "target/differs", ignore_errors=True)
    chance = random.Random(options.seed)
    cases = [(name, number, text, files, through_files) for name, number, text, files in month_cases.by_hand()]
    for i in range(options.months):
        text, files = month_cases.drawn(chance)
        cases.append((f"month {i}", None, text, files, through_pipes if i < options.pipes else through_files))
    numbers, differ, samples = collections.Counter(), longest(program), 0
    for name, number, text, files, way in cases:
        expected = month.printed(text, lambda i: files.get(i, b""))
        if number is not None and month.number_of(expected) != number:
            print(f"{name}: tools/month.py answers {month.number_of(expected)}, decided by hand {number}")
            differ += 1
        with tempfile.TemporaryDirectory() as folder:
            answer = way(program, pathlib.Path(folder), text, files)
        numbers[month.number_of(expected)] += 1
        samples += sum(len(raw) // 4 for raw in files.values())
        if answer != expected:
            differ += 1
            print(f"{name}: expected {expected!r}, found {answer!r}")
            if not (ROOT / "target/differs").exists():
                (ROOT / "target/differs").mkdir(parents=True)
                through_files(program, ROOT / "target/differs", text, files)
                (ROOT / "target/differs/stdin").write_bytes(text)
    listed = ", ".join(f"{n}: {numbers[n]}" for n in sorted(numbers))
    print(f"seed {options.seed}, {len(cases)} months ({len(cases) - options.months} by hand, {min(options.pipes, options.months)} through pipes), {samples} samples, {differ} differ; numbers {listed}")
    sys.exit(1 if differ else 0)


if __name__ == "__main__":
    main()
