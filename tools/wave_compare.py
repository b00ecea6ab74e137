#!/usr/bin/env python3
"""Compares the compiled WAVE routines with tools/sound_files.py on files from seeds, number by number and bit by bit.

    tools/wave_compare.py DRIVER [--seed N] [--cases N]

DRIVER is the driver of drivers/wave (docs/SOUND_FILES.md says how to build it). Three cases in four are files to read, one is a file to write.
Exit status 1 where anything differs; the first case that does is written to target/differs.
"""

import argparse
import collections
import pathlib
import subprocess
import sys

import wave_cases

ROOT = pathlib.Path(__file__).resolve().parent.parent


def main():
    parser = argparse.ArgumentParser()
    parser.add_argument("driver")
    parser.add_argument("--seed", type=int, default=1)
    parser.add_argument("--cases", type=int, default=28000)
    options = parser.parse_args()
    cases = wave_cases.cases(options.seed, options.cases)
    run = subprocess.run([options.driver], input=b"".join(cases), stdout=subprocess.PIPE, check=True)
    lines = run.stdout.decode().split("\n")[:-1]
    numbers, wrong = collections.Counter(), 0
    for i, case in enumerate(cases):
        line, kind = wave_cases.answer(case)
        numbers[kind] += 1
        if i >= len(lines) or lines[i] != line:
            wrong += 1
            if wrong == 1:
                (ROOT / "target/differs").write_bytes(case)
    for kind, name in ((0, "read"), (1, "write")):
        print(name, sum(n for (k, _), n in numbers.items() if k == kind), "files:",
              ", ".join(f"{number}: {n}" for (k, number), n in sorted(numbers.items()) if k == kind))
    print(len(lines), "answers,", wrong, "differ")
    sys.exit(wrong != 0 or len(lines) != len(cases))


if __name__ == "__main__":
    main()
