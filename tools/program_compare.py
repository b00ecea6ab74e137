#!/usr/bin/env python3
"""Compares the render program with the oracle on generated scenes, damaged inputs and pairs: every byte that it prints.

    tools/program_compare.py ORACLE PROGRAM [--seed N] [--scenes N] [--damaged N] [--pairs N]

ORACLE is oracle/target/release/oracle, PROGRAM crates/render/out/render. Each case of oracle/scripts/cases.py becomes a folder with scene.txt,
samples.raw and visitor.raw; a file without bytes is left out in every second folder, since one that won't open counts as empty. The oracle writes what the
program must print (`oracle folders`), the program is run in the folder. Of a pair the two texts must be equal to each other too. Exit status 1
where anything differs; the first folder that does is kept in target/differs.
"""
import argparse
import pathlib
import shutil
import subprocess
import sys
import tempfile

from case_stream import made

ROOT = pathlib.Path(__file__).resolve().parent.parent
MOST = 200  # folders at a time


def lay_out(folder, cases):
    for i, (_, *files, _) in enumerate(cases):
        case = folder / f"{i:03}"
        case.mkdir()
        for name, content in zip(("scene.txt", "samples.raw", "visitor.raw"), files):
            if content or i % 2 == 0:
                (case / name).write_bytes(content)
        yield case


def printed(program, folder):
    return subprocess.run([program], cwd=folder, stdout=subprocess.PIPE, check=True).stdout


def compared(oracle, program, cases):
    """Of each case the program's text, and whether it is the oracle's."""
    with tempfile.TemporaryDirectory() as name:
        folders = list(lay_out(pathlib.Path(name), cases))
        subprocess.run([oracle, "folders", name], check=True, stdout=subprocess.DEVNULL)
        for folder in folders:
            text = printed(program, folder)
            same = text == (folder / "output.txt").read_bytes()
            if not same and not (ROOT / "target/differs").exists():
                shutil.copytree(folder, ROOT / "target/differs")
            yield text, same


def main():
    parser = argparse.ArgumentParser()
    parser.add_argument("oracle", type=pathlib.Path)
    parser.add_argument("program", type=pathlib.Path)
    parser.add_argument("--seed", type=int, default=6)
    parser.add_argument("--scenes", type=int, default=10000)
    parser.add_argument("--damaged", type=int, default=2000)
    parser.add_argument("--pairs", type=int, default=2000)
    options = parser.parse_args()
    oracle, program = options.oracle.resolve(), options.program.resolve()
    shutil.rmtree(ROOT / "target/differs", ignore_errors=True)
    differ = 0
    for kind in ("scenes", "damaged", "pairs"):
        count = getattr(options, kind)
        cases = made(kind, options.seed, count) if count else []
        lines, wrong, apart, numbers = 0, 0, 0, {}
        for first in range(0, len(cases), MOST):
            answers = list(compared(oracle, program, cases[first : first + MOST]))
            wrong += sum(not same for _, same in answers)
            for text, _ in answers:
                refused = text.startswith(b"refused\n")
                number = int(text.split(b"\n")[1]) if refused else 0
                numbers[number] = numbers.get(number, 0) + 1
                lines += 0 if refused else text.count(b"\n") - 1
            if kind == "pairs":
                apart += sum(answers[i][0] != answers[i + 1][0] for i in range(0, len(answers), 2))
        differ += wrong + apart
        listed = ", ".join(f"{n}: {numbers[n]}" for n in sorted(numbers))
        within = f", {apart} pairs apart" if kind == "pairs" else ""
        print(f"{kind}: seed {options.seed}, {len(cases)} cases, {lines} samples printed, {wrong} differ{within}; numbers {listed}", flush=True)
    sys.exit(1 if differ else 0)


if __name__ == "__main__":
    main()
