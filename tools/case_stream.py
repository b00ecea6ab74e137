"""Streams of cases and answers, as `oracle batch` reads and writes them (oracle/README.md, "Cases"). For the scripts beside it."""
import pathlib
import struct
import subprocess
import sys

CASES = pathlib.Path(__file__).resolve().parent.parent / "oracle/scripts/cases.py"


def made(kind, seed, count):
    """Cases of a kind, from a seed."""
    return split(subprocess.run([sys.executable, CASES, kind, str(seed), str(count)], stdout=subprocess.PIPE, check=True).stdout)


def split(stream):
    """The cases of a stream: kind, scene, the house's samples, the visitor's, output's length."""
    at, cases = 0, []
    while at < len(stream):
        kind, *sizes, length = struct.unpack_from("<5I", stream, at)
        at += 20
        files = []
        for size in sizes:
            files.append(stream[at : at + size])
            at += size
        cases.append((kind, *files, length))
    return cases


def stored(folder):
    """The scene file and the two sample files of a folder; one that is not there is empty."""
    paths = [folder / name for name in ("scene.txt", "samples.raw", "visitor.raw")]
    return [path.read_bytes() if path.exists() else b"" for path in paths]


def joined(cases):
    return b"".join(struct.pack("<5I", kind, *map(len, files), length) + b"".join(files) for kind, *files, length in cases)


def raw_answers(program, cases):
    """A program's answers to a list of cases, each as its bytes: number, count, the samples' bits."""
    out = subprocess.run(program, input=joined(cases), stdout=subprocess.PIPE, check=True).stdout
    at, found = 0, []
    while at < len(out):
        end = at + 8 + 4 * struct.unpack_from("<I", out, at + 4)[0]
        found.append(out[at:end])
        at = end
    assert len(found) == len(cases), (len(found), len(cases))
    return found


def answers(program, cases):
    """The same as numbers: number, bits of the samples."""
    each = (struct.unpack(f"<{len(answer) // 4}I", answer) for answer in raw_answers(program, cases))
    return [(number, tuple(samples)) for number, _, *samples in each]


def as_library(oracle, cases, most=200):
    """Every case as one of the library. What the program is asked has the length that it answers with; a refused one keeps 0."""
    program = [case for case in cases if case[0] == 0]
    parts = (raw_answers([oracle, "batch"], program[at : at + most]) for at in range(0, len(program), most))
    lengths = iter([(len(answer) - 8) // 4 for part in parts for answer in part])
    return [(1, *files, length if kind == 1 else next(lengths)) for kind, *files, length in cases]


def store(crate, files, check):
    """Writes the files of a crate, by name; to check, says whether they are so and ends the program."""
    if check:
        same = all((crate / name).read_bytes() == text for name, text in files.items())
        print("as it would be written" if same else "not as it would be written")
        sys.exit(not same)
    for name, text in files.items():
        (crate / name).write_bytes(text)
