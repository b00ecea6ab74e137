#!/usr/bin/env python3
"""Writes the list of the program `test_program`: scene and sample files, and what the oracle prints for them.

    tools/program_vectors.py ORACLE             writes crates/test_program/stdin and stdout
    tools/program_vectors.py ORACLE --check     writes nothing, and says whether they are as it would write them

Each case has the number that docs/REFUSALS.md gives it, decided here by hand; the oracle must agree, and its text is what is stored.
"""
import pathlib
import subprocess
import sys
import tempfile

from case_stream import joined, store, stored

ROOT = pathlib.Path(__file__).resolve().parent.parent
CRATE = ROOT / "crates/test_program"
sys.path.insert(0, str(ROOT / "oracle/scripts"))
from tables import Scene, bits  # noqa: E402

ROOM = 524288  # bytes that the program can read
FILES = "scene.txt", "samples.raw", "visitor.raw"
HALF, QUARTER, ONE = bits(0.5), bits(-0.25), bits(1.0)


def sample_scene(**changes):
    """The scene of examples/first, with some tables changed."""
    tables = dict(head=[[8192, 2, 128, 2, 1, 0]], tracks=[[0, 0]], sounds=[[1, 0, 2, 0]], samples=[HALF, QUARTER, ONE, 0])
    return Scene(**{**tables, **changes})


def files(scene, more=b"", visiting=b""):
    """The scene file and the two sample files, each of which may have more bytes."""
    house, visitor = scene.sample_bytes()
    return scene.text(), house + more, visitor + visiting


def long_scene(length):
    """A scene of `length` bytes with more orders than are allowed: as long as an accepted one none can be."""
    scene = sample_scene()
    lines, rest = divmod(length - len(scene.text()), 20)
    scene.tables["orders"] = [[0] * 10 for _ in range(lines)]
    for place in (3, 5, 7):
        more = min(rest, 9)
        scene.orders[-1][place], rest = 10**more, rest - more
    assert len(scene.text()) == length
    return scene.text()


def output_of(channels, block, blocks):
    return sample_scene(head=[[8192, channels, 128, block, blocks, 0]])


def refusals():
    """One file for each of the numbers, and the two places of 12."""
    text, *raw = files(sample_scene())
    twice = sample_scene(sends=[[0]], routes=[[1, 1, 0], [1, 1, 0]])
    deep = sample_scene(tracks=[[0, 0], [1, 0], [2, 0], [3, 0], [4, 0]])
    yield "sample scene", 0, (text, *raw)
    yield "no line feed at the end", 1, (text[:-1], *raw)
    yield "a names line misspelled", 2, (text.replace(b"unit", b"Unit"), *raw)
    yield "sounds of three fields", 2, (text.replace(b" from", b"").replace(b"1 0 2 0", b"1 0 2"), *raw)
    yield "no listener's table", 2, (text.replace(b"x y z\n\n", b""), *raw)
    yield "neither table of the room", 2, (text.replace(b"x y z\n\ntrack x y z near far\n\n", b""), *raw)
    yield "two listeners", 3, files(sample_scene(listener=[[0, 0, 0]] * 2))
    yield "near is far", 4, files(sample_scene(placings=[[1, 0, 0, 0, 1000, 1000]]))
    yield "the main track placed", 5, files(sample_scene(placings=[[0, 0, 0, 0, 0, 1000]]))
    yield "a track placed twice", 7, files(sample_scene(placings=[[1, 0, 0, 0, 0, 1000]] * 2))
    yield "two head lines", 3, files(sample_scene(head=[[8192, 2, 128, 2, 1, 0]] * 2))
    yield "a rate below 8000", 4, files(sample_scene(head=[[7999, 2, 128, 2, 1, 0]]))
    yield "a sound from neither", 4, files(sample_scene(sounds=[[1, 0, 2, 2]]))
    yield "a parent that is no earlier line", 5, files(sample_scene(tracks=[[1, 0]]))
    yield "depth 5", 6, files(deep)
    yield "a pair routed twice", 7, files(twice)
    yield "an odd count of samples", 8, files(sample_scene(samples=[HALF, QUARTER, ONE, 0, 0]))
    yield "a sound past the samples", 8, files(sample_scene(sounds=[[1, 0, 3, 0]]))
    yield "a sample above 1.0", 9, files(sample_scene(samples=[HALF, QUARTER, ONE + 1, 0]))
    yield "a sample that is NaN", 9, files(sample_scene(samples=[HALF, QUARTER, 0x7FC00000, 0]))
    yield "12 before question 1", 12, (b"", bytes(32772), b"")
    yield "12 before question 2", 12, (b"\n", bytes(32772), b"")
    yield "12 of the visitor's, before question 1", 12, (b"", b"", bytes(32772))
    yield "12 after question 9", 12, files(output_of(8, 512, 1024))


def broken_last_number():
    """A broken last number is 8, where question 8 stands."""
    twice = sample_scene(sends=[[0]], routes=[[1, 1, 0], [1, 1, 0]])
    text, raw, _ = files(sample_scene())
    for more in (1, 2, 3):
        yield f"broken by {more}", 8, (text, raw + bytes(more), b"")
        yield f"the visitor's broken by {more}", 8, (text, raw, bytes(more))
    yield "nothing but a broken number", 8, (sample_scene(sounds=[]).text(), b"\0", b"")
    yield "broken, and no scene", 1, (b"", raw + b"\0", b"")
    yield "broken, and question 2", 2, (text.replace(b"unit", b"Unit"), raw + b"\0", b"")
    yield "the visitor's broken, and question 7", 7, files(twice, visiting=b"\0")
    yield "the visitor's broken, and question 9 of the house's", 8, files(sample_scene(samples=[HALF, QUARTER, ONE + 1, 0]), visiting=b"\0")
    yield "the visitor's broken, and question 12 of the output", 8, files(output_of(8, 512, 1024), visiting=b"\0")
    yield "broken, and question 7", 7, files(twice, b"\0")
    yield "broken, and question 8", 8, files(sample_scene(sounds=[[1, 0, 3, 0]]), b"\0")
    yield "broken, and question 9", 8, files(sample_scene(samples=[HALF, QUARTER, ONE + 1, 0]), b"\0")
    yield "broken, and question 12 of the output", 8, files(output_of(8, 512, 1024), b"\0")
    yield "broken, and question 12 of the samples", 12, (text, bytes(32773), b"")


def corners():
    text, *raw = files(sample_scene())
    silence = [0] * 8192
    yield "no file at all", 1, (b"", b"", b"")
    yield "no scene", 1, (b"", *raw)
    yield "no samples", 8, (text, b"", b"")
    yield "no samples, and no sound", 0, (sample_scene(sounds=[]).text(), b"", b"")
    room = dict(listener=[[0, 0, 0]], placings=[[1, 3000, 4000, 0, 1000, 9000]])
    yield "a spatial track", 0, files(sample_scene(**room))
    yield "a spatial track, and no listener", 0, files(sample_scene(**room | dict(listener=[])))
    yield "16,384 bytes of scene", 3, (long_scene(16384), *raw)
    yield "16,385 bytes of scene", 1, (long_scene(16385), *raw)
    yield "8,192 samples", 0, files(sample_scene(samples=silence[:-4] + [HALF, QUARTER, ONE, 0], sounds=[[1, 4094, 2, 0]]))
    yield "8,192 samples and a broken one", 8, files(sample_scene(samples=silence), bytes(3))
    yield "8,193 samples", 12, files(sample_scene(samples=silence), bytes(4))
    visiting = dict(samples=[], visitor=silence[:-4] + [HALF, QUARTER, ONE, 0], sounds=[[1, 4094, 2, 1]])
    yield "8,192 samples of the visitor's", 0, files(sample_scene(**visiting))
    yield "8,192 samples of the visitor's and a broken one", 8, files(sample_scene(**visiting), visiting=bytes(3))
    yield "8,193 samples of the visitor's", 12, files(sample_scene(**visiting), visiting=bytes(4))
    yield "8,192 samples of each", 0, files(sample_scene(**visiting | dict(samples=silence)))
    yield "8,192 samples out", 0, files(output_of(8, 512, 2))
    yield "8,192 samples out, in many blocks", 0, files(output_of(1, 8, 1024))
    yield "8,194 samples out", 12, files(output_of(2, 241, 17))
    yield "8,200 samples out", 12, files(output_of(1, 200, 41))


def rows():
    """The worked examples that no proof has, as stored with the oracle. NaN, 11, is the amplitude routine's: `test_decibels` has it."""
    for name, number in (
        ("sample-scene", 0),
        ("routed-track", 0),
        ("send-below-silence", 0),
        ("depth-4", 0),
        ("depth-5", 6),
        ("volume-18000", 0),
        ("volume-18001", 4),
        ("32-tracks", 0),
        ("33-tracks", 3),
    ):
        folder = ROOT / "oracle/scenes" / f"row-{name}"
        yield f"row {name}", number, stored(folder)


def printed(oracle, cases):
    """What the oracle prints for each case, in one run over folders."""
    with tempfile.TemporaryDirectory() as place:
        for i, contents in enumerate(cases):
            folder = pathlib.Path(place) / f"{i:04}"
            folder.mkdir()
            # a file of no bytes is left out: it counts the same
            for name, content in zip(FILES, contents):
                if content:
                    (folder / name).write_bytes(content)
        subprocess.run([oracle, "folders", place], stdout=subprocess.DEVNULL, check=True)
        return [(pathlib.Path(place) / f"{i:04}" / "output.txt").read_bytes() for i in range(len(cases))]


def number_in(text):
    lines = text.decode().split("\n")
    return int(lines[1]) if lines[0] == "refused" else 0


def main():
    oracle = str(pathlib.Path(sys.argv[1]).resolve())
    cases = [*refusals(), *broken_last_number(), *corners(), *rows()]
    texts = printed(oracle, [contents for _, _, contents in cases])
    for (name, number, _), text in zip(cases, texts):
        assert number_in(text) == number, (name, number, text[:40])
    made = {"stdin": joined([(0, *contents, 0) for _, _, contents in cases]), "stdout": b"".join(texts)}
    assert len(made["stdin"]) <= ROOM, len(made["stdin"])
    store(CRATE, made, sys.argv[2:] == ["--check"])
    counts = {n: sum(number == n for _, number, _ in cases) for n in sorted({number for _, number, _ in cases})}
    print(f"{len(cases)} cases, by number {counts}, {len(made['stdin'])} bytes in, {len(made['stdout'])} out")


main()
