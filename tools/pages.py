#!/usr/bin/env python3
"""Runs what docs/SCENE.md and docs/REFUSALS.md show, and says where a page is not true. Exit status 1 where one is not.

    tools/pages.py PROGRAM ORACLE     the compiled render program (crates/render/out/render), and the oracle for numbers 10 and 11

Of SCENE.md: each whole scene is accepted; the first prints what stands below it, and the others have the levels of their tables.
Of REFUSALS.md: each example gets the number that it stands under.
"""
import pathlib
import re
import struct
import subprocess
import sys
import tempfile

ROOT = pathlib.Path(__file__).resolve().parent.parent
FIRST = [0.5, -0.25, 1.0, 0.0]
SHOW = [0.25, 0.0] * 2048 + [0.0, 0.25] * 2048
ROOM = [0.25, 0.0] * 256 + [0.0, 0.25] * 256
program, oracle = (str(pathlib.Path(p).resolve()) for p in sys.argv[1:])
wrong = 0


def raw(samples):
    return struct.pack(f"<{len(samples)}f", *samples)


def in_folder(scene, samples, *command, visitor=b""):
    """What a command prints in a folder with the three files."""
    with tempfile.TemporaryDirectory() as folder:
        pathlib.Path(folder, "scene.txt").write_text(scene, newline="\n")
        pathlib.Path(folder, "samples.raw").write_bytes(samples)
        pathlib.Path(folder, "visitor.raw").write_bytes(visitor)
        return subprocess.run([word.replace("FOLDER", folder) for word in command], cwd=folder, capture_output=True, text=True, check=True).stdout


def expect(what, found, expected):
    global wrong
    if found != expected:
        wrong += 1
        print(f"not so: {what}: {found!r}, and the page says {expected!r}")


def changed(scene, example):
    """The scene with each `A` becomes `B`, .. of an example; a line is changed where it first stands."""
    lines = scene.split("\n")
    for old, new in re.findall(r"`([^`]*)` becomes (?:the \w+ lines )?(`[^`]*`(?:, `[^`]*`)*)", example):
        at = lines.index(old)
        lines[at:at + 1] = re.findall(r"`([^`]*)`", new)
    return "\n".join(lines)


def files_of(scene, example):
    samples = raw(FIRST)
    if "is empty" in example:
        scene = ""
    if "last line feed is missing" in example:
        scene = scene[:-1]
    given = re.search(r"the samples are `([^`]*)`", example)
    if given:
        samples = raw([float(x) for x in given[1].split()])
    given = re.search(r"`samples.raw` has (\d+) bytes", example)
    if given:
        samples = (samples + bytes(int(given[1])))[:int(given[1])]
    given = re.search(r"`visitor.raw` has (\d+) bytes", example)
    visitor = bytes(int(given[1])) if given else b""
    given = re.search(r"the visitor's samples are `([^`]*)`", example)
    if given:
        visitor = raw([float(x) for x in given[1].split()])
    return changed(scene, example), samples, visitor


def refusal(scene, example):
    """The number that an example gets."""
    given = re.search(r"output of (\d+) samples", example)
    if given:
        return in_folder(scene, raw(FIRST), oracle, "check", "FOLDER", given[1]).strip()
    given = re.search(r"the level ([\w.]+)", example)
    if given:
        bits, = struct.unpack("<I", struct.pack("<f", float(given[1])))
        return subprocess.run([oracle, "leaf"], input=f"amplitude {bits}\n", capture_output=True, text=True, check=True).stdout.strip()
    changed_scene, samples, visitor = files_of(scene, example)
    text = in_folder(changed_scene, samples, program, visitor=visitor)
    return text.split("\n")[1] if text.startswith("refused\n") else text


def check_show(page, scene, samples):
    """The last frame of each block, to four places, next to the table's, which is the first behind the scene."""
    rows = [line.split() for line in in_folder(scene, raw(samples), program).split("\n")[1:-1]]
    last = {}
    for block, place, bits in rows:
        last.setdefault(block, []).append(struct.unpack("<f", struct.pack("<I", int(bits)))[0])
    table = page.split(scene)[1].split("\n## ")[0]
    levels = re.findall(r"^\| ([\d, ]+) \| ([\d.]+) \| ([\d.]+) \|", table, re.M)
    expect("a show's table has rows", levels != [], True)
    for blocks, left, right in levels:
        for block in blocks.split(", "):
            expect(f"block {block} of a show", [f"{x:.4f}" for x in last[block][-2:]], [left, right])


def main():
    page = (ROOT / "docs/SCENE.md").read_text()
    first, show, room = re.findall(r"^```scene\n(.*?)^```", page, re.M | re.S)
    printed, = re.findall(r"^```printed\n(.*?)^```", page, re.M | re.S)
    expect("the first scene", in_folder(first, raw(FIRST), program), printed)
    for name, scene, samples in ("first", first, FIRST), ("room", room, ROOM):
        folder = ROOT / "examples" / name
        expect(str(folder), [(folder / "scene.txt").read_text(), (folder / "samples.raw").read_bytes()], [scene, raw(samples)])
    check_show(page, show, SHOW)
    check_show(page, room, ROOM)
    count = 0
    sections = re.split(r"^## ", (ROOT / "docs/REFUSALS.md").read_text(), flags=re.M)[1:]
    for section in (s for s in sections if int(re.match(r"\d+", s)[0]) <= 12):  # the scene's; those behind are about sound files
        for example in re.findall(r"Example: (.*?)(?=\.? Example:|\.?$)", section, re.M):
            count += 1
            expect(f"“{example}”", refusal(first, example), section.split(":")[0])
    print(f"3 scenes and {count} refusals, {wrong} not as the pages say")
    sys.exit(1 if wrong else 0)


if __name__ == "__main__":
    main()
