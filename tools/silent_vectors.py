#!/usr/bin/env python3
"""Writes the list of the program `test_silent`: scenes, and which of their tracks are silent.

    tools/silent_vectors.py             writes crates/test_silent/stdin and stdout
    tools/silent_vectors.py --check     writes nothing, and says whether they are as it would write them

The scenes are the stored ones of oracle/scenes, those of `test_scene`'s list, and small ones below, each word of docs/SILENCE.md at its
corners. What is expected is read from that page here, and asked of no program; a stored scene's number is the stored one.
"""
import array
import pathlib
import sys

import scene_cases
import scene_vectors
from case_stream import joined, store, stored
from scene_vectors import HEAD, ORDERS, ROUTES, SENDS, SOUNDS, TRACKS

ROOT = pathlib.Path(__file__).resolve().parent.parent
CRATE = ROOT / "crates/test_silent"
SILENCE, VOLUME, PAUSE, RESUME = -60000, 1, 4, 5
UNTOUCHED = 9  # what the room holds before a call


def tables_of(text):
    return [[[int(z) for z in line.split()] for line in block.split("\n")[1:] if line] for block in text.decode().split("\n\n")]


# docs/SILENCE.md; a track is its line number


def above(tables, track):
    """The tracks above a track."""
    parent = tables[TRACKS][track - 1][0]
    return [parent, *above(tables, parent)] if parent else []


def is_muted(tables, track):
    volumes = [tables[TRACKS][track - 1][1]] + [order[3] for order in tables[ORDERS] if order[1:3] == [VOLUME, track]]
    return max(volumes) <= SILENCE and all(track not in above(tables, route[0]) for route in tables[ROUTES])


def is_held(tables, track):
    named = [order for order in tables[ORDERS] if order[1] in (PAUSE, RESUME) and order[2] == track]
    return len(named) == 1 and [named[0][j] for j in (0, 1, 4, 5, 7)] == [0, PAUSE, 0, 0, 0]


def silence(tables, track):
    if is_muted(tables, track):
        return 1
    if is_held(tables, track):
        return 2
    return 3 if any(is_muted(tables, t) or is_held(tables, t) for t in above(tables, track)) else 0


# ---- the list


def vector(text, house, visitor, number, room=None):
    """A case, and the line that is expected. The number is that of questions 1 to 9."""
    lines = len(tables_of(text)[TRACKS]) if number == 0 else 3
    room = lines if room is None else room
    number = number or (10 if room != lines else 0)
    numbers = [UNTOUCHED] * room if number else [silence(tables_of(text), t + 1) for t in range(room)]
    return (1, text, house, visitor, room), " ".join(map(str, [number, *numbers]))


def of_stored():
    for folder in sorted((ROOT / "oracle/scenes").iterdir()):
        first, *rest = (folder / "output.txt").read_text().split("\n")
        yield vector(*stored(folder), int(rest[0]) if first == "refused" else 0)


def of_scene_list():
    for _, number, text, *buffers, _ in scene_vectors.VECTORS:
        yield vector(text, *(array.array("f", buffer).tobytes() for buffer in buffers), number % 10)


def order(kind, index, volume=0, block=0, clock=0, when=0, millis=0):
    return [block, kind, index, volume, clock, when, 0, millis, 0, 0]


def small(tracks, routes=(), orders=(), room=None):
    tables = [[] for _ in scene_cases.NAMES]
    tables[HEAD], tables[SENDS], tables[SOUNDS] = [[8192, 2, 128, 2, 2, 0]], [[0], [0]], [[0, 0, 0, 0]]
    tables[1] = [[1, 1000, 1]]
    tables[TRACKS], tables[ROUTES], tables[ORDERS] = list(tracks), list(routes), list(orders)
    return vector(scene_cases.text_of(tables), b"", b"", 0, room)


def of_corners():
    tree = [[0, -60000], [1, 0], [2, 0], [0, 0], [4, -60000], [1, -96000]]
    yield small([[0, -60000], [0, -59999], [0, -60001]])
    yield small(tree)
    for track in range(1, 7):
        yield small(tree, routes=[[track, 1, 0]])
        yield small(tree, orders=[order(VOLUME, track, -60000)])
        yield small(tree, orders=[order(VOLUME, track, -59999, block=1)])
        yield small(tree, orders=[order(VOLUME, track, -59999), order(VOLUME, track, -60000)])
        pause = order(PAUSE, track)
        yield small(tree, routes=[[3, 2, 0]], orders=[pause])
        yield small(tree, orders=[pause, pause])
        yield small(tree, orders=[pause, order(RESUME, track, block=1)])
        yield small(tree, orders=[order(RESUME, track), order(PAUSE, track % 6 + 1)])
        yield small(tree, orders=[order(PAUSE, track, millis=1)])
        yield small(tree, orders=[order(PAUSE, track, block=1)])
        yield small(tree, orders=[order(PAUSE, track, when=1, millis=1)])
        yield small(tree, orders=[order(PAUSE, track, clock=1, millis=1)])
    # an order of another kind with the same index names another line
    yield small(tree, routes=[[4, 1, 0], [4, 2, 0]], orders=[order(2, 1, 0), order(3, 1, 0), order(0, 0, 0), order(2, 2, 0), order(3, 2, 0)])
    yield small([[0, -60000], [1, 0], [2, 0], [3, 0]], routes=[[1, 1, 0]])
    yield small([[0, -60000], [1, 0], [2, 0], [3, 0]], routes=[[1, 1, 0], [4, 2, 0]])
    for room in (0, 5, 7):
        yield small(tree, room=room)
    yield small([], room=0)
    yield small([], room=1)
    yield small([[0, 0]] * 32, orders=[order(PAUSE, 32)])
    yield small([[0, 0]] * 32, room=33)


if __name__ == "__main__":
    vectors = [*of_stored(), *of_scene_list(), *of_corners()]
    texts = [case[1] for case, _ in vectors]
    seen = {z for _, line in vectors for z in line.split()[1:]}
    assert seen == {"0", "1", "2", "3", "9"}, seen
    print(len(vectors), "vectors,", sum(map(len, texts)), "bytes of scenes")
    files = {"stdin": joined([case for case, _ in vectors]), "stdout": "".join(line + "\n" for _, line in vectors).encode()}
    print(len(files["stdin"]), "bytes of stdin")
    store(CRATE, files, "--check" in sys.argv)
