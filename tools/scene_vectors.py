#!/usr/bin/env python3
"""The list of small inputs that `test_scene` runs: writes its stdin and its stdout.

    tools/scene_vectors.py                    writes crates/test_scene/stdin and stdout
    tools/scene_vectors.py --check            writes nothing, and says whether they are as it would write them
    tools/scene_vectors.py --oracle ORACLE    asks the oracle for every number and compares
    tools/scene_vectors.py --list             prints the list

Each vector says the number that docs/REFUSALS.md gives, which is decided here and not asked of any program.
"""
import copy
import pathlib
import struct
import sys

import scene_cases
from case_stream import store
from scene_cases import LIMITS, NAMES, RANGES

CRATE = pathlib.Path(__file__).resolve().parent.parent / "crates/test_scene"
HEAD, CLOCKS, TRACKS, SENDS, ROUTES, SOUNDS, LISTENER, PLACINGS, ORDERS = range(len(NAMES))


def base():
    return [
        [[8192, 2, 128, 2, 2, 0]],
        [[1, 2000, 1], [0, 500, 0]],
        [[0, 0], [1, -6000], [0, 100]],
        [[0], [-3000]],
        [[1, 1, 0], [2, 2, -100]],
        [[0, 0, 4, 0], [2, 1, 2, 1]],
        [[1000, -2000, 3000]],
        [[2, 0, 0, 3000, 1000, 4000], [1, -500, 250, 125, 0, 1]],
        [
            [0, 0, 0, -6000, 0, 0, 0, 100, 0, 0],
            [1, 1, 2, 0, 1, 3, 500, 20, 1, 2],
            [0, 2, 2, -100, 0, 5, 0, 1, 2, 3],
            [1, 3, 1, 18000, 2, 0, 0, 7, 3, 8],
            [0, 4, 3, 0, 0, 0, 0, 0, 0, 0],
            [1, 5, 3, 0, 1, 2, 0, 0, 0, 0],
        ],
    ]


SAMPLES = [0.5, -0.25, 1.0, 0.0, -1.0, -0.0, 0.125, 0.75]
VISITOR = [0.25, 0.125, -0.5, 1.0, 0.0, -1.0]
VECTORS = []


def add(name, expected, tables=None, text=None, samples=None, visitor=None, length=None):
    tables = base() if tables is None else tables
    if text is None:
        text = scene_cases.text_of(tables)
    if length is None:
        head = tables[0][0] if tables[0] else [0, 0, 0, 0, 0, 0]
        length = max(0, head[3]) * max(0, head[4]) * max(0, head[1])
    VECTORS.append((name, expected, text, SAMPLES if samples is None else samples, VISITOR if visitor is None else visitor, length))


def changed(t, i, j, value):
    tables = base()
    tables[t][i][j] = value
    return tables


def with_rows(t, rows):
    tables = base()
    tables[t] = rows
    return tables


def padded(size):
    """The base scene with more order lines, each well spelled, so that the file has that many bytes."""

    def line(room):
        extra = room - 20
        when, millis = min(extra, 6), max(0, extra - 6)
        return f"0 0 0 0 0 {'1' * (when + 1) if when else 0} 0 {'1' * (millis + 1)} 0 0\n".encode()

    text = scene_cases.text_of(base())
    while size - len(text) >= 60:
        text += line(20)
    half = (size - len(text)) // 2
    text += line(half)
    text += line(size - len(text))
    assert len(text) == size
    return text


def sizes():
    add("the base scene", 0)
    add("an empty file", 1, text=b"")
    add("one byte, no line feed", 1, text=b"r")
    add("one line feed", 2, text=b"\n")
    text = scene_cases.text_of(base())
    add("no line feed at the end", 1, text=text[:-1])
    add("16,384 bytes", 3, text=padded(16384))
    add("16,385 bytes", 1, text=padded(16385))
    add("16,385 bytes, the last no line feed", 1, text=padded(16384) + b"0")


def spelling():
    text = scene_cases.text_of(base())
    lines = text.split(b"\n")
    bad = [
        ("an empty line after the last table", text + b"\n"),
        ("a tenth table", text + b"\nvolume\n"),
        ("a line of spaces", text.replace(b"\n\nunit", b"\n \nunit")),
        ("two empty lines between tables", text.replace(b"\n\nunit", b"\n\n\nunit")),
        ("no empty line between tables", text.replace(b"\n\nunit", b"\nunit")),
        ("an empty line at the start", b"\n" + text),
        ("carriage returns", text.replace(b"\n", b"\r\n")),
        ("a carriage return after one number", text.replace(b"8192 2 128 2 2 0\n", b"8192 2 128 2 2 0\r\n")),
        ("a tab between fields", text.replace(b"8192 2 ", b"8192\t2 ")),
        ("two spaces", text.replace(b"8192 2", b"8192  2")),
        ("a space at a line's end", text.replace(b"8192 2 128 2 2 0\n", b"8192 2 128 2 2 0 \n")),
        ("a space at a line's start", text.replace(b"\n8192", b"\n 8192")),
        ("a field too few", text.replace(b"8192 2 128 2 2 0\n", b"8192 2 128 2 2\n")),
        ("a field too many", text.replace(b"8192 2 128 2 2 0\n", b"8192 2 128 2 2 0 0\n")),
        ("a plus", text.replace(b"8192", b"+8192")),
        ("a minus alone", text.replace(b" 128 2 2 0\n", b" 128 2 2 -\n")),
        ("two minuses", text.replace(b"-6000", b"--6000")),
        ("minus zero", text.replace(b" 128 2 2 0\n", b" 128 2 2 -0\n")),
        ("a leading zero", text.replace(b"8192", b"08192")),
        ("a leading zero after a minus", text.replace(b"-6000", b"-06000")),
        ("two zeros", text.replace(b" 128 2 2 0\n", b" 128 2 2 00\n")),
        ("a point", text.replace(b" 128 2 2 0\n", b" 128 2 2 0.0\n")),
        ("a letter", text.replace(b"8192", b"8l92")),
        ("a hexadecimal number", text.replace(b"8192", b"0x2000")),
        ("a byte above 127", text.replace(b"8192", b"\xff8192")),
        ("a zero byte", text.replace(b"8192", b"8192\x00")),
        ("the byte before the digit 0", text.replace(b"8192", b"8/92")),
        ("the byte after the digit 9", text.replace(b"8192", b"8:92")),
        ("2147483648", text.replace(b"8192", b"2147483648")),
        ("-2147483649", text.replace(b"8192", b"-2147483649")),
        ("2 to the 32nd", text.replace(b"8192", b"4294967296")),
        ("2 to the 64th", text.replace(b"8192", b"18446744073709551616")),
        ("a number of 400 digits", text.replace(b"8192", b"1" * 400)),
        ("a names line twice", text.replace(NAMES[1], NAMES[1] + b"\n" + NAMES[1])),
        ("two tables exchanged", text.replace(NAMES[2] + b"\n0 0\n1 -6000\n0 100", b"*").replace(NAMES[3] + b"\n0\n-3000", NAMES[2] + b"\n0 0\n1 -6000\n0 100").replace(b"*", NAMES[3] + b"\n0\n-3000")),
        ("the last table missing", text[: text.index(b"\n" + NAMES[ORDERS])]),
        ("the listener's table missing", text.replace(NAMES[LISTENER] + b"\n1000 -2000 3000\n\n", b"")),
        ("the placings' table missing", b"\n\n".join(part for part in text.split(b"\n\n") if not part.startswith(NAMES[PLACINGS]))),
        ("neither the listener's table nor the placings'", b"\n\n".join(part for part in text.split(b"\n\n") if not part.startswith((NAMES[LISTENER], NAMES[PLACINGS])))),
        ("the placings before the listener", text.replace(NAMES[LISTENER] + b"\n1000 -2000 3000\n\n", b"").replace(b"\n" + NAMES[ORDERS], b"\n" + NAMES[LISTENER] + b"\n1000 -2000 3000\n\n" + NAMES[ORDERS])),
        ("a listener of four fields", text.replace(b"1000 -2000 3000\n", b"1000 -2000 3000 0\n")),
        ("a placing of five fields", text.replace(b"2 0 0 3000 1000 4000\n", b"2 0 0 3000 1000\n")),
        ("no names line", b"\n".join(lines[1:])),
    ]
    for name, damaged in bad:
        assert damaged != text, name
        add(name, 2, text=damaged)
    for t, names in enumerate(NAMES):
        add(f"a capital letter in names line {t}", 2, text=b"\n".join(l[:1].upper() + l[1:] if l == names else l for l in lines))
        add(f"a letter too many in names line {t}", 2, text=b"\n".join(l + b"s" if l == names else l for l in lines))
        add(f"names line {t} cut short", 2, text=b"\n".join(l[:-1] if l == names else l for l in lines))
    # the last numbers of 32 bits are numbers, and out of range
    add("2147483647", 4, tables=changed(HEAD, 0, 0, 2147483647))
    add("-2147483648", 4, tables=changed(HEAD, 0, 0, -2147483648))


def full(t):
    """A table with as many lines as it may have, and what those lines need."""
    tables = base()
    if t == CLOCKS:
        tables[t] = [[1, 1000, 1]] * 8
    elif t == TRACKS:
        tables[t] = [[0, 0]] * 32
    elif t == SENDS:
        tables[t] = [[0]] * 8
    elif t == ROUTES:
        tables[TRACKS] = [[0, 0]] * 32
        tables[SENDS] = [[0]] * 8
        tables[t] = [[1 + k // 8, 1 + k % 8, 0] for k in range(64)]
    elif t == SOUNDS:
        tables[t] = [[0, 0, 4, 0]] * 64
    elif t == LISTENER:
        tables[t] = [[0, 0, 0]]
    elif t == PLACINGS:
        tables[TRACKS] = [[0, 0]] * 32
        tables[t] = [[1 + k, k, -k, 1000 * k, k, k + 1] for k in range(32)]
    elif t == ORDERS:
        tables[t] = [[0, 0, 0, 0, 0, 0, 0, 0, 0, 0]] * 128
    return tables


def counts():
    for t in range(1, len(NAMES)):
        tables = full(t)
        add(f"table {t} full", 0, tables=tables)
        tables = full(t)
        tables[t] = tables[t] + [list(tables[t][-1])]
        add(f"table {t} with a line too many", 3, tables=tables)
    add("no head line", 3, tables=with_rows(HEAD, []), length=8)
    add("two head lines", 3, tables=with_rows(HEAD, base()[0] * 2))
    tables = base()
    for t in range(1, len(NAMES)):
        tables[t] = []
    add("every table empty", 0, tables=tables)
    tables = [base()[0]] + [full(t)[t] for t in range(1, len(NAMES))]
    add("every table full", 0, tables=tables)
    add("the largest scene", 0, tables=largest(4), visitor=SAMPLES, length=4194304)


def largest(frames):
    """Every table full, and every number as long as an accepted one can be with that many frames."""
    half = frames // 2
    return [
        [[192000, 8, 256, 512, 1024, -96000]],
        [[2, 60000000, 1]] * 8,
        [[0 if k < 10 else 10, -96000] for k in range(32)],
        [[-96000]] * 8,
        [[10 + k // 8, 1 + k % 8, -96000] for k in range(64)],
        [[32, half, half, 1]] * 64,
        [[-1000000] * 3],
        [[1 + k, -1000000, -1000000, -1000000, 999999, 1000000] for k in range(32)],
        [[1023, 3, 64, -96000, 8, 3600000, 999, 3600000, 3, 8]] * 128,
    ]


def ranges():
    place = {HEAD: 0, CLOCKS: 0, TRACKS: 2, SENDS: 0, ROUTES: 0, SOUNDS: 0, LISTENER: 0, PLACINGS: 0, ORDERS: 0}
    for t in range(len(NAMES)):
        for j, limits in enumerate(RANGES[t]):
            if limits is None:
                continue
            low, high = limits
            for value, fine in ((low, True), (high, True), (low - 1, False), (high + 1, False)):
                if not -2147483648 <= value <= 2147483647:
                    continue
                tables = changed(t, place[t], j, value)
                samples = None
                if t == HEAD and j == 4 and fine:
                    for order in tables[ORDERS]:
                        order[0] = min(order[0], value - 1)
                if t == CLOCKS and j == 1 and value == high:
                    tables[t][0][0] = 2
                if t == PLACINGS and fine and j == 4:
                    tables[t][0][4:] = [value, value + 1] if value == 0 else [value - 1, value]
                if t == PLACINGS and fine and j == 5:
                    tables[t][0][4:] = [0, max(value, 1)]
                if t == ORDERS:
                    row = tables[t][0]
                    if j == 0 and fine:
                        tables[HEAD][0][4] = 1024
                    if j == 1 and fine:
                        row[1], row[2], row[3] = value, (0 if value == 0 else 1), 0
                    if j == 6:
                        row[4] = 1
                    if j == 8 and fine:
                        row[9] = 0 if value == 0 else 1
                    if j == 9:
                        row[8] = 0 if value <= 0 else 1
                if t == SOUNDS and j == 3 and fine:
                    tables[t][0][2] = 3
                if t == SOUNDS and j < 3 and fine and value == high:
                    add(f"field {j} of table {t} at {value}", 8, tables=tables)
                    continue
                add(f"field {j} of table {t} at {value}", 0 if fine else 4, tables=tables, samples=samples)


def orders():
    def order(name, expected, **fields):
        names = NAMES[ORDERS].decode().split()
        row = [0, 0, 0, 0, 0, 0, 0, 100, 0, 0]
        for key, value in fields.items():
            row[names.index(key)] = value
        add(name, expected, tables=with_rows(ORDERS, [row]))

    order("block 1 of 2", 0, block=1)
    order("block 2 of 2", 4, block=2)
    for kind in (4, 5):
        order(f"kind {kind} with a volume", 4, kind=kind, index=1, volume=1)
        order(f"kind {kind} with a volume below 0", 4, kind=kind, index=1, volume=-1)
        order(f"kind {kind}", 0, kind=kind, index=1)
    order("a part with no clock", 4, part=1)
    order("a part with a clock", 0, part=1, clock=1)
    for kind, index in ((0, 0), (1, 1), (2, 1), (3, 1), (4, 1)):
        order(f"kind {kind} at a clock, no length", 4, kind=kind, index=index, clock=1, millis=0)
        order(f"kind {kind} after a delay, no length", 4, kind=kind, index=index, when=1, millis=0)
        order(f"kind {kind} at once, no length", 0, kind=kind, index=index, millis=0)
        order(f"kind {kind} at a clock, 1 ms", 0, kind=kind, index=index, clock=1, millis=1)
    order("kind 5 at a clock, no length", 0, kind=5, index=1, clock=1, millis=0)
    order("kind 5 after a delay, no length", 0, kind=5, index=1, when=1, millis=0)
    order("a clock that is not there, no length", 4, clock=9, millis=0)
    order("easing 0 with a power", 4, power=1)
    for easing in (1, 2, 3):
        order(f"easing {easing} with power 0", 4, easing=easing)
        order(f"easing {easing} with power 1", 0, easing=easing, power=1)
        order(f"easing {easing} with power 8", 0, easing=easing, power=8)
    # the index
    tables = {1: 3, 2: 2, 3: 2, 4: 3, 5: 3}
    order("kind 0 with index 1", 5, index=1)
    order("kind 0 with index -1", 5, index=-1)
    for kind, count in tables.items():
        order(f"kind {kind} with the last index", 0, kind=kind, index=count)
        order(f"kind {kind} with an index past the last", 5, kind=kind, index=count + 1)
        order(f"kind {kind} with index 0", 5, kind=kind, index=0)
        order(f"kind {kind} with index -1", 5, kind=kind, index=-1)
    order("the last clock", 0, clock=2)
    order("a clock past the last", 5, clock=3)
    order("clock -1", 5, clock=-1)


def speeds():
    for row, expected in (
        ([0, 1, 0], 0),
        ([0, 60000000, 0], 0),
        ([1, 1, 0], 0),
        ([1, 1000000, 0], 0),
        ([1, 1000001, 0], 4),
        ([2, 60000000, 0], 0),
        ([2, 59999999, 1], 0),
        ([1, 60000000, 1], 4),
    ):
        add(f"a clock {row}", expected, tables=changed_row(CLOCKS, 1, row))


def changed_row(t, i, row):
    tables = base()
    tables[t][i] = row
    return tables


def references():
    for t, i, j, last, zero in ((ROUTES, 0, 0, 3, False), (ROUTES, 0, 1, 2, False), (SOUNDS, 0, 0, 3, True), (PLACINGS, 0, 0, 3, False)):
        add(f"table {t}, field {j}: the last line", 0, tables=changed(t, i, j, last))
        add(f"table {t}, field {j}: past the last line", 5, tables=changed(t, i, j, last + 1))
        add(f"table {t}, field {j}: 0", 0 if zero else 5, tables=changed(t, i, j, 0))
        add(f"table {t}, field {j}: -1", 5, tables=changed(t, i, j, -1))
    add("a parent: the line before", 0, tables=changed(TRACKS, 2, 0, 2))
    add("a parent: the line itself", 5, tables=changed(TRACKS, 2, 0, 3))
    add("a parent: a later line", 5, tables=changed(TRACKS, 1, 0, 3))
    add("a parent: -1", 5, tables=changed(TRACKS, 1, 0, -1))
    add("the first track's parent 1", 5, tables=changed(TRACKS, 0, 0, 1))


def depths():
    for depth in (1, 4, 5, 6, 32):
        rows = [[k, 0] for k in range(max(3, depth))] if depth > 3 else base()[TRACKS]
        add(f"depth {depth}", 0 if depth <= 4 else 6, tables=with_rows(TRACKS, rows))
    add("depth 5 by a later branch", 6, tables=with_rows(TRACKS, [[0, 0], [1, 0], [2, 0], [3, 0], [0, 0], [4, 0]]))


def pairs():
    add("a pair routed twice", 7, tables=with_rows(ROUTES, [[1, 1, 0], [1, 1, 0]]))
    add("a pair routed twice, with lines between", 7, tables=with_rows(ROUTES, [[1, 1, 0], [2, 1, 0], [1, 2, 0], [1, 1, -5]]))
    add("the same track, another send", 0, tables=with_rows(ROUTES, [[1, 1, 0], [1, 2, 0]]))
    add("the same send, another track", 0, tables=with_rows(ROUTES, [[1, 1, 0], [2, 1, 0]]))
    add("track and send exchanged", 0, tables=with_rows(ROUTES, [[1, 2, 0], [2, 1, 0]]))


def distances():
    for near, far, expected in (
        (0, 0, 4),
        (0, 1, 0),
        (1, 0, 4),
        (1, 1, 4),
        (999, 1000, 0),
        (1000, 1000, 4),
        (1001, 1000, 4),
        (999999, 1000000, 0),
        (1000000, 1000000, 4),
        (1000000, 999999, 4),
        (1000000, 0, 4),
        (0, 1000000, 0),
    ):
        add(f"from {near} to {far}", expected, tables=changed_row(PLACINGS, 1, [1, 0, 0, 0, near, far]))
    add("from 1000000 to 1000001", 4, tables=changed_row(PLACINGS, 1, [1, 0, 0, 0, 1000000, 1000001]))
    add("from -1 to 0", 4, tables=changed_row(PLACINGS, 1, [1, 0, 0, 0, -1, 0]))


def placed():
    pose = [0, 0, 0, 0, 1]
    add("no listener", 0, tables=with_rows(LISTENER, []))
    add("two listeners", 3, tables=with_rows(LISTENER, [[0, 0, 0]] * 2))
    add("a listener and no placing", 0, tables=with_rows(PLACINGS, []))
    add("all tracks placed, the last first", 0, tables=with_rows(PLACINGS, [[k, *pose] for k in (3, 2, 1)]))
    add("a track placed twice", 7, tables=with_rows(PLACINGS, [[1, *pose], [1, *pose]]))
    add("a track placed twice, with lines between", 7, tables=with_rows(PLACINGS, [[3, *pose], [1, *pose], [2, *pose], [3, 5, 0, 0, 0, 2]]))
    add("the first track placed twice, with no listener", 7, tables=[*base()[:LISTENER], [], [[1, *pose], [2, *pose], [1, *pose]], base()[ORDERS]])


def samples():
    add("an odd count of samples", 8, samples=SAMPLES[:7])
    add("no samples, and sounds of none", 0, tables=with_rows(SOUNDS, [[0, 0, 0, 0]]), samples=[], visitor=[])
    add("no samples, one frame wanted", 8, tables=with_rows(SOUNDS, [[0, 0, 1, 0]]), samples=[])
    add("no samples, one frame of the visitor's wanted", 0, tables=with_rows(SOUNDS, [[0, 0, 1, 1]]), samples=[])
    add("an odd count of the visitor's samples", 8, visitor=VISITOR[:5])
    add("an odd count of the visitor's samples, from which nothing is", 8, tables=with_rows(SOUNDS, [[0, 0, 4, 0]]), visitor=VISITOR[:1])
    add("none of the visitor's, one frame wanted", 8, tables=with_rows(SOUNDS, [[0, 0, 1, 1]]), visitor=[])
    for row, expected in (
        ([0, 0, 4], 0),
        ([0, 0, 5], 8),
        ([0, 4, 0], 0),
        ([0, 5, 0], 8),
        ([0, 3, 1], 0),
        ([0, 3, 2], 8),
        ([0, 2147483647, 0], 8),
        ([0, 2147483647, 2147483647], 8),
        ([0, 2147483647, 1], 8),
    ):
        add(f"a sound {row} of 4 frames", expected, tables=with_rows(SOUNDS, [row + [0]]))
        add(f"a sound {row} of 4 frames of the visitor's", expected, tables=with_rows(SOUNDS, [row + [1]]), visitor=SAMPLES, samples=[])
    up = struct.unpack("<f", struct.pack("<I", 0x3F800001))[0]
    for value, expected in (
        (1.0, 0),
        (-1.0, 0),
        (up, 9),
        (-up, 9),
        (float("nan"), 9),
        (float("inf"), 9),
        (float("-inf"), 9),
        (-0.0, 0),
        (1.401298464324817e-45, 0),
        (-1.401298464324817e-45, 0),
        (0.9999999403953552, 0),
        (2.0, 9),
    ):
        for k in (0, 7):
            add(f"sample {k} is {value!r}", expected, samples=SAMPLES[:k] + [value] + SAMPLES[k + 1 :])
            add(f"the visitor's sample {k} is {value!r}", expected, visitor=SAMPLES[:k] + [value] + SAMPLES[k + 1 :])


def lengths():
    for length, expected in ((8, 0), (7, 10), (9, 10), (0, 10), (4, 10), (16, 10)):
        add(f"an output of {length}", expected, length=length)
    tables = changed(HEAD, 0, 3, 512)
    tables[HEAD][0][4] = 1024
    tables[HEAD][0][1] = 8
    add("the longest output", 0, tables=copy.deepcopy(tables), length=4194304)
    add("one more than the longest output", 10, tables=copy.deepcopy(tables), length=4194305)


def precedence():
    """Two neighbouring questions say no: the smaller number."""
    text = scene_cases.text_of(base())
    add("1 before 2", 1, text=text.replace(b"8192", b"+8192")[:-1])
    add("2 before 3", 2, text=scene_cases.text_of(with_rows(HEAD, [])).replace(b"parent", b"Parent"), length=8)
    add("2 before 3, a bad number in a line too many", 2, text=scene_cases.text_of(with_rows(SENDS, [[0]] * 9)).replace(b"-3000", b"-03000").replace(b"\nvolume\n0\n", b"\nvolume\n00\n"))
    tables = full(SENDS)
    tables[SENDS] = tables[SENDS] + [[18001]]
    add("3 before 4", 3, tables=tables)
    tables = changed(TRACKS, 1, 1, 18001)
    tables[TRACKS][2][0] = 9
    add("4 before 5", 4, tables=tables)
    tables = with_rows(TRACKS, [[k, 0] for k in range(5)])
    tables[ROUTES][0][1] = 9
    add("5 before 6", 5, tables=tables)
    tables = with_rows(TRACKS, [[k, 0] for k in range(5)])
    tables[ROUTES] = [[1, 1, 0], [1, 1, 0]]
    add("6 before 7", 6, tables=tables)
    add("7 before 8", 7, tables=with_rows(ROUTES, [[1, 1, 0], [1, 1, 0]]), samples=SAMPLES[:7])
    twice = [[1, 0, 0, 0, 0, 1], [1, 0, 0, 0, 0, 1]]
    add("7 of the placings before 8", 7, tables=with_rows(PLACINGS, twice), samples=SAMPLES[:7])
    tables = with_rows(TRACKS, [[k, 0] for k in range(5)])
    tables[PLACINGS] = twice
    add("6 before 7 of the placings", 6, tables=tables)
    tables = with_rows(PLACINGS, twice)
    tables[SOUNDS][0][0] = 9
    add("5 before 7 of the placings", 5, tables=tables)
    add("4 of a distance before 5 of its track", 4, tables=changed_row(PLACINGS, 0, [9, 0, 0, 0, 1, 1]))
    tables = with_rows(LISTENER, [[0, 0, 0]] * 2)
    tables[PLACINGS][0][4:] = [1, 1]
    add("3 of the listener before 4 of a distance", 3, tables=tables)
    add("8 before 9", 8, tables=with_rows(SOUNDS, [[0, 0, 5, 0]]), samples=[2.0] + SAMPLES[1:])
    add("8 of the visitor's before 9 of the house's", 8, tables=with_rows(SOUNDS, [[0, 0, 4, 1]]), samples=[2.0] + SAMPLES[1:])
    add("8 of the visitor's, an odd count, before 9 of the house's", 8, samples=[2.0] + SAMPLES[1:], visitor=VISITOR[:5])
    add("8 of the visitor's before 9 of the visitor's", 8, visitor=[2.0] + VISITOR[1:5])
    add("9 of the visitor's before 10", 9, visitor=[2.0] + VISITOR[1:], length=9)
    add("8 before 9, an odd count", 8, samples=[2.0] + SAMPLES[1:7])
    add("9 before 10", 9, samples=[2.0] + SAMPLES[1:], length=9)
    add("8 before 10", 8, samples=SAMPLES[:7], length=9)
    add("4 before 10", 4, tables=changed(HEAD, 0, 1, 9), length=5)


for part in (sizes, spelling, counts, ranges, orders, speeds, references, depths, pairs, distances, placed, samples, lengths, precedence):
    part()


def stream():
    out = []
    for _, _, text, samples, visitor, length in VECTORS:
        out.append(scene_cases.packed(text, samples, visitor, length))
    return b"".join(out)


if __name__ == "__main__":
    if sys.argv[1:] == ["--list"]:
        for k, (name, expected, *_rest) in enumerate(VECTORS):
            print(k, expected, name)
    elif sys.argv[1:2] == ["--oracle"]:
        theirs = scene_cases.oracle_numbers(sys.argv[2], stream())
        wrong = [(k, v[0], v[1], n) for k, (v, n) in enumerate(zip(VECTORS, theirs)) if v[1] != n]
        for k, name, ours, n in wrong:
            print(f"vector {k}, {name}: the list says {ours}, the oracle {n}")
        print(f"{len(VECTORS)} vectors, {len(wrong)} differ")
        sys.exit(1 if wrong or len(theirs) != len(VECTORS) else 0)
    else:
        print(f"{len(VECTORS)} vectors")
        files = {"stdin": stream(), "stdout": "".join(f"{v[1]}\n" for v in VECTORS).encode()}
        store(CRATE, files, sys.argv[1:] == ["--check"])
