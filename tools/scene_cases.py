#!/usr/bin/env python3
"""Cases for `test_scene` and for the oracle's `batch`: scene files, samples and an output length.

    scene_cases.py SEED COUNT > CASES                      generated and damaged cases, as a stream
    scene_cases.py --compare ORACLE PROGRAM SEED COUNT     runs both on the same stream and compares the numbers

The same seed gives the same cases under every Python.
"""
import struct
import subprocess
import sys
from array import array

NAMES = [
    b"rate channels buffer block blocks volume",
    b"unit speed ticking",
    b"parent volume",
    b"volume",
    b"track send volume",
    b"track first count from",
    b"x y z",
    b"track x y z near far",
    b"block kind index volume clock when part millis easing power",
]
LIMITS = [(1, 1), (0, 8), (0, 32), (0, 8), (0, 64), (0, 64), (0, 1), (0, 32), (0, 128)]
VOLUME = (-96000, 18000)
COORDINATE = (-1000000, 1000000)
DISTANCE = (0, 1000000)
RANGES = [
    [(8000, 192000), (1, 8), (1, 256), (1, 512), (1, 1024), VOLUME],
    [(0, 2), (1, 60000000), (0, 1)],
    [None, VOLUME],
    [VOLUME],
    [None, None, VOLUME],
    [None, (0, 2147483647), (0, 2147483647), (0, 1)],
    [COORDINATE] * 3,
    [None, *[COORDINATE] * 3, DISTANCE, DISTANCE],
    [(0, 1023), (0, 5), None, VOLUME, None, (0, 3600000), (0, 999), (0, 3600000), (0, 3), (0, 8)],
]
ORDERS = 8
TARGETS = {1: 2, 2: 3, 3: 4, 4: 2, 5: 2}
# what `test_scene` reads at once
ROOM = 524288


class Random:
    """splitmix64"""

    def __init__(self, seed):
        self.state = seed & (2**64 - 1)

    def next(self):
        self.state = (self.state + 0x9E3779B97F4A7C15) & (2**64 - 1)
        z = self.state
        z = ((z ^ (z >> 30)) * 0xBF58476D1CE4E5B9) & (2**64 - 1)
        z = ((z ^ (z >> 27)) * 0x94D049BB133111EB) & (2**64 - 1)
        return z ^ (z >> 31)

    def below(self, n):
        return self.next() % n

    def among(self, a, b):
        return a + self.below(b - a + 1)

    def pick(self, items):
        return items[self.below(len(items))]

    def chance(self, n):
        return self.below(n) == 0


def volume(r):
    return r.pick([r.among(*VOLUME), 0, -60000, -96000, 18000, r.among(-9000, 3000)])


def speed(r):
    unit = r.below(3)
    top = [60000000, 1000000, 60000000][unit]
    return [unit, r.pick([1, top, r.among(1, 2000), r.among(1, top)]), r.below(2)]


def count(r, t):
    low, high = LIMITS[t]
    return r.pick([low, high, r.among(low, min(high, low + 4)), r.among(low, min(high, low + 4)), r.among(low, high)])


def order(r, blocks, lines):
    kinds = [0] + [k for k in TARGETS if lines[TARGETS[k]]]
    kind = r.pick(kinds)
    index = 0 if kind == 0 else r.among(1, lines[TARGETS[kind]])
    clock = r.below(lines[1] + 1)
    when = r.pick([0, 0, r.among(0, 3600000), 3600000])
    part = 0 if clock == 0 else r.pick([0, 999, r.below(1000)])
    least = 1 if kind <= 4 and (clock or when) else 0
    millis = r.pick([least, 3600000, r.among(least, 3600000)])
    easing = r.below(4)
    power = 0 if easing == 0 else r.among(1, 8)
    level = 0 if kind >= 4 else volume(r)
    return [r.below(blocks), kind, index, level, clock, when, part, millis, easing, power]


def shuffled(r, items):
    left, made = list(items), []
    while left:
        made.append(left.pop(r.below(len(left))))
    return made


def coordinates(r):
    return [r.pick([0, *COORDINATE, r.among(*COORDINATE), r.among(-5000, 5000)]) for _ in range(3)]


def placing(r, track):
    near = r.pick([0, 999999, r.below(1000000), r.below(5000)])
    return [track, *coordinates(r), near, r.pick([near + 1, 1000000, r.among(near + 1, 1000000)])]


def scene(r):
    block, blocks, channels = r.among(1, 12), r.among(1, 6), r.among(1, 8)
    if r.chance(10):
        block, blocks = r.pick([1, 512]), r.pick([1, 1024])
    head = [r.pick([8000, 192000, 8192, 44100, r.among(8000, 192000)]), channels, r.among(1, 256), block, blocks, volume(r)]
    lines = [1] + [count(r, t) for t in range(1, len(NAMES))]
    if lines[2] == 0 or lines[3] == 0:
        lines[4] = 0
    lines[4] = min(lines[4], lines[2] * lines[3])
    frames = [r.pick([0, 1, 2, 5, r.below(40)]) for _ in range(2)]
    tracks, depth = [], [0]
    for i in range(lines[2]):
        above = [k for k in range(i + 1) if depth[k] < 4]
        parent = r.pick(above)
        depth.append(depth[parent] + 1)
        tracks.append([parent, volume(r)])
    pairs = set()
    while len(pairs) < lines[4]:
        pairs.add((r.among(1, lines[2]), r.among(1, lines[3])))
    sounds = []
    for _ in range(lines[5]):
        origin = r.below(2)
        first = r.among(0, frames[origin])
        sounds.append([r.below(lines[2] + 1), first, r.among(0, frames[origin] - first), origin])
    tables = [
        [head],
        [speed(r) for _ in range(lines[1])],
        tracks,
        [[volume(r)] for _ in range(lines[3])],
        [[a, b, volume(r)] for a, b in sorted(pairs)],
        sounds,
        [coordinates(r) for _ in range(lines[6])],
        [placing(r, track) for track in shuffled(r, range(1, lines[2] + 1))[: lines[7]]],
        [order(r, blocks, lines) for _ in range(lines[ORDERS])],
    ]
    both = [[r.pick([0.0, -0.0, 1.0, -1.0, 0.5, r.among(-1000, 1000) / 1000]) for _ in range(2 * n)] for n in frames]
    return tables, both


def text_of(tables):
    parts = []
    for names, rows in zip(NAMES, tables):
        parts.append(b"".join([names + b"\n"] + [" ".join(map(str, row)).encode() + b"\n" for row in rows]))
    return b"\n".join(parts)


def edge(r, low, high):
    return r.pick([low, high, low - 1, high + 1, low + 1, high - 1])


def damage_numbers(r, tables):
    """Changes a number, a line or a count."""
    filled = [t for t in range(len(NAMES)) if tables[t]]
    what = r.below(14)
    if not filled:
        return
    if what <= 4:
        t = r.pick(filled)
        row = r.pick(tables[t])
        j = r.below(len(row))
        if RANGES[t][j]:
            row[j] = edge(r, *RANGES[t][j])
        else:
            row[j] = r.pick([0, -1, 1, row[j] + 1, row[j] - 1, len(tables[2]) + 1, len(tables[1]) + 1, -2147483648, 2147483647])
    elif what == 5 and tables[ORDERS]:
        row = r.pick(tables[ORDERS])
        for j in (3, 6, 7, 8, 9, 1, 5):
            if r.chance(3):
                row[j] = edge(r, *RANGES[ORDERS][j]) if r.chance(2) else 0
    elif what == 6:
        t = r.among(1, len(NAMES) - 1)
        width = len(RANGES[t])
        while len(tables[t]) <= LIMITS[t][1]:
            tables[t].append(list(r.pick(tables[t])) if tables[t] else [0] * width)
    elif what == 7:
        tables[0] = [] if r.chance(2) else tables[0] * 2
    elif what == 8:
        chain = r.among(3, 7)
        tables[2][:] = [[k, 0] for k in range(min(chain, 32))]
    elif what == 9 and tables[4]:
        tables[4].append(list(r.pick(tables[4])))
    elif what == 10 and tables[1]:
        row = r.pick(tables[1])
        row[:] = r.pick([[1, 1000000, 0], [1, 1000001, 0], [2, 60000000, 1], [0, 1, 1], [2, 59999999, 0], [1, 999999, 0]])
    elif what == 11 and tables[5]:
        row = r.pick(tables[5])
        row[1], row[2] = r.pick([(2147483647, 2147483647), (row[1] + 1, row[2]), (row[1], row[2] + 1), (row[1] + row[2] + 1, 0)])
    elif what == 12 and tables[7]:
        row = r.pick(tables[7])
        row[4], row[5] = r.pick([(row[5], row[5]), (row[5], row[4]), (row[5] - 1, row[5]), (0, 0), (1000000, 1000000)])
    elif what == 13 and tables[7]:
        tables[7].insert(r.below(len(tables[7]) + 1), [r.pick(tables[7])[0], *coordinates(r), 0, 1])


def damage_text(r, text):
    """Changes bytes."""
    what = r.below(16)
    at = r.below(len(text)) if text else 0
    lines = text.split(b"\n")
    k = r.below(len(lines))
    if what == 0:
        return text[:at] + text[at + 1 :]
    if what == 1:
        return text[:at] + bytes([r.pick(list(b"0123456789 -+\n\r\tabz.\x00\xff")) if not r.chance(4) else r.below(256)]) + text[at:]
    if what == 2:
        return text[:at] + bytes([r.below(256)]) + text[at + 1 :]
    if what == 3:
        return text[: r.below(len(text) + 1)]
    if what == 4:
        return text[:-1]
    if what == 5:
        return text + r.pick([b"\n", b" ", b"0\n", b"\n\n", b"\r\n", b"0 0 0\n"])
    if what == 6:
        lines.insert(k, b"")
    elif what == 7:
        lines.pop(k)
    elif what == 8:
        lines.insert(k, lines[k])
    elif what == 9:
        i = r.below(len(lines))
        lines[i], lines[k] = lines[k], lines[i]
    elif what == 10:
        lines[k] += r.pick([b" ", b" 0", b"\r", b"0", b"-"])
    elif what == 11:
        lines[k] = r.pick([b" ", b"0", b"+", b"-", b"0 "]) + lines[k]
    elif what == 12:
        fields = lines[k].split(b" ")
        fields[r.below(len(fields))] = r.pick(
            [b"-0", b"00", b"01", b"-01", b"+1", b"", b"-", b"2147483647", b"2147483648", b"-2147483648", b"-2147483649",
             b"4294967296", b"99999999999999999999999", b"1" * 400, b"-2147483647", b"0", b"-1", b"1e3", b"0x1", b"18446744073709551616"]
        )
        lines[k] = b" ".join(fields)
    elif what == 13:
        lines[k] = lines[k].replace(b" ", b"  ", 1)
    elif what == 14:
        lines[k] = lines[k].upper()
    else:
        fields = lines[k].split(b" ")
        fields.pop()
        lines[k] = b" ".join(fields)
    return b"\n".join(lines)


def damage_samples(r, samples):
    what = r.below(4)
    if what == 0 or not samples:
        return samples + [r.pick([0.0, 2.0])]
    k = r.below(len(samples))
    bad = [float("nan"), float("inf"), float("-inf"), 1.0000001192092896, -1.0000001192092896, 2.0, 1e-45, 1.0, -1.0, 0.9999999]
    return samples[:k] + [r.pick(bad)] + samples[k + 1 :]


def pad(r, tables, size):
    """More order lines, until the text has that many bytes."""
    text = text_of(tables)
    while len(text) < size:
        room = size - len(text)
        line = b"0 0 0 0 0 0 0 0 0 0\n"
        if room < len(line):
            return text + b"0" * (room - 1) + b"\n"
        text += line
    return text


def case(seed, n):
    r = Random(seed * 1000003 + n)
    tables, both = scene(r)
    length = tables[0][0][3] * tables[0][0][4] * tables[0][0][1]
    for _ in range(r.pick([0, 1, 1, 1, 2, 3])):
        damage_numbers(r, tables)
    if tables[0] and r.chance(2):
        length = max(0, tables[0][0][3]) * max(0, tables[0][0][4]) * max(0, tables[0][0][1])
    text = text_of(tables)
    if r.chance(3):
        for _ in range(r.pick([1, 1, 2])):
            text = damage_text(r, text)
    if r.chance(60):
        text = pad(r, tables, r.pick([16383, 16384, 16385]))
    if r.chance(400):
        text = b""
    for origin in range(2):
        if r.chance(6):
            both[origin] = damage_samples(r, both[origin])
    if r.chance(6):
        length = r.pick([0, length + 1, max(0, length - 1), length * 2])
    length = min(length, 4194305)
    if len(text) > 32768:
        text = text[:32768]
    return packed(text, *both, length)


def packed(text, samples, visitor, length):
    files = [text, *(array("f", buffer).tobytes() for buffer in (samples, visitor))]
    return struct.pack("<5I", 1, *map(len, files), length) + b"".join(files)


def stream(seed, count):
    return b"".join(case(seed, n) for n in range(count))


def oracle_numbers(oracle, data):
    out = subprocess.run([oracle, "batch"], input=data, stdout=subprocess.PIPE, check=True).stdout
    numbers, at = [], 0
    while at < len(out):
        number, count = struct.unpack_from("<2I", out, at)
        numbers.append(number)
        at += 8 + 4 * count
    return numbers


def batches(seed, count):
    """The cases in streams, each no longer than the program's room."""
    held, size = [], 0
    for n in range(count):
        one = case(seed, n)
        if size + len(one) > ROOM:
            yield held
            held, size = [], 0
        held.append(one)
        size += len(one)
    yield held


def compare(oracle, program, seed, count):
    tally, wrong, done = {}, 0, 0
    for held in batches(seed, count):
        data, n = b"".join(held), len(held)
        theirs = oracle_numbers(oracle, data)
        ours = [int(x) for x in subprocess.run([program], input=data, stdout=subprocess.PIPE, check=True).stdout.split()]
        if len(ours) != n or len(theirs) != n:
            print(f"{n} cases, {len(theirs)} answers of the oracle, {len(ours)} of ours")
            return 1
        for k, (a, b) in enumerate(zip(theirs, ours)):
            tally[a] = tally.get(a, 0) + 1
            if a != b:
                wrong += 1
                print(f"case {done + k} of seed {seed}: the oracle says {a}, we say {b}")
        done += n
    print(f"{done} cases, {wrong} differ; by number: " + ", ".join(f"{k}: {tally[k]}" for k in sorted(tally)))
    return 1 if wrong else 0


if __name__ == "__main__":
    if sys.argv[1] == "--compare":
        sys.exit(compare(sys.argv[2], sys.argv[3], int(sys.argv[4]), int(sys.argv[5])))
    sys.stdout.buffer.write(stream(int(sys.argv[1]), int(sys.argv[2])))
