#!/usr/bin/env python3
"""The month in exact numbers, written from the request's words alone: what the program prints for its standard input and its files.

    tools/month.py FOLDER < LINES       prints it for FOLDER's mix1.raw, mix2.raw and on
"""
import pathlib
import struct
import sys

MOST_MIXES = 1000
MOST_SAMPLES = 16777216
NAMES = b"mixes frames full peak mix sample squares\n"


def lines_of(text):
    """The lines, each with its line feed, and a rest without one."""
    lines = [line + b"\n" for line in text.split(b"\n")]
    rest = lines.pop()[:-1]
    return lines + [rest] if rest else lines


def refused(number):
    return b"refused\n%d\n" % number


def value_16(x):
    """The 16-bit value: times 32768, to the nearest, ties to even, 32767 at most. The product is exact in a double."""
    return min(round(x * 32768), 32767)


def printed(text, file_of):
    """`file_of(i)` has the bytes of mix i, from 1; a file that is missing has none."""
    lines = lines_of(text)
    if len(lines) > MOST_MIXES:
        return refused(24)
    if any(len(line) != 2 or line[0] not in b"12345678" or line[1] != 10 for line in lines):
        return refused(26)
    channels = [line[0] - 48 for line in lines]
    mixes = []
    for i, count in enumerate(channels, 1):
        raw = file_of(i)
        if len(raw) % 4 != 0 or len(raw) // 4 % count != 0 or len(raw) // 4 > MOST_SAMPLES:
            return refused(26)
        mixes.append(struct.unpack(f"<{len(raw) // 4}f", raw))
    if not all(-1.0 <= x <= 1.0 for mix in mixes for x in mix):
        return refused(25)
    frames = sum(len(mix) // count for mix, count in zip(mixes, channels))
    full = sum(abs(x) == 1.0 for mix in mixes for x in mix)
    squares = sum(value_16(x) ** 2 for mix in mixes for x in mix)
    largest = max((abs(x) for mix in mixes for x in mix), default=None)
    place = (0, 0, 0)
    if largest is not None:
        bits = struct.unpack("<I", struct.pack("<f", largest))[0]
        place = next((bits, i, j) for i, mix in enumerate(mixes, 1) for j, x in enumerate(mix, 1) if abs(x) == largest)
    return NAMES + b"%d %d %d %d %d %d %d\n" % (len(mixes), frames, full, *place, squares)


def number_of(answer):
    return int(answer.split(b"\n")[1]) if answer.startswith(b"refused\n") else 0


def of_folder(folder):
    def file_of(i):
        path = folder / f"mix{i}.raw"
        return path.read_bytes() if path.exists() else b""

    return file_of


if __name__ == "__main__":
    sys.stdout.buffer.write(printed(sys.stdin.buffer.read(), of_folder(pathlib.Path(sys.argv[1]))))
