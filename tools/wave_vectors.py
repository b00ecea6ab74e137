#!/usr/bin/env python3
"""The cases that the gate runs through the WAVE routines, and the answers that they must give.

    tools/wave_vectors.py             writes crates/test_wave/stdin and stdout
    tools/wave_vectors.py --check     writes nothing, and says whether they are as it would write them
"""

import pathlib
import random
import struct
import sys

import sound_files
import wave_cases
from case_stream import store

CRATE = pathlib.Path(__file__).resolve().parent.parent / "crates/test_wave"
SEED = 20260101


def plain(bits, channels, data, extra=b"", before=b"", size=None):
    tag = 1 if bits == 16 else 3
    body = b"fmt " + struct.pack("<IHHIIHH", 16, tag, channels, 44100, 0, 0, bits)
    body = before + body + extra + b"data" + struct.pack("<I", len(data) if size is None else size) + data
    return b"RIFF" + struct.pack("<I", 0) + b"WAVE" + body


def chosen():
    """One for each rule, each beside one that passes."""
    four = struct.pack("<4h", 16384, -32768, 32767, -1)
    odd = b"LIST" + struct.pack("<I", 3) + b"abc"
    format_chunk = plain(16, 2, b"")[12:36]
    files = [
        plain(16, 2, four), plain(16, 1, four), plain(32, 2, struct.pack("<2f", 0.5, -0.25)), plain(32, 1, struct.pack("<2I", 0x7FA00001, 1)),
        plain(16, 2, b""), plain(16, 2, four, odd + b"\0"), plain(16, 2, four, odd), plain(16, 2, four, odd + b"d"),
        plain(16, 2, four) + b"LIST" + struct.pack("<I", 1) + b"a", plain(16, 2, four) + b"LIST" + struct.pack("<I", 1) + b"ab",
        plain(16, 2, four) + b"1234567", plain(16, 2, four) + b"LIST" + struct.pack("<I", 0xFFFFFFF8), plain(16, 2, four)[:-1],
        plain(16, 2, four, size=0xFFFFFFF8), plain(16, 2, four, size=9), plain(16, 2, four[:6]), plain(16, 1, four[:7]),
        plain(16, 3, four[:6]), plain(16, 0, four), plain(24, 2, four), plain(8, 1, four), plain(16, 2, four, format_chunk + odd + b"\0"),
        plain(16, 2, four, before=b"data" + struct.pack("<I", 4) + b"\1\2\3\4"), plain(16, 2, four, b"fmt " + struct.pack("<I", 2) + b"ab"),
        plain(16, 2, four, before=b"fmt " + struct.pack("<I", 18) + bytes(18)), plain(16, 2, four)[:36], plain(16, 2, four)[:12],
        plain(16, 2, four)[:11], b"", b"RIFX" + plain(16, 2, four)[4:], plain(16, 2, four).replace(b"WAVE", b"AIFF"),
        plain(16, 3, four[:6]) + b"12", b"RIFF\0\0\0\0WAVEdata" + struct.pack("<I", 0xFFFFFFFF) + format_chunk,
        b"RIFF\0\0\0\0WAVEdata" + struct.pack("<I", 4) + four[:4] + format_chunk[:16], format_chunk,
    ]
    made = []
    for file in files:
        number, sound = sound_files.info(file)
        made.append(struct.pack("<6I", 0, len(file), 2 * sound[3] if number == 0 else 6, 0, 0, 0) + file)
    made.append(struct.pack("<6I", 0, len(files[0]), 3, 0, 0, 0) + files[0])
    ties = [wave_cases.bits_of(x / 65536) for x in (1, -1, 3, -3, 5, 65533, 65535, -65535, 65534, 2)]
    all_of_them = wave_cases.EDGES[:10] + ties
    for channels in (1, 2):
        for bits in (16, 32):
            body = struct.pack(f"<{len(all_of_them)}I", *all_of_them)
            made.append(struct.pack("<6I", 1, len(body), 44 + 10 * channels * bits // 8, 192000, channels, bits) + body)
    return made


def main():
    cases = chosen() + [c for c in wave_cases.cases(SEED, 110) if len(c) < 1500]
    made = {"stdin": b"".join(cases), "stdout": "".join(wave_cases.answer(c)[0] + "\n" for c in cases).encode()}
    print(len(cases), "cases")
    store(CRATE, made, sys.argv[1:] == ["--check"])


if __name__ == "__main__":
    main()
