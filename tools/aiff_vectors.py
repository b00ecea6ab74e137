#!/usr/bin/env python3
"""The cases that the gate runs through the AIFF routines and the converters, and the answers that they must give.

    tools/aiff_vectors.py             writes crates/test_aiff/stdin and stdout
    tools/aiff_vectors.py --check     writes nothing, and says whether they are as it would write them
"""

import pathlib
import struct
import sys

import aiff_cases
import sound_files
import wave_cases
from case_stream import store
from wave_vectors import plain as plain_wave

CRATE = pathlib.Path(__file__).resolve().parent.parent / "crates/test_aiff"
SEED = 20260701
RATE = struct.pack(">HQ", 16383 + 15, 44100 << 48)


def common(channels, frames, bits=16, rate=RATE, extra=b""):
    body = struct.pack(">HIH", channels, frames, bits) + rate + extra
    return b"COMM" + struct.pack(">I", len(body)) + body


def sound(data, offset=0, size=None):
    return b"SSND" + struct.pack(">III", 8 + len(data) if size is None else size, offset, 0) + data


def plain(*parts):
    return b"FORM\0\0\0\0AIFF" + b"".join(parts)


def chosen():
    """One for each rule, each beside one that passes."""
    four = struct.pack(">4h", 16384, -32768, 32767, -1)
    name = b"NAME" + struct.pack(">I", 3) + b"abc"
    rates = [
        (16383 + 65, 11025), (16383 + 63 - 48, 44100 << 48), (16446, 44100), (16446 + 2, 11025), (16446 - 47, (44100 << 47) + 1), (16446, 44101),
        (16383 + 15, (44100 << 48) + 1), (16383 + 15 + 32768, 44100 << 48), (32767, 1 << 63), (32767, 0), (65535, 44100), (0, 0), (0, 2**64 - 1),
        (16446, 7999), (16446, 8000), (16446, 192000), (16446, 192001), (16446 + 13, 1), (16446 + 12, 1), (16446 + 17, 1), (16446 + 18, 1),
        (16446 + 40, 1), (16446, 2**32 + 44100), (32766, 0), (32766, 1),
    ]
    files = [
        plain(common(2, 2), sound(four)), plain(common(1, 4), sound(four)), plain(sound(four), common(2, 2)), plain(common(2, 0), sound(b"")),
        plain(common(2, 1), sound(b"ab" + four[:4], 2)), plain(common(2, 1), sound(four, 3)), plain(common(2, 2), sound(b"x" + four, 1)),
        plain(common(2, 0), sound(four, 8)), plain(common(2, 0), sound(four, 9)), plain(common(2, 2), sound(four, 1)), plain(common(2, 3), sound(four)),
        plain(common(1, 0xFFFFFFFF), sound(four)), plain(common(2, 2), sound(four, 0xFFFFFFFF)), plain(common(2, 1), sound(four)),
        # an odd sound chunk, with its pad byte and without, in front of the common chunk and last
        plain(sound(four + b"z") + b"\0", common(2, 2)), plain(sound(four + b"z"), common(2, 2)), plain(common(2, 2), sound(four + b"z")),
        plain(common(2, 2), sound(four + b"z") + b"\0"), plain(name + b"\0", common(2, 2), sound(four)), plain(name, common(2, 2), sound(four)),
        plain(common(2, 2), sound(four), b"1234567"), plain(common(2, 2), sound(four), b"NAME\xff\xff\xff\xf8"), plain(common(2, 2), sound(four))[:-1],
        plain(common(2, 2), sound(four, size=17)), plain(common(2, 2), sound(four, size=16 << 24)), plain(common(2, 2), b"SSND\0\0\0\7" + bytes(8)),
        plain(common(2, 0), b"SSND\0\0\0\x08" + bytes(8)), plain(common(2, 2, extra=b"NONE"), sound(four)), plain(common(2, 2)), plain(sound(four)),
        plain(common(2, 2), sound(four), common(9, 9, 9)), plain(common(2, 2), sound(four), sound(b"")), plain(common(3, 1), sound(four)), plain(common(0, 0), sound(four)),
        plain(common(2, 2, 8), sound(four)), plain(common(2, 2, 24), sound(four)), plain(common(2, 9, 24), sound(four)), plain(common(9, 1, 16, bytes(10)), sound(four)),
        plain(common(2, 9, 16, bytes(10)), sound(four)), plain(common(2, 2), sound(four)).replace(b"AIFF", b"AIFC"), b"RIFF" + plain(common(2, 2), sound(four))[4:],
        plain(common(2, 2), sound(four))[:12], plain()[:11], b"",
    ] + [plain(common(2, 2, 16, struct.pack(">HQ", *rate)), sound(four)) for rate in rates]
    made = []
    for file in files:
        number, held = sound_files.aiff_info(file)
        made.append(aiff_cases.case(0, file, 2 * held[2] if number == 0 else 6))
        made.append(aiff_cases.case(3, file, 44 + 2 * held[1] * held[2] if number == 0 else 50))
    made.append(aiff_cases.case(0, files[0], 3))
    made.append(aiff_cases.case(3, files[0], 51))
    ties = [wave_cases.bits_of(x / 65536) for x in (1, -1, 3, -3, 5, 65533, 65535, -65535, 65534, 2)]
    samples = struct.pack("<20I", *(wave_cases.EDGES[:10] + ties))
    for channels in (1, 2):
        made.append(aiff_cases.case(1, samples, 54 + 20 * channels, 192000, channels))
    little = struct.pack("<4h", 16384, -32768, 32767, -1)
    waves = [plain_wave(16, 2, little), plain_wave(16, 1, little), plain_wave(16, 2, b""), plain_wave(16, 2, little[:6]), plain_wave(24, 2, little)]
    for bits in (0, 0x80000000, 0x3F800000, 0xBF800000, 0x3F000000, 0x3F000001, 0x38000000, 0x37800000, 0x7FC00000, 0x7F800000, 0x3F7FFE00, 1):
        waves.append(plain_wave(32, 1, struct.pack("<2I", 0x3F000000, bits)))
    # 17 before 18
    slow = struct.pack("<I", 7999)
    waves += [w[:24] + slow + w[28:] for w in (waves[0], waves[6], waves[9])]
    for file in waves:
        number, held = sound_files.info(file)
        made.append(aiff_cases.case(2, file, 54 + 2 * held[1] * held[3] if number == 0 else 60))
    made.append(aiff_cases.case(2, waves[0], 63))
    return made


def main():
    cases = chosen() + [c for c in aiff_cases.cases(SEED, 120) if len(c) < 1500]
    made = {"stdin": b"".join(cases), "stdout": "".join(aiff_cases.answer(c)[0] + "\n" for c in cases).encode()}
    print(len(cases), "cases")
    store(CRATE, made, sys.argv[1:] == ["--check"])


if __name__ == "__main__":
    main()
