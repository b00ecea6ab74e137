"""Cases for the WAVE routines, from a seed, with the answers of sound_files.py. For the scripts beside it.

A case is six numbers of four bytes, the lowest first, and then bytes: 0 to read or 1 to write; how many bytes follow; the length of the
buffer to fill; and for a file to write its rate, channels and bits. An answer is a line of numbers: of a file to read what `info` answers
(number, rate, channels, bits, frames), then the reader's number and rate and the samples' bits; of a file to write the number and the
file's bytes. Where a routine refuses, each value is what stood there before: 1 2 3 4, 5, the sample 0.25, the byte 170."""

import random
import struct

import sound_files

OLD_SAMPLE = 0x3E800000
OLD_BYTE = 170
EDGES = [0, 0x80000000, 0x3F800000, 0xBF800000, 1, 0x80000001, 0x3F7FFFFF, 0xBF7FFFFF, 0x3F7FFE00, 0x37800000, 0xB7800000]
BAD = [0x3F800001, 0xBF800001, 0x7F800000, 0xFF800000, 0x7FC00000, 0x7F800001, 0xFFC00000, 0x40000000]
SIZES = [0xFFFFFFFF, 0xFFFFFFF8, 0xFFFFFFF7, 0xFFFFFFF0, 0x80000000, 0x7FFFFFFF]


def sample(r):
    """A sample of -1.0..1.0: an edge, a multiple of 1 / 32768, a tie between two, or any."""
    kind = r.randrange(5)
    if kind == 0:
        return r.choice(EDGES)
    if kind == 1:
        return bits_of(r.randrange(-32768, 32769) / 32768)
    if kind == 2:
        return bits_of((2 * r.randrange(-32768, 32768) + 1) / 65536)
    if kind == 3:
        return bits_of(max(-1.0, min(1.0, r.uniform(-1.0001, 1.0001))))
    return r.randrange(0x3F800001) | r.randrange(2) << 31


def bits_of(x):
    return struct.unpack("<I", struct.pack("<f", x))[0]


def chunk(name, body, r, size=None, pad=True):
    made = name + struct.pack("<I", len(body) if size is None else size) + body
    return made + bytes([r.randrange(256)]) if pad and len(body) % 2 else made


def file_of(r, plain=False):
    """A file to read, most often with something out of the ordinary."""
    channels = r.choice([1, 2])
    tag, bits = r.choice([(1, 16), (3, 32)])
    wild = 0 if plain else r.randrange(100)
    if 90 <= wild < 94:
        channels = r.choice([0, 3, 4, 6, 256, 65535])
    if 92 <= wild < 98:
        tag, bits = r.choice([(1, 8), (1, 24), (1, 32), (3, 16), (3, 64), (0xFFFE, 16), (2, 4), (0, 0), (7, 8), (257, 16), (3, 288)])
    rate = r.choice([8000, 44100, 48000, 192000, 0, 0xFFFFFFFF, r.randrange(2**32)])
    width = max(1, bits // 8)
    frames = r.choice([0, 1, 2, 3, 5, 17, r.randrange(40)])
    body = bytes(r.randrange(256) for _ in range(frames * min(channels, 6) * width))
    if bits == 32 and r.randrange(2):
        body = b"".join(struct.pack("<I", r.choice([sample(r), r.choice(BAD)])) for _ in range(frames * min(channels, 6)))
    if wild in (80, 81, 82, 83):
        body += bytes(r.randrange(1, 4))
    align = r.choice([channels * width % 65536, r.randrange(65536)])
    format_body = struct.pack("<HHIIHH", tag, channels, rate, r.randrange(2**32), align, bits)
    size = None
    if wild in (70, 71):
        format_body += bytes(r.choice([2, 1, 24]))
    if wild == 72:
        format_body = format_body[: r.randrange(16)]
    parts = [chunk(b"fmt ", format_body, r, pad=True), chunk(b"data", body, r, pad=True)]
    if wild in (60, 61, 62):
        parts[r.randrange(2)] = b""
    if wild in (63, 64):
        parts[1] = chunk(b"data", body, r, r.choice(SIZES + [len(body) + 1, len(body) + 2, len(body) + 8]))
    if wild in (65, 66):
        parts.append(chunk(r.choice([b"LIST", b"fmt ", b"data"]), body[:9], r, r.choice(SIZES + [12, 40])))
    if r.randrange(3) == 0:
        parts.reverse()
    for _ in range(r.choice([0, 0, 1, 1, 2, 4])):
        name = r.choice([b"LIST", b"fact", b"PEAK", b"cue ", b"FMT ", b"Data", b"\0\0\0\0", b"fmt ", b"data"])
        extra = bytes(r.randrange(256) for _ in range(r.choice([0, 1, 2, 3, 4, 7, 16, 21])))
        first = r.randrange(len(parts) + 1) if name not in (b"fmt ", b"data") else len(parts)
        parts.insert(first, chunk(name, extra, r, pad=r.randrange(8) != 0))
    made = b"".join(parts)
    if wild in (50, 51, 52):
        made += bytes(r.randrange(256) for _ in range(r.randrange(1, 8)))
    if len(made) % 2 == 1 or r.randrange(6) == 0:
        made = made[:-1] if r.randrange(4) == 0 and made else made
    outer, form = b"RIFF", b"WAVE"
    if wild in (40, 41, 42):
        outer = r.choice([b"RIFX", b"FORM", b"riff", b"RIF "])
    if wild in (43, 44, 45):
        form = r.choice([b"AIFF", b"wave", b"AVI ", b"WAVf"])
    file = outer + struct.pack("<I", r.choice([4 + len(made), 0, 0xFFFFFFFF, r.randrange(2**32)])) + form + made
    if 30 <= wild < 37:
        file = file[: r.randrange(len(file) + 1)]
    if wild in (37, 38):
        at = r.randrange(len(file))
        file = file[:at] + bytes([r.randrange(256)]) + file[at + 1 :]
    return file


def read_case(r, file=None):
    file = file_of(r) if file is None else file
    number, sound = sound_files.info(file)
    length = 2 * sound[3] if number == 0 else r.randrange(12)
    if r.randrange(12) == 0:
        length = max(0, length + r.choice([-2, -1, 1, 2, 100, -length // 2]))
    return struct.pack("<6I", 0, len(file), length, 0, 0, 0) + file


def write_case(r):
    samples = [sample(r) for _ in range(2 * r.choice([0, 1, 2, 3, 8, r.randrange(40)]))]
    wild = r.randrange(40)
    rate = r.choice([8000, 192000, 44100, 48000, r.randrange(8000, 192001)])
    channels, bits = r.choice([1, 2]), r.choice([16, 32])
    if wild < 4:
        rate = r.choice([7999, 192001, 0, 0xFFFFFFFF])
    if wild in (3, 4, 5, 6):
        channels = r.choice([0, 3, 0xFFFFFFFF, 65537])
    if wild in (6, 7, 8):
        bits = r.choice([0, 8, 24, 64, 15, 17, 33, 0x10010])
    if wild in (8, 9, 10, 11):
        samples = samples[:-1] if samples else [0]
    if wild in (11, 12, 13, 14, 15) and samples:
        samples[r.randrange(len(samples))] = r.choice(BAD)
    length = 44 + len(samples) // 2 * (channels % 4) * (bits % 256) // 8
    if wild in (15, 16, 17, 18, 19):
        length = max(0, length + r.choice([-44, -2, -1, 1, 2, 8]))
    body = b"".join(struct.pack("<I", x) for x in samples)
    return struct.pack("<6I", 1, len(body), length, rate, channels, bits) + body


def cases(seed, count):
    """One case in four is a file to write."""
    r = random.Random(seed)
    return [write_case(r) if i % 4 == 3 else read_case(r) for i in range(count)]


def answer(case):
    """The line that a program answers, and the numbers in it, for counting."""
    kind, size, length, rate, channels, bits = struct.unpack_from("<6I", case)
    body = case[24 : 24 + size]
    if kind == 0:
        number, sound = sound_files.info(body)
        line = [number, *(sound if number == 0 else (1, 2, 3, 4))]
        number, result = sound_files.read(body, length)
        line += [number, *((result[0], *result[1]) if number == 0 else (5, *([OLD_SAMPLE] * length)))]
    else:
        samples = [x for (x,) in struct.iter_unpack("<I", body)]
        number, file = sound_files.write(rate, channels, bits, samples, length)
        line = [number, *(file if number == 0 else [OLD_BYTE] * length)]
    return "".join(f"{n} " for n in line), (kind, number)
