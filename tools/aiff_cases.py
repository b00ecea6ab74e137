"""Cases for the AIFF routines and the converters, from a seed, with the answers of sound_files.py. For the scripts beside it.

A case is five numbers of four bytes, the lowest first, and then bytes: 0 to read, 1 to write, 2 to convert from WAVE or 3 from AIFF; how many
bytes follow; the length of the buffer to fill; and for a file to write its rate and channels. An answer is a line of numbers: of a file to read
what `info` answers (number, rate, channels, frames), then the reader's number and rate and the samples' bits; of any other the number and the
file's bytes. Where a routine refuses, each value is what stood there before: 1 2 3, 4, the sample 0.25, the byte 170."""

import random
import struct

import sound_files
import wave_cases
from wave_cases import BAD, OLD_BYTE, OLD_SAMPLE, sample

SIZES = [0xFFFFFFFF, 0xFFFFFFF8, 0xFFFFFFF7, 0x80000000, 0x08000000, 0x00000800]
UNIT = 16383 + 63


def chunk(name, body, r, size=None, pad=True):
    made = name + struct.pack(">I", len(body) if size is None else size) + body
    return made + bytes([r.randrange(256)]) if pad and len(body) % 2 else made


def rate_bytes(r, rate):
    """A rate as a number of 80 bits, normalised or not: any power with which it is still whole."""
    least = 64 - rate.bit_length()
    even = (rate & -rate).bit_length() - 1
    shift = r.choice([least, least, least, r.randrange(-even, least + 1)])
    digits = rate << shift if shift >= 0 else rate >> -shift
    return struct.pack(">HQ", UNIT - shift, digits)


def odd_rate(r):
    """A rate that is refused, or nearly."""
    kind = r.randrange(10)
    if kind == 0:
        return rate_bytes(r, r.choice([1, 7999, 192001, 2**32 - 1, 2**32, 2**32 + 44100, 2**63, 5]))
    if kind == 1:
        # a fraction, down to the last of the 64 digits
        return struct.pack(">HQ", 16383 + 15, (44100 << 48) + (1 << r.randrange(48)))
    if kind == 2:
        return struct.pack(">HQ", 32768 + 16383 + 15, 44100 << 48)
    if kind == 3:
        return struct.pack(">HQ", r.choice([32767, 65535]), r.choice([0, 1 << 63, 3 << 62, 44100]))
    if kind == 4:
        return struct.pack(">HQ", r.choice([0, 1, 32768, UNIT, 32766]), r.choice([0, 1, 44100, 2**64 - 1]))
    if kind == 5:
        return struct.pack(">HQ", UNIT + r.randrange(-70, 40), r.choice([1, 0, 44100, 11025, 2**64 - 1, 2**63, 3 << 40]))
    if kind == 6:
        return struct.pack(">HQ", UNIT - r.randrange(64), r.randrange(2**64))
    if kind == 7:
        return bytes(r.randrange(256) for _ in range(10))
    if kind == 8:
        return struct.pack(">HQ", UNIT + 2, 11025)
    return struct.pack(">QH", r.randrange(2**64), r.randrange(65536))


def file_of(r):
    """An AIFF file to read, most often with something out of the ordinary."""
    channels, bits = r.choice([1, 2]), 16
    wild = r.randrange(110)
    if 90 <= wild < 94:
        channels = r.choice([0, 3, 4, 6, 256, 65535])
    if 92 <= wild < 98:
        bits = r.choice([8, 24, 32, 1, 0, 12, 15, 17, 4096])
    rate = rate_bytes(r, r.choice([8000, 44100, 48000, 192000, 131072, 65536, 8192, 8191, r.randrange(8000, 192001)]))
    if wild >= 98:
        rate = odd_rate(r)
    frames = r.choice([0, 1, 2, 3, 5, 17, r.randrange(40)])
    data = bytes(r.randrange(256) for _ in range(frames * min(channels, 6) * 2))
    offset = r.choice([0, 0, 0, 1, 2, 7, 20])
    body = bytes(r.randrange(256) for _ in range(offset)) + data + bytes(r.randrange(256) for _ in range(r.choice([0, 0, 1, 2, 5])))
    if wild in (80, 81):
        body = body[: r.randrange(len(body) + 1)]
    if wild in (82, 83):
        offset = r.choice([len(body), len(body) + 1, 0xFFFFFFFF, 0xFFFFFFF8, offset << 24, offset + 1])
    if wild in (84, 85):
        frames = r.choice([frames + 1, 0xFFFFFFFF, 0x80000000, 0x40000000, frames << 8, 0])
    if wild == 86:
        offset, frames = len(body), 0
    common = struct.pack(">HIH", channels, frames, bits) + rate
    if wild in (70, 71):
        common += bytes(r.choice([2, 1, 4, 24]))
    if wild == 72:
        common = common[: r.randrange(18)]
    sound = struct.pack(">II", offset, r.choice([0, 512, r.randrange(2**32)])) + body
    if wild in (73, 74):
        sound = sound[: r.randrange(9)]
    parts = [chunk(b"COMM", common, r), chunk(b"SSND", sound, r)]
    if wild in (60, 61, 62):
        parts[r.randrange(2)] = b""
    if wild in (63, 64):
        parts[1] = chunk(b"SSND", sound, r, r.choice(SIZES + [len(sound) + 1, len(sound) + 2, len(sound) << 24]))
    if wild in (65, 66):
        parts.append(chunk(r.choice([b"NAME", b"COMM", b"SSND"]), body[:9], r, r.choice(SIZES + [12, 40])))
    if r.randrange(3) == 0:
        parts.reverse()
    for _ in range(r.choice([0, 0, 1, 1, 2, 4])):
        name = r.choice([b"NAME", b"MARK", b"INST", b"APPL", b"Comm", b"ssnd", b"\0\0\0\0", b"COMM", b"SSND"])
        extra = bytes(r.randrange(256) for _ in range(r.choice([0, 1, 2, 3, 4, 7, 18, 21])))
        first = r.randrange(len(parts) + 1) if name not in (b"COMM", b"SSND") else len(parts)
        parts.insert(first, chunk(name, extra, r, pad=r.randrange(8) != 0))
    made = b"".join(parts)
    if wild in (50, 51, 52):
        made += bytes(r.randrange(256) for _ in range(r.randrange(1, 8)))
    if len(made) % 2 == 1 or r.randrange(6) == 0:
        made = made[:-1] if r.randrange(4) == 0 and made else made
    outer, form = b"FORM", b"AIFF"
    if wild in (40, 41, 42):
        outer = r.choice([b"RIFF", b"FORN", b"form", b"LIST"])
    if wild in (43, 44, 45):
        form = r.choice([b"AIFC", b"aiff", b"8SVX", b"WAVE"])
    file = outer + struct.pack(">I", r.choice([4 + len(made), 0, 0xFFFFFFFF, r.randrange(2**32)])) + form + made
    if 30 <= wild < 37:
        file = file[: r.randrange(len(file) + 1)]
    if wild in (37, 38):
        at = r.randrange(len(file))
        file = file[:at] + bytes([r.randrange(256)]) + file[at + 1 :]
    return file


def wave_file(r):
    """A WAVE file to convert: often floats that 16 bits hold, and a rate in range."""
    if r.randrange(3) == 0:
        return wave_cases.file_of(r)
    channels, bits = r.choice([1, 2]), r.choice([16, 32, 32])
    count = channels * r.choice([0, 1, 2, 3, 8, r.randrange(30)])
    values = [wave_cases.bits_of(r.randrange(-32768, 32768) / 32768) for _ in range(count)]
    if count and r.randrange(4) == 0:
        values[r.randrange(count)] = r.choice([sample(r), r.choice(BAD), 0x80000000, 0x3F800000, 0xBF800000, 0x7FC00000])
    data = struct.pack(f"<{count}I", *values)
    if bits == 16:
        data = bytes(r.randrange(256) for _ in range(2 * count))
    rate = r.choice([8000, 192000, 44100, r.randrange(8000, 192001), r.randrange(8000, 192001), 7999, 192001, 0, 2**32 - 1])
    head = struct.pack("<HHIIHH", 1 if bits == 16 else 3, channels, rate, 0, 0, bits)
    made = wave_cases.chunk(b"fmt ", head, r) + wave_cases.chunk(b"data", data, r)
    return b"RIFF" + struct.pack("<I", 4 + len(made)) + b"WAVE" + made


def near(r, length):
    return max(0, length + r.choice([-54, -2, -1, 1, 2, 10])) if r.randrange(10) == 0 else length


def case(kind, body, length, rate=0, channels=0):
    return struct.pack("<5I", kind, len(body), length, rate, channels) + body


def read_case(r, file=None):
    file = file_of(r) if file is None else file
    number, sound = sound_files.aiff_info(file)
    return case(0, file, near(r, 2 * sound[2] if number == 0 else r.randrange(12)))


def write_case(r):
    samples = [sample(r) for _ in range(2 * r.choice([0, 1, 2, 3, 8, r.randrange(40)]))]
    wild = r.randrange(40)
    rate = r.choice([8000, 192000, 44100, 131071, 131072, 16383, 16384, 32767, 65535, r.randrange(8000, 192001)])
    channels = r.choice([1, 2])
    if wild < 4:
        rate = r.choice([7999, 192001, 0, 0xFFFFFFFF])
    if wild in (3, 4, 5, 6):
        channels = r.choice([0, 3, 0xFFFFFFFF, 65537])
    if wild in (6, 9, 10, 11):
        samples = samples[:-1] if samples else [0]
    if wild in (11, 12, 13, 14, 15) and samples:
        samples[r.randrange(len(samples))] = r.choice(BAD)
    body = struct.pack(f"<{len(samples)}I", *samples)
    return case(1, body, near(r, 54 + len(samples) // 2 * (channels % 4) * 2), rate, channels)


def convert_case(r, kind, file=None):
    file = (wave_file(r) if kind == 2 else file_of(r)) if file is None else file
    number, sound = sound_files.sound_in(file) if kind == 2 else sound_files.aiff_sound_in(file)
    if number:
        return case(kind, file, r.randrange(70))
    channels, frames = sound[1], sound[3] if kind == 2 else sound[2]
    return case(kind, file, near(r, (54 if kind == 2 else 44) + frames * channels * 2))


def cases(seed, count):
    """Of each kind in turn."""
    r = random.Random(seed)
    return [(read_case, write_case, lambda r: convert_case(r, 2), lambda r: convert_case(r, 3))[i % 4](r) for i in range(count)]


def answer(one):
    """The line that a program answers, and the kind and number in it, for counting."""
    kind, size, length, rate, channels = struct.unpack_from("<5I", one)
    body = one[20 : 20 + size]
    if kind == 0:
        number, sound = sound_files.aiff_info(body)
        line = [number, *(sound if number == 0 else (1, 2, 3))]
        number, result = sound_files.aiff_read(body, length)
        line += [number, *((result[0], *result[1]) if number == 0 else (4, *([OLD_SAMPLE] * length)))]
    else:
        if kind == 1:
            number, file = sound_files.aiff_write(rate, channels, [x for (x,) in struct.iter_unpack("<I", body)], length)
        else:
            number, file = (sound_files.wave_to_aiff if kind == 2 else sound_files.aiff_to_wave)(body, length)
        line = [number, *(file if number == 0 else [OLD_BYTE] * length)]
    return "".join(f"{n} " for n in line), (kind, number)
