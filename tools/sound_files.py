"""RIFF/WAVE and AIFF files, read, written and converted as the requests' words say it: independent of the proved routines.

A routine here answers what the routine of the same name answers: its number, and on 0 the values.
Samples are f32 bit patterns (whole numbers), so that two sides can be compared bit by bit."""

import struct
from fractions import Fraction

NAN = 0x7FC00000
RATES = range(8000, 192001)
MOST = 0xFFFFFFFF


def f32_value(bits):
    """The value of a pattern as a fraction, or None for an infinity or a NaN."""
    sign = -1 if bits >> 31 else 1
    exponent = bits >> 23 & 255
    digits = bits & 0x7FFFFF
    if exponent == 255:
        return None
    if exponent == 0:
        return sign * Fraction(digits, 2**149)
    return sign * Fraction(digits + 2**23) * Fraction(2) ** (exponent - 150)


def f32_pattern(value):
    """The pattern of a fraction that f32 holds exactly."""
    bits = struct.unpack("<I", struct.pack("<f", float(value)))[0]
    assert f32_value(bits) == value
    return bits


def one_nan(bits):
    return NAN if bits & 0x7FFFFFFF > 0x7F800000 else bits


def chunks(file, order):
    """The chunks as (identifier, start of the body, size), and whether they fill the file."""
    found = []
    at = 12
    while at < len(file):
        if len(file) - at < 8:
            return found, False
        name = bytes(file[at : at + 4])
        size = int.from_bytes(file[at + 4 : at + 8], order)
        found.append((name, at + 8, size))
        if at + 8 + size > len(file):
            return found, False
        at += 8 + size
        if size % 2 == 1 and at < len(file):
            at += 1
    return found, True


def sound_in(file):
    """(number, None) or (0, (rate, channels, bits, frames, start of the data))."""
    if file[0:4] != b"RIFF" or file[8:12] != b"WAVE":
        return 13, None
    found, whole = chunks(file, "little")
    formats = [c for c in found if c[0] == b"fmt "]
    datas = [c for c in found if c[0] == b"data"]
    if not formats or formats[0][2] != 16 or not datas:
        return 13, None
    if not whole:
        return 14, None
    tag, channels, rate, _, _, bits = struct.unpack("<HHIIHH", file[formats[0][1] : formats[0][1] + 16])
    read_kind = (tag, bits) in ((1, 16), (3, 32)) and channels in (1, 2)
    start, size = datas[0][1:]
    if read_kind and size % (channels * bits // 8) != 0:
        return 14, None
    if not read_kind:
        return 15, None
    return 0, (rate, channels, bits, size // (channels * bits // 8), start)


def info(file):
    number, sound = sound_in(file)
    return (number, None) if number else (0, sound[:4])


def value_at(file, at, bits):
    if bits == 16:
        v = int.from_bytes(file[at : at + 2], "little", signed=True)
        return f32_pattern(Fraction(v, 32768))
    return one_nan(int.from_bytes(file[at : at + 4], "little"))


def read(file, length):
    """(number, None) or (0, (rate, samples)); `length` is the sample buffer's."""
    number, sound = sound_in(file)
    if number:
        return number, None
    rate, channels, bits, frames, start = sound
    if length != 2 * frames:
        return 10, None
    samples = []
    for i in range(frames):
        values = [value_at(file, start + (i * channels + c) * bits // 8, bits) for c in range(channels)]
        samples += values * 2 if channels == 1 else values
    return 0, (rate, samples)


def nearest16(bits):
    """32768 x, rounded to nearest, ties to even, and stopped at the ends."""
    return max(-32768, min(32767, round(f32_value(bits) * 32768)))


def is_sample(bits):
    value = f32_value(bits)
    return value is not None and -1 <= value <= 1


def write(rate, channels, bits, samples, length):
    """(number, None) or (0, file); `length` is the file buffer's."""
    if rate not in RATES:
        return 4, None
    if channels not in (1, 2) or bits not in (16, 32):
        return 15, None
    if len(samples) % 2 != 0:
        return 8, None
    if not all(is_sample(x) for x in samples):
        return 9, None
    data = b"".join(
        struct.pack("<h", nearest16(x)) if bits == 16 else struct.pack("<I", x)
        for i, x in enumerate(samples)
        if channels == 2 or i % 2 == 0
    )
    if 36 + len(data) > MOST or length != 44 + len(data):
        return 10, None
    frame = channels * bits // 8
    head = struct.pack("<4sI4s4sIHHIIHH4sI", b"RIFF", 36 + len(data), b"WAVE", b"fmt ", 16, 1 if bits == 16 else 3,
                       channels, rate, rate * frame, frame, bits, b"data", len(data))
    return 0, head + data


# ---- AIFF


def rate_of(number):
    """The value of a number of 80 bits as a fraction, or None for an infinity or a NaN."""
    sign, power = number[0] >> 7, (number[0] & 127) << 8 | number[1]
    digits = int.from_bytes(number[2:], "big")
    if power == 32767:
        return None
    # the lowest power has no digit of its own in front either: it counts as the next
    return (-1) ** sign * digits * Fraction(2) ** (max(power, 1) - 16383 - 63)


def rate_bytes(rate):
    shift = 64 - rate.bit_length()
    return struct.pack(">HQ", 16383 + 63 - shift, rate << shift)


def aiff_sound_in(file):
    """(number, None) or (0, (rate, channels, frames, start of the frames))."""
    if file[0:4] != b"FORM" or file[8:12] != b"AIFF":
        return 16, None
    found, whole = chunks(file, "big")
    commons = [c for c in found if c[0] == b"COMM"]
    sounds = [c for c in found if c[0] == b"SSND"]
    if not commons or commons[0][2] != 18 or not sounds or sounds[0][2] < 8:
        return 16, None
    if not whole:
        return 14, None
    at = commons[0][1]
    channels, frames, bits = struct.unpack(">HIH", file[at : at + 8])
    rate = rate_of(file[at + 8 : at + 18])
    at, size = sounds[0][1:]
    offset = int.from_bytes(file[at : at + 4], "big")
    data = file[at + 8 : at + size]
    read_kind = bits == 16 and channels in (1, 2)
    if read_kind and (offset > len(data) or len(data[offset:]) < frames * channels * 2):
        return 14, None
    if not read_kind:
        return 15, None
    if rate is None or rate.denominator != 1 or int(rate) not in RATES:
        return 18, None
    return 0, (int(rate), channels, frames, at + 8 + offset)


def aiff_info(file):
    number, sound = aiff_sound_in(file)
    return (number, None) if number else (0, sound[:3])


def aiff_values(file, sound):
    rate, channels, frames, start = sound
    return struct.unpack(f">{frames * channels}h", file[start : start + 2 * frames * channels])


def aiff_read(file, length):
    """(number, None) or (0, (rate, samples)); `length` is the sample buffer's."""
    number, sound = aiff_sound_in(file)
    if number:
        return number, None
    if length != 2 * sound[2]:
        return 10, None
    values = [f32_pattern(Fraction(v, 32768)) for v in aiff_values(file, sound)]
    return 0, (sound[0], values if sound[1] == 2 else [v for v in values for _ in "lr"])


def aiff_file(rate, channels, values):
    data = struct.pack(f">{len(values)}h", *values)
    common = struct.pack(">HIH", channels, len(values) // channels, 16) + rate_bytes(rate)
    return (b"FORM" + struct.pack(">I", 46 + len(data)) + b"AIFF" + b"COMM" + struct.pack(">I", 18) + common
            + b"SSND" + struct.pack(">III", 8 + len(data), 0, 0) + data)


def aiff_write(rate, channels, samples, length):
    """(number, None) or (0, file); `length` is the file buffer's."""
    if rate not in RATES:
        return 4, None
    if channels not in (1, 2):
        return 15, None
    if len(samples) % 2 != 0:
        return 8, None
    if not all(is_sample(x) for x in samples):
        return 9, None
    file = aiff_file(rate, channels, [nearest16(x) for x in (samples if channels == 2 else samples[::2])])
    return (10, None) if len(file) - 8 > MOST or length != len(file) else (0, file)


def whole16(bits):
    """The v of a sample v / 32768, or None where it is none; -0.0 is none."""
    value = f32_value(bits)
    if value is None or bits == 0x80000000 or (value * 32768).denominator != 1:
        return None
    v = int(value * 32768)
    return v if -32768 <= v <= 32767 else None


def wave_to_aiff(file, length):
    number, sound = sound_in(file)
    if number:
        return number, None
    rate, channels, bits, frames, start = sound
    values = [whole16(value_at(file, start + i * bits // 8, bits)) for i in range(frames * channels)]
    if None in values:
        return 17, None
    if rate not in RATES:
        return 18, None
    made = aiff_file(rate, channels, values)
    return (10, None) if len(made) - 8 > MOST or length != len(made) else (0, made)


def aiff_to_wave(file, length):
    number, sound = aiff_sound_in(file)
    if number:
        return number, None
    rate, channels = sound[:2]
    values = aiff_values(file, sound)
    samples = [f32_pattern(Fraction(v, 32768)) for v in values]
    return write(rate, channels, 16, samples if channels == 2 else [x for x in samples for _ in "lr"], length)
