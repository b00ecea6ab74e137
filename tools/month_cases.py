"""Months from seeds, and those that are decided by hand. A case is a name, the standard input and the files by number; a missing number is a missing file."""
import struct

ONE, MINUS_ONE = 0x3F800000, 0xBF800000
MINUS_ZERO, NAN, INFINITY = 0x80000000, 0x7FC00000, 0x7F800000
SPECIAL = [0, MINUS_ZERO, 1, 0x80000001, ONE, MINUS_ONE, ONE - 1, MINUS_ONE - 1, 0x3F000000, 0xBF000000, 0x3F7FFF00, 0x3F7FFE00, 0xBF7FFF00, 0x37800000, 0x38C00000, 0xB8200000]
WRONG = [ONE + 1, MINUS_ONE + 1, NAN, INFINITY, 0xFF800000, 0x7F800001, 0xFFC12345, 0x7F7FFFFF, 0x40000000]


def words(*bits):
    return struct.pack(f"<{len(bits)}I", *bits)


def lines(*channels):
    return b"".join(b"%d\n" % c for c in channels)


def by_hand():
    """Each with the number that it is refused by, or 0."""
    half = words(0x3F000000)
    yield "no mixes", 0, b"", {}
    yield "mixes of no samples", 0, lines(1, 8, 2), {1: b"", 3: b""}
    yield "missing files", 0, lines(1, 2), {}
    yield "a missing file between", 0, lines(1, 2, 1), {1: half, 3: half * 2}
    yield "minus zero alone", 0, lines(1), {1: words(MINUS_ZERO)}
    yield "zeros in the second mix", 0, lines(2, 2), {1: b"", 2: words(0, MINUS_ZERO)}
    yield "a tie within a mix", 0, lines(1), {1: words(0, 0x3F000000, 0xBF000000, 0x3F000000)}
    yield "a tie between mixes", 0, lines(1, 1), {1: words(0, 0xBF000000), 2: words(0x3F000000)}
    yield "a larger one later", 0, lines(1, 1), {1: words(0x3F000000), 2: words(0, 0x3F000001)}
    yield "1.0 is 32767", 0, lines(1), {1: words(ONE)}
    yield "-1.0 is -32768", 0, lines(1), {1: words(MINUS_ONE)}
    yield "just below 1.0 is 32767", 0, lines(1), {1: words(ONE - 1)}
    yield "ties to even", 0, lines(1), {1: words(0x37800000, 0x38C00000, 0xB8200000)}
    yield "full by the sample", 0, lines(2), {1: words(ONE, MINUS_ONE, ONE, 0)}
    yield "eight channels", 0, lines(8), {1: half * 16}
    yield "1,000 mixes", 0, lines(*([1] * 1000)), {1: half, 1000: half}
    yield "1,001 lines", 24, lines(*([1] * 1001)), {}
    yield "1,000 lines and a rest", 24, lines(*([1] * 1000)) + b"1", {}
    yield "1,001 lines and one of another form", 24, b"9\n" + lines(*([1] * 1000)), {}
    yield "24 before 26 and 25", 24, lines(*([2] * 1001)), {1: b"\0", 2: words(NAN)}
    yield "1,001 empty lines", 24, b"\n" * 1001, {}
    yield "a rest of 3,000 bytes", 26, b"1" * 3000, {}
    yield "1,000 long lines", 26, b"111\n" * 1000, {}
    yield "1,001 long lines", 24, b"111\n" * 1001, {}
    yield "999 lines and a long rest", 26, lines(*([1] * 999)) + b"1" * 5000, {}
    yield "1,000 lines and a long rest", 24, lines(*([1] * 1000)) + b"1" * 5000, {}
    for text in (b"01\n", b"9\n", b"0\n", b"1", b"\n", b"1\r\n", b" 1\n", b"1 \n", b"-1\n", b"10\n", b"a\n", b"1\n\n", b"1\n2", b"\0\n", b"11\n", b"1\n\xb1\n"):
        yield f"the input {text!r}", 26, text, {1: half, 2: half * 2}
    for cut in (1, 2, 3, 5, 6, 7):
        yield f"{cut} bytes", 26, lines(1), {1: bytes(cut)}
    yield "a broken frame", 26, lines(2), {1: half * 3}
    yield "a broken frame of eight", 26, lines(8), {1: half * 9}
    yield "a whole frame of three", 0, lines(3), {1: half * 9}
    yield "26 late, 25 early", 26, lines(1, 1, 2), {1: words(NAN), 2: half, 3: half}
    yield "26 early, 25 late", 26, lines(2, 1), {1: half, 2: words(NAN)}
    yield "25 and 26 in one mix", 26, lines(2), {1: words(ONE + 1, 0, 0)}
    yield "25 in a mix of whole frames, then a broken number", 26, lines(1, 1), {1: words(ONE + 1), 2: b"abc"}
    for bits in WRONG:
        yield f"a sample {bits:08x}", 25, lines(2), {1: words(0, bits)}
    yield "25 in the last of many", 25, lines(*([1] * 50)), {i: words(NAN) if i == 50 else half for i in range(1, 51)}
    yield "25 in the first of many", 25, lines(*([1] * 50)), {i: words(NAN) if i == 1 else half for i in range(1, 51)}


def drawn(random):
    """A month: small mixes, now and then a long one, a wrong sample, a broken mix or a line of another form."""
    kind = random.random()
    count = random.choice([0, 1, 1, 2, 2, 3, 4, 6]) if kind < 0.97 else random.choice([999, 1000, 1001, 1002])
    channels = [random.randint(1, 8) for _ in range(count)]
    files = {}
    level = random.choice([0x3F800000, 0x3F800000, 0x3F000000, 0x38000000])
    for i, c in enumerate(channels, 1):
        if count > 10 and random.random() < 0.98:
            continue
        length = c * random.choice([0, 1, 2, 3, random.randint(0, 40), random.randint(0, 40), random.randint(1000, 9000) if random.random() < 0.2 else 5])
        bits = []
        for _ in range(length):
            bits.append(random.choice(SPECIAL) if random.random() < 0.1 else random.randint(0, level) | random.choice([0, 0x80000000]))
        if bits and random.random() < 0.08:
            bits[random.randrange(len(bits))] = random.choice(WRONG)
        raw = words(*bits)
        if random.random() < 0.04:
            raw += bytes(random.randint(1, 3))
        if random.random() < 0.04:
            raw += words(random.choice(SPECIAL))
        if raw or random.random() < 0.5:
            files[i] = raw
    text = lines(*channels)
    if text and random.random() < 0.06:
        at = random.randrange(len(text))
        text = random.choice([text[:-1], text[:at] + random.choice([b"\n", b"0", b"9", b"x"]) + text[at + 1 :], text[:at] + random.choice([b"\n", b"1", b" "]) + text[at:]])
    return text, files
