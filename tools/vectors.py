#!/usr/bin/env python3
"""Makes the lists of vectors that the programs test_rounding, test_decibels, test_root and test_spatial run.

    tools/vectors.py [--testfp FILE] [--glibc FOLDER]     writes the six lists; needs rustc
    tools/vectors.py --check [..]                         writes nothing, and says whether the lists are as it would write them

FILE is strconv/testdata/testfp.txt of Debian's golang-1.19-src, which holds the stress inputs of Vern Paxson, "A
Program for Testing IEEE Decimal-Binary Conversion". FOLDER is the source of the GNU C Library 2.36, of Debian's
glibc-source; the results of its tests of `strtod`, of narrowing operations and of `sqrt` are read. What is not given is fetched by `apt-get download` and unpacked into a
temporary folder. The lists are kept in the repository, so that its tests need neither.

What is expected is never worked out by the code under test. Rounding, nanoseconds, seconds and roots come from Rust's own
casts, `Duration` and `sqrt` (tools/vectors.rs), levels at a distance from kira's steps in Rust's own f32 (there too); where a published set says the f32, it must be Rust's, or the script
fails. Amplitudes are worked out here from the gain table's rule, with whole numbers alone.
"""
import argparse
import glob
import math
import os
import random
import re
import struct
import subprocess
import sys
import tempfile
from fractions import Fraction

ROOT = os.path.dirname(os.path.dirname(os.path.abspath(__file__)))


def f64_bits(x):
    return struct.unpack("<Q", struct.pack("<d", x))[0]


def f64_of(bits):
    return struct.unpack("<d", struct.pack("<Q", bits))[0]


# ---- rounding by whole numbers: the exact value of a pattern, and the pattern nearest to an exact value


class Format:
    def __init__(self, digits, exponent_bits):
        self.digits = digits  # of a significand, the leading one counted
        self.stored = digits - 1
        self.ones = 2 ** exponent_bits - 1
        self.lowest = 2 - 2 ** (exponent_bits - 1) - self.stored  # the smallest value is 2 ** lowest
        self.sign = 2 ** (exponent_bits + self.stored)

    def value(self, bits):
        """The exact value of a finite pattern."""
        field, rest = bits % self.sign >> self.stored, bits % 2 ** self.stored
        assert field < self.ones
        n = rest * Fraction(2) ** self.lowest if field == 0 else (rest + 2 ** self.stored) * Fraction(2) ** (self.lowest + field - 1)
        return -n if bits >= self.sign else n

    def unit(self, x):
        """The exponent of the unit in which x > 0 has as many digits as a significand, or of the smallest value."""
        size = x.numerator.bit_length() - x.denominator.bit_length()  # 2^(size - 1) < x < 2^(size + 1)
        if x >= Fraction(2) ** size:
            size += 1
        return max(size - self.digits, self.lowest)

    def round(self, x):
        """The value nearest to x, ties to even."""
        if x <= 0:
            return -self.round(-x) if x else x
        unit = Fraction(2) ** self.unit(x)
        n = x / unit
        whole, rest = divmod(n.numerator, n.denominator)
        twice = 2 * rest - n.denominator
        if twice > 0 or twice == 0 and whole % 2:
            whole += 1
        return whole * unit

    def bits(self, x):
        """The pattern of a value x >= 0 of the format: the unit in the field above the digits, which carry into it."""
        if x == 0:
            return 0
        e = self.unit(x)
        n = x / Fraction(2) ** e
        assert n.denominator == 1
        return (e - self.lowest << self.stored) + n.numerator


F32, F64 = Format(24, 8), Format(53, 11)


# ---- the amplitude, by the gain table's rule


def entry(k):
    """The whole part of 2^40 * 10^(k / 320), by halving: r is at most that where r^320 <= 2^12800 * 10^k."""
    up, down = 2 ** 12800 * 10 ** max(k, 0), 10 ** max(-k, 0)
    low, high = 0, 2 ** 45
    while high - low > 1:
        middle = (low + high) // 2
        if middle ** 320 * down <= up:
            low = middle
        else:
            high = middle
    return low


TABLE = {k: entry(k) for k in range(-960, 385)}
LIMIT = 23  # decibels


def amplitude(bits):
    """The number that is answered, and the bits of the amplitude (0 where it is refused)."""
    if bits % F32.sign > 0x7F800000 or bits == 0x7F800000:
        return 11, 0
    if bits == 0xFF800000:
        return 0, 0
    n = F32.value(bits)
    if n > LIMIT:
        return 11, 0
    if n == 0:
        return 0, 0x3F800000
    if n <= -60:
        return 0, 0
    k = (16 * n).__floor__()
    value, rest = Fraction(TABLE[k]), F64.round(16 * n - k)
    if rest:
        line = F64.round(value + F64.round((TABLE[k + 1] - TABLE[k]) * rest))
        second = TABLE[k + 2] - 2 * TABLE[k + 1] + TABLE[k]
        factor = F64.round(F64.round(rest * F64.round(rest - 1)) / 2)
        value = F64.round(line + F64.round(factor * second))
    return 0, F32.bits(F32.round(F64.round(value / 2 ** 40)))


# ---- inputs


def unpacked(package, folder):
    """The folder with the files of a Debian package."""
    subprocess.run(["apt-get", "download", package], cwd=folder, check=True, stdout=sys.stderr)
    file, = glob.glob(os.path.join(folder, package + "_*.deb"))
    out = os.path.join(folder, "out")
    subprocess.run(["dpkg", "-x", file, out], check=True)
    return out


def text_of(*path):
    with open(os.path.join(*path)) as f:
        return f.read()


def fetch_testfp():
    with tempfile.TemporaryDirectory() as folder:
        return text_of(unpacked("golang-1.19-src", folder), "usr/share/go-1.19/src/strconv/testdata/testfp.txt")


# The files of glibc: decimal numbers with the binary32 and binary64 next to each, and operations on exact numbers with
# the binary32 next to the result.
DECIMALS = "stdlib/tst-strtod-round-data.h"
NARROW = "math/auto-libm-test-out-narrow-"
ROOTS = "math/auto-libm-test-out-sqrt"
OPERATIONS = {
    "add": lambda a, b: a + b,
    "sub": lambda a, b: a - b,
    "mul": lambda a, b: a * b,
    "div": lambda a, b: a / b if b else None,
    "fma": lambda a, b, c: a * b + c,
    "sqrt": lambda a: root(a),
}


def glibc_files(folder):
    return {name: text_of(folder, name) for name in [DECIMALS, ROOTS] + [NARROW + op for op in OPERATIONS]}


def fetch_glibc():
    with tempfile.TemporaryDirectory() as folder:
        archive, = glob.glob(os.path.join(unpacked("glibc-source", folder), "usr/src/glibc/glibc-*.tar.xz"))
        subprocess.run(["tar", "xf", archive, "-C", folder, "--wildcards", "*/" + DECIMALS, "*/" + ROOTS, "*/" + NARROW + "*"], check=True)
        source, = glob.glob(os.path.join(folder, "glibc-*/"))
        return glibc_files(source)


def exact(text):
    """The exact value of a decimal number or of N x 2^E, written NpE."""
    m = re.fullmatch(r"(\d+)p([+-]\d+)", text)
    return int(m[1]) * Fraction(2) ** int(m[2]) if m else Fraction(text)


def published(testfp):
    """The f64 nearest to each input of the file. Where a row says which f64 that is, the two agree."""
    inputs = []
    for line in testfp.splitlines():
        if not line.strip() or line.startswith("#"):
            continue
        kind, form, text, result = line.split()
        x = F64.round(exact(text))
        if kind == "float64" and form == "%b":
            assert x == exact(result), line
        inputs.append(F64.bits(x))
    return inputs


def root(x):
    """The exact square root, where a fraction is one."""
    if x < 0:
        return None
    r = Fraction(math.isqrt(x.numerator), math.isqrt(x.denominator))
    return r if r * r == x else None


def hexadecimal(text):
    """The exact value of a number of C, as -0x1.8p-3."""
    sign, whole, part, power = re.fullmatch(r"(-?)0x([0-9a-f]+)(?:\.([0-9a-f]+))?p([+-]\d+)", text).groups("")
    x = int(whole + part, 16) * Fraction(2) ** (int(power) - 4 * len(part))
    return -x if sign else x


def f64_value(x):
    """The pattern of x, where x is a finite f64 other than 0."""
    if not x or abs(x) >= Fraction(2) ** 1024 or F64.round(abs(x)) != abs(x):
        return None
    return F64.bits(abs(x)) + (F64.sign if x < 0 else 0)


def f32_result(text, negative):
    """The pattern of a result of glibc's; a zero has the sign of what was rounded."""
    if not text.lstrip("-").startswith("0x"):
        assert text.lower().removeprefix("-") in ("inf", "plus_infty", "minus_infty"), text
        bits = 0x7F800000
    else:
        bits = F32.bits(abs(hexadecimal(text)))
    return bits + (F32.sign if negative else 0)


def glibc_decimals(glibc):
    """Each decimal number of glibc's test of `strtod` that is an f64, with its f32: the two formats come first, and of each a
    flag that says whether the number has it exactly, then the results downward, to nearest, toward zero and upward, each with a flag."""
    found = {}
    for body in re.findall(r'TEST \("[^"]*",(.*?)\)', glibc[DECIMALS], re.S):
        items = [item.strip() for item in body.split(",")]
        f32, f64 = items[0:9], items[9:18]
        if f64[0] == "true" and f64_value(hexadecimal(f64[3])) is not None:
            found[f64_value(hexadecimal(f64[3]))] = f32_result(f32[3], f64[3].startswith("-"))
    return found


def glibc_narrow(glibc):
    """Each exact result of glibc's tests of narrowing operations that is an f64, with its f32."""
    found = {}
    for op, exactly in OPERATIONS.items():
        for operands, result in re.findall(r"^= \w+ tonearest binary32:arg_fmt\(\S*\) (.*?) : (\S+) :", glibc[NARROW + op], re.M):
            x = exactly(*map(hexadecimal, operands.split()))
            if x is not None and f64_value(x) is not None:
                found[f64_value(x)] = f32_result(result, x < 0)
    return found


def glibc_roots(glibc):
    """Each binary32 from 0 up of glibc's test of `sqrt`, with the root to nearest."""
    rows = re.findall(r"^= sqrt tonearest binary32 (0x\S+) : (0x\S+) :", glibc[ROOTS], re.M)
    return {F32.bits(hexadecimal(x)): F32.bits(hexadecimal(r)) for x, r in rows}


def both_signs(patterns, sign=F64.sign):
    return [s + p for p in patterns for s in (0, sign)]


def around(bits):
    return [bits - 1, bits, bits + 1]


def widened(bits):
    """The f64 of a finite f32."""
    return F64.bits(F32.value(bits))


def halfway(bits):
    """The f64 halfway between an f32 and the next one up, which may be the first that is too large."""
    below = F32.value(bits)
    above = 2 * F32.value(0x7F000000) if bits == 0x7F7FFFFF else F32.value(bits + 1)
    return F64.bits((below + above) / 2)


def rounding_inputs(testfp, decimals, narrow):
    pub = published(testfp)
    yield "published: every input of strconv/testdata/testfp.txt, in its order, as the nearest f64", pub
    yield "published: every decimal of glibc 2.36's stdlib/tst-strtod-round-data that is an f64, in its order", list(decimals)
    yield ("published: every exact result other than 0 in glibc 2.36's math/auto-libm-test-out-narrow-{add,sub,mul,div,fma,sqrt} that is an f64, each once",
           list(narrow))
    yield "ours: the inputs of testfp.txt, negative", [F64.sign + p for p in pub]
    digits = [0, 1, 0x7FFFFE, 0x7FFFFF]
    yield ("ours: halfway between an f32 and the next, with the f64 on either side: at every exponent, even and odd, first and last digits",
           both_signs([p for field in range(255) for d in digits for p in around(halfway((field << 23) + d))]))
    tiny = [F64.bits(n * Fraction(2) ** -151) for n in range(1, 17)] + [F64.bits(Fraction(2) ** -e) for e in range(146, 160)] + [1, 2, 3]
    yield "ours: the smallest subnormals and parts of them", both_signs([p for t in tiny for p in around(t) if p > 0])
    largest = [widened(0x7F7FFFFF), halfway(0x7F7FFFFF), F64.bits(Fraction(2) ** 128)]
    yield "ours: the overflow threshold, the largest f32 and 2^128", both_signs([p for t in largest for p in around(t)])
    yield "ours: both ends of every exponent of an f32", both_signs([widened((field << 23) + d) for field in range(255) for d in (0, 0x7FFFFF)])
    yield "ours: both ends of every exponent of an f64", both_signs([(field << 52) + d for field in range(2047) for d in (0, 2 ** 52 - 1)])
    infinity = 0x7FF << 52
    nans = [infinity + d for d in (1, 2, 2 ** 28, 2 ** 29, 2 ** 51 - 1, 2 ** 51, 2 ** 51 + 1, 2 ** 52 - 1)]
    yield "ours: zeros, infinities and NaN", both_signs([0, infinity] + nans)


def amplitude_inputs():
    signed = lambda bits, sign: bits + (F32.sign if sign else 0)
    of = lambda x: signed(F32.bits(F32.round(abs(x))), x < 0)

    def next_to(bits):
        """The f32 on either side of one that is not 0."""
        return [bits - 1, bits, bits + 1]

    entries = [Fraction(n, 16) - 60 for n in range(1345)]
    inputs = [b for x in entries if x for b in next_to(of(x))]
    yield "ours: every entry of the table, n / 16 - 60, with the f32 on either side; -60 and 23 among them", inputs
    yield "ours: NaN, infinities and zeros", [0, 0x80000000, 0x7F800000, 0xFF800000] + both_signs([0x7F800001, 0x7FBFFFFF, 0x7FC00000, 0x7FC01234, 0x7FFFFFFF], F32.sign)
    tiny = [1, 2, 3, 0x7FFFFF, 0x800000, 0x800001]
    yield "ours: the smallest subnormals, the largest and the smallest normal numbers", both_signs(tiny, F32.sign)
    powers = [of(s * Fraction(2) ** -e) for e in range(1, 130, 3) for s in (1, -1)]
    yield "ours: small numbers; below 0 the rest is near 1, and from some number on rounds to it", powers + [b for e in range(20, 60) for b in next_to(of(-Fraction(2) ** -e))]
    outside = [of(Fraction(x)) for x in (-61, -90, -96, -1000, 24, 25, 30, 96, 1000)] + [0x7F7FFFFF, 0xFF7FFFFF]
    yield "ours: below -60 and above 23", outside
    yield "ours: between the entries", [of(x + Fraction(1, 32)) for x in entries[:-1]] + [of(x + Fraction(n, 1000)) for n, x in enumerate(entries[:-1]) if n % 3 == 1 and n < 60]
    yield "ours: volumes of a scene, in thousandths", [of(Fraction(v, 1000)) for v in range(-96000, 18001, 113)]
    choose = random.Random(1)
    yield "ours: chosen at random", [choose.randrange(0x41B80001) for _ in range(300)] + [F32.sign + choose.randrange(0x42700001) for _ in range(300)]


def nanosecond_inputs():
    hour = f64_bits(3600.0)
    kept = lambda patterns: [p for p in patterns if 0 <= p <= hour]
    small = [0, 1, 2, 2 ** 52 - 1, 2 ** 52] + [F64.bits(Fraction(2) ** -e) for e in range(26, 60)]
    yield "ours: 0, -0.0 and small numbers", [F64.sign] + kept([p for s in small for p in around(s)])
    yield "ours: both ends of every exponent up to an hour", kept([(field << 52) + d for field in range(963, 1035) for d in (0, 2 ** 52 - 1)])
    choose = random.Random(2)
    odd = list(range(1, 200, 2)) + list(range(3600 * 1024 - 99, 3600 * 1024, 2)) + [2 * choose.randrange(1800 * 1024) + 1 for _ in range(300)]
    yield "ours: ties, the odd multiples of 2^-10 seconds (976562.5 ns), with the f64 on either side", [p for j in odd for p in around(F64.bits(Fraction(j, 1024)))]
    near = [Fraction(n, 2 * 10 ** 9) for n in list(range(1, 64)) + [2 * choose.randrange(1800 * 10 ** 9) + 1 for _ in range(100)]]
    yield "ours: next to a half nanosecond that no f64 is", [p for x in near for p in around(F64.bits(F64.round(x)))]
    yield "ours: up to an hour", kept([hour - d for d in range(8)]) + [f64_bits(float(s)) for s in range(0, 3600, 97)] + [f64_bits(n / 1000) for n in range(0, 3600000, 7919)]
    rates = [8000, 8192, 11025, 16000, 22050, 44100, 48000, 96000, 192000]
    yield "ours: times of a chunk, (1.0 / rate) * frames in f64", [f64_bits((1.0 / r) * n) for r in rates for n in range(1, 257)]
    rates = sorted(choose.randrange(8000, 192001) for _ in range(250))
    yield "ours: times of a chunk at rates chosen at random", [f64_bits((1.0 / r) * n) for r in rates for n in (1, 256, choose.randrange(2, 256), choose.randrange(2, 256))]


def second_inputs():
    yield "ours: the first two seconds, and the last 100 ms of an hour", list(range(2001)) + list(range(3599900, 3600001))
    yield "ours: around whole seconds", [1000 * s + d for s in range(3, 3600, 13) for d in (-1, 0, 1)]
    choose = random.Random(3)
    yield "ours: chosen at random up to an hour", [choose.randrange(3600001) for _ in range(1000)]
    yield "ours: past an hour", [3600001, 2 ** 31 - 1, 2 ** 31, 2 ** 32 - 1000, 2 ** 32 - 1]


def root_inputs(roots):
    most = F32.bits(Fraction(12000000))  # the largest sum of squares of a scene, 3 * 2000^2
    kept = lambda patterns: [p for p in patterns if 0 <= p <= 0x7F7FFFFF]
    of = lambda x: F32.bits(F32.round(x))
    yield "published: every binary32 from 0 up in glibc 2.36's math/auto-libm-test-out-sqrt, in its order", list(roots)
    yield "ours: the first patterns, and those around the largest sum of a scene and the largest f32", list(range(17)) + list(range(most - 8, most + 9)) + list(range(0x7F7FFFF0, 0x7F800000))
    yield "ours: both ends of every exponent, with the next ones", kept([(field << 23) + d for field in range(255) for d in (0, 1, 2, 0x7FFFFD, 0x7FFFFE, 0x7FFFFF)])
    choose = random.Random(4)
    whole = list(range(1, 200)) + [choose.randrange(200, 3465) for _ in range(150)]
    yield "ours: squares of whole numbers up to 3,464, with the f32 on either side", [p for n in whole for p in around(of(Fraction(n * n)))]
    bits = [choose.randrange(0x1A000000, 0x5F7FFFFF) for _ in range(300)] + [choose.randrange(0x20000000, 0x45588000) for _ in range(700)]
    middles = [(F32.value(b) + F32.value(b + 1)) / 2 for b in bits]
    yield "ours: next to the square of the middle of two f32, where the root is next to a tie", kept([p for m in middles for p in around(of(m * m))])
    steps = lambda: Fraction(choose.randrange(-2000000, 2000001), 1000)
    yield "ours: sums of three squares of thousandths", [of(steps() ** 2 + steps() ** 2 + steps() ** 2) for _ in range(1500)]
    yield "ours: chosen at random up to the largest sum, and up to the largest f32", [choose.randrange(most + 1) for _ in range(1500)] + [choose.randrange(0x7F800000) for _ in range(500)]


def level(row, from_left=True):
    """The level of a row of thousandths, as floats: where the order of the sum is to matter, a row is chosen by it."""
    f = lambda x: struct.unpack("<f", struct.pack("<f", x))[0]
    n = [f(t / 1000) for t in row]
    x, y, z = (f(d * d) for d in (f(n[i] - n[i + 3]) for i in range(3)))
    squares = f(f(x + y) + z) if from_left else f(x + f(y + z))
    low, high = n[6], n[7]
    part = f(f(min(max(f(math.sqrt(squares)), low), high) - low) / f(high - low))
    return f(-60.0 + f(60.0 * f(1.0 - part)))


def attenuation_inputs():
    bits = lambda t: F32.bits(F32.round(Fraction(abs(t), 1000))) + (F32.sign if t < 0 else 0)
    patterns = lambda rows: [tuple(map(bits, row)) for row in rows]
    ends = [(1000, 100000), (0, 1), (0, 1000000), (999999, 1000000), (500, 501), (3000, 5000), (1, 700)]

    def marks(near, far):
        middle = (near + far) // 2
        return sorted({d for m in (0, near, middle, far, 1000000) for d in (m - 1, m, m + 1) if 0 <= d <= 1000000})

    axes = [(1, 0, 0), (0, -1, 0), (0, 0, 1)]
    along = [(0, 0, 0) + tuple(d * s for s in axis) + pair for pair in ends for d in marks(*pair) for axis in axes]
    yield "ours: along each axis, at near, at far, halfway and 0, with a thousandth on either side", patterns(along)
    corner = lambda k: tuple(1000000 if k >> i & 1 else -1000000 for i in range(3))
    yield "ours: from corner to corner of the room", patterns([corner(a) + corner(b) + pair for a in range(8) for b in range(8) for pair in ends[:3]])
    choose = random.Random(5)

    def row(most, near, far):
        low = choose.randrange(near)
        return tuple(choose.randrange(-most, most + 1) for _ in range(6)) + (low, choose.randrange(low + 1, far + 1))

    heard = lambda r: -60.0 < level(r) < 0.0
    some = lambda n, test, *ranges: [r for r in (row(*ranges) for _ in range(60 * n)) if test(r)][:n]
    yield "ours: chosen at random between near and far, in the whole room and in a small one", patterns(some(600, heard, 1000000, 1000000, 1000000) + some(600, heard, 20000, 5000, 60000))
    yield "ours: chosen at random, where a sum from the right gives another level", patterns(some(300, lambda r: level(r) != level(r, False), 20000, 2000, 60000))
    yield "ours: chosen at random", patterns([row(1000000, 1000000, 1000000) for _ in range(500)])
    zero = F32.sign
    yield "ours: zeros of either sign", [(a, b, 0, c, 0, d, e, bits(far)) for a in (0, zero) for b in (0, zero) for c in (0, zero) for d in (0, zero) for e in (0, zero) for far in (1, 1000)]


# ---- lists


def numbers(row):
    return row if isinstance(row, tuple) else (row,)


def by_rust(program, name, inputs):
    text = "".join(" ".join(f"{n:x}" for n in numbers(i)) + "\n" for i in inputs)
    return subprocess.run([program, name], input=text, capture_output=True, text=True, check=True).stdout.split()


def listed(title, columns, source, sections, width, expected):
    """The text of a list: a header, and then each section's name and its rows."""
    sections = list(sections)
    rows = expected([i for _, inputs in sections for i in inputs])
    count = sum(len(inputs) for _, inputs in sections)
    ours = sum(len(inputs) for name, inputs in sections if name.startswith("ours"))
    lines = [f"# {title}", f"# Columns, in hexadecimal: {columns}."]
    lines += [f"# {count} rows: {count - ours} inputs are published and {ours} are ours; a comment over each group says which.",
              f"# {source}", "# Made by tools/vectors.py (docs/VECTORS.md)."]
    at = 0
    for name, inputs in sections:
        lines.append(f"# {name}")
        lines += [" ".join([f"{n:0{width}x}" for n in numbers(i)] + [r]) for i, r in zip(inputs, rows[at:])]
        at += len(inputs)
    return "\n".join(lines) + "\n"


def as_published(inputs, results, *sets):
    """The results, where each that a published set says is that one."""
    of = dict(zip(inputs, results))
    for published_set in sets:
        differing = [i for i, f32 in published_set.items() if int(of[i], 16) != f32]
        assert not differing, [f"{i:016x}" for i in differing]
    return results


def all_lists(testfp, glibc, program):
    rust = lambda name: lambda inputs: by_rust(program, name, inputs)
    decimals, narrow, roots = glibc_decimals(glibc), glibc_narrow(glibc), glibc_roots(glibc)
    version = subprocess.run(["rustc", "--version"], capture_output=True, text=True, check=True).stdout.split()[1]
    by = f"Expected: rustc {version}, "
    yield "test_rounding/data/rounding.txt", listed(
        "f64 to f32.", "the f64's bits, the bits of the f32",
        by + "`x as f32`; glibc's results are the same. A NaN may have any NaN's bits.",
        rounding_inputs(testfp, decimals, narrow), 16, lambda inputs: as_published(inputs, rust("rounding")(inputs), decimals, narrow))
    yield "test_rounding/data/nanoseconds.txt", listed(
        "Seconds to nanoseconds.", "the bits of an f64 from 0 to 3,600, whole nanoseconds", by + "`Duration::from_secs_f64(x).as_nanos()`.",
        nanosecond_inputs(), 16, rust("nanoseconds"))
    yield "test_rounding/data/seconds.txt", listed(
        "Milliseconds to seconds.", "milliseconds, the bits of the f64", by + "`Duration::from_millis(n).as_secs_f64()`.",
        second_inputs(), 8, rust("seconds"))
    yield "test_root/data/root.txt", listed(
        "Square roots.", "the bits of an f32 from 0 up, the bits of its root", by + "`f32::sqrt`; glibc's results are the same.",
        root_inputs(roots), 8, lambda inputs: as_published(inputs, rust("root")(inputs), roots))
    yield "test_spatial/data/attenuation.txt", listed(
        "Levels at a distance.", "the bits of the listener's x, y and z, of the track's, of the nearest and the farthest distance, and of the level in decibels",
        by + "kira's steps with `f32::sqrt` and `f32::clamp`.",
        attenuation_inputs(), 8, rust("attenuation"))
    yield "test_decibels/data/amplitude.txt", listed(
        "Decibels to amplitude.", "the f32's bits, the number answered (0, or 11), the bits of the amplitude (0 where it is refused)",
        "Expected: the gain table's rule, worked out with whole numbers in tools/vectors.py.",
        amplitude_inputs(), 8, lambda inputs: [f"{n:02x} {a:08x}" for n, a in map(amplitude, inputs)])


def main():
    options = argparse.ArgumentParser()
    options.add_argument("--testfp")
    options.add_argument("--glibc")
    options.add_argument("--check", action="store_true")
    given = options.parse_args()
    testfp = text_of(given.testfp) if given.testfp else fetch_testfp()
    glibc = glibc_files(given.glibc) if given.glibc else fetch_glibc()
    same = True
    with tempfile.TemporaryDirectory() as folder:
        program = os.path.join(folder, "vectors")
        subprocess.run(["rustc", "--edition", "2021", "-O", "-o", program, os.path.join(ROOT, "tools/vectors.rs")], check=True)
        for name, text in all_lists(testfp, glibc, program):
            path = os.path.join(ROOT, "crates", name)
            if given.check:
                with open(path) as f:
                    equal = f.read() == text
                print(path, "is as made" if equal else "DIFFERS")
                same &= equal
            else:
                with open(path, "w") as f:
                    f.write(text)
                print(path, sum(not line.startswith("#") for line in text.splitlines()), "rows,", len(text), "bytes")
    sys.exit(0 if same else 1)


if __name__ == "__main__":
    main()
