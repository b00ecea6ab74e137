"""The rules for the small pieces, in Python's whole numbers and
IEEE doubles. The oracle's answers are compared with them."""
import math
import re
from fractions import Fraction

import gain_table
from tables import bits, double, double_bits, number

FIRST = gain_table.FIRST
ENTRIES = [int(word) for word in re.findall(r"\d+", gain_table.TABLE.read_text())]


def rounded(x):
    """The nearest f32, ties to even, of a finite double that does not overflow."""
    return number(bits(x))


def amplitude(f32_bits):
    n = number(f32_bits)
    if math.isnan(n) or n > 23:
        return "11"
    if n == 0:
        return f"0 {bits(1.0)}"
    if n <= -60:
        return "0 0"
    k = math.floor(Fraction(n) * 16)
    rest = float(Fraction(n) * 16 - k)
    this, following, after = map(float, ENTRIES[k - FIRST : k - FIRST + 3])
    value = this
    if rest:
        line = this + (following - this) * rest
        value = line + rest * (rest - 1.0) / 2.0 * (after - 2.0 * following + this)
    return f"0 {bits(value / 2.0**40)}"


def rounding(f64_bits):
    """By exact arithmetic on the fields, for the numbers that are not NaN."""
    sign = (f64_bits >> 63) << 31
    magnitude = f64_bits & (2**63 - 1)
    if magnitude == 0x7FF << 52:
        return sign | 0x7F800000
    exact = Fraction(double(magnitude))
    field = max((magnitude >> 52) - 1023 + 127, 1)
    digits = nearest(exact / Fraction(2) ** (field - 150))
    return sign | min((field - 1) * 2**23 + digits, 0x7F800000)


def nearest(x):
    """The nearest whole number, ties to even."""
    return round(x)


def nanoseconds(f64_bits):
    return nearest(Fraction(double(f64_bits)) * 10**9)


def seconds(millis):
    return double_bits(float(millis // 1000) + float(millis % 1000 * 1_000_000) / 1e9)


def powi(x, power):
    result = 1.0
    while True:
        if power & 1:
            result *= x
        power >>= 1
        if not power:
            return result
        x *= x


def eased(kind, power, x):
    if kind == 0:
        return x
    if kind == 1:
        return powi(x, power)
    if kind == 2:
        return 1.0 - powi(1.0 - x, power)
    x *= 2.0
    if x < 1.0:
        return 0.5 * powi(x, power)
    return 0.5 * (1.0 - powi(2.0 - x, power)) + 0.5


def easing(kind, power, f64_bits):
    return double_bits(eased(kind, power, double(f64_bits)))


def interpolation(a, b, f64_bits):
    a, b, amount = number(a), number(b), rounded(double(f64_bits))
    return bits(a + rounded(rounded(b - a) * amount))


def root(x):
    """The f32 nearest to the square root, by comparing squares: pattern k is at
    least as near as the one below it where their midpoint's square is at most x."""
    k = 0
    for bit in reversed(range(31)):
        following = k + 2**bit
        if following < 0x7F800000 and (Fraction(number(following - 1)) + Fraction(number(following))) ** 2 <= 4 * Fraction(x):
            k = following
    return number(k)


def level_at(listener, place, near, far):
    """Decibels of a track at its place: each step rounded to f32."""
    near, far = rounded(near / 1000), rounded(far / 1000)
    squares = [rounded(side * side) for side in (rounded(rounded(a / 1000) - rounded(b / 1000)) for a, b in zip(listener, place))]
    distance = root(rounded(rounded(squares[0] + squares[1]) + squares[2]))
    held = near if distance < near else far if distance > far else distance
    relative = rounded(rounded(held - near) / rounded(far - near))
    return rounded(-60.0 + rounded(60.0 * rounded(1.0 - relative)))


def attenuation(*fields):
    """The amplitude that a spatial track's frames are multiplied by."""
    level = level_at(fields[:3], fields[3:6], *fields[6:])
    return amplitude(bits(level)).split()[1]


def clock(unit, speed, ticking, *steps):
    speed = speed / 1000
    ticks_per_second = [1.0 / speed if unit == 0 else 0, speed, speed / 60.0][unit]
    ticks, fraction, times = 0, 0.0, []
    for step in steps:
        if ticking:
            fraction += ticks_per_second * double(step)
            while fraction >= 1.0:
                fraction -= 1.0
                ticks += 1
        times.append(f"{ticks} {double_bits(fraction)}")
    return " | ".join(times)


def answer(request):
    """The answer to a leaf's request, for the leaves that have a model here."""
    name, *words = request.split()
    models = dict(
        amplitude=amplitude, rounding=rounding, nanoseconds=nanoseconds, seconds=seconds,
        easing=easing, interpolation=interpolation, attenuation=attenuation, clock=clock,
    )  # fmt: skip
    return str(models[name](*map(int, words))) if name in models else None
