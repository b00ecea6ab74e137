#!/usr/bin/env python3
"""Prints requests for `oracle leaf`, edges first.

    vectors.py LEAF SEED COUNT
"""
import sys

import scenes
from tables import Random, bits, double, double_bits, number

LEAVES = {}


def leaf(function):
    """A function that yields requests without end."""
    LEAVES[function.__name__] = function
    return function


def requests(name, seed, count):
    made = LEAVES[name](Random(seed))
    return [f"{name} {next(made)}" for _ in range(count)]


def neighbours(f32_bits):
    return [f32_bits - 1, f32_bits, f32_bits + 1]


def amount(rng):
    """A number from 0 to 1."""
    return rng.pick([0.0, 1.0, 0.5, rng.below(2**53) / 2**53, rng.below(65) / 64, 1 - 2.0**-53])


def chunk_time(rng):
    rate = rng.pick(scenes.RATES) if rng.chance(1, 2) else rng.between(8000, 192000)
    return (1.0 / rate) * rng.between(1, 256)


@leaf
def amplitude(rng):
    yield from [0, 0x80000000, 1, 0x80000001, 0x7F800000, 0xFF800000, 0x7FC00000, 0x7F800001]
    for decibels in (-96.0, -60.0, -59.9375, -0.0625, 0.0625, 18.0, 20.0, 23.0, 24.0):
        yield from neighbours(bits(decibels))
    while True:
        yield rng.pick([
            bits(rng.between(-96000, 18000) / 1000), bits(rng.between(-960, 384) / 16),
            bits(rng.below(2**30) / 2**30 * 84 - 60), rng.below(2**32),
        ])  # fmt: skip


@leaf
def rounding(rng):
    for edge in (2.0**-149, 2.0**-150, 3 * 2.0**-150, 2.0**-126, 2.0**128 - 2.0**104, 2.0**128 - 2.0**103):
        yield from neighbours(double_bits(edge))
    yield from [0, 1 << 63, 0x7FF0000000000000, 0xFFF0000000000000, 1, 2**52 - 1, 2**52]
    while True:
        # A tie between two f32 numbers, or next to one, or a number at large.
        low = rng.below(0x7F800000)
        tie = double_bits((number(low) + number(low + 1)) / 2) if low + 1 < 0x7F800000 else 0
        sign = rng.below(2) << 63
        at_large = (rng.between(850, 1160) << 52) + rng.below(2**52)
        yield sign | rng.pick([tie, tie + 1, max(tie - 1, 0), at_large, rng.below(0x7FF << 52)])


@leaf
def nanoseconds(rng):
    yield from [0, double_bits(8 / 8192), double_bits(1 / 25600), double_bits(5e-10), double_bits(1.5e-9)]
    while True:
        yield double_bits(rng.pick([chunk_time(rng), rng.between(0, 2**20) / 2**30, rng.below(2**40) / 2**30]))


@leaf
def seconds(rng):
    yield from [0, 1, 27, 125, 999, 1000, 3_600_000]
    while True:
        yield rng.below(3_600_001)


@leaf
def easing(rng):
    for x in (0.0, 0.25, 0.5, 0.75, 1.0):
        yield from (f"{kind} {0 if kind == 0 else 2} {double_bits(x)}" for kind in range(4))
    while True:
        kind = rng.below(4)
        yield f"{kind} {0 if kind == 0 else rng.between(1, 8)} {double_bits(amount(rng))}"


@leaf
def interpolation(rng):
    while True:
        decibels = lambda: bits(rng.pick([rng.between(-96000, 18000), rng.pick(scenes.VOLUMES)]) / 1000)
        yield f"{decibels()} {decibels()} {double_bits(amount(rng))}"


@leaf
def attenuation(rng):
    """A listener's place, and a track's pose."""
    yield from ["0 0 0 0 0 0 0 1", "0 0 0 0 0 0 1 2", "0 0 0 3000 4000 0 5000 6000", "0 0 0 3000 4000 0 4000 5000"]
    yield from ["0 0 0 3000 4000 0 0 10000", "1000000 1000000 1000000 -1000000 -1000000 -1000000 0 1000000"]
    while True:
        listener = scenes.listener(rng)
        yield " ".join(map(str, listener + scenes.pose(rng, listener)))


@leaf
def clock(rng):
    yield f"1 2000 1 {' '.join([str(double_bits(1 / 64))] * 33)}"
    while True:
        unit, speed, ticking = scenes.clock(rng)
        dt = double_bits(chunk_time(rng))
        yield f"{unit} {speed} {ticking} {' '.join([str(dt)] * rng.between(1, 12))}"


class Trace:
    """Orders and chunks in turn, with clocks that go on from chunk to chunk."""

    def __init__(self, rng):
        self.rng = rng
        self.dt = chunk_time(rng)
        self.clocks = [[int(rng.chance(3, 4)), 0, 0.0, rng.below(1000)] for _ in range(rng.below(3))]

    def start(self):
        rng = self.rng
        if self.clocks and rng.chance(1, 3):
            clock = rng.below(len(self.clocks))
            return f"{clock + 1} {self.clocks[clock][1] + rng.below(3)} {rng.pick([0, 500, 999])}"
        return f"0 {rng.pick([0, 0, self.millis()])} 0"

    def millis(self):
        chunk = max(1, round(self.dt * 1000))
        return self.rng.pick([1, chunk, chunk * self.rng.between(1, 5), 1000])

    def order(self, waits_empty=False):
        """The fields from `clock` on. Question 4 keeps an order that waits
        from having no length, unless it is a resume."""
        rng = self.rng
        start = self.start()
        empty = rng.chance(1, 4) and (waits_empty or start == "0 0 0")
        easing = rng.below(4)
        power = rng.between(1, 8) if easing else 0
        return f"{start} {0 if empty else self.millis()} {easing} {power}"

    def update(self):
        for clock in self.clocks:
            if clock[0]:
                position = clock[2] + clock[3] * self.dt
                clock[1] += int(position)
                clock[2] = position - int(position)
        states = [f" {t} {ticks} {double_bits(fraction)}" for t, ticks, fraction, _ in self.clocks]
        place = self.rng.between(1, 8) / 8
        return f"update {double_bits(self.dt)} {double_bits(place)}{''.join(states)}"

    def events(self, order):
        made = []
        for _ in range(self.rng.between(2, 14)):
            if self.rng.chance(1, 3):
                made.append(order())
            made.append(self.update())
        return " | ".join(made)


@leaf
def parameter(rng):
    # A change of length 0 that waits: no 0 / 0, the Rust holds the value.
    yield f"0 | set -6000 0 1 0 0 0 0 | update {double_bits(0.0005)} {double_bits(1.0)}"
    while True:
        trace = Trace(rng)
        volume = lambda: rng.pick(scenes.VOLUMES)
        yield f"{volume()} | {trace.events(lambda: f'set {volume()} {trace.order()}')}"


@leaf
def playback(rng):
    while True:
        trace = Trace(rng)
        pause = lambda: f"pause {trace.order()}"
        resume = lambda: f"resume {trace.order(waits_empty=True)}"
        yield trace.events(lambda: rng.pick([pause, resume])())


if __name__ == "__main__":
    if len(sys.argv) != 4:
        sys.exit(__doc__)
    print("\n".join(requests(sys.argv[1], int(sys.argv[2]), int(sys.argv[3]))))
