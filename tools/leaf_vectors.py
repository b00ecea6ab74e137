#!/usr/bin/env python3
"""Makes the lists of vectors that the programs test_tween, test_clock, test_parameter and
test_playback run.

    tools/leaf_vectors.py [--oracle FOLDER]     writes the six lists
    tools/leaf_vectors.py --check [..]          writes nothing, and says whether the lists are as it would write them

FOLDER is the oracle's (oracle/ by default), built as oracle/README.md says. Every answer is the oracle's, which is
kira's own code. The lists are kept in the repository, so that its tests need neither the oracle nor Rust.

A list is made of requests to `oracle leaf`, some written out here and some chosen at random from SEED, and a row is a
request's event with its answer. Each list must have an example of all that `needs` of it names.
"""
import argparse
import collections
import math
import os
import subprocess
import sys

ROOT = os.path.dirname(os.path.dirname(os.path.abspath(__file__)))
SEED = 4
EASINGS = [(0, 0)] + [(kind, power) for kind in (1, 2, 3) for power in range(1, 9)]
STATES = ["playing", "pausing", "paused", "waiting", "resuming", "stopping", "stopped"]

options = argparse.ArgumentParser()
options.add_argument("--oracle", default=os.path.join(ROOT, "oracle"))
options.add_argument("--check", action="store_true")
given = options.parse_args()
sys.path.insert(0, os.path.join(given.oracle, "scripts"))

import vectors  # noqa: E402  the oracle's
from scenes import RATES, VOLUMES  # noqa: E402
from tables import Random, bits, double_bits  # noqa: E402


def answers(requests):
    program = os.path.join(given.oracle, "target/release/oracle")
    text = "".join(r + "\n" for r in requests)
    lines = subprocess.run([program, "leaf"], input=text, capture_output=True, text=True, check=True).stdout.splitlines()
    assert len(lines) == len(requests)
    return lines


def below(x):
    return math.nextafter(x, 0.0)


def above(x):
    return math.nextafter(x, 2.0)


def chunk(rate, frames):
    return (1.0 / rate) * frames


# ---- easing and interpolation: a row is a request and its answer


def easing_requests():
    marks = [0.0, 0.25, 0.5, 0.75, 1.0, 1 / 3, 0.1, 0.9]
    edges = [5e-324, 2.0**-1022, 2.0**-149, 2.0**-60, 2.0**-53, below(0.25), below(0.5), above(0.5), 1 - 2.0**-20, 1 - 2.0**-52, below(1.0)]
    yield "each easing at marks", [(e, x) for e in EASINGS for x in marks]
    yield "each easing at edges: tiny, next to a half, near 1", [(e, x) for e in EASINGS for x in edges]
    rng = Random(SEED, 1)
    yield "each easing at numbers from 0 to 1 chosen at random", [(e, rng.below(2**53) / 2**53) for e in EASINGS for _ in range(30)]
    times = lambda: rng.between(0, 100) * chunk(rng.pick(RATES), rng.between(1, 256)) / (rng.between(1, 2000) / 1000)
    yield "each easing at parts of a tween, whole chunks over milliseconds", [(e, min(times(), 1.0)) for e in EASINGS for _ in range(8)]


def interpolation_requests():
    level = lambda thousandths: bits(thousandths / 1000)
    amounts = [0.0, 1.0, 0.5, 0.25, 0.1, 1 / 3, 2.0**-149, 2.0**-150, 5e-324, below(1.0), 1 - 2.0**-25, 1 - 2.0**-24]
    ends = [(-96000, 18000), (18000, -96000), (0, -60000), (-60000, 0), (-59999, -60001), (1, -1), (0, 0), (-60000, -60000)]
    yield "ends of the range and of a fade", [(level(a), level(b), x) for a, b in ends for x in amounts]
    rng = Random(SEED, 2)
    volume = lambda: rng.pick(VOLUMES) if rng.chance(1, 3) else rng.between(-96000, 18000)
    yield "levels and amounts chosen at random", [(level(volume()), level(volume()), rng.pick([rng.below(2**53) / 2**53, rng.below(257) / 256])) for _ in range(900)]


def plain_list(name, requests, row):
    """Sections of rows, one for each request."""
    for title, inputs in requests:
        asked = [row(*i) for i in inputs]
        got = answers([f"{name} {request}" for request, _, _ in asked])
        yield title, [f"{columns} {int(answer):0{width}x}" for (_, columns, width), answer in zip(asked, got)]


def easing_row(easing, x):
    kind, power = easing
    x = double_bits(x)
    return f"{kind} {power} {x}", f"{kind:x} {power:x} {x:016x}", 16


def interpolation_row(a, b, amount):
    amount = double_bits(amount)
    return f"{a} {b} {amount}", f"{a:08x} {b:08x} {amount:016x}", 8


# ---- clocks


def clock_traces():
    """Unit, speed in thousandths, ticking, seconds of each step."""
    sixty_fourth = [1 / 64] * 33
    yield "2 ticks per second in steps of 1/64 s, in each unit; ticking and not", [
        (unit, speed, ticking, sixty_fourth) for unit, speed in ((0, 500), (1, 2000), (2, 120000)) for ticking in (1, 0)]
    fastest = [(0, 1), (1, 1_000_000), (2, 60_000_000)]
    slowest = [(0, 60_000_000), (1, 1), (2, 1)]
    steps = [0.0, 1.0, 0.001, below(0.001), 0.0, 2.0**-60, below(1.0), 0.5, chunk(48000, 256), chunk(8000, 1), 1.0, 1.0]
    yield "the fastest and the slowest in each unit: steps of 0 to 1000 ticks", [(u, s, 1, steps) for u, s in fastest + slowest]
    yield "the same, not ticking", [(u, s, 0, steps[:4]) for u, s in fastest + slowest]
    odd = [0.999, 0.001, below(1.0), 0.25, 0.75, 1 / 3, 1 / 3, 1 / 3, 0.1]
    yield "sums next to whole ticks", [(u, s, 1, odd) for u, s in ((1, 1000), (1, 1001), (1, 999), (0, 1000), (0, 3000), (2, 60000), (2, 60001), (1, 3000), (1, 999_999))]
    rng = Random(SEED, 3)
    made = vectors.LEAVES["clock"](rng)
    next(made)
    drawn = [next(made).split() for _ in range(110)]
    yield "chunks of a rate chosen at random", [(int(u), int(s), int(t), [vectors.double(int(d)) for d in ds]) for u, s, t, *ds in drawn]
    drawn = [next(made).split()[:3] for _ in range(40)]
    mixed = lambda: rng.pick([chunk(rng.pick(RATES), rng.between(1, 256)), rng.below(2**53) / 2**53, 0.0, 1.0])
    yield "steps of several lengths", [(int(u), int(s), int(t), [mixed() for _ in range(rng.between(3, 9))]) for u, s, t in drawn]


def clock_list(found):
    for title, traces in clock_traces():
        requests = [f"clock {u} {s} {t} {' '.join(str(double_bits(d)) for d in steps)}" for u, s, t, steps in traces]
        rows = []
        for (unit, speed, ticking, steps), answer in zip(traces, answers(requests)):
            rows.append(f"n {unit:x} {double_bits(speed / 1000):016x} {ticking:x}")
            before = 0
            for dt, time in zip(steps, answer.split(" | ")):
                ticks, fraction = map(int, time.split())
                rows.append(f"u {double_bits(dt):016x} {ticks:016x} {fraction:016x}")
                took = ticks - before
                found[f"unit {unit}, {'ticking' if ticking else 'not ticking'}, {took if took < 2 else 'several' if took < 100 else '100 or more'} ticks"] += 1
                before = ticks
        yield title, rows


# ---- when to start. The oracle has no request of that name: a resume that waits is started, waits on, or is stopped.

STARTS = {4: 0, 3: 1, 6: 2}


def clock_columns(place, clock):
    """A clock at tick 0, fraction 0, is one that has not started where its place is even."""
    ticking, ticks, fraction = clock
    started = int((ticks, fraction) != (0, 0.0) or place % 2 == 1)
    return f"c {place:x} {ticking:x} {started:x} {ticks:016x} {double_bits(fraction):016x}"


def clock_words(clocks):
    return "".join(f" {t} {ticks} {double_bits(fraction)}" for t, ticks, fraction in clocks)


def start_batches():
    """Eight clocks, and questions: how many are there, and the clock, tick and thousandths that are asked for."""
    for when in (0, 1, 2, 57, 3_600_000):
        for part in (0, 1, 250, 333, 999):
            part_of = part / 1000
            near = [(1, max(when - 1, 0), 0.999), (1, when, part_of), (1, when, below(part_of) if part else 0.0), (1, when, above(part_of) if part else 5e-324),
                    (1, when + 1, 0.0), (1, 0, 0.0), (0, when, part_of), (0, when + 1, 0.5)]
            yield f"around tick {when} and {part} thousandths", near, [(8, c, when, part) for c in range(1, 9)]
    rng = Random(SEED, 4)
    for n in range(12):
        clocks = [(int(rng.chance(3, 4)), rng.below(4), rng.pick([0.0, 0.5, rng.below(1000) / 1000, rng.below(2**53) / 2**53])) for _ in range(8)]
        asked = [(rng.below(9), rng.between(1, 8), rng.below(4), rng.pick([0, 500, rng.below(1000)])) for _ in range(20)]
        yield f"chosen at random: {n}", clocks, asked


def start_list(found):
    for title, clocks, asked in start_batches():
        dt = double_bits(1 / 64)
        requests = [f"playback resume {c} {when} {part} 1 0 0 | update {dt} {dt}{clock_words(clocks[:count])}" for count, c, when, part in asked]
        rows = [clock_columns(place, clock) for place, clock in enumerate(clocks)]
        for (count, c, when, part), answer in zip(asked, answers(requests)):
            start = STARTS[int(answer.split()[1])]
            ticking, ticks, fraction = clocks[c - 1]
            found[["now", "later", "never"][start]] += 1
            if count < c:
                found["the clock is not there"] += 1
            elif not ticking:
                found["the clock does not tick"] += 1
            elif ticks == when:
                found["equal tick, fraction " + ("at" if fraction == part / 1000 else "below" if fraction < part / 1000 else "above")] += 1
            else:
                found["tick before" if ticks < when else "tick after"] += 1
            rows.append(f"w {count:x} {c - 1:x} {when:016x} {double_bits(part / 1000):016x} {start:x}")
        yield title, rows


# ---- traces of a parameter and of a playback state, in the oracle's words


def order_columns(words):
    clock, when, part, millis, easing, power = map(int, words)
    start = 2 if clock else 1 if when else 0
    number = when if clock else when * 1_000_000
    return f"{start:x} {max(clock - 1, 0):x} {number:016x} {double_bits(part / 1000):016x} {millis:08x} {easing:x} {power:x}"


def order_facts(name, words, found):
    clock, when, part, millis, easing, power = map(int, words)
    start = "on a clock" if clock else "delayed" if when else "immediate"
    found[f"{name} {start}, {'zero duration' if millis == 0 else 'a duration'}"] += 1
    found[f"{name}, easing {easing} power {power}"] += 1


def event_rows(event, answered, placed, found):
    """The rows of an event. `answered` gives the columns of the next update's answer."""
    name, *words = event.split()
    if name == "set":
        order_facts(name, words[1:], found)
        return [f"s {bits(int(words[0]) / 1000):08x} {order_columns(words[1:])}"]
    if name in ("pause", "resume"):
        order_facts(name, words, found)
        return [f"{name[0]} {order_columns(words)}"]
    dt, amount, *clocks = map(int, words)
    rows, count = [], len(clocks) // 3
    for place in range(count):
        ticking, ticks, fraction = clocks[3 * place : 3 * place + 3]
        row = clock_columns(place, (ticking, ticks, vectors.double(fraction)))
        if placed.get(place) != row:
            placed[place] = row
            rows.append(row)
    return rows + [f"u {count:x} {dt:016x} {amount:016x} {next(answered)}"]


def trace_rows(number, request, answer, columns, found):
    events = request.split(" | ")
    answered = iter([columns(a) for a in answer.split(" | ")])
    placed, rows = {}, []
    if not events[0].startswith(("set", "pause", "resume", "update")):
        rows.append(f"n {bits(int(events.pop(0)) / 1000):08x}")
    else:
        rows.append(f"n {number:08x}")
    for event in events:
        rows += event_rows(event, answered, placed, found)
    return rows


def update(dt, amount=0.5, clocks=()):
    return f"update {double_bits(dt)} {double_bits(amount)}{clock_words(clocks)}"


def updates(count, dt, clocks=()):
    """As many updates, read at several places."""
    return [update(dt, [0.5, 0.125, 1.0, 0.0, 0.75, 1 / 3][n % 6], clocks) for n in range(count)]


def ticking(count, dt, speed, start=(0, 0.0), others=()):
    """Updates in which clock 1 goes on by speed * dt each time."""
    made, (ticks, fraction) = [], start
    for n in range(count):
        fraction += speed * dt
        ticks, fraction = ticks + int(fraction), fraction - int(fraction)
        made.append(update(dt, (n % 5) / 4, [(1, ticks, fraction), *others]))
    return made


def joined(*parts):
    return " | ".join(p for part in parts for p in ([part] if isinstance(part, str) else part))


EIGHTH = 1 / 64
NOW = "0 0 0"


def random_traces(leaf, seed, count):
    made = vectors.LEAVES[leaf](Random(SEED, seed))
    if leaf == "parameter":
        next(made)
    return [next(made) for _ in range(count)]


def parameter_traces():
    yield "no order", [joined(str(v), updates(2, EIGHTH)) for v in (0, -6000, -96000, 18000)]
    yield "each easing at once, over 125 ms in steps of 1/64 s, past its end", [
        joined("0", f"set {v} {NOW} 125 {k} {p}", updates(10, EIGHTH)) for (k, p), v in zip(EASINGS, VOLUMES + VOLUMES)]
    yield "no length: at once, and where it waits for a delay or a clock", [
        joined("0", f"set -6000 {start} 0 0 0", updates(3, EIGHTH), ticking(4, EIGHTH, 32)) for start in (NOW, "0 1 0", "0 40 0", "1 1 0", "1 0 500")]
    dt = chunk(48000, 256)
    ends = [(1, dt), (5, dt), (6, dt), (16, 0.016), (16, below(0.016)), (48, 0.016), (100, chunk(44100, 147)), (1000, 0.25), (3_600_000, 1.0)]
    yield "lengths next to whole steps", [joined("-20000", f"set 18000 {NOW} {m} 0 0", updates(min(7, 2 + int(m / 1000 / d)), d)) for m, d in ends]
    delays = [(1, EIGHTH), (15, EIGHTH), (16, EIGHTH), (31, EIGHTH), (32, EIGHTH), (125, EIGHTH), (16, 0.016), (32, 0.016), (1, below(0.001)), (1, 0.001), (3_600_000, 1.0)]
    yield "delays below, at and above whole steps", [joined("0", f"set -12000 0 {w} 0 30 3 2", updates(min(6, 3 + int(w / 1000 / d)), d)) for w, d in delays]
    starts = ["1 0 0", "1 1 0", "1 1 500", "1 2 250", "1 2 999", "1 3600000 0"]
    yield "a clock's times, in steps of a quarter of a tick", [joined("0", f"set -30000 {s} 40 1 2", ticking(11, EIGHTH, 16)) for s in starts]
    still = [[], [(0, 5, 0.5)], [(1, 5, 0.5)], [(1, 0, 0.0)], [(0, 0, 0.0), (1, 1, 0.5)], [(1, 1, 0.25), (0, 9, 0.0), (1, 1, 0.75)]]
    yield "clocks that stand: not there, not ticking, before, at, after", [
        joined("-6000", f"set 0 {c} 1 500 20 2 3", updates(3, EIGHTH, clocks)) for clocks in still for c in (1, 2, 3)]
    yield "the clock is gone, and back", [joined("0", "set -9000 1 1 0 20 0 0", updates(2, EIGHTH), ticking(5, EIGHTH, 32), updates(2, EIGHTH))]
    yield "several sets: during a motion, while one waits, at its end, twice at once", [
        joined("0", f"set -40000 {a} 50 0 0", updates(n, EIGHTH), f"set 6000 {b} 70 3 3", updates(m, EIGHTH), f"set {v} {NOW} 20 2 4", updates(3, EIGHTH))
        for (a, n), (b, m), v in zip([(NOW, 2), ("0 40 0", 1), (NOW, 4), (NOW, 0), ("1 0 0", 2), (NOW, 5)], [(NOW, 3), (NOW, 6), ("0 20 0", 2), (NOW, 4), ("0 16 0", 5), ("1 5 0", 2)], [0, -60000, 18000, 6000, -96000, -40000])]
    yield "steps of no time", [joined("0", f"set -6000 {s} 10 0 0", updates(2, 0.0), updates(3, 0.004), updates(1, 0.0)) for s in (NOW, "0 4 0")]
    yield "chosen at random", random_traces("parameter", 5, 120)


def playback_traces():
    pause = lambda start, millis, easing=0, power=0: f"pause {start} {millis} {easing} {power}"
    resume = lambda start, millis, easing=0, power=0: f"resume {start} {millis} {easing} {power}"
    yield "no order", [joined(updates(2, EIGHTH))]
    yield "a linear pause over 125 ms, in steps of 1/64 s, and a resume", [
        joined(updates(1, EIGHTH), pause(NOW, 125), updates(10, EIGHTH), resume(NOW, 125), updates(10, EIGHTH))]
    yield "each easing, of a pause and of a resume", [
        joined(pause(NOW, 60, *e), updates(5, EIGHTH), resume(NOW, 60, *e), updates(5, EIGHTH)) for e in EASINGS]
    yield "no length: a pause and a resume at once, a resume that waits, a pause that waits", [
        joined(pause(NOW, 0), updates(3, EIGHTH), resume(NOW, 0), updates(2, EIGHTH)),
        joined(pause(NOW, 0), updates(1, EIGHTH), resume("0 20 0", 0), updates(4, EIGHTH)),
        joined(pause(NOW, 0), updates(1, EIGHTH), resume("1 2 500", 0), ticking(7, EIGHTH, 32)),
        joined(pause("0 20 0", 0), updates(4, EIGHTH)), joined(pause("1 1 500", 0), ticking(6, EIGHTH, 32))]
    yield "pauses that wait for a delay or a clock", [
        joined(pause(s, 40, 1, 2), ticking(8, EIGHTH, 32)) for s in ("0 1 0", "0 16 0", "0 47 0", "1 0 0", "1 1 500", "1 2 0", "1 3600000 0", "2 1 0")]
    yield "resumes that wait for a delay or a clock, of a paused track", [
        joined(pause(NOW, 10), updates(2, EIGHTH), resume(s, 40, 2, 2), ticking(8, EIGHTH, 32)) for s in ("0 1 0", "0 15 0", "0 16 0", "0 47 0", "1 0 0", "1 1 500", "1 2 0", "1 3600000 0")]
    yield "a resume of a playing track: at once, delayed, on a clock", [joined(updates(1, EIGHTH), resume(s, 30), ticking(6, EIGHTH, 32)) for s in (NOW, "0 20 0", "1 1 0")]
    yield "a resume during a pause, at once and later", [joined(pause(NOW, 100), updates(3, EIGHTH), resume(s, 50, 3, 2), ticking(8, EIGHTH, 32)) for s in (NOW, "0 30 0", "1 1 0")]
    yield "a second pause: while pausing, when paused, while resuming", [
        joined(pause(NOW, 60), updates(n, EIGHTH), pause(NOW, 30, 2, 3), updates(4, EIGHTH), resume(NOW, 60), updates(2, EIGHTH), pause(s, 40), updates(5, EIGHTH)) for n, s in ((2, NOW), (5, NOW), (0, "0 16 0"))]
    yield "a pause and a second resume while a resume waits", [
        joined(pause(NOW, 0), updates(1, EIGHTH), resume("0 60 0", 40), updates(2, EIGHTH), second, ticking(6, EIGHTH, 32))
        for second in (pause(NOW, 0), pause(NOW, 30), pause("1 1 0", 30), resume(NOW, 20), resume("0 16 0", 20), resume("1 1 0", 20))]
    still = [[(0, 5, 0.5)], [(1, 1, 0.25)], [(1, 1, 0.5)], [(0, 0, 0.0), (1, 1, 0.75)]]
    yield "clocks that stand: not ticking, before, at, after", [joined(pause(NOW, 0), updates(1, EIGHTH), resume(f"{len(k)} 1 500", 20), updates(3, EIGHTH, k)) for k in still]
    yield "the clock is not there: a pause waits on, and a resume stops the track for good", [
        joined(pause("3 1 0", 20), updates(3, EIGHTH)),
        joined(pause(NOW, 20), updates(2, EIGHTH), resume("2 1 0", 20), updates(2, EIGHTH, [(1, 9, 0.0)]), pause(NOW, 20), updates(1, EIGHTH), resume(NOW, 20), updates(2, EIGHTH)),
        joined(pause(NOW, 20), updates(3, EIGHTH), resume("1 5 0", 20), ticking(3, EIGHTH, 32), updates(2, EIGHTH), resume(NOW, 20), updates(1, EIGHTH)),
        joined(resume("1 0 0", 20), updates(2, EIGHTH), resume(NOW, 0), updates(1, EIGHTH))]
    yield "chosen at random", random_traces("playback", 6, 110)


def parameter_columns(answer):
    finished, *levels = map(int, answer.split())
    return f"{finished:x} " + " ".join(f"{x:08x}" for x in levels)


def playback_columns(answer):
    changed, state, advancing, *levels = map(int, answer.split())
    return f"{changed:x} {state:x} {advancing:x} " + " ".join(f"{x:08x}" for x in levels)


def trace_list(name, traces, columns, found):
    number = 0
    for title, requests in traces:
        rows = []
        for request, answer in zip(requests, answers([f"{name} {r}" for r in requests])):
            rows += trace_rows(number, request, answer, columns, found)
            number += 1
            if name == "playback":
                states = [0] + [int(a.split()[1]) for a in answer.split(" | ")]
                for before, after in zip(states, states[1:]):
                    found[f"an update after {STATES[before]} finds {STATES[after]}"] += 1
                    found[f"state {STATES[after]}"] += 1
            else:
                found["finished"] += sum(a.startswith("1") for a in answer.split(" | "))
        yield title, rows


# ---- lists


def needs(found, names):
    missing = [n for n in names if not found[n]]
    assert not missing, missing


def listed(title, columns, asked, sections):
    """The text of a list: a header, and then each section's name and its rows."""
    sections = list(sections)
    rows = [row for _, rows in sections for row in rows]
    count = sum(asked == "" or row[0] == asked for row in rows)
    lines = [f"# {title}", "# Columns, in hexadecimal, floats as their bits:", *[f"#   {c}" for c in columns]]
    lines += [f"# {len(rows)} rows with {count} answers. Expected: kira's own, asked of the oracle (`oracle leaf`).",
              f"# Made by tools/leaf_vectors.py with seed {SEED} (docs/VECTORS.md)."]
    for name, rows in sections:
        lines += [f"# {name}", *rows]
    return "\n".join(lines) + "\n", count


CLOCK_ROW = "c: a clock: place, ticking, started, ticks, fraction"
ORDER = "start (0 immediate, 1 delayed, 2 a clock's time), clock, nanoseconds or ticks, fraction, milliseconds, easing, power"
CHUNK = "clocks that are there, seconds, where in the chunk the level between is read"
LEVELS = "level, level before, level between"


def all_lists():
    yield "test_tween/data/easing.txt", *listed(
        "`Easing::apply`.", ["easing (0 Linear, 1 InPowi, 2 OutPowi, 3 InOutPowi), power, x, what it gives"], "", plain_list("easing", easing_requests(), easing_row)), None
    yield "test_tween/data/interpolation.txt", *listed(
        "Interpolation of decibels.", ["a level, another, the amount, the level between"], "", plain_list("interpolation", interpolation_requests(), interpolation_row)), None
    found = collections.Counter()
    yield "test_clock/data/clock.txt", *listed(
        "Clocks that move.", ["n: a new clock: unit (0 seconds per tick, 1 ticks per second, 2 ticks per minute), speed, ticking", "u: an update: seconds, ticks after it, fraction after it"],
        "u", clock_list(found)), found
    needs(found, [f"unit {u}, ticking, {t} ticks" for u in range(3) for t in (0, 1, "several", "100 or more")] + [f"unit {u}, not ticking, 0 ticks" for u in range(3)])
    found = collections.Counter()
    yield "test_clock/data/when_to_start.txt", *listed(
        "`when_to_start`.", [CLOCK_ROW, "w: a question: clocks that are there, the clock, tick and fraction asked for, the answer (0 now, 1 later, 2 never)"], "w", start_list(found)), found
    needs(found, ["now", "later", "never", "the clock is not there", "the clock does not tick", "tick before", "tick after"] + [f"equal tick, fraction {w}" for w in ("below", "at", "above")])
    found = collections.Counter()
    starts = ["immediate", "delayed", "on a clock"]
    yield "test_parameter/data/parameter.txt", *listed(
        "Traces of a parameter.", ["n: a new parameter: its level", f"s: a set: level, {ORDER}", CLOCK_ROW, f"u: an update: {CHUNK}; finished, {LEVELS}"],
        "u", trace_list("parameter", parameter_traces(), parameter_columns, found)), found
    needs(found, [f"set {s}, {d} duration" for s in starts for d in ("a", "zero")] + [f"set, easing {k} power {p}" for k, p in EASINGS] + ["finished"])
    found = collections.Counter()
    yield "test_playback/data/playback.txt", *listed(
        "Traces of a playback state.", ["n: a new one, which plays: the trace's number", f"p, r: a pause, a resume: {ORDER}", CLOCK_ROW,
         f"u: an update: {CHUNK}; changed, state ({', '.join(f'{n} {s}' for n, s in enumerate(STATES))}), advancing, {LEVELS} (of the fade)"],
        "u", trace_list("playback", playback_traces(), playback_columns, found)), found
    needs(found, [f"{o} {s}, {d} duration" for o in ("pause", "resume") for s in starts for d in ("a", "zero")] + [f"{o}, easing {k} power {p}" for o in ("pause", "resume") for k, p in EASINGS]
          + [f"state {s}" for s in STATES if s != "stopping"])


def main():
    same = True
    for name, text, count, found in all_lists():
        path = os.path.join(ROOT, "crates", name)
        if given.check:
            with open(path) as f:
                equal = f.read() == text
            print(path, "is as made" if equal else "DIFFERS")
            same &= equal
        else:
            with open(path, "w") as f:
                f.write(text)
            print(path, count, "answers,", len(text), "bytes")
            for what in sorted(found or []):
                print("   ", found[what], what)
    sys.exit(0 if same else 1)


if __name__ == "__main__":
    main()
