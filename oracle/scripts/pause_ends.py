#!/usr/bin/env python3
"""When pauses are over, in kira's own states: docs/PAUSES.md on generated scenes that qualify.

    pause_ends.py [COUNT]    COUNT scenes, 2,000 if it is left out

In each scene one track right under the mixer has exactly one pause, with an immediate start, and no resume; `buffer` divides `block`; and
the show lasts for c + 1 chunks from the order. Three things are asked of each: the track is paused from chunk c + 1 on at the latest, and
never before chunk c; it is paused in exactly the chunks in which the f64 sum of chunk lengths has reached the fade; and with all other
sounds and the send tracks taken out, the output is zero from the chunk in which it is paused.
"""
import itertools
import struct
import subprocess
import sys
from collections import Counter

import cases
import scenes
from check import ORACLE
from tables import Random

SEED = 20261100
BATCH = 100
PAUSE, RESUME = 4, 5
PLAYING, PAUSING, PAUSED = 0, 1, 2
LIMITS = scenes.Limits(longest=16384)


class Pause:
    """A scene, and the pause in it that is looked at."""

    def __init__(self, scene, track, block, millis):
        self.scene, self.track, self.block, self.millis = scene, track, block, millis
        self.rate, _, self.buffer, self.frames, self.blocks, _ = scene.head[0]
        self.per_block = -(-self.frames // self.buffer)
        self.chunks = -(-millis * self.rate // (1000 * self.buffer))
        self.left = (self.blocks - block) * self.per_block

    def by_the_sum(self):
        """The first chunk in which the sum has reached the fade."""
        step, time = 1.0 / self.rate * self.buffer, 0.0
        length = float(self.millis // 1000) + float(self.millis % 1000 * 1000000) / 1e9
        for chunk in itertools.count(1):
            time += step
            if time >= length:
                return chunk

    def alone(self):
        """The scene with the track's own sounds alone, and those below it."""
        scene, inside = self.scene.copy(), {self.track}
        for line, (parent, _) in enumerate(scene.tracks, 1):
            if parent in inside:
                inside.add(line)
        scene.tables["sounds"] = [row for row in scene.sounds if row[0] in inside]
        scene.tables["sends"], scene.tables["routes"] = [], []
        scene.tables["orders"] = [row for row in scene.orders if row[1] not in (2, 3)]
        return scene


def head(rng):
    rate = rng.pick(scenes.RATES) if rng.chance(3, 4) else rng.between(8000, 192000)
    buffer = rng.pick(scenes.BUFFERS) if rng.chance(3, 4) else rng.between(1, 256)
    if rng.chance(1, 2):
        # chunks of whole milliseconds: where a fade fills them, c chunks can fall short
        rate = rng.pick([8000, 16000, 32000, 48000, 96000, 192000])
        buffer = rate // 1000 * rng.between(1, 256 * 1000 // rate)
    channels = rng.pick([1, 2, 2, 2, 3, 8])
    block = buffer * rng.between(1, min(8, 512 // buffer))
    blocks = rng.between(1, max(1, min(1024, rng.pick([16, 128, 1024]), LIMITS.longest // channels // block)))
    return [rate, channels, buffer, block, blocks, 0]


def millis(rng, rate, buffer, chunks):
    """A fade that is over within so many chunks; half fill whole chunks, where they can."""
    longest = (chunks - 1) * 1000 * buffer // rate
    whole = [m for m in range(1, min(longest, 2000) + 1) if m * rate % (1000 * buffer) == 0]
    if whole and rng.chance(1, 2):
        return rng.pick(whole)
    return 0 if rng.chance(1, 20) else rng.between(0, longest)


def pause(rng):
    made = scenes.scene(rng, LIMITS)
    made.tables["head"] = [head(rng)]
    rate, _, buffer, block, blocks, _ = made.head[0]
    if not made.tracks:
        made.tables["tracks"] = [[0, 0]]
    track = rng.pick([line for line, row in enumerate(made.tracks, 1) if row[0] == 0])
    made.tables["sounds"] = made.sounds[:63] + [[track, 0, len(made.samples) // 2, 0]]
    orders = [row for row in made.orders if row[0] < blocks and not (row[1] in (PAUSE, RESUME) and row[2] == track)][:127]
    at = rng.below(blocks)
    length = millis(rng, rate, buffer, (blocks - at) * (block // buffer))
    easing = rng.below(4)
    orders.insert(rng.below(len(orders) + 1), [at, PAUSE, track, 0, 0, 0, 0, length, easing, 0 if easing == 0 else rng.between(1, 8)])
    made.tables["orders"] = orders
    return Pause(made, track, at, length)


def pauses(count):
    """Scenes whose show lasts for c + 1 chunks from the order."""
    numbers = itertools.count()
    made = (pause(Random(SEED, n)) for n in numbers)
    return itertools.islice((p for p in made if p.chunks + 1 <= p.left), count)


def asked(word, given):
    """The number and the answers of each scene."""
    data = b"".join(cases.of_scene(scene, True).stream() for scene in given)
    answer = subprocess.run([ORACLE, word], input=data, stdout=subprocess.PIPE, check=True).stdout
    at = 0
    for scene in given:
        number, length = struct.unpack_from("<2I", answer, at)
        yield number, struct.unpack_from(f"<{length}I", answer, at + 8)
        at += 8 + 4 * length
    assert at == len(answer)


def states_of(p, states):
    """The track's states before the order, and from it on."""
    own = states[p.track - 1 :: len(p.scene.tracks)]
    return own[: p.block * p.per_block], own[p.block * p.per_block :]


def silent_from(p, chunk, output):
    """All samples are zero, of either sign, from a chunk of the order on."""
    first = (p.block * p.per_block + chunk - 1) * p.buffer * p.scene.head[0][1]
    return all(sample & 0x7FFFFFFF == 0 for sample in output[first:])


def look(p, answer, alone, counts):
    number, states = answer
    before, after = states_of(p, states)
    over = after.index(PAUSED) + 1 if PAUSED in after else None
    good = (
        number == 0
        and all(state == PLAYING for state in before)
        and over is not None
        and all(state == PAUSING for state in after[: over - 1])
        and all(state == PAUSED for state in after[over - 1 :])
        and over in (p.chunks, p.chunks + 1)
        and over == p.by_the_sum()
        and alone[0] == 0
        and silent_from(p, over, alone[1])
    )
    counts["holds" if good else "FAILS"] += 1
    counts["over in chunk c" if over == p.chunks else "over in chunk c + 1"] += 1
    counts["fades of 0 ms"] += p.millis == 0
    whole = p.millis > 0 and p.millis * p.rate % (1000 * p.buffer) == 0
    counts["fades that fill whole chunks"] += whole
    counts["of them over in chunk c + 1"] += whole and over == p.chunks + 1
    counts["over in a later block"] += over is not None and over > p.per_block
    counts["chunks after the end, all zero"] += len(after) - over + 1 if over else 0
    counts["heard"] += any(sample & 0x7FFFFFFF for sample in alone[1])
    if not good:
        print(f"FAILS: over in chunk {over}, c = {p.chunks}\n{p.scene.text().decode()}")


# Scenes that show what each premise is for: [the head], the orders, and the track's state in chunk c + 1 from its pause.
def control(name, head_row, orders, pause_line, say):
    scene = scenes.Scene(head=[head_row], tracks=[[0, 0]], orders=orders)
    block, *_, length, _, _ = orders[pause_line]
    p = Pause(scene, 1, block, length)
    number, states = next(asked("states", [scene]))
    _, after = states_of(p, states)
    print(f"{name}: number {number}, c = {p.chunks}, states from the order {list(after[: p.chunks + 2])}: {say}")


def main():
    counts = Counter()
    left = pauses(int(sys.argv[1]) if len(sys.argv) > 1 else 2000)
    while batch := list(itertools.islice(left, BATCH)):
        states = asked("states", [p.scene for p in batch])
        outputs = asked("batch", [p.alone() for p in batch])
        for p, answer, alone in zip(batch, states, outputs, strict=True):
            look(p, answer, alone, counts)
    for name, count in counts.items():
        print(f"{count:6} {name}")
    at_once = [0, 0, 0]
    control("21 ms", [8000, 2, 24, 192, 1, 0], [[0, 4, 1, 0, *at_once, 21, 0, 0]], 0, "not over in chunk c")
    control("16 frames, blocks of 1", [8000, 2, 16, 1, 4, 0], [[0, 4, 1, 0, *at_once, 2, 0, 0]], 0, "not over in chunk c + 1")
    control("resumed", [8000, 2, 16, 16, 4, 0], [[0, 4, 1, 0, *at_once, 0, 0, 0], [1, 5, 1, 0, *at_once, 0, 0, 0]], 0, "not paused in chunk 2")
    return 1 if counts["FAILS"] else 0


if __name__ == "__main__":
    sys.exit(main())
