#!/usr/bin/env python3
"""Makes the recordings of night.show: mono, 16-bit, 8,000 Hz, the same bytes every time."""
import math
import pathlib
import random
import struct
import wave

RATE = 8000
HERE = pathlib.Path(__file__).parent


def save(name, seconds, sample):
    frames = [sample(n / RATE) for n in range(round(seconds * RATE))]
    most = max(abs(x) for x in frames)
    with wave.open(str(HERE / name), "wb") as file:
        file.setnchannels(1)
        file.setsampwidth(2)
        file.setframerate(RATE)
        file.writeframes(b"".join(struct.pack("<h", round(x / most * 24000)) for x in frames))


def sea():
    noise, low = random.Random(1), [0.0, 0.0]

    def sample(t):
        low[0] += 0.15 * (noise.uniform(-1, 1) - low[0])
        low[1] += 0.3 * (low[0] - low[1])
        return low[1] * (0.55 + 0.45 * math.sin(2 * math.pi * t / 3.7))

    return sample


def bells(t):
    total = 0.0
    for start, pitch in [(0.0, 440), (1.0, 554), (2.0, 659), (3.2, 440)]:
        if t >= start:
            age = t - start
            for part, loud in [(1.0, 1.0), (2.01, 0.5), (2.76, 0.35), (4.07, 0.2)]:
                total += loud * math.exp(-age * (1.6 + part)) * math.sin(2 * math.pi * pitch * part * age)
    return total


def whisper():
    noise = random.Random(2)

    def sample(t):
        syllable = max(0.0, math.sin(2 * math.pi * t / 0.55)) ** 2
        return noise.uniform(-1, 1) * syllable * (0.4 + 0.6 * math.sin(2 * math.pi * 2.3 * t) ** 2)

    return sample


def name(t):
    return math.sin(2 * math.pi * (330 + 60 * math.sin(2 * math.pi * 3 * t)) * t) * math.sin(math.pi * t / 2) ** 2


save("sea.wav", 6, sea())
save("bells.wav", 5, bells)
save("whisper.wav", 4, whisper())
save("name.wav", 2, name)
