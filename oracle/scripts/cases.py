#!/usr/bin/env python3
"""Writes generated cases for `oracle batch`, or as folders for the render program.

    cases.py scenes SEED COUNT          accepted scenes
    cases.py long SEED COUNT            the same for the library alone, up to 65,536 samples long
    cases.py short SEED COUNT           the same in blocks of few frames, often with many orders
    cases.py fades SEED COUNT           the same of few tracks, whose levels move in chunks of few frames
    cases.py waits SEED COUNT           the same of tracks that wait in chunks of few frames, in which the main level moves
    cases.py damaged SEED COUNT         input that is refused, of every kind
    cases.py pairs SEED COUNT           two cases for each pair
    cases.py control KIND SEED COUNT    two cases for each control pair
    cases.py ... --folders FOLDER       folders instead of a stream
"""
import pathlib
import struct
import sys

import damage
import pairs
import scenes
from tables import Random

PROGRAM, LIBRARY = 0, 1


class Case:
    """What goes to the render program, or to the library's routine with an
    output of `length` samples: the scene file, and the two sample files. A
    file that is None is missing. `expected` is the number that must be
    answered, where it is known."""

    FILES = "samples.raw", "visitor.raw"

    def __init__(self, text, sample_bytes, length=None, expected=None):
        self.text, self.sample_bytes = text, sample_bytes
        self.length, self.expected = length, expected

    def stream(self):
        files = [content or b"" for content in (self.text, *self.sample_bytes)]
        kind = PROGRAM if self.length is None else LIBRARY
        return struct.pack("<5I", kind, *map(len, files), self.length or 0) + b"".join(files)

    def write(self, folder):
        folder.mkdir(parents=True, exist_ok=True)
        for name, content in zip(("scene.txt", *self.FILES), (self.text, *self.sample_bytes)):
            if content is not None:
                (folder / name).write_bytes(content)
        if self.length is not None:
            (folder / "length.txt").write_text(f"{self.length}\n")


def of_scene(scene, library, expected=0):
    length = scene.output_length() if library else None
    return Case(scene.text(), scene.sample_bytes(), length, expected)


def of_scenes(seed, count):
    for n in range(count):
        yield of_scene(scenes.from_seed(seed, n), n % 2 == 1)


def of_long_scenes(seed, count, *parts, share=1):
    limits = scenes.Limits(share=share, longest=65536)
    for n in range(count):
        yield of_scene(scenes.scene(Random(seed, n), limits, *parts), True)


def of_damaged(seed, count):
    for n in range(count):
        yield Case(*damage.from_seed(seed, n))


def of_pairs(seed, count, kind=None):
    for n in range(count):
        for scene in pairs.from_seed(seed, n, kind).scenes:
            yield of_scene(scene, n % 2 == 1)


def asked(words):
    match words:
        case ["scenes", seed, count]:
            return of_scenes(int(seed), int(count))
        case ["long", seed, count]:
            return of_long_scenes(int(seed), int(count))
        case ["short", seed, count]:
            return of_long_scenes(int(seed), int(count), scenes.short_head, scenes.short_orders)
        case ["fades", seed, count]:
            return of_long_scenes(int(seed), int(count), scenes.fading_head, scenes.fading_orders, share=16)
        case ["waits", seed, count]:
            return of_long_scenes(int(seed), int(count), scenes.fading_head, scenes.waiting_orders)
        case ["damaged", seed, count]:
            return of_damaged(int(seed), int(count))
        case ["pairs", seed, count]:
            return of_pairs(int(seed), int(count))
        case ["control", kind, seed, count]:
            return of_pairs(int(seed), int(count), kind)
    sys.exit(__doc__)


def main():
    words, folder = sys.argv[1:], None
    if "--folders" in words:
        words, folder = words[:-2], pathlib.Path(words[-1])
    for n, case in enumerate(asked(words)):
        if folder:
            case.write(folder / f"{n:05}")
        else:
            sys.stdout.buffer.write(case.stream())


if __name__ == "__main__":
    main()
