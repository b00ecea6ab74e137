#!/usr/bin/env python3
"""The WAVE routines next to sox, libsndfile and ffmpeg: their files are read to the samples that they say, and ours are read by all three.

    tools/wave_tools.py DRIVER [--seed N] [--rounds N]

DRIVER is the driver of drivers/wave (docs/SOUND_FILES.md says how to build it). It needs the commands sox, sndfile-convert and ffmpeg, which are
in Debian's packages sox, sndfile-programs and ffmpeg; it installs nothing. Exit status 1 where anything differs.

A tool says a file's samples by turning it into raw 32-bit floats (sox and ffmpeg) or into an AU file of the same kind (libsndfile, which scales 16-bit
values by their peak where it makes floats of them).
Their own 16-bit files come from 16-bit values, so that no tool's rounding matters; sox holds every sample as a 32-bit whole number, so its
float files have multiples of 2^-23 below 1.0.
"""

import argparse
import pathlib
import random
import shutil
import struct
import subprocess
import sys
import tempfile

import wave_cases

NEEDED = {"sox": "sox", "sndfile-convert": "sndfile-programs", "ffmpeg": "ffmpeg"}


def run(*words, data=None):
    done = subprocess.run([str(w) for w in words], input=data, stdout=subprocess.PIPE, stderr=subprocess.PIPE)
    if done.returncode != 0:
        sys.exit(f"{' '.join(map(str, words))}: {done.stderr.decode()}")
    return done.stdout


def read(driver, path):
    """What our reader says of a file: number, (rate, channels, bits, frames), sample bits."""
    lines = run(driver, "read", path).decode().split("\n")
    number, *rest = map(int, lines[0].split())
    return number, tuple(rest), [int(n) for n in lines[1:-1]]


def bits(raw):
    return [x for (x,) in struct.iter_unpack("<I", raw)]


def both_sides(values, channels):
    return [x for x in values for _ in range(3 - channels)] if channels == 1 else values


def said_by(tool, path, depth, folder):
    """The samples that a tool reads from a WAVE file, as f32 bits, one for each channel."""
    if tool == "sox":
        return bits(run("sox", path, "-t", "raw", "-e", "float", "-b", 32, "-L", "-"))
    if tool == "ffmpeg":
        return bits(run("ffmpeg", "-v", "error", "-i", path, "-f", "f32le", "-c:a", "pcm_f32le", "-"))
    out = folder / "said.au"
    run("sndfile-convert", "-pcm16" if depth == 16 else "-float32", path, out)
    file = out.read_bytes()
    start, size, encoding = struct.unpack_from(">3I", file, 4)
    assert file[:4] == b".snd" and encoding == (3 if depth == 16 else 6)
    if depth == 16:
        return [wave_cases.bits_of(v / 32768) for (v,) in struct.iter_unpack(">h", file[start : start + size])]
    return [x for (x,) in struct.iter_unpack(">I", file[start : start + size])]


def made_by(tool, raw, rate, channels, depth, folder):
    """A WAVE file that a tool makes of raw samples (16-bit values, or floats)."""
    source, out = folder / "source.raw", folder / f"{tool}.wav"
    source.write_bytes(raw)
    if tool == "sox":
        kind = ["-e", "signed" if depth == 16 else "float", "-b", depth]
        run("sox", "-t", "raw", "-r", rate, "-c", channels, *kind, "-L", source, *kind, out)
    elif tool == "ffmpeg":
        kind = "s16le" if depth == 16 else "f32le"
        run("ffmpeg", "-v", "error", "-y", "-f", kind, "-ar", rate, "-ac", channels, "-i", source, "-c:a", f"pcm_{kind}", out)
    else:
        kind = "-pcm16" if depth == 16 else "-float32"
        plain = folder / "plain.wav"
        plain.write_bytes(plain_file(raw, rate, channels, depth))
        run("sndfile-convert", kind, plain, out)
    return out


def plain_file(raw, rate, channels, depth):
    frame = channels * depth // 8
    return struct.pack("<4sI4s4sIHHIIHH4sI", b"RIFF", 36 + len(raw), b"WAVE", b"fmt ", 16, 1 if depth == 16 else 3, channels, rate,
                       rate * frame, frame, depth, b"data", len(raw)) + raw


def expected(tool, depth, rate):
    """The number that the reader owes a tool's file: a format chunk that has not 16 bytes is 13."""
    if tool == "sox":
        return 0 if depth == 16 else 13
    if tool == "ffmpeg":
        return 0 if depth == 16 and rate <= 48000 else 13
    return 0


def main():
    parser = argparse.ArgumentParser()
    parser.add_argument("driver")
    parser.add_argument("--seed", type=int, default=1)
    parser.add_argument("--rounds", type=int, default=6)
    options = parser.parse_args()
    missing = [f"{command} (Debian: {package})" for command, package in NEEDED.items() if shutil.which(command) is None]
    if missing:
        sys.exit("missing: " + ", ".join(missing))
    r = random.Random(options.seed)
    counts = {"theirs read": 0, "theirs refused": 0, "ours read": 0}
    wrong = 0
    with tempfile.TemporaryDirectory() as name:
        folder = pathlib.Path(name)
        for _ in range(options.rounds):
            for channels in (1, 2):
                for depth in (16, 32):
                    for rate in (8000, 44100, 48000, 96000, 192000):
                        frames = r.choice([1, 2, 7, 100, 1000])
                        values = [r.choice([0, -32768, 32767, 1, -1, r.randrange(-32768, 32768)]) for _ in range(frames * channels)]
                        floats = [wave_cases.sample(r) for _ in values]
                        coarse = [wave_cases.bits_of(r.randrange(-(2**23), 2**23) / 2**23) for _ in values]
                        for tool in ("sox", "sndfile", "ffmpeg"):
                            meant = coarse if tool == "sox" else floats
                            raw = struct.pack(f"<{len(meant)}I", *meant)
                            if depth == 16:
                                meant = [wave_cases.bits_of(v / 32768) for v in values]
                                raw = struct.pack(f"<{len(values)}h", *values)
                            both = both_sides(meant, channels)
                            path = made_by(tool, raw, rate, channels, depth, folder)
                            number, held, samples = read(options.driver, path)
                            owed = expected(tool, depth, rate)
                            counts["theirs read" if owed == 0 else "theirs refused"] += 1
                            if number != owed or said_by(tool, path, depth, folder) != meant or (owed == 0 and (held, samples) != ((rate, channels, depth, frames), both)):
                                wrong += 1
                                print("theirs:", tool, depth, channels, rate, frames, "number", number)
                            ours = folder / "ours.wav"
                            answer = run(options.driver, "write", rate, channels, depth, ours, data=struct.pack(f"<{len(both)}I", *both))
                            counts["ours read"] += 1
                            if answer != b"0\n" or said_by(tool, ours, depth, folder) != meant:
                                wrong += 1
                                print("ours:", tool, depth, channels, rate, frames)
    print(", ".join(f"{n} {what}" for what, n in counts.items()) + f"; {wrong} wrong")
    sys.exit(wrong != 0)


if __name__ == "__main__":
    main()
