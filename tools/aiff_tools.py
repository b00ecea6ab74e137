#!/usr/bin/env python3
"""The AIFF routines next to sox, libsndfile and ffmpeg: their files are read to the samples that they were made of, and ours are read by all three.

    tools/aiff_tools.py DRIVER [--seed N] [--rounds N]

DRIVER is the driver of drivers/aiff (docs/SOUND_FILES.md says how to build it). It needs the commands sox, sndfile-convert and ffmpeg, which are
in Debian's packages sox, sndfile-programs and ffmpeg; it installs nothing. Exit status 1 where anything differs. Their files come from 16-bit
values, so that no tool's rounding matters; a tool says a file's samples by turning it into raw or AU values of 16 bits. An AIFF-C file of each
tool must be 16.
"""

import argparse
import pathlib
import random
import shutil
import struct
import sys
import tempfile

import wave_cases
from wave_tools import NEEDED, both_sides, plain_file, read, run

COMPRESSED = 16


def said_by(tool, path, folder):
    """The 16-bit values that a tool reads from a file, one for each channel."""
    if tool == "sox":
        raw = run("sox", path, "-t", "raw", "-e", "signed", "-b", 16, "-L", "-")
    elif tool == "ffmpeg":
        raw = run("ffmpeg", "-v", "error", "-i", path, "-f", "s16le", "-c:a", "pcm_s16le", "-")
    else:
        out = folder / "said.au"
        run("sndfile-convert", "-pcm16", path, out)
        file = out.read_bytes()
        start, size, encoding = struct.unpack_from(">3I", file, 4)
        assert file[:4] == b".snd" and encoding == 3
        return [v for (v,) in struct.iter_unpack(">h", file[start : start + size])]
    return [v for (v,) in struct.iter_unpack("<h", raw)]


def made_by(tool, raw, rate, channels, folder, compressed):
    """An AIFF file, or an AIFF-C file, that a tool makes of raw 16-bit values."""
    out = folder / f"{tool}.{'aifc' if compressed else 'aiff'}"
    source = folder / "source.wav"
    source.write_bytes(plain_file(raw, rate, channels, 16))
    if tool == "sox":
        run("sox", source, "-t", "aifc" if compressed else "aiff", out)
    elif tool == "ffmpeg":
        # ffmpeg writes AIFF-C for any encoding but its big-endian one
        run("ffmpeg", "-v", "error", "-y", "-i", source, "-f", "aiff", "-c:a", "pcm_s16le" if compressed else "pcm_s16be", out)
    else:
        run("sndfile-convert", "-endian=little" if compressed else "-pcm16", source, out)
    return out


def main():
    parser = argparse.ArgumentParser()
    parser.add_argument("driver")
    parser.add_argument("--seed", type=int, default=1)
    parser.add_argument("--rounds", type=int, default=6)
    options = parser.parse_args()
    missing = [f"{command} (Debian: {package})" for command, package in NEEDED.items() if shutil.which(command) is None]
    if missing:
        sys.exit("missing: " + ", ".join(missing))
    r = random.Random(options.seed)
    counts = {"theirs read": 0, "theirs refused": 0, "ours read": 0}
    wrong = 0
    with tempfile.TemporaryDirectory() as name:
        folder = pathlib.Path(name)
        for _ in range(options.rounds):
            for channels in (1, 2):
                for rate in (8000, 11025, 44100, 48000, 96000, 192000):
                    frames = r.choice([1, 2, 7, 100, 1000])
                    values = [r.choice([0, -32768, 32767, 1, -1, r.randrange(-32768, 32768)]) for _ in range(frames * channels)]
                    raw = struct.pack(f"<{len(values)}h", *values)
                    both = both_sides([wave_cases.bits_of(v / 32768) for v in values], channels)
                    for tool in ("sox", "sndfile", "ffmpeg"):
                        path = made_by(tool, raw, rate, channels, folder, False)
                        number, held, samples = read(options.driver, path)
                        counts["theirs read"] += 1
                        if number != 0 or said_by(tool, path, folder) != values or (held, samples) != ((rate, channels, frames), both):
                            wrong += 1
                            print("theirs:", tool, channels, rate, frames, "number", number)
                        path = made_by(tool, raw, rate, channels, folder, True)
                        counts["theirs refused"] += 1
                        if path.read_bytes()[8:12] != b"AIFC" or read(options.driver, path)[0] != COMPRESSED:
                            wrong += 1
                            print("AIFF-C:", tool, channels, rate, frames)
                        ours = folder / "ours.aiff"
                        answer = run(options.driver, "write", rate, channels, ours, data=struct.pack(f"<{len(both)}I", *both))
                        counts["ours read"] += 1
                        if answer != b"0\n" or said_by(tool, ours, folder) != values:
                            wrong += 1
                            print("ours:", tool, channels, rate, frames)
    print(", ".join(f"{n} {what}" for what, n in counts.items()) + f"; {wrong} wrong")
    sys.exit(wrong != 0)


if __name__ == "__main__":
    main()
