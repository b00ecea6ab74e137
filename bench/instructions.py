#!/usr/bin/env python3
"""Instructions a frame of each side, by callgrind: the same on every run, whatever the machine does.

usage: bench/instructions.py [SCENE...]     (the names of bench/README.md)

Counted is what the clock times: `room_desk_render`, and of kira the harness's `Show::render`, in a show of 64 blocks. The
C library is told to clear and copy by plain instructions: callgrind counts `rep stosb` as one instruction a byte.
"""
import os
import re
import subprocess
import sys

HERE = os.path.dirname(os.path.abspath(__file__))
BENCH = os.path.join(HERE, "target", "release", "bench")
SIDES = {
    "room_desk": "room_desk_render",
    "powf": "kira_powf::harness::Show::render",
    "table": "kira_table::harness::Show::render",
}
BLOCKS = 64
SCENES = """steady fading single paused placed waiting-single waiting-steady short-1 short-4 short-16 short-block-1
    short-block-16 wide empty""".split()
PLAIN = "glibc.cpu.x86_rep_stosb_threshold=1000000000:glibc.cpu.x86_rep_movsb_threshold=1000000000"


def frames(scene):
    """Blocks have 512 frames, but for short-block-N."""
    return BLOCKS * (int(scene.rsplit("-", 1)[1]) if "-block-" in scene else 512)


def a_frame(side, scene):
    command = ["valgrind", "--tool=callgrind", "--callgrind-out-file=/dev/null", f"--toggle-collect={SIDES[side]}"]
    command += [BENCH, "--blocks", str(BLOCKS), "--only", side, scene]
    run = subprocess.run(command, capture_output=True, text=True, check=True, env={**os.environ, "GLIBC_TUNABLES": PLAIN})
    return int(re.search(r"Collected : (\d+)", run.stderr).group(1)) / frames(scene)


def main(scenes):
    print(f"{'scene':14} {'room_desk':>10} {'kira powf':>10} {'kira table':>11} {'powf/room':>10}")
    ours = {}
    for scene in scenes:
        room, powf, table = (a_frame(side, scene) for side in SIDES)
        ours[scene] = room
        print(f"{scene:14} {room:10.1f} {powf:10.1f} {table:11.1f} {powf / room:10.3f}", flush=True)
    for scene in ("paused", "placed"):
        if "steady" in ours and scene in ours:
            print(f"{scene}/steady, room_desk: {ours[scene] / ours['steady']:.3f}")


if __name__ == "__main__":
    main(sys.argv[1:] or SCENES)
