#!/usr/bin/env python3
"""Two gates side by side: tools/turns.py CLONE LATER_CLONE [SECONDS].

Runs `rt ci --anew` in two clean clones in turns of so many seconds (20), the one frozen while the other runs: the
machine's speed changes by half within minutes, and so both meet the same. It is not `.ci/run`, where the second would
take what the first kept, and wait for crates that the first, frozen, has begun. A gate's time is the sum of its own
turns, its processor time that of its control group. What it prints goes to CLONE.log. Needs root, and control groups of
version 1 (freezer, cpuacct)."""
import os
import signal
import subprocess
import sys
import time

GROUPS = "/sys/fs/cgroup"


class Gate:
    def __init__(self, clone, number):
        self.clone = os.path.abspath(clone)
        self.group = f"gate{number}-{os.getpid()}"
        self.taken = 0.0
        self.process = None
        for kind in ("freezer", "cpuacct"):
            os.makedirs(f"{GROUPS}/{kind}/{self.group}")

    def file(self, kind, name):
        return f"{GROUPS}/{kind}/{self.group}/{name}"

    def write(self, kind, name, text):
        with open(self.file(kind, name), "w") as out:
            out.write(text)

    def read(self, kind, name):
        return open(self.file(kind, name)).read().strip()

    def join(self):
        for kind in ("freezer", "cpuacct"):
            self.write(kind, "cgroup.procs", str(os.getpid()))

    def start(self):
        environment = {k: v for k, v in os.environ.items() if k not in ("TMPDIR", "RT_JOBS")}
        environment["PATH"] += ":/opt/rattle/bin"
        self.process = subprocess.Popen(
            ["rt", "ci", "--anew"], cwd=self.clone, stdin=subprocess.DEVNULL, stdout=open(f"{self.clone}.log", "w"),
            stderr=subprocess.STDOUT, env={**environment, "CI": "true"}, preexec_fn=self.join, start_new_session=True)

    def turn(self, seconds):
        """Runs the gate for so long, or to its end if that comes first or `seconds` is None."""
        began = time.time()
        self.write("freezer", "freezer.state", "THAWED")
        if self.process is None:
            self.start()
        while self.process.poll() is None and (seconds is None or time.time() < began + seconds):
            time.sleep(0.05)
        if self.process.returncode is None:
            self.write("freezer", "freezer.state", "FROZEN")
            while self.read("freezer", "freezer.state") != "FROZEN":
                time.sleep(0.002)
        self.taken += time.time() - began
        return self.process.returncode

    def remove(self):
        """Ends what is left of it."""
        self.write("freezer", "freezer.state", "THAWED")
        while members := self.read("cpuacct", "cgroup.procs").split():
            for member in members:
                try:
                    os.kill(int(member), signal.SIGKILL)
                except ProcessLookupError:
                    pass
            time.sleep(0.1)
        for kind in ("freezer", "cpuacct"):
            os.rmdir(f"{GROUPS}/{kind}/{self.group}")


def minutes(seconds):
    return f"{int(seconds) // 60} min {int(seconds) % 60} s"


def main():
    if len(sys.argv) not in (3, 4):
        sys.exit(__doc__)
    seconds = float(sys.argv[3]) if len(sys.argv) == 4 else 20.0
    gates = [Gate(clone, number) for number, clone in enumerate(sys.argv[1:3])]
    running = list(gates)
    try:
        while running:
            for gate in list(running):
                status = gate.turn(seconds if len(running) > 1 else None)
                if status is not None:
                    running.remove(gate)
                    used = int(gate.read("cpuacct", "cpuacct.usage")) / 1e9
                    print(f"{gate.clone}: status {status}, {minutes(gate.taken)}, {minutes(used)} of processor time", flush=True)
    finally:
        for gate in gates:
            gate.remove()


main()
