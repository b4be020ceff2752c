#!/usr/bin/env python3
"""Runs a command of `rt`, and prints for each crate the seconds of processors that the prover took in it.

    tools/rattle_seconds.py rt ci

They are counted apart for the proof of the crate, for the proof of its tests, which begins with that of the
crate again, and for its must-fail edits, with the proof that they begin with. The processes of the prover are
looked at four times a second, so what one takes after the last look is not counted. Everything else, as
compiling, linking and running tests, stands in one line. Ends with the command's status.
"""
import os
import signal
import subprocess
import sys
import threading
import time
from collections import defaultdict

TICKS = os.sysconf("SC_CLK_TCK")
PAUSE = 0.25
KINDS = ("proof", "tests", "edits")


def read_stat(pid):
    """The parent of a process, when it began, and the seconds of processors that it has taken itself."""
    with open(f"/proc/{pid}/stat", encoding="utf-8", errors="replace") as it:
        fields = it.read().rpartition(")")[2].split()
    return int(fields[1]), int(fields[19]), (int(fields[11]) + int(fields[12])) / TICKS


def is_below(pid, root, parents):
    while pid in parents and pid != root:
        pid = parents[pid]
    return pid == root


def kind_of(pid):
    """The crate that a process works on and for what, or none where it is no process of the prover."""
    with open(f"/proc/{pid}/cmdline", encoding="utf-8", errors="replace") as it:
        words = it.read().split("\0")
    if not words[0].endswith("/rattle") or "--crate-name" not in words:
        return None
    crate = words[words.index("--crate-name") + 1]
    if "/rt-edit-" in os.readlink(f"/proc/{pid}/cwd"):
        return crate, "edits"
    return crate, "tests" if "--test" in words else "proof"


class Watch:
    """The seconds of each process below the root, by the last look at it."""

    def __init__(self, root):
        self.root, self.kinds, self.seconds = root, {}, {}

    def look(self):
        stats = {}
        for name in os.listdir("/proc"):
            if name.isdigit():
                try:
                    stats[int(name)] = read_stat(name)
                except OSError:
                    pass
        parents = {pid: stat[0] for pid, stat in stats.items()}
        for pid, (_, begun, seconds) in stats.items():
            if is_below(pid, self.root, parents):
                self.seconds[pid, begun] = seconds
                # A process begins as a copy of its parent, and only then becomes the prover.
                if self.kinds.get((pid, begun)) is None:
                    try:
                        self.kinds[pid, begun] = kind_of(pid)
                    except OSError:
                        pass

    def table(self):
        sums = defaultdict(float)
        for process, seconds in self.seconds.items():
            sums[self.kinds.get(process)] += seconds
        return sums


def print_table(sums, elapsed):
    rest = sums.pop(None, 0)
    crates = list(dict.fromkeys(crate for crate, _ in sums))
    print(f"\n{'Processor seconds':<20}{'proof':>8}{'tests':>8}{'edits':>8}{'sum':>8}")
    for crate in crates:
        row = [sums[crate, kind] for kind in KINDS]
        print(f"{crate:<20}" + "".join(f"{it:8.0f}" for it in [*row, sum(row)]))
    columns = [sum(sums[crate, kind] for crate in crates) for kind in KINDS]
    print(f"{'all crates':<20}" + "".join(f"{it:8.0f}" for it in [*columns, sum(columns)]))
    print(f"{'all else':<44}{rest:8.0f}")
    print(f"{elapsed / 60:.1f} minutes on {os.cpu_count()} processors", flush=True)


def main(words):
    begun = time.monotonic()
    command = subprocess.Popen(words)
    # What was counted is printed where the run is ended early, too.
    signal.signal(signal.SIGINT, lambda *_: command.terminate())
    signal.signal(signal.SIGTERM, lambda *_: command.terminate())
    watch, ended = Watch(command.pid), threading.Event()

    def look():
        while not ended.wait(PAUSE):
            watch.look()

    looking = threading.Thread(target=look)
    looking.start()
    status = command.wait()
    ended.set()
    looking.join()
    print_table(watch.table(), time.monotonic() - begun)
    return status


if __name__ == "__main__":
    sys.exit(main(sys.argv[1:]))
