#!/usr/bin/env python3
"""Proves and builds the libraries that a crate of this repository depends on, several side by side.

    tools/prove_libraries.py NAME [LOCK]

`rt` locks a crate and all those below it while it works in a checkout. So each library is proved in a
copy of its own, which has the libraries below it as links; what the copy keeps in out/ goes to the
checkout when it ends, so that a run that is stopped goes on from there. The library that the longest
chain of others waits for goes first, by its priority. Prints a line for each library as it begins, and
one with its seconds as it ends, elapsed and of processors. Where one is not proved it prints the end of
what `rt` said, and ends with 1.

It waits until no other process builds in this checkout. LOCK is the descriptor by which the caller has
the lock for that already.
"""
import contextlib
import fcntl
import os
import shutil
import signal
import subprocess
import sys
import time
from pathlib import Path

TOP = Path(__file__).resolve().parent.parent
COPIES = TOP / "out" / "proving"
LOCK = TOP / "out" / "lock"
PROCESSORS = len(os.sched_getaffinity(0))
# More jobs for one library cost more processor seconds, and fewer leave processors idle where one library waits for
# another.
JOBS = min(2, PROCESSORS)
# One more than the processors have work for, since each library begins with a part that uses one processor alone.
LANES = PROCESSORS // JOBS + 1
PARTS = ("src", "specs", "proofs")
LOW_PRIORITY = 10


def read_crates():
    """The lines of crates.txt by crate, and the repository's crates that each depends on."""
    lines = [line.split("#")[0].strip() for line in (TOP / "crates.txt").read_text().splitlines()]
    of = {line.split(":")[0].split()[0]: line for line in lines if ":" in line}
    return of, {name: [it for it in line.split(":")[1].split() if it in of] for name, line in of.items()}


def closure(name, depends_on):
    """The crates below a crate, each after those that it depends on itself."""
    found = []
    for dep in depends_on[name]:
        found += [it for it in [*closure(dep, depends_on), dep] if it not in found]
    return found


def count_lines(name):
    files = (it for part in PARTS for it in (TOP / "crates" / name / part).rglob("*") if it.is_file())
    return sum(it.read_bytes().count(b"\n") for it in files)


def chains(target, depends_on):
    """For each library below the target the lines of the longest chain of crates from it up to the target."""
    length = {target: 0}
    for name in reversed(closure(target, depends_on)):
        above = [length[it] for it in length if name in depends_on[it]]
        length[name] = count_lines(name) + max(above)
    del length[target]
    return length


class Proving:
    """`rt lib` at work on one library, in a copy of the crates that it needs."""

    def __init__(self, name, lines, below, jobs):
        self.name, self.begun = name, time.monotonic()
        self.copy = COPIES / name
        self.out = self.copy / "crates" / name / "out"
        for crate in [*below, name]:
            for part in PARTS:
                if (TOP / "crates" / crate / part).is_dir():
                    shutil.copytree(TOP / "crates" / crate / part, self.copy / "crates" / crate / part)
        for crate in below:
            built = Path("crates") / crate / "out" / "rlib"
            shutil.copytree(TOP / built, self.copy / built, copy_function=os.link)
        (self.copy / "crates.txt").write_text("".join(f"{lines[it]}\n" for it in [*below, name]))
        kept = TOP / "crates" / name / "out"
        if kept.is_dir():
            kept.rename(self.out)
        self.log = open(self.copy / "log", "w+", encoding="utf-8", errors="replace")
        # A group of its own, so that all that it starts has one priority and can be ended together.
        self.process = subprocess.Popen(
            ["rt", "lib", "--jobs", str(jobs)], cwd=self.out.parent, stdin=subprocess.DEVNULL,
            stdout=self.log, stderr=subprocess.STDOUT, preexec_fn=os.setpgrp)

    def end(self):
        """Moves what the copy kept to the checkout, and removes the copy. Gives the last lines that `rt` wrote."""
        self.log.seek(0)
        said = "".join(self.log.readlines()[-20:])
        self.log.close()
        if self.out.is_dir():
            self.out.rename(TOP / "crates" / self.name / "out")
        shutil.rmtree(self.copy)
        return said

    def stop(self):
        os.killpg(self.process.pid, signal.SIGTERM)
        self.process.wait()
        self.end()


def say(text):
    print(f"tablelayout: {text}", file=sys.stderr, flush=True)


def lock():
    """Waits until no other process builds in this checkout, and keeps others waiting while the file is open."""
    LOCK.parent.mkdir(exist_ok=True)
    LOCK.touch()
    file = open(LOCK, encoding="utf-8")
    try:
        fcntl.flock(file, fcntl.LOCK_EX | fcntl.LOCK_NB)
    except BlockingIOError:
        say("another process builds the program in this checkout; this one waits for it")
        fcntl.flock(file, fcntl.LOCK_EX)
    return file


def prioritize(running, length):
    """The library with the longest chain goes before all others."""
    first = max(running, key=lambda pid: length[running[pid].name])
    for pid in running:
        # Only root may raise a priority that was lowered.
        with contextlib.suppress(PermissionError):
            os.setpriority(os.PRIO_PGRP, pid, 0 if pid == first else LOW_PRIORITY)


def prove(target):
    lines, depends_on = read_crates()
    length = chains(target, depends_on)
    waiting, running, proved = set(length), {}, set()
    try:
        while len(proved) < len(length):
            ready = [it for it in waiting if proved.issuperset(depends_on[it])]
            if ready and len(running) < LANES:
                name = max(ready, key=length.get)
                alone = not running and len(ready) == 1
                waiting.remove(name)
                say(f"{name} ({len(length) - len(waiting)} of {len(length) + 1})")
                it = Proving(name, lines, closure(name, depends_on), PROCESSORS if alone else JOBS)
                running[it.process.pid] = it
            else:
                pid, status, used = os.wait4(-1, 0)
                it = running.pop(pid)
                it.process.returncode = status
                said = it.end()
                if status:
                    say(f"{it.name} was not proved\n{said}")
                    return 1
                proved.add(it.name)
                say(f"{it.name} proved: {time.monotonic() - it.begun:.0f} s, {used.ru_utime + used.ru_stime:.0f} s of processors")
            if running:
                prioritize(running, length)
    finally:
        for it in running.values():
            it.stop()
    return 0


if __name__ == "__main__":
    signal.signal(signal.SIGTERM, signal.default_int_handler)
    try:
        with contextlib.nullcontext() if sys.argv[2:] else lock():
            shutil.rmtree(COPIES, ignore_errors=True)
            COPIES.mkdir(parents=True)
            sys.exit(prove(sys.argv[1]))
    except KeyboardInterrupt:
        sys.exit(130)
