#!/usr/bin/env python3
"""Refuses the program its memory and its files, one call a run.

    bench/refused.sh

Each command below is run again and again: each time another of its allocations is refused, then another of its opens,
reads, writes, synchronisations and renamings is an error, then another read or write of several bytes moves one, then another thread is not
started (`bench/refusing.c`). What `lay` stores is checked in the same way.

Where memory is refused, the run has to end as the one in which nothing is refused, or with status 9 and no message.
Where a file fails, it has to end with 7 or 8. Where a read or a write is short, or a thread is missing, it has to end as
without. The files that are stored before the refused call have to stand whole and all others as before, with nothing
beside them; no message follows a failed store. Prints for each command how many calls were
refused, and how often each status came; ends with 1 where something failed, which it names.
"""
import os
import subprocess
import sys
import tempfile
from collections import Counter
from pathlib import Path

PROGRAM, REFUSING = (os.path.abspath(it) for it in sys.argv[1:3])
TWO = "<table><tr><td>aaa bbb<td>cc dd ee</table>"
FOUR = "<table><tr><td>a a<td>b b<td>c<br>c<tr><td>p<td>q<td>cccc cccc<td>dddd dddd</table>"
NESTED = f"<table><tr><td>{TWO}</table>"
BESIDE = "<table><tr><td><table><tr><td>aa bb</table><td><table><tr><td>cc dd</table></table>"
OVERLAP = "<table><tr><td>A<td rowspan=2>B<tr><td colspan=2>C</table>"
RECORDS = 'name,"a, b"\nccc ccc,dd dd\n'
NAMES = ["page", "cert", "less", "spent"]
BOTH = NAMES[:2]

# The status, the message and the files that are stored in their order; the arguments; what IN holds.
LAYOUTS = [
    (0, "lowest height 2 width 10", BOTH, "lay 12 in page cert", TWO),
    (3, "bounded height 3 lower 2 width 7", BOTH, "lay 12 in page cert --budget 0", TWO),
    (0, "lowest height 4 width 10", BOTH, "lay 12 in page cert --style frame --break any", TWO),
    (0, "lowest height 2 width 10", BOTH, "lay 12 in page cert", NESTED),
    (0, "lowest height 3 width 7", BOTH, "lay 9 in page cert", NESTED),
    (4, "narrow least 7 width 6", ["cert"], "lay 6 in page cert", NESTED),
    (3, "bounded height 3 lower 2 width 7", BOTH, "lay 12 in page cert --budget 0", NESTED),
    (0, "lowest height 4 width 16", BOTH, "lay 25 in page cert", FOUR),
    (0, "lowest height 4 width 16", BOTH, "lay 25 in page cert --budget 7 --solver plain", FOUR),
    (0, "lowest height 4 width 16", BOTH, "lay 25 in page cert --budget 3 --solver learn", FOUR),
    (0, "lowest height 4 width 16", BOTH, "lay 25 in page cert --budget 16 --solver rounds --workers 2", FOUR),
    (0, "lowest height 1 width 12", BOTH, "lay 12 in page cert --workers 2", BESIDE),
    (0, "lowest height 3 width 10", BOTH, "lay 10 in page cert --csv --head --least 3", RECORDS),
]
OTHERS = [
    (0, "lowest height 2 width 10", ["page"], "lay 12 in page --html", TWO),
    (0, "lowest height 4 width 11", ["page"], "lay 12 in page --style box --trim", TWO),
    (0, "slimmest width 10 height 2", NAMES[:3], "narrow 2 in page cert less spent", TWO),
    (3, "bounded width none least 7", NAMES[2:], "narrow 2 in page cert less spent --budget 0", TWO),
    (12, "too tall height 0", ["less"], "narrow 0 in page cert less spent", TWO),
    (0, "tidy height 2 width 10", NAMES[:3], "tidy 12 in page cert less spent", TWO),
    (2, "usage", [], "lay 12 in in", TWO),
    (5, "bad input: overlap in table 0 at row 1 column 1", [], "lay 12 in page cert", OVERLAP),
    (5, "bad input: uneven record at 1", [], "lay 12 in page cert --csv", "a,b\nc\n"),
    (6, "limit: reach 8100000", [], "lay 80 in page cert --budget 100000", NESTED),
    (7, "read fault", [], "lay 12 none page cert", TWO),
    (10, "rejected: syntax at 0", [], "check 12 in page", TWO),
    (0, None, [], "demo 0", ""),
]


class Command:
    """A command line with the files before it, and what it leaves where nothing is refused."""

    def __init__(self, folder, row, certificate=b"before"):
        self.status, message, self.stores, self.arguments, file = row
        self.folder = folder
        self.before = {name: b"before" for name in NAMES} | {"in": file.encode(), "cert": certificate}
        self.failures = []
        status, self.said, self.after, self.counts = self.run({})
        changed = {name for name in self.after if self.after[name] != self.before.get(name)}
        if (status, changed) != (self.status, set(self.stores)) or self.said != f"{message or self.said.decode()[:-1]}\n".encode():
            self.failures.append(f"status {status}, {self.said}, {sorted(changed)}")

    def run(self, refused):
        """The status, what is printed, the files and the numbers of calls of a run."""
        for it in self.folder.iterdir():
            it.unlink()
        for name, data in self.before.items():
            (self.folder / name).write_bytes(data)
        counts = self.folder.with_suffix(".counts")
        counts.write_text("")
        ended = subprocess.run([PROGRAM, *self.arguments.split()], cwd=self.folder, stdout=subprocess.PIPE, stderr=subprocess.DEVNULL,
                               timeout=60, env={"LD_PRELOAD": REFUSING, "REFUSE_COUNTS": str(counts)} | refused)
        files = {it.name: it.read_bytes() for it in self.folder.iterdir()}
        return ended.returncode, ended.stdout, files, [int(it) for it in counts.read_text().split()]

    def stands(self, files, whole):
        """Whether the first files, so many, are stored whole, and all others are as before."""
        return files == self.before | {name: self.after[name] for name in self.stores[:whole]}

    def is_whole(self, status, said, files):
        return (status, said, files) == (self.status, self.said, self.after)

    def is_whole_or_out_of_memory(self, status, said, files):
        stands = any(self.stands(files, whole) for whole in range(len(self.stores) + 1))
        return self.is_whole(status, said, files) or (status == 9 and said == b"" and stands)

    def is_failed(self, status, said, files):
        if status == 7:
            return said == b"read fault\n" and self.stands(files, 0)
        if status == 8 and self.said.startswith(said) and self.stands(files, len(self.stores)):
            return True
        return status == 8 and said == b"" and any(self.stands(files, whole) for whole in range(len(self.stores)))

    def refuse(self, kind, count, is_lawful):
        """Refuses each call of a kind in turn, and gives how often each status came."""
        statuses = Counter()
        for turn in range(1, count + 1):
            status, said, files, _ = self.run({kind: str(turn)})
            statuses[status] += 1
            if not is_lawful(status, said, files):
                changed = sorted(name for name in files if files[name] != self.before.get(name))
                self.failures.append(f"{kind} {turn}: status {status}, {said}, {changed}")
        return statuses

    def try_all(self, totals):
        print(f"{self.arguments}, {len(self.before['in'])} bytes: status {self.status}")
        kinds = (("allocations", "REFUSE_ALLOCATION", self.is_whole_or_out_of_memory), ("calls on files", "REFUSE_FILE", self.is_failed),
                 ("short ones", "SHORT_FILE", self.is_whole), ("threads", "REFUSE_THREAD", self.is_whole))
        for (name, kind, is_lawful), count in zip(kinds, self.counts):
            statuses = self.refuse(kind, count, is_lawful)
            totals[name].update({"9" if status == 9 and kind == "REFUSE_ALLOCATION" else "as without" if status == self.status else str(status): times
                                 for status, times in statuses.items()})
            print(f"    {count:6} {name:22}" + "  ".join(f"status {status}: {times}" for status, times in sorted(statuses.items())))
        print("".join(f"    FAILED: {it}\n" for it in self.failures), end="", flush=True)
        return not self.failures


def check_of(row):
    """The check of what a layout stores: the same options, but for the search."""
    status, message, _, arguments, file = row
    words = arguments.split(" --solver")[0].split()
    return status, message, [], " ".join(["check", words[1], "in", "cert", *words[5:]]), file


def main():
    totals = {name: Counter() for name in ("allocations", "calls on files", "short ones", "threads")}
    with tempfile.TemporaryDirectory() as top:
        folder = Path(top) / "run"
        folder.mkdir()
        passed = True
        for row in LAYOUTS + OTHERS:
            command = Command(folder, row)
            passed &= command.try_all(totals)
            if row in LAYOUTS:
                passed &= Command(folder, check_of(row), command.after["cert"]).try_all(totals)
    for name, statuses in totals.items():
        print(f"{sum(statuses.values())} {name} refused: " + ", ".join(f"{status}: {times}" for status, times in sorted(statuses.items())))
    sys.exit(0 if passed else 1)


main()
