#!/usr/bin/env python3
"""Runs the program on files that nobody should send, each made from a number.

    bench/hostile.sh [FIRST [COUNT]]

The files are valid tables that are cut, spliced and changed byte by byte, tables nested to the limit and past it,
attributes of a megabyte, cells that overlap, long words, combining characters alone, tags in any order, CSV files
and changes of them, and certificates with lines changed, exchanged, repeated and left out. Each is made from its
number alone, so what fails can be made again. Builds nothing: `bench/hostile.sh` does.

No run may end by a signal or with a status that the manual does not have, take 10 seconds of a processor or 200
megabytes, or leave another file than the manual says. What `lay`, `narrow` and `tidy` stored has to be accepted by
`check`, and the second page of the same file has to be the first. Prints for each kind of file how often each status came, and at last the
slowest and the largest run; ends with 1 where something failed, which it names.
"""
import os
import random
import re
import resource
import subprocess
import sys
import tempfile
from collections import Counter, defaultdict
from pathlib import Path

TOP = Path(__file__).resolve().parent.parent
PROGRAM = TOP / "crates" / "tablelayout" / "out" / "tablelayout"
MOST_SECONDS = 10
MOST_KILOBYTES = 200 * 1024
CHECKED = {0, 3, 4, 10}
# What may be stored at each status of a command on a file, and what has to be.
NONE, PAGE, CERT, LESS, SPENT = set(), {"page"}, {"cert"}, {"less"}, {"spent"}
STORED = {
    "lay": {0: (PAGE | CERT, NONE), 3: (PAGE | CERT, NONE), 4: (CERT, NONE), 5: (NONE, NONE), 6: (NONE, NONE)},
    "narrow": {0: (PAGE | CERT, LESS), 3: (SPENT, PAGE | CERT | LESS), 5: (NONE, NONE), 6: (NONE, NONE), 12: (LESS, NONE)},
    "tidy": {0: (PAGE | CERT, LESS), 3: (PAGE | CERT, LESS | SPENT), 4: (CERT, NONE), 5: (NONE, NONE), 6: (NONE, NONE)},
}
STYLES = ("plain", "compact", "frame", "grid", "box")
TAGS = ["table", "tr", "td", "th", "caption", "thead", "tbody", "tfoot", "colgroup", "col", "p", "div", "br", "b", "html", "body"]
TEXTS = ["a", "aa bb", "x&amp;y", "&#x4e00;&#x4e8c;", "&nbsp;", "\u0301\u0301", "\ud55c\uae00", "<!-- c -->", " ", "&", "<", "&#0;", "\u202e"]


def word(rng, letters=12):
    return "".join(rng.choice("abcdefgh\u4e00\u0301") for _ in range(rng.randint(1, letters)))


def words(rng, most=6):
    return " ".join(word(rng) for _ in range(rng.randint(0, most)))


def table(rng, depth=0):
    """A table of the subset, with spans, groups, a caption and nested tables at random."""
    parts = ["<table>"]
    if rng.random() < 0.3:
        parts.append(f"<caption>{words(rng)}</caption>")
    for _ in range(rng.randint(1, 5)):
        parts.append("<tr>")
        for _ in range(rng.randint(1, 5)):
            spans = "".join(f' {name}="{rng.randint(0, 4)}"' for name in ("colspan", "rowspan") if rng.random() < 0.2)
            inside = table(rng, depth + 1) if depth < 3 and rng.random() < 0.1 else words(rng)
            parts.append(f"<{rng.choice(('td', 'th'))}{spans}>{inside}")
    return "".join(parts) + "</table>"


def changed(rng, data):
    """The bytes with some of them replaced, put in, taken away or repeated."""
    data = bytearray(data)
    for _ in range(rng.choice((1, 1, 2, 8))):
        if not data:
            break
        at, length = rng.randrange(len(data)), rng.randint(1, 20)
        turn = rng.randrange(4)
        if turn == 0:
            data[at] = rng.randrange(256)
        elif turn == 1:
            data[at:at] = rng.choice((b"<", b">", b"</td>", b"<table>", b"\xff", b"\x00", b"=", b'"'))
        elif turn == 2:
            del data[at:at + length]
        else:
            data[at:at] = data[at:at + length]
    return bytes(data)


def cut(rng):
    data = table(rng).encode()
    return data[:rng.randrange(len(data) + 1)]


def spliced(rng):
    one, other = table(rng).encode(), table(rng).encode()
    return one[:rng.randrange(len(one))] + other[rng.randrange(len(other)):]


def nested(rng):
    depth = rng.randint(1, 12)
    return ("<table><tr><td>" * depth + words(rng) + "</table>" * depth).encode()


def attribute(rng):
    name = rng.choice(("colspan", "title", "style", "x" * 1000))
    value = rng.choice("19z ") * rng.randint(1, 1_050_000)
    return f'<table><tr><td {name}="{value}">a</table>'.encode()


def overlapping(rng):
    cells = "".join(f"<td colspan={rng.randint(1, 1100)} rowspan={rng.randint(0, 70000)}>a" for _ in range(rng.randint(1, 2000)))
    return ("<table>" + "<tr>".join(cells[i:i + 400] for i in range(0, len(cells), 400)) + "</table>").encode()


def tables(rng):
    inner = "<table><tr><td>" + words(rng) + "</table>"
    return ("<table>" + f"<tr><td>{inner}" * rng.randint(190, 205) + "</table>").encode()


def long_words(rng):
    columns, letters = rng.randint(55, 62), rng.choice((6, 9, 100, 10_000))
    return ("<table><tr>" + "".join(f"<td>{'w' * rng.randint(1, letters)}" for _ in range(columns)) + "</table>").encode()


def combining(rng):
    return ("<table><tr>" + "".join("<td>" + "\u0301" * rng.randint(0, 2000) for _ in range(3)) + "</table>").encode()


def soup(rng):
    parts = []
    for _ in range(rng.randint(1, 60)):
        tag = rng.choice(TAGS)
        parts.append(rng.choice((f"<{tag}>", f"</{tag}>", f"<{tag} colspan={rng.randint(0, 9)}>", rng.choice(TEXTS))))
    return ("<table>" + "".join(parts) + rng.choice(("", "</table>"))).encode("utf-8", "surrogatepass")


def many_rows(rng):
    return ("<table><tr><td rowspan=0 colspan=1000>a" + "<tr>" * rng.randint(1, 150_000) + "</table>").encode()


def cells(rng):
    """A valid table, changed."""
    return changed(rng, table(rng).encode())


def valid(rng):
    return table(rng).encode()


def field(rng):
    text = rng.choice((words(rng), "", "<td>", 'a ""b""', "c,d", "e\r\nf", "\u0301", "w" * rng.randint(1, 600)))
    return f'"{text}"' if rng.random() < 0.7 or "," in text or "\n" in text else text


def csv_file(rng):
    fields, end = rng.choice((1, 2, 5, 60, 61)), rng.choice(("\n", "\r\n"))
    records = (",".join(field(rng) for _ in range(fields)) for _ in range(rng.choice((1, 3, 20))))
    return (rng.choice(("", "\ufeff")) + end.join(records)).encode()


def csv_changed(rng):
    return changed(rng, csv_file(rng))


def csv_long(rng):
    return rng.choice((b"a\n" * rng.randint(1, 3000), b"," * rng.randint(1, 30_000), b'"' * rng.randint(1, 9), b"," * 9 + b"\n" * 2500))


CSV_KINDS = [csv_file, csv_changed, csv_long]
KINDS = [valid, cut, spliced, cells, soup, nested, tables, long_words, combining, overlapping, attribute, many_rows, *CSV_KINDS]
OFTEN = [6, 4, 4, 6, 6, 2, 1, 2, 1, 1, 1, 1, 3, 3, 1]


def changed_lines(rng, text):
    lines = text.split(b"\n")
    at, to = rng.randrange(len(lines)), rng.randrange(len(lines))
    turn = rng.randrange(5)
    if turn == 0:
        lines[at], lines[to] = lines[to], lines[at]
    elif turn == 1:
        lines.insert(at, lines[to])
    elif turn == 2:
        del lines[at]
    elif turn == 3:
        lines[at] = changed(rng, lines[at])
    else:
        return changed(rng, text)
    return b"\n".join(lines)


def options(rng, make):
    """The options of a layout that its check needs too, without the budget."""
    found = []
    for name, values in (("--style", STYLES), ("--break", ("words", "any", "fit", "7")), ("--workers", ("2", "16"))):
        if rng.random() < 0.4:
            found += [name, rng.choice(values)]
    if make in CSV_KINDS:
        found += ["--csv"] + ["--head"] * rng.randint(0, 1) + rng.choice(([], ["--least", "5,0,12"]))
    return found


def settled(given, status, message):
    """The options for certificates of narrower pages: `fit` may come to another number there than the message names."""
    if "fit" not in given or status not in (0, 3):
        return given
    found = re.search(r" break (\d+)\n$", message)
    return [(found[1] if found else "words") if it == "fit" else it for it in given]


class Runs:
    """What the runs came to."""

    def __init__(self, folder):
        self.folder = folder
        self.statuses = defaultdict(Counter)
        self.failures = []
        self.message = ""
        self.slowest = self.largest = (0, "")

    def fail(self, number, what, arguments):
        self.failures.append(f"file {number}: {what}: {' '.join(arguments)}")

    def run(self, number, kind, arguments, wanted):
        """Runs the program, keeps its message, and gives its status."""
        process = subprocess.Popen([PROGRAM, *arguments], cwd=self.folder, stdout=subprocess.PIPE, stderr=subprocess.DEVNULL,
                                   preexec_fn=lambda: resource.setrlimit(resource.RLIMIT_CPU, (MOST_SECONDS, MOST_SECONDS + 1)))
        self.message = process.stdout.read().decode()
        process.stdout.close()
        _, ended, used = os.wait4(process.pid, 0)
        process.returncode = status = -os.WTERMSIG(ended) if os.WIFSIGNALED(ended) else os.WEXITSTATUS(ended)
        seconds = used.ru_utime + used.ru_stime
        self.slowest = max(self.slowest, (seconds, f"file {number}, {kind}"))
        self.largest = max(self.largest, (used.ru_maxrss, f"file {number}, {kind}"))
        self.statuses[kind][status] += 1
        if status not in wanted:
            self.fail(number, f"status {status}", arguments)
        if seconds > MOST_SECONDS or used.ru_maxrss > MOST_KILOBYTES:
            self.fail(number, f"{seconds:.1f} s, {used.ru_maxrss // 1024} MB", arguments)
        return status

    def files(self):
        return {it.name: it.read_bytes() for it in self.folder.iterdir() if it.name not in ("in", "changed")}

    def check(self, number, kind, name, given, wanted):
        """Checks a certificate that was stored, on the page and with the budget that its first line names."""
        _, _, width, _, budget = (self.folder / name).read_text().split("\n")[0].split()
        return self.run(number, kind, ["check", width, "in", name, "--budget", budget, *given], wanted)

    def lay(self, number, kind, command, given, searched):
        """Carries a command on the file out twice, and checks each certificate that was stored."""
        arguments = [command[0], command[1], "in", "page", "cert", *command[2:], *given, *searched]
        whenever = STORED[command[0]]
        first = self.run(number, kind, arguments, whenever)
        judged = given if command[0] == "lay" else settled(given, first, self.message)
        stored = self.files()
        least, more = whenever.get(first, (set(), set()))
        if not least <= set(stored) <= least | more:
            self.fail(number, f"status {first} left {sorted(stored)}", arguments)
        if not stored:
            return
        if self.run(number, kind, arguments, whenever) != first or self.files() != stored:
            self.fail(number, "the second run differs from the first", arguments)
        for name in set(stored) - PAGE:
            self.check(number, "check", name, judged, {0, 3, 4} if command[0] != "lay" else {first})
        if self.files() != stored:
            self.fail(number, "a check stored something", arguments)

    def change(self, number, rng, given):
        """Checks changes of the certificate of a layout."""
        text = (self.folder / "cert").read_bytes()
        _, _, width, _, budget = text.decode().split("\n")[0].split()
        for _ in range(3):
            (self.folder / "changed").write_bytes(changed_lines(rng, text))
            self.run(number, "changed certificate", ["check", width, "in", "changed", "--budget", budget, *given], CHECKED)

    def file(self, number):
        rng = random.Random(number)
        make = rng.choices(KINDS, OFTEN)[0]
        for it in self.folder.iterdir():
            it.unlink()
        (self.folder / "in").write_bytes(make(rng))
        kind, width = make.__name__.replace("_", " "), str(rng.choice((1, 3, 9, 20, 40, 60, 80, 120, 500)))
        given, searched = options(rng, make), rng.choice(([], ["--budget", rng.choice(("0", "1", "20", "500"))], ["--solver", "plain"],
                                                          ["--solver", "learn", "--budget", "50"],
                                                          ["--solver", "rounds", "--budget", "50"]))
        self.lay(number, kind, ["lay", width], given, searched)
        if (self.folder / "cert").exists():
            self.change(number, rng, given)
        if rng.random() < 0.3:
            command = rng.choice((["narrow", str(rng.randint(0, 40))], ["tidy", width]))
            for it in self.folder.iterdir():
                if it.name != "in":
                    it.unlink()
            self.lay(number, kind, [*command, "less", "spent"], given, ["--budget", rng.choice(("0", "3", "50"))])


def main():
    first, count = (int(it) for it in (sys.argv[1:] + ["0", "1000"][len(sys.argv) - 1:])[:2])
    if not PROGRAM.exists():
        sys.exit("the program is not built: bench/hostile.sh builds it")
    with tempfile.TemporaryDirectory() as folder:
        runs = Runs(Path(folder))
        for number in range(first, first + count):
            runs.file(number)
    for kind, statuses in sorted(runs.statuses.items()):
        print(f"{kind:20}", "  ".join(f"status {status}: {times}" for status, times in sorted(statuses.items())))
    print(f"slowest {runs.slowest[0]:.2f} s ({runs.slowest[1]}), largest {runs.largest[0] // 1024} MB ({runs.largest[1]})")
    times = sum(sum(it.values()) for it in runs.statuses.values())
    print("\n".join(runs.failures) or f"{count} files, {times} runs, none failed")
    sys.exit(1 if runs.failures else 0)


main()
