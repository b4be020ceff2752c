#!/usr/bin/env python3
"""Drives `tablelayout batch`, and compares each answer with what the command itself does, to the byte.

    tests/batch.py [TEST ..]

One run answers 10,000 requests of every kind, drawn with a fixed seed from some 300, for each of which the command is run
once. Further runs have lines that are no request, requests that are cut off, and inputs and outputs that fail.
TABLELAYOUT_PROGRAM names the program; without it the checkout's is taken. If all is as it should be this prints nothing.
"""
import contextlib
import io
import os
import random
import select
import subprocess
import sys
import tempfile
import threading
import unittest
from pathlib import Path
from typing import Iterable, Iterator, List, NamedTuple, Sequence, Tuple

TOP = Path(__file__).resolve().parent.parent
PROGRAM = os.environ.get("TABLELAYOUT_PROGRAM", str(TOP / "crates" / "tablelayout" / "out" / "tablelayout"))
SEED, MANY, MOST_FILE, MOST_LINE = 62, 10_000, 1_048_576, 4096
# A run that takes longer hangs.
MOST_SECONDS = 600
REFUSED = b"2 0 0 0 0\nusage\n"
STORED = {"lay": ("page", "cert"), "narrow": ("page", "cert", "less", "spent"), "tidy": ("page", "cert", "less", "spent"), "check": ()}
TABLE = b"<table><tr><td>aaa bbb<td>cc dd ee</table>"
SMALL = b"lay 9 --style compact 42\n" + TABLE
SMALL_ANSWER = b"0 20 0 0 0\nlowest height 2 width 9\naaa cc dd\nbbb ee   \n"
# Its second column is one of numbers. The last cell that asks for a side asks for one that is none.
SIDES = (b"<table><tr><td align=right>ab<td>10<tr><td>word<td ALIGN=Left>9<tr><td colspan=2 align='center' align=right>x"
         b"<tr><td align=justify>y<td>100</table>")

Option = Tuple[str, ...]


class Request(NamedTuple):
    """A request: options are without `--cert`, files are one, or a file and its certificate."""

    command: str
    size: int
    options: Tuple[Option, ...]
    files: Tuple[bytes, ...]
    has_certificates: bool = False

    def line(self, draw: random.Random) -> str:
        """Its line, with the options in some order."""
        options = [*self.options, *([("--cert",)] if self.has_certificates else [])]
        draw.shuffle(options)
        words = [self.command, str(self.size), *(it for option in options for it in option), *(str(len(it)) for it in self.files)]
        return " ".join(words)

    def sent(self, draw: random.Random) -> bytes:
        """Its bytes."""
        return b"".join([self.line(draw).encode(), b"\n", *self.files])


class Result(NamedTuple):
    """What the command does: its status, its message, and what it stores."""

    status: int
    message: bytes
    stored: Tuple[bytes, ...]

    def answer(self) -> bytes:
        """The bytes of the answer that says so."""
        parts = [*self.stored, b"", b"", b"", b""][:4]
        sizes = " ".join(str(len(it)) for it in parts)
        return b"".join([f"{self.status} {sizes}\n".encode(), self.message, b"\n", *parts])


def run_command(request: Request, room: Path) -> Result:
    """Runs the command on files in a folder, which is empty before and after."""
    read = [room / name for name in ("in", "certificate")[:len(request.files)]]
    for path, data in zip(read, request.files):
        path.write_bytes(data)
    stored = [room / name for name in STORED[request.command][:None if request.has_certificates else 1]]
    options = [it for option in request.options for it in option]
    ran = subprocess.run([PROGRAM, request.command, str(request.size), *read, *stored, *options], stdout=subprocess.PIPE, check=False)
    result = Result(ran.returncode, ran.stdout.rstrip(b"\n"), tuple(it.read_bytes() if it.exists() else b"" for it in stored))
    for path in room.iterdir():
        path.unlink()
    return result


# Tables

WORDS = ["a", "be", "sea", "ship", "cargo", "harbour", "日本", "é", "e\u0301", "🚢", "ß", "x" * 12]


# What some cells ask for: sides, and what is none.
ASKED = ("", "", "", " align=right", " ALIGN=Center", " align='left'", ' align=" right"', " align")


def drawn_html(draw: random.Random) -> bytes:
    """A table of few cells, some with spans, some that ask for a side, and one with a table in it."""
    columns = draw.randint(1, 4)
    rows = []
    for _ in range(draw.randint(1, 5)):
        cells = []
        for column in range(columns):
            words = " ".join(draw.choices(WORDS, k=draw.randint(0, 5)))
            nested = f"<table><tr><td>{words}<td{draw.choice(ASKED)}>in</table>" if draw.random() < 0.05 else ""
            span = " colspan=2" if column == columns - 2 and draw.random() < 0.2 else ""
            cells.append(f"<td{span}{draw.choice(ASKED)}>{words}{nested}")
            if span:
                break
        rows.append("<tr>" + "".join(cells))
    return ("<table>" + "".join(rows) + "</table>").encode()


def drawn_csv(draw: random.Random) -> bytes:
    """A CSV file of few records."""
    columns = draw.randint(1, 5)
    records = [",".join(" ".join(draw.choices(WORDS, k=draw.randint(0, 3))) for _ in range(columns)) for _ in range(draw.randint(1, 6))]
    return "\n".join(records).encode() + b"\n"


EXAMPLES = tuple(path.read_bytes() for path in sorted((TOP / "examples").glob("*.html")))
SETTINGS = (TOP / "examples" / "settings.csv").read_bytes()


def drawn_source(draw: random.Random) -> Tuple[bytes, List[Option]]:
    """A file, and the options that say what it is."""
    kind = draw.random()
    if kind < 0.6:
        return (draw.choice(EXAMPLES) if kind < 0.3 else drawn_html(draw)), []
    options: List[Option] = [("--csv",)]
    if draw.random() < 0.5:
        options.append(("--head",))
    if draw.random() < 0.3:
        options.append(("--least", ",".join(str(draw.randint(0, 9)) for _ in range(draw.randint(1, 4)))))
    return (SETTINGS if kind < 0.7 else drawn_csv(draw)), options


CHOICES: Tuple[Tuple[str, Tuple[str, ...]], ...] = (
    ("--style", ("plain", "compact", "rule", "apart", "frame", "grid", "box")), ("--break", ("words", "any", "fit", "0", "12")), ("--budget", ("0", "2", "50", "100000")),
    ("--solver", ("plain", "best", "learn", "rounds")), ("--workers", ("1", "2", "4")),
    ("--align", ("l", "r,c,l", "auto", "cells")))


def drawn_options(draw: random.Random) -> List[Option]:
    """Some options of `lay`."""
    options: List[Option] = [(name, draw.choice(values)) for name, values in CHOICES if draw.random() < 0.4]
    return options + [(name,) for name in ("--trim", "--html") if draw.random() < 0.15]


def drawn_request(draw: random.Random) -> Request:
    """A request for a page."""
    command = draw.choice(("lay", "lay", "narrow", "tidy"))
    file, options = drawn_source(draw)
    size = draw.randint(0, 30) if command == "narrow" else draw.choice((draw.randint(1, 20), draw.randint(20, 90), 500))
    return Request(command, size, tuple(options + drawn_options(draw)), (file,), draw.random() < 0.5)


def changed(draw: random.Random, certificate: bytes) -> bytes:
    """A certificate with a byte changed, left out or more, or none."""
    at = draw.randrange(len(certificate))
    other = bytes([draw.choice(b"0123456789 z\n")])
    return draw.choice((certificate[:at] + other + certificate[at + 1:], certificate[:at] + certificate[at + 1:], certificate + other,
                        certificate[:at], b""))


def checks_of(draw: random.Random, request: Request, result: Result) -> Iterator[Request]:
    """Requests to check what the command stored, on some page, and a change of it."""
    options = tuple(it for it in request.options if it[0] not in ("--align", "--trim", "--html", "--solver"))
    for certificate in filter(None, result.stored[1:]):
        # The second word of its second line, or of its first, is the width of its page.
        width = int(certificate.split()[2])
        yield Request("check", width, options, (*request.files, certificate))
        yield Request("check", draw.choice((width, max(1, width - 1), 72)), options, (*request.files, changed(draw, certificate)))


def special_requests() -> List[Request]:
    """Files that are refused, beyond a limit, of no byte, and pages that are too narrow or too tall."""
    refused = [b"", b"<table>", b"text", b"<table><tr><td><img></table>", b"<table><tr><td>&none;</table>", b"<table><tr><td>\xff</table>",
               b"<table><tr><td>\x01</table>", b"<table><tr><td", b"<!-- ", b"<p>a",
               b"<table><tr><td>A<td rowspan=2>B<tr><td colspan=2>C</table>"]
    records = [b"", b"a,b\nc\n", b"a\xff,b\n", b"a\n\x07\n"]
    beyond = [b"<table>" + b"<tr><td>a" * 2001 + b"</table>", b"<table><tr>" + b"<td>a" * 61 + b"</table>",
              b"<table><tr><td>" * 9 + b"a" + b"</table>" * 9, b"<table>" + b"<tr><td><table><tr><td>a</table>" * 200 + b"</table>"]
    reach = b"<table>" + b"<tr><td><table><tr><td>a</table>" * 100 + b"</table>"
    return [*(Request(command, 20, (), (it,)) for it in (*refused, *beyond) for command in ("lay", "narrow", "tidy")),
            *(Request("check", 20, (), (it, b"")) for it in refused),
            *(Request("lay", 20, (("--csv",),), (it,)) for it in (*records, b"a," * 60 + b"a\n", b"a\n" * 2001)),
            Request("lay", 500, (("--budget", "100000"),), (reach,)), Request("check", 500, (("--budget", "100000"),), (reach, b"x")),
            Request("lay", 6, (), (TABLE,), True), Request("tidy", 6, (), (TABLE,), True), Request("narrow", 0, (), (TABLE,), True),
            Request("narrow", 2, (("--budget", "0"),), (TABLE,), True), Request("check", 12, (), (TABLE, b""))]


def long_requests() -> List[Request]:
    """Files of as many bytes as there may be, and of more. Each is asked for once."""
    return [Request("lay", 20, (), (TABLE.ljust(MOST_FILE),)), Request("lay", 20, (), (TABLE.ljust(MOST_FILE + 1),)),
            Request("tidy", 20, (), (b"a" * 3_000_000,), True), Request("check", 20, (), (TABLE.ljust(MOST_FILE + 1), b"some"))]


Known = List[Tuple[Request, Result]]


def known_requests(draw: random.Random, room: Path) -> Tuple[Known, Known]:
    """Requests of every kind that are sent again and again, and those that are sent once, each with what the command does."""

    def known(requests: Iterable[Request]) -> Known:
        return [(it, run_command(it, room)) for it in requests]

    pages = known([*special_requests(), *(drawn_request(draw) for _ in range(180))])
    checks = [check for request, result in pages for check in checks_of(draw, request, result)]
    return pages + known(draw.sample(checks, 70)), known(long_requests())


# Runs

class Run:
    """A run of `batch`, with pipes on both sides."""

    def __init__(self, *more: str, command: Sequence[str] = (PROGRAM,)) -> None:
        self.process = subprocess.Popen([*command, "batch", *more], stdin=subprocess.PIPE, stdout=subprocess.PIPE, stderr=subprocess.DEVNULL)
        assert self.process.stdin and self.process.stdout
        self.to = self.process.stdin
        self.out = self.process.stdout
        self._watch = threading.Timer(MOST_SECONDS, self.process.kill)
        self._watch.start()

    def __enter__(self) -> "Run":
        return self

    def __exit__(self, *_: object) -> None:
        self._watch.cancel()
        self.process.kill()
        self.process.wait()
        for pipe in (self.to, self.out):
            with contextlib.suppress(BrokenPipeError):
                pipe.close()

    def send(self, data: bytes) -> None:
        """Sends bytes at once."""
        self.to.write(data)
        self.to.flush()

    def is_silent(self, seconds: float) -> bool:
        """Whether nothing is printed for so long."""
        return not select.select([self.out], [], [], seconds)[0]

    def peak_kilobytes(self) -> int:
        """The most address space that the process had."""
        lines = Path(f"/proc/{self.process.pid}/status").read_text().splitlines()
        return next(int(it.split()[1]) for it in lines if it.startswith("VmPeak:"))

    def end(self) -> Tuple[bytes, int]:
        """What is printed until the end, once the input ends, and the status."""
        self.to.close()
        return self.out.read(), self.process.wait()


def answered(data: bytes, *more: str) -> Tuple[bytes, int]:
    """What a run prints for an input, and its status."""
    ran = subprocess.run([PROGRAM, "batch", *more], input=data, stdout=subprocess.PIPE, stderr=subprocess.DEVNULL, check=False, timeout=MOST_SECONDS)
    return ran.stdout, ran.returncode


def send_all(run: Run, requests: Iterable[bytes]) -> threading.Thread:
    """Sends requests while their answers are read, and ends the input."""

    def send() -> None:
        # It may end before all are sent, which the answers tell.
        with contextlib.suppress(BrokenPipeError):
            for it in requests:
                run.to.write(it)
            run.to.close()

    thread = threading.Thread(target=send)
    thread.start()
    return thread


class Answers(unittest.TestCase):
    """Each answer is that of the command."""

    def test_many_in_one_run(self) -> None:
        draw = random.Random(SEED)
        with tempfile.TemporaryDirectory() as name:
            again, once = known_requests(draw, Path(name))
        self.assertEqual({result.status for _, result in again}, {0, 3, 4, 5, 6, 10, 12})
        sequence = again + once + draw.choices(again, k=MANY - len(again) - len(once))
        draw.shuffle(sequence)
        lines = random.Random(SEED)
        with Run() as run:
            thread = send_all(run, (it.sent(lines) for it, _ in sequence))
            for number, (request, result) in enumerate(sequence):
                wanted = result.answer()
                came = run.out.read(len(wanted))
                if came != wanted:
                    self.fail(f"request {number}, {request.line(draw)}:\n{request.files[0][:400]!r}\nwanted {wanted[:800]!r}\n came  {came[:800]!r}")
            thread.join()
            self.assertEqual(run.end(), (b"", 0))

    def test_at_once(self) -> None:
        with Run() as run:
            for _ in range(20):
                run.send(SMALL)
                self.assertEqual(run.out.read(len(SMALL_ANSWER)), SMALL_ANSWER)
            self.assertTrue(run.is_silent(0.1))
            # Its bytes come one after the other.
            for it in SMALL:
                run.send(bytes([it]))
            self.assertEqual(run.out.read(len(SMALL_ANSWER)), SMALL_ANSWER)
            self.assertEqual(run.end(), (b"", 0))

    def test_out_of_memory(self) -> None:
        words = b"<table><tr><td>" + b"a " * 500_000 + b"</table>"
        with Run() as run:
            run.send(SMALL)
            run.out.read(len(SMALL_ANSWER))
            most = run.peak_kilobytes() + 20_000
        with Run(command=["sh", "-c", f'ulimit -v {most} && exec "$@"', "sh", PROGRAM]) as run:
            run.send(SMALL + b"lay 1 %d\n" % len(words) + words + SMALL)
            self.assertEqual(run.end(), (SMALL_ANSWER + b"9 0 0 0 0\n\n" + SMALL_ANSWER, 0))


def laid_out(options: bytes, table: bytes) -> Tuple[bytes, int]:
    """What a run prints for a request for a page of 20 columns in style compact, and its status."""
    return answered(b"lay 20 --style compact %b %d\n%b" % (options, len(table), table))


class Sides(unittest.TestCase):
    """On which side the lines of cells stand, as the cells ask for it. The pages are counted by hand."""

    def test_cells(self) -> None:
        asked = b"  ab  10\nword 9  \n   x    \ny    100\n"
        for options, page in ((b"--align cells", asked), (b"--align cells --trim", b"  ab  10\nword 9\n   x\ny    100\n"),
                              # Without it nothing is changed by what cells ask for.
                              (b"--align auto", b"ab    10\nword   9\nx       \ny    100\n"),
                              (b"--align r,l", b"  ab 10 \nword 9  \nx       \n   y 100\n"),
                              (b"--budget 5000", b"ab   10 \nword 9  \nx       \ny    100\n")):
            with self.subTest(options=options):
                self.assertEqual(laid_out(options, SIDES), (Result(0, b"lowest height 4 width 8", (page,)).answer(), 0))

    def test_captions_and_nested_tables(self) -> None:
        table = (b"<table><caption align=right>Log</caption><tr><td align=right><table><tr><td align=right>a<td>1<tr><td>bb<td>20</table>"
                 b"<tr><td align=right><p align=left>c<tr align=right><td>lots here</table>")
        page = b"Log      \n a  1    \nbb 20    \n        c\nlots here\n"
        self.assertEqual(laid_out(b"--align cells", table), (Result(0, b"lowest height 5 width 9", (page,)).answer(), 0))

    def test_csv(self) -> None:
        self.assertEqual(laid_out(b"--csv --align cells", b"a,10\nword,9\n"),
                         (Result(0, b"lowest height 2 width 7", (b"a    10\nword  9\n",)).answer(), 0))

    def test_what_does_not_depend_on_sides(self) -> None:
        self.assertEqual(laid_out(b"--html --align cells", SIDES), laid_out(b"--html", SIDES))
        self.assertNotIn(b"align", laid_out(b"--html --align cells", SIDES)[0])
        certificates = {answer[0].split(b"\n", 6)[6] for answer in (laid_out(b"--cert", SIDES), laid_out(b"--cert --align cells", SIDES))}
        self.assertEqual(len(certificates), 1)


NO_REQUESTS = (
    # Words that are missing, or separated in another way.
    b"", b" ", b"lay", b"lay 9", b"lay 42", b"42", b"9 42", b"lay 9 ", b"lay  9 42", b"lay 9  42", b" lay 9 42", b"lay 9 42 ", b"lay\t9 42",
    b"lay 9 42\r", b"lay\x009 42", b"lay 9 42\x00", b"lay 9 \xff 42", b"\xef\xbb\xbflay 9 42",
    # Other commands.
    b"LAY 9 42", b"lya 9 42", b"demo 1", b"demo 1 42", b"batch", b"batch 42", b"preview 9 42", b"show 42", b"usage", b"--csv lay 9 42",
    # Numbers that are none, or out of their range.
    b"lay 0 42", b"lay 501 42", b"lay 09 42", b"lay +9 42", b"lay -9 42", b"lay 9.0 42", b"narrow 1073741825 42", b"tidy 0 42",
    b"check 0 42 0", b"lay 9 x", b"lay 9 042", b"lay 9 +42", b"lay 9 -1", b"lay 9 4294967296", b"lay 9 18446744073709551658",
    b"check 9 42", b"check 9 42 00", b"check 9 42 4294967296", b"lay 9 42 42",
    # Names of files.
    b"lay 9 x 42", b"lay 9 in page 42", b"lay 9 - - 42", b"lay 9 -- 42", b"narrow 9 x y z 42", b"tidy 9 x --cert 42", b"check 9 x 42 0",
    # Options that are none, stand elsewhere, have no such value, are given twice, or need another.
    b"lay 9 --stlye compact 42", b"lay 9 --style=compact 42", b"lay --style compact 9 42", b"lay 9 42 --style compact", b"lay 9 --style 42",
    b"lay 9 --style none 42", b"lay 9 --style --cert 42", b"lay 9 --budget 100001 42", b"lay 9 --budget 01 42", b"lay 9 --solver none 42",
    b"lay 9 --workers 0 42", b"lay 9 --workers 17 42", b"lay 9 --csv --least 1, 42", b"lay 9 --style compact --style compact 42",
    b"lay 9 --csv --csv 42", b"lay 9 --head 42", b"lay 9 --least 1 42", b"check 9 --cert 42 0", b"check 9 --html 42 0",
    b"check 9 --trim 42 0", b"lay 9 --trim --trim 42", b"check 9 --align l 42 0", b"lay 9 --align l, 42", b"lay 9 --align auto --align l 42",
    b"check 9 --align cells 42 0", b"lay 9 --align Cells 42", b"lay 9 --align cell 42", b"lay 9 --align cells,l 42", b"lay 9 --align cells --align cells 42",
    b"check 9 --solver best 42 0",
    # Long lines.
    b"x" * MOST_LINE, b"x" * (MOST_LINE + 1), b"lay 9 " + b"0" * MOST_LINE + b"42", b"lay " * 900, b"x" * 100_000,
)


class NoRequests(unittest.TestCase):
    """What is no request is refused, and ends the run."""

    def test_lines(self) -> None:
        for line in NO_REQUESTS:
            with self.subTest(line=line[:80]):
                self.assertEqual(answered(line + b"\n" + TABLE + SMALL), (REFUSED, 2))

    def test_after_a_request(self) -> None:
        for line in (b"\n", b"lay 0 42\n" + TABLE, b"demo 1\n", b"x" * 5000):
            with self.subTest(line=line[:80]):
                self.assertEqual(answered(SMALL + line + SMALL), (SMALL_ANSWER + REFUSED, 2))

    def test_cut_off(self) -> None:
        check = b"check 9 42 4\n" + TABLE + b"some"
        for whole in (SMALL, check):
            for size in range(1, len(whole)):
                with self.subTest(cut=whole[:size]):
                    self.assertEqual(answered(SMALL + whole[:size]), (SMALL_ANSWER + REFUSED, 2))
            self.assertEqual(answered(whole)[1], 0)
        self.assertEqual(answered(b"lay 9 3000000\n" + b"a" * 2_999_999), (REFUSED, 2))

    def test_long_line(self) -> None:
        with Run() as run:
            run.send(b"x" * MOST_LINE)
            self.assertTrue(run.is_silent(0.3))
            run.send(b"x")
            # The input has not ended.
            self.assertEqual(run.out.read(len(REFUSED)), REFUSED)
            self.assertEqual(run.process.wait(MOST_SECONDS), 2)

    def test_arguments(self) -> None:
        for more in (["x"], ["--workers", "4"], ["--csv"], [""], ["9", "in", "page"]):
            with self.subTest(more=more):
                self.assertEqual(answered(SMALL, *more), (b"usage\n", 2))


class Ends(unittest.TestCase):
    """How a run ends."""

    def test_no_request(self) -> None:
        self.assertEqual(answered(b""), (b"", 0))

    def test_unreadable_input(self) -> None:
        folder = os.open("/", os.O_RDONLY)
        ran = subprocess.run([PROGRAM, "batch"], stdin=folder, stdout=subprocess.PIPE, stderr=subprocess.DEVNULL, check=False)
        os.close(folder)
        self.assertEqual((ran.stdout, ran.returncode), (b"", 7))

    def test_closed_output(self) -> None:
        with Run() as run:
            run.send(SMALL)
            self.assertEqual(run.out.read(len(SMALL_ANSWER)), SMALL_ANSWER)
            run.out.close()
            run.send(SMALL)
            self.assertEqual(run.process.wait(MOST_SECONDS), 8)

    def test_outputs_that_cannot_be_written(self) -> None:
        for redirected in (">/dev/full", ">&-", "</dev/null >&-"):
            for data in (SMALL, b"\n", b""):
                with self.subTest(redirected=redirected, data=data):
                    ran = subprocess.run(["sh", "-c", f'exec "$0" batch {redirected}', PROGRAM], input=data, stderr=subprocess.DEVNULL, check=False)
                    self.assertEqual(ran.returncode, 8 if data and "null" not in redirected else 0)


def main(names: List[str]) -> int:
    if not os.access(PROGRAM, os.X_OK):
        sys.exit(f"batch: there is no program {PROGRAM}; rt ci, or a command of ./tablelayout, builds it")
    loader, log = unittest.defaultTestLoader, io.StringIO()
    module = sys.modules[__name__]
    suite = loader.loadTestsFromNames(names, module) if names else loader.loadTestsFromModule(module)
    if unittest.TextTestRunner(stream=log).run(suite).wasSuccessful():
        return 0
    print(log.getvalue())
    return 1


if __name__ == "__main__":
    sys.exit(main(sys.argv[1:]))
