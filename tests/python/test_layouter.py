"""Tables through the package: each answer is that of the command, whatever happens to the process that is asked."""
import os
import random
import signal
import subprocess
import sys
import threading
import unittest
from pathlib import Path

import common

import tablelayout
from tablelayout.messages import headline
from tablelayout.protocol import Answer, BadAnswer, read_answer, request

COLUMNS = b"<table><tr><td>aaa bbb<td>cc dd ee</table>"
WIDE = [["日本語", "é"], ["e\u0301", "a b"], ["🚢 ship", "ß"]]


def drawn_table(number):
    """Rows of words, drawn from a number."""
    draw = random.Random(number)
    words = ["a", "be", "sea", "ship", "cargo", "harbour", "\"x\"", "a,b", "<td>", "&amp;", "é"]
    columns = draw.randint(1, 5)
    return [[" ".join(draw.choices(words, k=draw.randint(0, 5))) for _ in range(columns)] for _ in range(draw.randint(1, 4))]


class Answers(unittest.TestCase):
    def setUp(self):
        self.layouter = tablelayout.Layouter(common.COMMAND)
        self.addCleanup(self.layouter.close)

    def same_as_command(self, page, command, size, data, *options):
        status, message, text, cert = common.run(command, size, data, *options)
        self.assertEqual((page.status, page.message, page.text.encode(), page.certificate.encode()), (status, message, text, cert))

    def test_many_tables(self):
        self.layouter.lay([["a"]])
        pid = self.layouter.pid
        for number in range(common.MANY):
            rows, width = drawn_table(number), 10 + number % 30
            data, _ = tablelayout.rows.csv_of(rows)
            status, message, text, _ = common.run("lay", width, data, "--csv", "--head")
            with self.subTest(number=number):
                try:
                    page = self.layouter.lay(rows, width, head=True)
                    self.assertEqual((page.status, page.message, page.text.encode()), (status, message, text))
                except tablelayout.TooNarrow as refusal:
                    self.assertEqual((refusal.status, refusal.message), (status, message))
        self.assertEqual(self.layouter.pid, pid)

    def test_lowest(self):
        page = self.layouter.lay(html=COLUMNS, width=12)
        self.same_as_command(page, "lay", 12, COLUMNS)
        self.assertEqual((page.height, page.width, page.lower, page.is_lowest), (2, 10, 2, True))
        self.assertEqual(str(page), "aaa  cc dd\nbbb  ee   ")
        self.assertEqual(self.layouter.check(html=COLUMNS, width=12, certificate=page.certificate).claim, "lowest")

    def test_bounded(self):
        page = self.layouter.lay(html=COLUMNS, width=12, budget=0, style="plain")
        self.same_as_command(page, "lay", 12, COLUMNS, "--style", "plain", "--budget", "0")
        self.assertEqual((page.height, page.lower, page.is_lowest), (3, 2, False))
        verdict = self.layouter.check(html=COLUMNS, width=12, certificate=page.certificate, budget=0)
        self.assertEqual((verdict.claim, verdict.lower, verdict.height), ("bounded", 2, 3))

    def test_narrow(self):
        page = self.layouter.narrow(html=COLUMNS, height=2)
        self.same_as_command(page, "narrow", 2, COLUMNS)
        self.assertEqual((page.width, page.least, page.height, page.is_narrowest), (10, 10, 2, True))
        self.assertEqual(self.layouter.check(html=COLUMNS, width=9, certificate=page.less).lower, 3)
        self.assertIsNone(page.spent)

    def test_no_page_found(self):
        with self.assertRaises(tablelayout.NoPageFound) as caught:
            self.layouter.narrow(html=COLUMNS, height=2, budget=0)
        self.assertEqual((caught.exception.status, caught.exception.least), (3, 7))

    def test_tidy(self):
        page = self.layouter.tidy(html=COLUMNS, width=12)
        self.same_as_command(page, "tidy", 12, COLUMNS)
        self.assertEqual((page.height, page.width, page.is_lowest, page.is_narrowest, page.is_chosen), (2, 10, True, True, True))
        hurried = self.layouter.tidy(html=COLUMNS, width=12, budget=2)
        self.same_as_command(hurried, "tidy", 12, COLUMNS, "--budget", "2")
        self.assertEqual((hurried.status, hurried.is_lowest, hurried.is_chosen), (3, True, False))

    def test_spaces_at_the_ends_of_lines(self):
        page = self.layouter.lay(html=COLUMNS, width=12, more=["--trim"])
        self.same_as_command(page, "lay", 12, COLUMNS, "--trim")
        self.assertEqual((page.text, page.width), ("aaa  cc dd\nbbb  ee\n", 10))
        self.assertEqual(page.html, self.layouter.lay(html=COLUMNS, width=12).html)
        self.assertEqual(self.layouter.check(html=COLUMNS, width=12, certificate=page.certificate).claim, "lowest")
        hurried = self.layouter.tidy(html=COLUMNS, width=12, budget=2, more=["--trim"])
        self.assertEqual((hurried.message, hurried.width, hurried.text), ("untidy choice", 10, page.text))

    def test_lines_under_the_head(self):
        for style, under in (("frame", "+-+-+"), ("grid", "+=+=+"), ("box", "╞═╪═╡")):
            page = self.layouter.lay([["a", "b"], ["c", "d"]], 9, head=True, style=style)
            self.assertEqual((page.text.split("\n")[2], page.width, page.is_lowest), (under, 5, True))
            self.assertEqual(self.layouter.check([["a", "b"], ["c", "d"]], 9, page.certificate, head=True, style=style).claim, "lowest")

    def test_sides(self):
        rows = [["Item", "Left"], ["rope", "12"], ["lamp oil", "3"]]
        for align, wanted in ((None, "Item     Left\n-------- ----\nrope     12  \nlamp oil 3   \n"),
                              ("auto", "Item     Left\n-------- ----\nrope       12\nlamp oil    3\n"),
                              ("c", "  Item   Left\n-------- ----\n  rope   12  \nlamp oil 3   \n")):
            page = self.layouter.lay(rows, 72, head=True, style="rule", align=align)
            self.assertEqual((page.text, page.width, page.is_lowest), (wanted, 13, True))
            self.assertEqual(self.layouter.check(rows, 72, page.certificate, head=True, style="rule").claim, "lowest")
        # The narrowest page has "lamp oil" on two lines, the lowest on one.
        for lay, wanted in ((self.layouter.narrow, "rope    12"), (self.layouter.tidy, "    rope    12")):
            self.assertEqual(lay(rows, head=True, align="r,r").text.split("\n")[1], wanted)
        for align in ("x", "Cells", "cells,l"):
            with self.assertRaises(tablelayout.BadRequest):
                self.layouter.lay(rows, head=True, align=align)

    def test_sides_of_cells(self):
        html = "<table><tr><td align=RIGHT>a<td>10<tr><td>word<td align=left>9</table>"
        for align, wanted in (("cells", "   a  10\nword  9 \n"), ("auto", "a     10\nword   9\n"), (None, "a     10\nword  9 \n")):
            page = self.layouter.lay(html=html, width=72, align=align)
            self.assertEqual((page.text, page.width, page.is_lowest), (wanted, 8, True))
            self.assertEqual(self.layouter.check(html=html, width=72, certificate=page.certificate).claim, "lowest")
            self.assertNotIn("align", page.html)
        # Rows have no attributes.
        rows = [["a", "10"], ["word", "9"]]
        self.assertEqual(self.layouter.lay(rows, align="cells").text, self.layouter.lay(rows, align="auto").text)

    def test_fit(self):
        # Words of 3 columns break, and those of 2 stay whole: columns of 2 and 2, with 2 between them.
        page = self.layouter.lay(html=COLUMNS, width=6, breaking="fit")
        self.same_as_command(page, "lay", 6, COLUMNS, "--break", "fit")
        self.assertEqual((page.text, page.message), ("aa  cc\na   dd\nbb  ee\nb     \n", "lowest height 4 width 6 break 2"))
        self.assertEqual((page.breaking, page.height, page.width, page.is_lowest), (2, 4, 6, True))
        for breaking, found in (("fit", 2), (str(page.breaking), None)):
            verdict = self.layouter.check(html=COLUMNS, width=6, certificate=page.certificate, breaking=breaking)
            self.assertEqual((verdict.claim, verdict.height, verdict.breaking), ("lowest", 4, found))
        page = self.layouter.tidy(html=COLUMNS, width=6, breaking="fit")
        self.same_as_command(page, "tidy", 6, COLUMNS, "--break", "fit")
        self.assertEqual((page.breaking, page.height, page.width, page.is_chosen), (2, 4, 6, True))
        # Of the word of 600 columns each half is on a line; the widest page has 500.
        page = self.layouter.narrow([["x" * 600]], 2, breaking="fit")
        self.assertEqual((page.breaking, page.width, page.is_narrowest), (500, 300, True))
        # Whole words fit.
        self.assertIsNone(self.layouter.lay(html=COLUMNS, width=7, breaking="fit").breaking)
        with self.assertRaises(tablelayout.TooNarrow) as caught:
            self.layouter.lay(html=COLUMNS, width=3, breaking="fit")
        self.assertEqual((caught.exception.message, caught.exception.least), ("narrow least 4 width 3", 4))

    def test_too_narrow(self):
        with self.assertRaises(tablelayout.TooNarrow) as caught:
            self.layouter.lay(html=COLUMNS, width=6)
        self.assertEqual((caught.exception.status, caught.exception.least), (4, 7))
        certificate = common.run("lay", 6, COLUMNS)[3]
        verdict = self.layouter.check(html=COLUMNS, width=6, certificate=certificate)
        self.assertEqual((verdict.claim, verdict.least), ("narrow", 7))

    def test_bad_input(self):
        with self.assertRaises(tablelayout.BadInput) as caught:
            self.layouter.lay(html="<table>\n<tr><td>日本<td><img></table>")
        it = caught.exception
        self.assertEqual((it.status, it.kind, it.at, it.line, it.column), (5, "unknown element", 26, 2, 17))

    def test_bad_record(self):
        with self.assertRaises(tablelayout.BadInput) as caught:
            self.layouter.lay(csv='a,b\n"c\nd ""x"", y",2\r\n\n\r\ne"f,3,4\n')
        it = caught.exception
        self.assertEqual((it.kind, it.at, it.line, it.column), ("uneven record", 2, 6, 1))

    def test_overlap(self):
        with self.assertRaises(tablelayout.Overlap) as caught:
            self.layouter.lay(html="<table><tr><td>A<td rowspan=2>B<tr><td colspan=2>C</table>")
        it = caught.exception
        self.assertEqual((it.status, it.table, it.row, it.column), (5, 0, 1, 1))

    def test_bad_cells(self):
        for rows, place in (([["a", None]], (0, 1)), ([["a"], ["\x07"]], (1, 0)), ([[1]], (0, 0)), ([["\ud800"]], (0, 0))):
            with self.subTest(rows=rows), self.assertRaises(tablelayout.BadCell) as caught:
                self.layouter.lay(rows)
            self.assertEqual((caught.exception.row, caught.exception.column), place)

    def test_limits(self):
        for rows, name, number in (([["a"]] * 2001, "rows", 2001), ([["a"] * 61], "columns", 61)):
            with self.subTest(name=name), self.assertRaises(tablelayout.LimitPassed) as caught:
                self.layouter.lay(rows)
            self.assertEqual((caught.exception.status, caught.exception.name, caught.exception.number), (6, name, number))

    def test_long_file(self):
        with self.assertRaises(tablelayout.LimitPassed) as caught:
            self.layouter.lay(csv=b"a" * 3_000_000)
        self.assertEqual(caught.exception.name, "file")
        self.assertEqual(self.layouter.lay([["a"]]).text, "a\n")

    def test_too_tall(self):
        with self.assertRaises(tablelayout.TooTall) as caught:
            self.layouter.narrow(html=COLUMNS, height=0)
        self.assertEqual((caught.exception.status, caught.exception.height), (12, 0))

    def test_rejected(self):
        certificate = self.layouter.lay(html=COLUMNS, width=12).certificate
        with self.assertRaises(tablelayout.Rejected) as caught:
            self.layouter.check(html=COLUMNS, width=13, certificate=certificate)
        self.assertEqual(caught.exception.status, 10)
        self.assertEqual(caught.exception.message, common.run("check", 13, COLUMNS, certificate=certificate.encode())[1])

    def test_bad_request(self):
        for arguments in ({"width": 0}, {"width": 501}, {"style": "none"}, {"more": ["--quiet"]}):
            with self.subTest(arguments=arguments), self.assertRaises(tablelayout.BadRequest):
                self.layouter.lay([["a"]], **arguments)
            self.assertEqual(self.layouter.lay([["a"]]).text, "a\n")
        with self.assertRaises(ValueError):
            self.layouter.lay([["a"]], style="plain\nlay")

    def test_sources(self):
        self.assertEqual(self.layouter.lay(csv="a,b\n").text, self.layouter.lay([["a", "b"]]).text)
        for arguments in ({}, {"rows": [["a"]], "csv": "a"}, {"html": COLUMNS, "head": True}):
            with self.subTest(arguments=arguments), self.assertRaises(TypeError):
                self.layouter.lay(**arguments)

    def test_texts_stay_cells(self):
        rows = [['say "so"', "a,b"], ["one\rtwo\nthree", ""], ["\ufeffx", "'"]]
        self.assertEqual(self.layouter.lay(rows, style="compact").text.split(), ["say", '"so"', "a,b", "one", "two", "three", "\ufeffx", "'"])
        self.assertEqual(self.layouter.lay([[""], ["a"], [""]]).text.count("\n"), 1)
        self.assertEqual(self.layouter.lay([["\ufeffx"]]).text, "\ufeffx\n")

    def test_wide_characters(self):
        page = self.layouter.lay(WIDE, 20)
        self.same_as_command(page, "lay", 20, tablelayout.rows.csv_of(WIDE)[0], "--csv")
        self.assertEqual(page.width, 12)

    def test_20_000_cells(self):
        rows = [[f"cell {row * column}" for column in range(10)] for row in range(2000)]
        page = self.layouter.lay(rows, 120)
        self.same_as_command(page, "lay", 120, tablelayout.rows.csv_of(rows)[0], "--csv")
        self.assertEqual(page.height, 2000)
        rows[0].append("one more")
        with self.assertRaises(tablelayout.BadInput):
            self.layouter.lay(rows, 120)

    def test_least(self):
        self.assertEqual(self.layouter.lay([["a", "b"]], least=[3, 2]).width, 7)

    @unittest.skipUnless(os.path.isdir("/proc/self"), "processes are not listed")
    def test_out_of_memory(self):
        self.layouter.lay([["a"]])
        lines = Path(f"/proc/{self.layouter.pid}/status").read_text().splitlines()
        most = next(int(it.split()[1]) for it in lines if it.startswith("VmPeak:")) + 20_000
        little = ["sh", "-c", f'ulimit -v {most} && exec "$@"', "sh", *common.COMMAND]
        with tablelayout.Layouter(little) as layouter:
            self.assertEqual(layouter.lay([["a"]]).text, "a\n")
            pid = layouter.pid
            with self.assertRaises(tablelayout.OutOfMemory) as caught:
                layouter.lay(html=b"<table><tr><td>" + b"a " * 500_000, width=1)
            self.assertEqual(caught.exception.status, 9)
            self.assertEqual(layouter.lay([["b"]]).text, "b\n")
            self.assertEqual(layouter.pid, pid)


class Processes(unittest.TestCase):
    def setUp(self):
        self.layouter = tablelayout.Layouter(common.COMMAND)
        self.addCleanup(self.layouter.close)

    def text(self):
        return self.layouter.lay([["a", "b"]]).text

    def test_one_process(self):
        self.assertIsNone(self.layouter.pid)
        self.text()
        pid = self.layouter.pid
        self.text()
        self.assertEqual(self.layouter.pid, pid)

    def test_killed(self):
        self.text()
        pid = self.layouter.pid
        os.kill(pid, signal.SIGKILL)
        self.assertEqual(self.text(), "a  b\n")
        self.assertNotEqual(self.layouter.pid, pid)

    def test_ends_after_each_answer(self):
        script = 'read -r asked && head -c "${asked##* }" >/dev/null && printf "0 2 0 0 0\\nlowest height 1 width 1\\na\\n"'
        with tablelayout.Layouter(["sh", "-c", script]) as layouter:
            pids = set()
            for _ in range(3):
                self.assertEqual(layouter.lay([["a"]]).text, "a\n")
                pids.add(layouter.pid)
            self.assertEqual(len(pids), 3)

    def test_ends_each_time(self):
        with tablelayout.Layouter([sys.executable, "-c", "import os; os.abort()"]) as layouter, self.assertRaises(tablelayout.ProgramFault):
            layouter.lay([["a"]])

    def test_no_answer(self):
        with tablelayout.Layouter([sys.executable, "-c", "print('hello')"]) as layouter, self.assertRaises(tablelayout.ProgramFault):
            layouter.lay([["a"]])

    def test_no_program(self):
        for name in ("/no/such/program", "/dev/null", "no-such-program", "/"):
            with tablelayout.Layouter([name]) as layouter, self.assertRaises(tablelayout.ProgramFault) as caught:
                layouter.lay([["a"]])
            self.assertIn(name, str(caught.exception))

    @unittest.skipUnless(os.path.isdir("/proc/self/fd"), "descriptors are not listed")
    def test_leaves_nothing(self):
        before = os.listdir("/proc/self/fd")
        for command in (common.COMMAND, ["/dev/null"]):
            layouter = tablelayout.Layouter(command)
            try:
                layouter.lay([["a"]])
            except tablelayout.ProgramFault:
                pass
            # Nobody closed it.
            del layouter
        self.assertEqual(os.listdir("/proc/self/fd"), before)
        with self.assertRaises(ChildProcessError):
            os.waitpid(-1, os.WNOHANG)

    def test_closed_descriptors(self):
        code = "import sys, common, tablelayout; sys.stderr.write(tablelayout.Layouter(common.COMMAND).lay([['a', 'b']]).text)"
        for closed in ("<&-", ">&-", "<&- >&-"):
            with self.subTest(closed=closed):
                ran = subprocess.run(["sh", "-c", f'exec "$@" {closed}', "sh", sys.executable, "-c", code], stderr=subprocess.PIPE, check=False,
                                     cwd=os.path.dirname(common.__file__))
                self.assertEqual(ran.stderr, b"a  b\n")

    def test_does_not_heed_its_end(self):
        layouter = tablelayout.Layouter(["sh", "-c", "trap '' PIPE; printf '9 0 0 0 0\\n\\n'; exec sleep 60"])
        with self.assertRaises(tablelayout.OutOfMemory):
            layouter.lay([["a"]])
        pid = layouter.pid
        layouter.close()
        with self.assertRaises(ProcessLookupError):
            os.kill(pid, 0)

    def test_closed(self):
        self.text()
        self.layouter.close()
        with self.assertRaises(tablelayout.ProgramFault):
            self.text()
        self.layouter.close()

    def test_threads(self):
        wrong = []

        def ask(number):
            for turn in range(common.MANY // 8):
                word = f"word{number}x{turn}"
                if self.layouter.lay([[word]]).text != word + "\n":
                    wrong.append(word)

        threads = [threading.Thread(target=ask, args=(number,)) for number in range(8)]
        for it in threads:
            it.start()
        for it in threads:
            it.join()
        self.assertEqual(wrong, [])

    @unittest.skipUnless(hasattr(os, "fork"), "there is no fork")
    def test_fork(self):
        self.text()
        pid = self.layouter.pid
        child = os.fork()
        if child == 0:
            is_right = self.text() == "a  b\n" and self.layouter.pid != pid
            self.layouter.close()
            os._exit(0 if is_right else 1)
        self.assertEqual(self.text(), "a  b\n")
        self.assertEqual(os.waitpid(child, 0)[1], 0)
        self.assertEqual(self.text(), "a  b\n")
        self.assertEqual(self.layouter.pid, pid)

    @unittest.skipUnless(hasattr(os, "fork"), "there is no fork")
    def test_fork_while_another_thread_asks(self):
        self.layouter._lock.acquire()
        child = os.fork()
        if child == 0:
            is_right = self.text() == "a  b\n"
            self.layouter.close()
            os._exit(0 if is_right else 1)
        self.layouter._lock.release()
        self.assertEqual(os.waitpid(child, 0)[1], 0)

    def test_interrupted(self):
        self.text()

        def interrupt(*_):
            raise KeyboardInterrupt

        real, tablelayout.coprocess.CoProcess._read_more = tablelayout.coprocess.CoProcess._read_more, interrupt
        try:
            with self.assertRaises(KeyboardInterrupt):
                self.text()
        finally:
            tablelayout.coprocess.CoProcess._read_more = real
        self.assertEqual(self.layouter.lay([["c"]]).text, "c\n")


class Messages(unittest.TestCase):
    def test_numbers_of_columns_that_break(self):
        for message in ("lowest height 2 width 6", "bounded height 3 lower 2 width 7", "slimmest width 9 height 2", "tidy height 2 width 9",
                        "bounded width 9 least 7", "bounded width none least 7", "untidy width 9 least 7", "untidy choice"):
            with self.subTest(message=message):
                said, broken = headline(message), headline(f"{message} break 0")
                self.assertEqual((said.breaking, broken.breaking), (None, 0))
                self.assertEqual(broken.numbers, {**said.numbers, "break": "0"})

    def test_width_without_a_number(self):
        page = tablelayout.TidyPage(Answer(3, "untidy choice", "a\nb 日本\n".encode()), lambda _: Answer(0, ""), lambda _: page)
        self.assertEqual((page.width, page.least, page.height), (6, 6, 2))


class Protocol(unittest.TestCase):
    def test_request(self):
        self.assertEqual(request(["lay", "72"], [b"abc"]), b"lay 72 3\nabc")
        self.assertEqual(request(["check", "9"], [b"", b"x\n"]), b"check 9 0 2\nx\n")
        for word in ("", "a b", "a\n", "é"):
            with self.subTest(word=word), self.assertRaises(ValueError):
                request([word], [])

    def test_answer(self):
        came = [b"0 3 2 1 0", b"lowest"]
        parts = [b"abc", b"de", b"f", b""]
        answer = read_answer(lambda: came.pop(0), lambda size: parts.pop(0))
        self.assertEqual(answer, (0, "lowest", b"abc", b"de", b"f", b""))
        for line in (b"", b"0 1 2 3", b"0 1 2 3 x", b"0 1 2 3 4 5", b"0 -1 2 3 4"):
            with self.subTest(line=line), self.assertRaises(BadAnswer):
                read_answer(lambda line=line: line, lambda size: b"")


if __name__ == "__main__":
    unittest.main()
