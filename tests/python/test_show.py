"""`show` and `page`: what they print, on which output, and how they end."""
import os
import signal
import subprocess
import sys
import tempfile
import unittest
from pathlib import Path

import common
from common import FRONT, START, environment_of_test, script

EXAMPLES, DRAWN = common.TOP / "examples", common.TOP / "tests" / "show"
SHIPS = b"name;depth;note\nLeith;9;deep\nAyr;4\n"
PAGE = b"""<!DOCTYPE html><title>x</title><p>before<table><caption>Ports</caption><tr><th>name<th>depth<tr><td>Leith<td>9</table>
<ul><li>between</ul><table><tr><td>one<td><img alt=two></table>"""


class Run:
    """One run: its status, and what stands on both outputs."""

    def __init__(self, *arguments, data=b"", options="", cwd=None, **environment):
        environment = {"TABLELAYOUT": common.PROGRAM, **environment_of_test(), "TABLELAYOUT_OPTIONS": options, **environment}
        ran = subprocess.run([*START, *map(str, arguments)], input=data, stdout=subprocess.PIPE, stderr=subprocess.PIPE, check=False,
                             env=environment, cwd=cwd)
        self.status = ran.returncode
        self.text = ran.stdout.decode()
        self.said = ran.stderr.decode()
        self.lines = [it.rstrip() for it in self.text.splitlines()]


def show(*arguments, **more):
    return Run("show", *arguments, **more)


class Show(unittest.TestCase):
    def setUp(self):
        room = tempfile.TemporaryDirectory()
        self.addCleanup(room.cleanup)
        self.room = Path(room.name)

    def file(self, name, data):
        path = self.room / name
        path.write_bytes(data)
        return path

    def test_unchanged(self):
        drawn = (DRAWN / "stock_40.txt").read_text().splitlines(keepends=True)
        for more, said in (([], ""), (["--quiet"], ""), (["--verbose"], drawn[-1])):
            ran = show(EXAMPLES / "stock.html", "--width", 40, *more)
            self.assertEqual((ran.text, ran.said, ran.status), ("".join(drawn[:-1]), said, 0))
        for ran in (show("--width", 40, data=(EXAMPLES / "stock.html").read_bytes()), show(EXAMPLES / "stock.html", COLUMNS="40"),
                    show("-", "--width", "40", data=(EXAMPLES / "stock.html").read_bytes())):
            self.assertEqual(ran.text, "".join(drawn[:-1]))
        for name, arguments, wanted in (("query.html", ["--width", 20], "query.txt"), ("stock.html", ["--width", 60, "--style", "frame"], "stock_frame.txt"),
                                        ("stock.html", [], "stock_120.txt")):
            folder = DRAWN if name == "query.html" else EXAMPLES
            with self.subTest(wanted=wanted):
                ran = show("--verbose", folder / name, *arguments, COLUMNS="\u00b2", TERM="")
                self.assertEqual(ran.text + ran.said, (DRAWN / wanted).read_text())

    def test_budget(self):
        ran = show(EXAMPLES / "columns.html", "--style", "plain", "--width", 12, "--budget", 0, "--verbose")
        self.assertEqual(ran.text + ran.said + f"status {ran.status}\n", (DRAWN / "bounded.txt").read_text())

    def test_pipes(self):
        data = (EXAMPLES / "columns.html").read_bytes()
        command = " ".join(START)
        for script_of_shell in (f"{command} show <(cat) --width 9", f"{{ read -r; {command} show --width 9; }} < <(echo line | cat - /dev/fd/3)"):
            with self.subTest(script=script_of_shell):
                ran = subprocess.run(["bash", "-c", f"exec 3<&0; {script_of_shell}"], input=data, stdout=subprocess.PIPE, check=False,
                                     env={**environment_of_test(), "TABLELAYOUT": common.PROGRAM})
                self.assertEqual(ran.stdout, b"aaa cc dd\nbbb ee   \n")

    def test_leaves_no_file(self):
        (self.room / "temporary").mkdir()
        for data in (PAGE, SHIPS, b"<table><tr><td>", b"", b"{"):
            show(data=data, cwd=self.room, TMPDIR=str(self.room / "temporary"))
        self.assertEqual([it.name for it in self.room.rglob("*")], ["temporary"])

    def test_options_of_the_environment(self):
        ran = show(EXAMPLES / "columns.html", options="--style frame --width 12")
        self.assertEqual(ran.lines[0], "+---+-----+")
        self.assertEqual(show(EXAMPLES / "columns.html", "--style", "compact", options="--style frame --width 12").lines[0], "aaa cc dd")
        self.assertEqual(show(EXAMPLES / "columns.html", options="'").status, 2)

    def test_lines_under_the_head(self):
        for style, first, under in (("frame", "+-------------+", "+----+---+----+"), ("grid", "+-------------+", "+====+===+====+"),
                                    ("box", "┌─────────────┐", "╞════╪═══╪════╡")):
            with self.subTest(style=style):
                ran = show(EXAMPLES / "fares.html", "--width", 20, "--style", style)
                self.assertEqual((ran.lines[0], ran.lines[6], len(ran.lines), ran.status, ran.said), (first, under, 11, 0, ""))
        ran = show("--csv", "--head", "--style", "grid", data=b"a,b\nc,d\n")
        self.assertEqual(ran.text, "+-+-+\n|a|b|\n+=+=+\n|c|d|\n+-+-+\n")

    def test_sides(self):
        for more, wanted in (([], "a  b\n- --\nx 10\ny  9\n"), (["--align", "l"], "a b \n- --\nx 10\ny 9 \n"),
                             (["--align", "r,c"], "a b \n- --\nx 10\ny 9 \n"), (["--style", "compact"], "a  b\nx 10\ny  9\n")):
            with self.subTest(more=more):
                self.assertEqual(show("--csv", "--head", *more, data=b"a,b\nx,10\ny,9\n").text, wanted)
        # One word among the numbers, and the column is none of numbers.
        self.assertEqual(show("--csv", "--head", data=b"a,b\nx,10\ny,9\nz,-\n").text, "a b \n- --\nx 10\ny 9 \nz - \n")
        # Values of records stand at the left, whatever the columns of the table are.
        self.assertEqual(show("--csv", "--head", "--records", data=b"a,bb\n10,9\n").text, "[ 1 ]\na  10\nbb 9 \n")
        for wrong in ("x", "l,", "lr", "auto,l", "cell", "Cells", "cells,l", ",".join("l" * 61)):
            self.assertEqual(show("--align", wrong, data=SHIPS).status, 2)

    def test_sides_of_cells(self):
        # The second column is one of numbers, and white space around a side makes it none.
        rows = ("<tr><td {right}>ab<td>10<tr><td>word<td {left}>9<tr><td colspan=2 {center}>x<tr><td align=' right'>y<td>100</table>")
        of_cells, of_columns = "  ab  10\nword 9  \n   x    \ny    100\n", "ab    10\nword   9\nx       \ny    100\n"
        data = f"<table>{rows.format(right='align=right', left='ALIGN=Left', center='align=center align=right')}".encode()
        for more, wanted in ((["--align", "cells"], of_cells), ([], of_columns), (["--align", "auto"], of_columns)):
            for strict in ([], ["--strict"]):
                with self.subTest(more=more, strict=strict):
                    self.assertEqual(show(*more, *strict, data=data).text, wanted)
        # A CSV file asks for nothing, and the values of records stand at the left.
        self.assertEqual(show("--csv", "--head", "--align", "cells", data=b"a,b\nx,10\ny,9\n").text, "a  b\n- --\nx 10\ny  9\n")
        ran = show("--csv", "--head", "--records", "--style", "compact", "--align", "cells", data=b"a,bb\n10,9\n")
        self.assertEqual(ran.text, "[ 1 ]\na  10\nbb 9 \n")

    @common.needs_parser
    def test_sides_of_cells_of_any_page(self):
        data = (b"<p>text<table><tr><td align=right>ab<td>10<tr><td>word<td style='text-align: left'>9"
                b"<tr><td colspan=2 align=CENTER>x<tr><td align=justify>y<td>100</table>")
        for more, wanted in ((["--align", "cells"], "  ab  10\nword 9  \n   x    \ny    100\n"), ([], "ab    10\nword   9\nx       \ny    100\n")):
            with self.subTest(more=more):
                self.assertEqual(show(*more, data=data).text, wanted)

    @common.needs_parser
    @common.needs_pandoc
    def test_sides_of_cells_of_a_document(self):
        path = self.file("a.md", b"| a | b |\n|--:|:-:|\n| x | yyy |\n| zz | w |\n")
        for more, wanted in ((["--align", "cells"], " a  b \n-- ---\n x yyy\nzz  w \n"), ([], "a  b  \n-- ---\nx  yyy\nzz w  \n")):
            with self.subTest(more=more):
                self.assertEqual(show(path, *more).text, wanted)

    def test_spaces_at_the_ends_of_lines(self):
        for more, wanted in (([], "aaa cc dd\nbbb ee   \n"), (["--trim"], "aaa cc dd\nbbb ee\n")):
            self.assertEqual(show(EXAMPLES / "columns.html", "--width", 9, *more).text, wanted)
        file = [EXAMPLES / "columns.html", "--width", 9, "--html"]
        self.assertEqual(show(*file, "--trim").text, show(*file).text)

    @common.needs_parser
    def test_spaces_of_empty_lines_of_code(self):
        data = b"<!DOCTYPE html><table><tr><td><pre>a  b\n\n c</pre></table>"
        for more, wanted in (([], "a  b\n    \n c  \n"), (["--trim"], "a  b\n\n c\n"), (["--trim", "--records"], "[ 1 ]\n1 a  b\n\n   c\n")):
            with self.subTest(more=more):
                self.assertEqual(show(*more, data=data).text, wanted)

    def test_strict_places(self):
        ran = show(DRAWN / "refused.html", "--strict")
        self.assertEqual(ran.said + f"status {ran.status}\n", (DRAWN / "refused.txt").read_text())
        said = "".join(show("--strict", "--markup", data=data, **more).said for data, more in (
            (b"\xef\xbb\xbf<table>\n<tr><td>e\xcc\x81\t<b><hr>", {}), (b"<table>\r\n<tr>\x1b[1m\xff\r\n", {}),
            (b"<table><tr><td>" + b"a" * 60 + b"<img>" + b"b" * 60, {"COLUMNS": "40"}), (b"<table>\n<tr>\n", {})))
        self.assertEqual(said, (DRAWN / "places.txt").read_text())
        ran = show("--csv", "--strict", data=b'a,b\n"c\nd ""x"", y",2\r\n\n\r\ne"f,3,4\n')
        self.assertEqual(ran.said + f"status {ran.status}\n", (DRAWN / "record.txt").read_text())
        for arguments in (["--json"], ["--table", "1"], ["--records"]):
            self.assertEqual(show("--strict", *arguments, data=SHIPS).status, 2)
        ran = show("--strict", data=bytes(1048577))
        self.assertEqual((ran.said, ran.status), ("limit: file 1048577\n", 6))

    def test_places_of_long_lines(self):
        says = script(self.room, "says", 'printf "5 0 0 0 0\\nbad input: %s\\n" "$SAID"\n')
        for data, kind, said, wanted in (
            (b"a" * 1048570 + b"<img>\n", "--markup", "unknown element at 1048570",
             ["line 1, column 1048571:", "...aaaaaaaaaaaaaaaaa<img>", "                    ^"]),
            (b"a\n" + b'"' * 1048570 + b"\nc\n", "--csv", "uneven record at 2", ["line 3, column 1:", "c", "^"]),
        ):
            before = os.times()
            ran = show("--strict", kind, data=data, COLUMNS="40", TABLELAYOUT=says, SAID=said)
            after = os.times()
            self.assertEqual((ran.said.splitlines(), ran.status), ([f"bad input: {said}", *wanted], 5))
            self.assertLess(after.children_user - before.children_user, 2)

    def test_too_narrow(self):
        for arguments, wanted in ((["--width", 12, "--break", "words"], "narrow.txt"), (["--width", 4, "--break", "any"], "narrow_any.txt"),
                                  (["--width", 4], "narrow_any.txt")):
            ran = show(EXAMPLES / "stock.html", "--strict", *arguments)
            self.assertEqual(ran.said + f"status {ran.status}\n", (DRAWN / wanted).read_text())

    def test_breaking_of_wide_words(self):
        path = b"<table><tr><td>src/lib.rt</table>"
        for number, width, wanted in ((10, 10, ["src/lib.rt"]), (9, 7, ["src/", "lib.rt"]), (4, 4, ["src/", "lib.", "rt"]),
                                      (3, 4, ["src/", "lib.", "rt"]), (0, 5, ["src/l", "ib.rt"])):
            with self.subTest(number=number, width=width):
                ran = show("--break", number, "--width", width, data=path)
                self.assertEqual((ran.lines, ran.said, ran.status), (wanted, "", 0))
        hint = "with --break fit, which breaks words, narrower pages may fit\n"
        for number, width, least, data, said in ((10, 9, 10, path, hint), (4, 3, 4, path, hint), (0, 2, 3, b"<table><tr><td>a<td>b</table>", "")):
            with self.subTest(number=number, width=width):
                ran = show("--strict", "--break", number, "--width", width, data=data)
                self.assertEqual((ran.said, ran.status), (f"narrow least {least} width {width}\n"
                                                          f"no layout fits {width} columns: the least width is {least}\n{said}", 4))
        for number in ("501", "09", "5.0"):
            self.assertEqual(show("--break", number, data=path).status, 2)

    def test_as_few_broken_words_as_can_be(self):
        path, pair = b"<table><tr><td>src/lib.rt</table>", b"<table><tr><td>src/lib.rt<td>harbour</table>"
        for data, width, wanted, said in (
            # Whole words fit: the path has 10 columns, and the other word 7.
            (path, 10, ["src/lib.rt"], "lowest height 1 width 10"),
            (pair, 18, ["src/lib.rt harbour"], "lowest height 1 width 18"),
            # The path breaks into parts of 4, 4 and 2 columns.
            (path, 7, ["src/", "lib.rt"], "lowest height 2 width 6 break 9"),
            (pair, 12, ["src/ harbour", "lib.", "rt"], "lowest height 3 width 12 break 9"),
            # The other word breaks too, and the parts stay whole.
            (pair, 11, ["src/   harb", "lib.rt our"], "lowest height 2 width 11 break 6"),
            # Parts break, but for the one of 2 columns, and at last that one too.
            (path, 3, ["src", "/li", "b.", "rt"], "lowest height 4 width 3 break 3"),
            (path, 1, list("src/lib.rt"), "lowest height 10 width 1 break 1"),
        ):
            for more in ([], ["--break", "fit"]):
                with self.subTest(data=data, width=width, more=more):
                    ran = show("--verbose", "--width", width, *more, data=data)
                    self.assertEqual((ran.lines, ran.said, ran.status), (wanted, f"{said}\n", 0))
        ran = show("--verbose", "--csv", "--width", 12, data=b"src/lib.rt,harbour\n")
        self.assertEqual((ran.lines, ran.said), (["src/ harbour", "lib.", "rt"], "lowest height 3 width 12 break 9\n"))

    @common.needs_parser
    def test_page_of_several_tables(self):
        ran = show(data=PAGE)
        self.assertEqual((ran.lines, ran.said, ran.status), (["Ports", "name  depth", "----- -----", "Leith     9", "", "Table 2", "one [two]"], "", 0))
        self.assertEqual(show("--table", 2, data=PAGE).lines, ["one [two]"])
        self.assertEqual(show("--list", data=PAGE).lines, ["  1  2 x 2  Ports: name depth Leith 9", "  2  1 x 2  one [two]"])
        ran = show("--table", 3, data=PAGE)
        self.assertEqual((ran.status, ran.said), (2, "usage\ntablelayout show: there is no table 3: the file has 2\n"))
        ran = show(data=b"<p>text")
        self.assertEqual((ran.status, ran.said), (5, "bad input: there is no table in it\n"))

    @common.needs_parser
    def test_statuses_of_several_tables(self):
        html = b"<!DOCTYPE html><table><tr><td>a</table><table><tr><td colspan=2>abcdefghij<tr><td>b<td>c</table>"
        ran = show("--break", "words", "--width", 9, data=html)
        self.assertEqual((ran.status, ran.lines), (4, ["Table 1", "a", "", "Table 2"]))
        self.assertEqual(ran.said.splitlines()[:2], ["table 2:", "narrow least 10 width 9"])
        self.assertEqual(show("--width", 9, data=html).status, 0)

    def test_csv(self):
        wanted = ["name  depth note", "Leith 9     deep", "Ayr   4"]
        for name, data in (("a.csv", SHIPS), ("b.tsv", SHIPS.replace(b";", b"\t")), ("c.csv", SHIPS.replace(b";", b"|")),
                           ("d.csv", SHIPS.decode().encode("utf-16"))):
            with self.subTest(name=name):
                self.assertEqual(show(self.file(name, data)).lines, wanted)
        self.assertEqual(show("--csv", "--head", "-", data=b"a,b\nc,d\n").lines, ["a b", "- -", "c d"])
        self.assertEqual(show("--csv", "--delimiter", "semicolon", "--columns", "note,1", "--rows", "1", "--head", data=SHIPS).lines,
                         ["note name", "---- -----", "deep Leith"])
        ran = show("--csv", "--rows", "0", data=SHIPS)
        self.assertEqual((ran.status, ran.said.splitlines()[0]), (2, "usage"))

    def test_notes(self):
        ran = show(self.file("a.csv", b"a,b\n\xe9,d,e\n"), "--verbose")
        self.assertEqual(ran.lines, ["a b", "é d e"])
        self.assertEqual(ran.said, "read as windows-1252, since it is not UTF-8\nline 2 has 3 fields, and the first record 2\n"
                         "lowest height 2 width 5\n")
        self.assertEqual(show(self.file("b.csv", b"\xe9,d\n"), "--encoding", "iso-8859-7").lines, ["ι d"])
        self.assertEqual(show(self.file("c.csv", b"a"), "--encoding", "none").status, 2)

    def test_more_rows(self):
        ran = show("--csv", data=b"x,y\n" * 2500)
        self.assertEqual((len(ran.lines), ran.lines[-1]), (2001, "500 more rows; --rows and --columns choose others"))
        self.assertEqual(len(show("--csv", "--rows", "2400-", data=b"x,y\n" * 2500).lines), 101)

    @common.needs_parser
    def test_records(self):
        wanted = ["[ 1 ]", "name  Leith", "depth 9", "note  deep", "[ 2 ]", "name  Ayr", "depth 4", "note"]
        self.assertEqual(show("--csv", "--head", "--records", data=SHIPS).lines, wanted)
        self.assertEqual(show("--records", "--table", 1, data=PAGE).lines, ["[ 1 ]", "name  Leith", "depth 9"])
        wide = ",".join(f"c{it}" for it in range(20)) + "\n" + ",".join(str(it) for it in range(20)) + "\n"
        ran = show("--csv", "--head", "--width", 12, data=wide.encode())
        self.assertEqual((ran.lines[:2], len(ran.lines), ran.status), (["[ 1 ]", "c0  0"], 21, 0))
        self.assertEqual(show("--csv", "--head", "--width", 12, "--strict", data=wide.encode()).status, 4)
        # A record takes a row for its number, and one for each of its 3 fields.
        ran = show("--csv", "--records", data=b"a,b,c\n" * 507)
        self.assertEqual((len(ran.lines), ran.lines[-1]), (2001, "7 more records; --rows chooses others"))
        ran = show("--csv", "--records", data=b"a,b,c\n" * 2001)
        self.assertEqual(ran.lines[-1], "1,500 more records and 1 more row; --rows and --columns choose others")

    def test_json(self):
        self.assertEqual(show(self.file("a.json", b'[{"a": 1}, {"b": "x y"}]')).lines, ["a b", "- ---", "1", "  x y"])
        self.assertEqual(show(self.file("a.jsonl", b'{"a": 1}\n{"a": 2}\n')).lines, ["a", "-", "1", "2"])
        ran = show("--json", data=b"{")
        self.assertEqual((ran.status, ran.said[:28]), (5, "bad input: it is no JSON: Ex"))

    def test_marks_end_with_the_cell(self):
        ran = show("--csv", data="a\u202e,b\n".encode())
        self.assertEqual(ran.lines, ["a\u202e\u202c b"])

    @common.needs_parser
    def test_faults(self):
        ran = show(self.room / "none.html")
        self.assertEqual((ran.status, ran.said.splitlines()[0]), (7, "read fault"))
        self.assertEqual(show(self.room).status, 7)
        for arguments in (["--width", "0"], ["--width", "501"], ["--width"], ["--none"], ["a", "b"], ["--least", "1,x"], ["--least", "501"]):
            with self.subTest(arguments=arguments):
                ran = show(*arguments)
                self.assertEqual((ran.status, ran.text, ran.said.splitlines()[0]), (2, "", "usage"))
        self.assertEqual(show("--rows", "1", data=PAGE).status, 2)
        self.assertEqual(show("--table", "0", data=PAGE).status, 2)
        for arguments, word in ((["--style", "none"], "none"), (["--solver", "bset"], "bset"), (["--budget", "100001"], "100001"), (["--break", "09"], "09"),
                                (["--workers", "0"], "0"), (["--workers", "17"], "17"), (["--least", "1,x"], "x"), (["--delimiter", "ab"], "ab")):
            with self.subTest(arguments=arguments):
                ran = show(*arguments, data=b"<table><tr><td>a</table>")
                self.assertEqual((ran.status, ran.text, ran.said.count("\n")), (2, "", 2))
                self.assertRegex(ran.said, rf"\Ausage\ntablelayout show: argument {arguments[0]}: .*{word}")
        ran = show(TABLELAYOUT="/no/such/program")
        self.assertEqual((ran.status, ran.said), (1, "there is no program /no/such/program that can be run\n"))

    def test_words_that_are_not_known(self):
        for command, arguments, wanted in (
            ("show", ["--stlye", "frame", "a"], "unknown option '--stlye': did you mean '--style'?"),
            ("show", ["a", "--brek", "3"], "unknown option '--brek': did you mean '--break'?"),
            ("show", ["--version"], "unknown option '--version'"), ("show", ["-x"], "unknown option '-x'"),
            ("show", ["a", "b"], "one file is read, and 'b' is one more"), ("show", ["--", "a", "--stlye"], "one file is read, and '--stlye' is one more"),
            ("page", ["--form", "html", "a"], "unknown option '--form': did you mean '--from'?"),
            ("textconv", ["--width", "3", "a"], "unknown option '--width': did you mean '--widths'?"), ("lessopen", [], "it takes one file"),
        ):
            with self.subTest(arguments=arguments):
                ran = Run(command, *arguments)
                self.assertEqual((ran.status, ran.text, ran.said), (2, "", f"usage\ntablelayout {command}: {wanted}\n"))

    def test_options_in_any_order(self):
        path, framed = self.file("a.csv", SHIPS), "+-----+-----+----+"
        (self.room / "--a.csv").write_bytes(SHIPS)
        for arguments in ([path, "--style", "frame", "--head"], ["--style", "frame", path, "--head"], ["--style=frame", "--head", path],
                          ["--head", "--style", "frame", "--", path], ["--style", "frame", "--", "--a.csv"]):
            with self.subTest(arguments=arguments):
                ran = show(*arguments, cwd=self.room)
                self.assertEqual((ran.lines[0], ran.status, ran.said), (framed, 0, ""))

    def test_options_that_are_given_count(self):
        self.assertEqual(show("--verbose", "--markup", options="--quiet --csv", data=b"<table><tr><td>a</table>").said, "lowest height 1 width 1\n")

    def test_input_that_does_not_end(self):
        code = "import sys; sys.path.insert(0, sys.argv[1]); from tablelayout import inputs; inputs.MOST_BYTES = 1 << 22; " \
               "from tablelayout.show import main; sys.exit(main([]))"
        ran = subprocess.run(["bash", "-c", 'yes | "$@"', "bash", sys.executable, "-c", code, str(common.TOP / "integrations" / "python")],
                             stdout=subprocess.PIPE, stderr=subprocess.PIPE, check=False)
        self.assertEqual((ran.returncode, ran.stdout, ran.stderr), (6, b"", b"limit: input 4194305\n"))

    def test_no_input_ends_with_a_traceback(self):
        for data in (b"[" * 3000, b'{"a":' * 3000, b"\n".join([b"[" * 3000] * 2), b"<table>" * 20, b"<table><tr><td>" * 500, b'"' * 999,
                     b"a,b\n" + b"\xff\x00," * 99, b"\xff\xfe\x00", b"\x00" * 500, b"<!DOCTYPE" * 99, b"a\tb;c|d,e\n" * 9):
            for kind in (["--csv"], ["--json"], ["--markup"]):
                with self.subTest(data=data[:20], kind=kind):
                    ran = show(*kind, data=data)
                    self.assertNotIn("Traceback", ran.said)
                    self.assertIn(ran.status, (0, 3, 4, 5, 6))

    def test_missing_package(self):
        code = "import sys; sys.path.insert(0, sys.argv[1]); import tablelayout.packages as it; it._SYSTEM_PACKAGES = '/none'; " \
               "sys.modules['html5lib'] = None; from tablelayout.show import main; sys.exit(main(['-']))"
        environment = {**os.environ, "TABLELAYOUT": common.PROGRAM}
        ran = subprocess.run([sys.executable, "-c", code, str(common.TOP / "integrations" / "python")], input=PAGE, check=False,
                             stdout=subprocess.PIPE, stderr=subprocess.PIPE, env=environment)
        self.assertEqual(ran.returncode, 5, ran.stderr)
        self.assertIn("html5lib is missing: 'apt-get install python3-html5lib'", ran.stderr.decode().splitlines()[-1])

    def test_closed_output(self):
        data = b"".join(b"%d,%s\n" % (it, b"some words that take a while " * 6) for it in range(1900))
        command = '"$@" --csv --width 300 | head -n 1; echo "${PIPESTATUS[0]}"'
        environment = {**os.environ, "TABLELAYOUT": common.PROGRAM}
        ran = subprocess.run(["bash", "-c", command, "bash", *START, "show"], input=data, check=False, stdout=subprocess.PIPE,
                             stderr=subprocess.PIPE, env=environment)
        self.assertEqual((ran.stdout.decode().split()[0], ran.stdout.decode().split()[-1], ran.stderr), ("0", "8", b""))

    def test_interrupt(self):
        ran = subprocess.Popen([*START, "show"], stdin=subprocess.PIPE, stdout=subprocess.PIPE, stderr=subprocess.PIPE, cwd=self.room,
                               env={**os.environ, "TABLELAYOUT": common.PROGRAM}, preexec_fn=lambda: signal.signal(signal.SIGINT, signal.default_int_handler))
        # It waits for its input by now, if it has taken a part of it.
        ran.stdin.write(b"a" * (1 << 20))
        ran.stdin.flush()
        ran.send_signal(signal.SIGINT)
        said = ran.communicate()
        self.assertEqual((ran.returncode, *said), (-signal.SIGINT, b"", b""))

    def test_full_device(self):
        environment = {**os.environ, "TABLELAYOUT": common.PROGRAM}
        with open("/dev/full", "wb") as full:
            ran = subprocess.run([*START, "show", str(EXAMPLES / "columns.html")], check=False, stdout=full, stderr=subprocess.PIPE,
                                 env=environment)
        self.assertEqual((ran.returncode, ran.stderr.decode()), (8, "standard output could not be written\n"))


class Terminal(unittest.TestCase):
    def on_terminal(self, columns, *arguments, **environment):
        """What appears on a terminal of so many columns."""
        return common.OnTerminal(columns, [*START, "show", *map(str, arguments)], **environment).end()

    def test_widths(self):
        for columns, name in ((40, "stock_40.txt"), (120, "stock_120.txt"), (900, "stock_120.txt")):
            wanted = (DRAWN / name).read_text()
            said = self.on_terminal(columns, EXAMPLES / "stock.html", NO_COLOR="1")
            self.assertEqual(said, wanted)
            bold = self.on_terminal(columns, EXAMPLES / "stock.html")
            self.assertEqual(bold.replace("\x1b[1m", "").replace("\x1b[0m", ""), wanted)
            self.assertTrue(bold.startswith("\x1b[1mStock"), bold)
        self.assertEqual(self.on_terminal(40, EXAMPLES / "columns.html", "--quiet"), "aaa bbb cc dd ee\n")
        self.assertEqual(self.on_terminal(120, EXAMPLES / "stock.html", NO_COLOR="1", COLUMNS="40"), (DRAWN / "stock_40.txt").read_text())

    def test_width_in_pipes(self):
        command = f"cat {EXAMPLES / 'stock.html'} | {' '.join(START)} show --verbose 2>&1 | cat"
        self.assertEqual(common.OnTerminal(40, ["sh", "-c", command]).end(), (DRAWN / "stock_40.txt").read_text())


class Viewers(unittest.TestCase):
    def setUp(self):
        room = tempfile.TemporaryDirectory()
        self.addCleanup(room.cleanup)
        self.room = Path(room.name)

    def run_on(self, command, name, data):
        path = self.room / name
        path.write_bytes(data)
        return Run(command, path)

    @common.needs_parser
    def test_lessopen(self):
        self.assertEqual(self.run_on("lessopen", "a.csv", SHIPS).lines, ["name  depth note", "Leith 9     deep", "Ayr   4"])
        (self.room / "a.html").write_bytes(PAGE)
        ran = Run("lessopen", self.room / "a.html", PATH="/no/such/folder")
        self.assertEqual(ran.lines, ["before", "", "Ports", "name  depth", "Leith 9", "", "- between", "", "one [two]"])
        self.assertEqual(Run("lessopen", self.room / "a.html", TABLELAYOUT="/no/such/program").text, "")
        for name, data in (("a.txt", SHIPS), ("b.html", b"<p>text"), ("c.json", b"{}"), ("d", PAGE)):
            ran = self.run_on("lessopen", name, data)
            self.assertEqual((ran.text, ran.said, ran.status), ("", "", 0))
        self.assertEqual(Run("lessopen", "/no/such/file.csv").text, "")

    @common.needs_parser
    @common.needs_pandoc
    def test_lessopen_of_a_document(self):
        lines = [it for it in self.run_on("lessopen", "a.html", PAGE.replace(b"<img alt=two>", b"two")).lines if it]
        self.assertEqual(lines, ["before", "Ports", "name  depth", "----- -----", "Leith 9", "-   between", "one two"])

    def test_textconv(self):
        self.assertEqual(self.run_on("textconv", "a.csv", SHIPS).text, "name  depth note\nLeith 9     deep\nAyr   4\n")
        # Not the first 2,000 rows alone, in which no later change would be seen.
        for name, data in (("b.html", b"<p>text"), ("c.json", b"{"), ("d.csv", b""), ("e.txt", b"some text"), ("f.csv", b"a,b\n" * 2001),
                           ("g.html", b"<!DOCTYPE html><table>" + b"<tr><td>a" * 2001)):
            ran = self.run_on("textconv", name, data)
            self.assertEqual((ran.text.encode(), ran.status, ran.said), (data, 0, ""))
        self.assertEqual(Run("textconv", "/no/such/file").status, 7)
        (self.room / "-f.csv").write_bytes(SHIPS)
        self.assertEqual(Run("textconv", "-f.csv", cwd=self.room).lines[0], "name  depth note")

    @common.needs_parser
    def test_textconv_leaves_no_text_out(self):
        self.assertEqual(self.run_on("textconv", "h.html", PAGE).lines,
                         ["before", "", "Ports", "name  depth", "Leith 9", "", "- between", "", "one [two]"])

    def test_broken_words(self):
        (self.room / "a.csv").write_bytes(b"src/lib.rt,harbour\n")
        self.assertEqual(Run("lessopen", self.room / "a.csv", COLUMNS="12").lines, ["src/ harbour", "lib.", "rt"])
        # The word of 120 columns breaks, into two lines on the narrowest page, and the path stays whole.
        ran = self.run_on("textconv", "b.csv", b"src/lib.rt," + b"x" * 120 + b"\n")
        self.assertEqual(ran.lines, ["src/lib.rt " + "x" * 60, " " * 11 + "x" * 60])

    def test_textconv_of_widths(self):
        for widths, wanted in (
            ("8,6,4", ["name     depth  note", "Leith    9      deep", "Ayr      4"]),
            ("5,5,4", ["name  depth note", "Leith 9     deep", "Ayr   4"]),
            # A word is wider than its column, the columns are others, or no page is so wide: the tidy page.
            ("8,6,3", ["name  depth note", "Leith 9     deep", "Ayr   4"]),
            ("8,6", ["name  depth note", "Leith 9     deep", "Ayr   4"]),
            ("300,300,9", ["name  depth note", "Leith 9     deep", "Ayr   4"]),
        ):
            with self.subTest(widths=widths):
                (self.room / "a.csv").write_bytes(SHIPS)
                self.assertEqual(Run("textconv", "--widths", widths, self.room / "a.csv").lines, wanted)
        self.assertEqual(Run("textconv", "--widths", "8,x", self.room / "a.csv").status, 2)

    @common.needs_parser
    def test_textconv_of_widths_in_pages(self):
        html = b"""<!DOCTYPE html><table><tr><td colspan=2>a b c d e<tr><td rowspan=2>f<td>g h<tr><td>i</table>
            <table><tr><td><ul><li>one two</ul></table><table><tr><td colspan=2>j</table><table><tr><td colspan=2>k<tr><td colspan=2>l l</table>"""
        (self.room / "a.html").write_bytes(html)
        ran = Run("textconv", "--widths", "4,3", self.room / "a.html")
        # The last two have one column: a page has none where no cell begins.
        self.assertEqual(ran.lines, ["a b c d", "e", "f    g h", "     i", "", "- one two", "", "j", "", "k", "l l"])
        self.assertEqual(Run("textconv", "--widths", "6", self.room / "a.html").lines[4:], ["- one", "two", "", "j", "", "k", "l l"])


class Page(unittest.TestCase):
    @common.needs_pandoc
    def test_document(self):
        # The page of pandoc itself stays where it is no higher.
        for name, text, wanted in (
            ("a.md", "before\n\n| a | b |\n|---|---|\n| x | y |\n", ["before", "", "  a   b", "  --- ---", "  x   y"]),
            ("b.html", "<meta charset=iso-8859-1><p>\u00e9</p><table><tr><td>a</td><td>b</td></tr></table>", ["é", "", "a b"]),
        ):
            with self.subTest(name=name), tempfile.TemporaryDirectory() as room:
                path = Path(room) / name
                path.write_bytes(text.encode("latin-1"))
                # The filter runs the program itself.
                ran = Run("page", path, "--width", 40, TABLELAYOUT=common.PROGRAM)
                self.assertEqual((ran.lines, ran.status, ran.said), (wanted, 0, ""))

    @common.needs_pandoc
    @common.needs_parser
    def test_tags_that_are_left_out(self):
        ran = Run("page", "--width", 40, data=b"<meta charset=iso-8859-1><p>\xe9<table><tr><th>a<th>b<tr><td>x<td>y</table>")
        self.assertEqual((ran.lines, ran.status, ran.said), (["é", "", "a b", "- -", "x y"], 0, ""))

    def test_faults(self):
        self.assertEqual(Run("page", "/no/such/file").status, 7)
        self.assertEqual(Run("page", "/dev/null", "--width", "0").said.splitlines()[0], "usage")
        ran = Run("page", EXAMPLES / "columns.html", PATH="/no/such/folder")
        self.assertEqual((ran.status, ran.said.split(",")[0]), (1, "pandoc is missing"))


class Front(unittest.TestCase):
    """The script that the launcher starts."""

    def setUp(self):
        room = tempfile.TemporaryDirectory()
        self.addCleanup(room.cleanup)
        self.room = Path(room.name)

    def run_front(self, *arguments, path=os.environ["PATH"], **environment):
        return subprocess.run([str(FRONT), *arguments], stdin=subprocess.DEVNULL, stdout=subprocess.PIPE, stderr=subprocess.STDOUT, check=False,
                              env={**environment_of_test(), "TABLELAYOUT": common.PROGRAM, "PATH": path, **environment}, cwd=self.room)

    def test_finds_python(self):
        other = script(self.room, "python3", 'echo "other $*"\n')
        arguments = ["show", str(EXAMPLES / "columns.html"), "--width", "9"]
        told = f"other -S {FRONT.parent}/start.py {' '.join(arguments)}\n".encode()
        page = b"aaa cc dd\nbbb ee   \n"
        # The first of the path is taken only where the system has none.
        has_system = os.access("/usr/bin/python3", os.X_OK)
        self.assertEqual(self.run_front(*arguments, path=f"{self.room}:{os.environ['PATH']}").stdout, page if has_system else told)
        self.assertEqual(self.run_front(*arguments, TABLELAYOUT_PYTHON=other).stdout, told)
        self.assertEqual(self.run_front(*arguments, TABLELAYOUT_PYTHON="/no/such/python").stdout, page)

    def test_by_a_link(self):
        (self.room / "link").symlink_to(FRONT)
        ran = subprocess.run(["./link", "show", str(EXAMPLES / "columns.html"), "--width", "9"], stdout=subprocess.PIPE, check=False, cwd=self.room,
                             env={**environment_of_test(), "TABLELAYOUT": common.PROGRAM})
        self.assertEqual(ran.stdout, b"aaa cc dd\nbbb ee   \n")

    def test_old_python(self):
        code = "import sys, runpy; sys.version_info = (3, 7, 16); sys.argv[:1] = []; runpy.run_path(sys.argv[0])"
        script(self.room, "python3", 'echo "other $*"\n')
        start, environment = str(FRONT.parent / "start.py"), environment_of_test()
        for more, told, said in (({"TABLELAYOUT_PYTHON": sys.executable}, "", "tablelayout: this is Python 3.7, and 3.8 or"),
                                 ({"PATH": "/no/such/folder"}, "", "tablelayout: this is Python 3.7, and 3.8 or"),
                                 # That of the path is taken.
                                 ({"PATH": f"{self.room}:{os.environ['PATH']}"}, f"other -S {start} show\n", "")):
            with self.subTest(more=more):
                ran = subprocess.run([sys.executable, "-c", code, start, "show"], stdout=subprocess.PIPE, stderr=subprocess.PIPE, check=False,
                                     env={**environment, **more})
                self.assertEqual((ran.returncode, ran.stdout.decode()), (1 if said else 0, told))
                self.assertEqual((ran.stderr.count(b"\n"), ran.stderr.decode()[:len(said)]), (1 if said else 0, said))

    def test_closed_descriptors(self):
        command = f'{FRONT} show --width 9'
        table = EXAMPLES / "columns.html"
        for redirected, status, said in (("<&-", 5, b"bad input: there is no table in it\n"), (f"<{table} >&-", 8, b"standard output could not be written\n"),
                                         (f"<{table} 2>&-", 0, b"")):
            with self.subTest(redirected=redirected):
                ran = subprocess.run(["sh", "-c", f"{command} {redirected}"], stdout=subprocess.DEVNULL, stderr=subprocess.PIPE, check=False,
                                     env={**environment_of_test(), "TABLELAYOUT": common.PROGRAM})
                self.assertEqual((ran.returncode, ran.stderr), (status, said))

    def test_usage(self):
        for arguments in ([], ["lay"], ["lessopen"], ["textconv", "a", "b"]):
            self.assertEqual(self.run_front(*arguments).returncode, 2)


if __name__ == "__main__":
    unittest.main()
