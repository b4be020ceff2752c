"""How far a search has come: one line on the terminal, by a program that only says so."""
import os
import signal
import subprocess
import tempfile
import time
import unittest
from pathlib import Path
from unittest import mock

import common
from common import START

import tablelayout
from tablelayout import terminal
from tablelayout.progress import ProgressLine, Step, step_of

TABLE = b"<table><tr><td>a</table>"
ANSWER = "printf '0 2 0 0 0\\nlowest height 1 width 1\\na\\n'\n"
FIRST, LATER = "progress table 0 cuts 64 height 1369 lower 369", "progress table 0 cuts 128 height 1119 lower 619"
DRAWN = "height 1,369 so far, lower bound 369, 0 % of the gap closed"
# Of 1,000 lines 500 are left.
DRAWN_LATER = "height 1,119 so far, lower bound 619, 50 % of the gap closed"
# Reads a request, and keeps its words after those of the process, and the number of that.
ASKED = 'read -r words && echo "$*: $words" >>"$ROOM/asked" && echo $$ >"$ROOM/pid" && head -c "${words##* }" >/dev/null\n'
# Waits for the test, which has to see what was drawn by then.
PAUSE = 'while [ ! -e "$ROOM/seen" ]; do sleep 0.02; done\nrm "$ROOM/seen"\n'


def said(*lines):
    """Writes lines on standard error, in a script."""
    return "".join(f"echo '{line}' >&2\n" for line in lines)


def screen(text, columns):
    """What stands on a terminal of so many columns after all of a text, line by line."""
    rows, at = [""], 0
    for it in text:
        if it == "\n":
            rows.append("")
            at = 0
        elif it == "\r":
            at = 0
        elif it == "\b":
            at = max(0, at - 1)
        else:
            if at == columns:
                rows.append("")
                at = 0
            rows[-1] = rows[-1][:at].ljust(at) + it + rows[-1][at + 1:]
            at += 1
    return [it.rstrip() for it in rows]


class Progress(unittest.TestCase):
    def setUp(self):
        room = tempfile.TemporaryDirectory()
        self.addCleanup(room.cleanup)
        self.room = Path(room.name)
        (self.room / "in.html").write_bytes(TABLE)

    def program(self, *steps):
        """A program that takes these steps for each request."""
        return common.script(self.room, "program", "while true; do\n" + ASKED.replace("\n", " || exit 0\n") + "".join(steps) + "done\n")

    def show(self, program, *arguments, columns=80, **environment):
        command = [*START, "show", str(self.room / "in.html"), *arguments]
        return common.OnTerminal(columns, command, TABLELAYOUT=program, ROOM=str(self.room), NO_COLOR="1", **environment)

    def see(self, shown, text):
        """Waits until the text is drawn, and lets the program go on."""
        shown.wait_for(text)
        (self.room / "seen").touch()

    def asked(self):
        return (self.room / "asked").read_text().splitlines()

    def test_one_line_that_is_gone_when_the_page_comes(self):
        shown = self.show(self.program(said(FIRST), PAUSE, said(LATER), PAUSE, ANSWER))
        self.see(shown, DRAWN)
        self.see(shown, DRAWN_LATER)
        came = shown.end()
        # On one line: none ends before the page.
        self.assertEqual(came[:came.index("a\n")].count("\n"), 0)
        self.assertEqual(screen(came, 80), ["a", "lowest height 1 width 1", ""])
        self.assertEqual((shown.ran.returncode, self.asked()), (0, [f"batch --progress: lay 80 --style rule --break fit --align auto {len(TABLE)}"]))

    def test_narrow_terminal(self):
        shown = self.show(self.program(said(FIRST, LATER), PAUSE, ANSWER), columns=20)
        self.see(shown, "height 1,119 so f")
        came = shown.end()
        self.assertNotIn("so fa", came)
        self.assertEqual(screen(came, 20), ["a", "lowest height 1 widt", "h 1", ""])

    def test_other_lines_stand(self):
        shown = self.show(self.program(said("before", FIRST), PAUSE, said("a warning", LATER, "progress of mine", ""), "printf unended >&2\n", PAUSE, ANSWER))
        self.see(shown, DRAWN)
        self.see(shown, "progress of mine")
        self.assertEqual(screen(shown.end(), 80), ["before", "a warning", "progress of mine", "", "a", "lowest height 1 width 1", "unended"])

    def test_nested_tables(self):
        lines = ["progress table 3 cuts 64 height 30 lower 20", "progress table 3 cuts 128 height 26 lower 21",
                 # It is searched anew, for another width.
                 "progress table 3 cuts 64 height 40 lower 20"]
        shown = self.show(self.program(said(lines[0], lines[1]), PAUSE, said(lines[2]), PAUSE, ANSWER))
        self.see(shown, "nested table 3: height 26 so far, lower bound 21, 50 % of the gap closed")
        self.see(shown, "nested table 3: height 40 so far, lower bound 20, 0 % of the gap closed")
        self.assertEqual(screen(shown.end(), 80), ["a", "lowest height 1 width 1", ""])

    def test_interrupt_ends_both(self):
        program = self.program(said(FIRST), "exec sleep 60\n")
        # The shell of a script goes on, and tells the status.
        command = ["bash", "-c", "trap : INT; \"$@\"; echo \"status $?\"", "bash", *START, "show", str(self.room / "in.html")]
        shown = common.OnTerminal(80, command, TABLELAYOUT=program, ROOM=str(self.room))
        shown.wait_for(DRAWN)
        shown.type(b"\x03")
        self.assertEqual(screen(shown.end(), 80), ["status 130", ""])
        self.assertTrue(self.has_ended())

    def test_interrupt_of_the_front_alone(self):
        shown = self.show(self.program(said(FIRST), "trap '' INT\nexec sleep 60\n"))
        shown.wait_for(DRAWN)
        shown.ran.send_signal(signal.SIGINT)
        self.assertEqual(screen(shown.end(), 80), [""])
        self.assertEqual(shown.ran.returncode, -signal.SIGINT)
        self.assertTrue(self.has_ended())

    def has_ended(self):
        """Whether the program has ended, for which nobody waits longer than some seconds."""
        pid = int((self.room / "pid").read_text())
        for _ in range(100):
            try:
                os.kill(pid, 0)
            except ProcessLookupError:
                return True
            time.sleep(0.05)
        return False

    def test_asked_for_only_where_it_is_drawn(self):
        program = self.program(said(FIRST), ANSWER)
        asked = f"lay 80 --style rule --break fit --align auto {len(TABLE)}"
        self.assertEqual(screen(self.show(program, "--quiet").end(), 80)[-2:], ["a", ""])
        environment = {**common.environment_of_test(), "TABLELAYOUT": program, "ROOM": str(self.room), "COLUMNS": "80"}
        for more, words in ([], "batch"), (["--progress"], "batch --progress"):
            ran = subprocess.run([*START, "show", str(self.room / "in.html"), *more], stdout=subprocess.PIPE, stderr=subprocess.PIPE,
                                 check=False, env=environment)
            # Into a pipe the line comes as the program writes it.
            self.assertEqual((ran.stdout, ran.stderr.decode(), ran.returncode), (b"a\n", FIRST + "\n", 0))
            self.assertEqual(self.asked()[-1], f"{words}: {asked}")
        self.assertEqual(self.asked()[0], f"batch: {asked}")
        self.assertIn(DRAWN, self.show(program, "--quiet", "--progress").end())

    def test_program_that_dies(self):
        shown = self.show(self.program(said(FIRST, "it dies"), "exit 3\n"))
        self.assertEqual(screen(shown.end(), 80), ["it dies", "the program ended in the middle of a request", ""])
        self.assertEqual(shown.ran.returncode, 1)

    def test_much_on_standard_error(self):
        # More than a pipe holds, while a file comes of which a pipe does not hold all.
        (self.room / "in.html").write_bytes(b"<table><tr><td>" + b"a " * 200_000 + b"</table>")
        count, line = 3000, "x" * 70
        shown = self.show(common.script(self.room, "program", f"seq {count} | sed 's/.*/{line}/' >&2\n" + ASKED + said(FIRST) + ANSWER))
        self.assertEqual(screen(shown.end(), 80), [line] * count + ["a", "lowest height 1 width 1", ""])

    @unittest.skipUnless(os.path.isdir("/proc/self/fd"), "descriptors are not listed")
    def test_leaves_no_descriptor(self):
        before = os.listdir("/proc/self/fd")
        os.environ["ROOM"] = str(self.room)
        self.addCleanup(os.environ.pop, "ROOM")
        program = self.program(ANSWER)
        with tablelayout.Layouter([program], ProgressLine()) as layouter:
            self.assertEqual(layouter.lay(html=TABLE).text, "a\n")
            child = os.fork()
            if child == 0:
                # It takes nothing that the parent's program says, and starts one of its own.
                is_right = layouter.pid is None and layouter.lay(html=TABLE).text == "a\n"
                layouter.close()
                os._exit(0 if is_right else 1)
            self.assertEqual(os.waitpid(child, 0)[1], 0)
            self.assertEqual(layouter.lay(html=TABLE).text, "a\n")
        self.assertEqual(os.listdir("/proc/self/fd"), before)


class Drawing(unittest.TestCase):
    def drawn(self, columns, *lines):
        """What stands on the terminal after each of these lines, and at the end."""
        came, line, seen = [], ProgressLine(), []
        with mock.patch.object(terminal, "columns_of_errors", lambda: columns), mock.patch.object(terminal, "write_error", came.append):
            for it in lines:
                line.take(it.encode() + b"\n")
                seen.append(screen(b"".join(came).decode(), columns))
            line.end()
        return seen, screen(b"".join(came).decode(), columns)

    def test_shorter_lines_leave_nothing_of_longer_ones(self):
        lines = [f"progress table 0 cuts {64 << number} height {height} lower 1" for number, height in enumerate((1000000, 20, 2, 1))]
        seen, last = self.drawn(80, *lines)
        self.assertEqual(seen, [[f"height {height} so far, lower bound 1, {closed} % of the gap closed"]
                                for height, closed in (("1,000,000", 0), ("20", 99), ("2", 99), ("1", 100))])
        self.assertEqual(last, [""])

    def test_no_gap(self):
        self.assertEqual(self.drawn(80, "progress table 0 cuts 64 height 5 lower 5")[0], [["height 5 so far, lower bound 5, 100 % of the gap closed"]])

    def test_terminals_of_few_columns(self):
        for columns in range(1, 30):
            with self.subTest(columns=columns):
                seen, last = self.drawn(columns, FIRST, LATER)
                self.assertEqual((len(seen[0]), len(seen[1]), last), (1, 1, [""]))

    def test_interrupts_are_written_behind_it(self):
        for columns in (3, 5, 40, 80):
            came = []
            with mock.patch.object(terminal, "columns_of_errors", lambda columns=columns: columns), mock.patch.object(terminal, "write_error", came.append):
                line = ProgressLine()
                line.take(FIRST.encode())
                came.append(b"^C")
                line.end()
            self.assertEqual(screen(b"".join(came).decode(), columns), ["" if columns > 3 else "^C"])


class Steps(unittest.TestCase):
    def test_lines(self):
        self.assertEqual(step_of(FIRST.encode() + b"\n"), Step(0, 64, 1369, 369))
        for line in (b"", b"\n", b"progress", b"progress table 0", b"progress table 0 cuts 64 height 9 lower", b"progress table 0 cuts 64 height 9 lower x",
                     b"progress table 0 cuts 64 lower 9 height 10", FIRST.encode() + b" more 1", b"no " + FIRST.encode(), b"\xff progress"):
            with self.subTest(line=line):
                self.assertIsNone(step_of(line))


if __name__ == "__main__":
    unittest.main()
