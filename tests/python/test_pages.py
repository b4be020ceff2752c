"""Pages in rich and Jupyter, and frames."""
import unittest

import common

import tablelayout
from tablelayout import bold

try:
    import rich.console
    import rich.table
except ImportError:
    rich = None

ROWS = [["Item", "Where it is kept"], ["rope", "on the third shelf"]]


class PandasFrame:
    """Iterates as a frame of pandas."""

    columns = ["a", 2]

    def itertuples(self, index, name):
        assert not index and name is None
        return iter([("x", 1), (float("nan"), None)])


class PolarsFrame:
    """Iterates as a frame of polars."""

    columns = ["a", "b"]

    def iter_rows(self):
        return iter([("x", 1.5), (None, True)])


class Pages(unittest.TestCase):
    def setUp(self):
        self.layouter = tablelayout.Layouter(common.COMMAND)
        self.addCleanup(self.layouter.close)

    def test_html(self):
        page = self.layouter.lay(ROWS, 20, head=True)
        wanted = common.run("lay", 20, tablelayout.rows.csv_of(ROWS)[0], "--csv", "--head", "--html")[2].decode()
        self.assertEqual(page._repr_html_(), wanted)
        self.assertEqual(page._repr_mimebundle_(include=None), {"text/plain": str(page), "text/html": wanted})
        self.assertEqual(self.layouter.lay(html=wanted, width=20).text, page.text)

    def test_html_of_others(self):
        for page in (self.layouter.narrow(ROWS, 2), self.layouter.tidy(ROWS, 20)):
            self.assertIn("<td><p>rope</p></td>", page.html)

    def test_head_in_bold(self):
        for data, width, height in ((b"a b,c\nd,eeee eeee\n", 6, 2), (b"a,b\nc,d\n", 9, 1), (b"a,b c d\nc,d\n", 4, 3)):
            page = self.layouter.lay(csv=data, width=width, head=True, style="compact")
            self.assertEqual(bold.head_height(self.layouter, page, tablelayout.Options("compact")), height, page.text)
        for html, height in (("<caption>c c</caption><tr><th>a<th>b<tr><td>dd<td>e", 2), ("<tr><th>a<td>b", 0),
                             ("<tr><th colspan=2>a<tr><td>b<td>c", 0), ("<tr><th>a<table><tr><td>x</table><th>b<tr><td>b<td>c", 0)):
            page = self.layouter.lay(html=f"<table>{html}</table>", width=4, style="compact")
            self.assertEqual(bold.head_height(self.layouter, page, tablelayout.Options("compact")), height, page.text)
        self.assertEqual(bold.bolded("a\n\nb\n", 2), "\x1b[1ma\x1b[0m\n\nb\n")

    def test_repr(self):
        page = self.layouter.lay(ROWS, 40)
        self.assertEqual(repr(page), "<LowPage: lowest height 2 width 24>")

    @unittest.skipIf(rich is None, "there is no rich")
    def test_rich(self):
        page = self.layouter.lay(ROWS, 72)
        for width in (14, 40):
            console = rich.console.Console(width=width, no_color=True, legacy_windows=False)
            with console.capture() as captured:
                console.print(page)
            self.assertEqual(captured.get(), self.layouter.lay(ROWS, width).text)

    @unittest.skipIf(rich is None, "there is no rich")
    def test_rich_in_a_table(self):
        outer = rich.table.Table.grid()
        outer.add_row(self.layouter.lay(ROWS, 72), "|")
        console = rich.console.Console(width=15, no_color=True, legacy_windows=False)
        with console.capture() as captured:
            console.print(outer)
        for line in self.layouter.lay(ROWS, 14).text.splitlines():
            self.assertIn(line.rstrip(), captured.get())

    def test_frames(self):
        page = self.layouter.lay(PandasFrame(), 20, style="compact")
        self.assertEqual([it.split() for it in page.text.splitlines()], [["a", "2"], ["x", "1"]])
        self.assertIn("<th><p>a</p></th>", page.html)
        page = self.layouter.lay(PolarsFrame(), 20, style="compact")
        self.assertEqual([it.split() for it in page.text.splitlines()], [["a", "b"], ["x", "1.5"], ["True"]])


if __name__ == "__main__":
    unittest.main()
