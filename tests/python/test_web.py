"""Pages of HTML as the files that the program reads: no text is lost, and cells stand where a browser has them."""
import re
import subprocess
import unittest

import common
from own_text import characters, lost, own_text, written_text

from tablelayout import flow, forming, subset, texts, web, web_items


def table_of(html):
    return web.tables_of(web.parse(html.encode()))[0]


def formed(html):
    return forming.form(table_of(html))


def written(content):
    """What a cell with this content becomes, with `_` for a space at which no line breaks."""
    html = subset.table_html(formed(f"<table><tr><td>{content}</table>"))
    return re.search(r"<td>(.*)</td>", html, re.S)[1].replace(texts.BLANK, "_")


def page(html, width=60):
    file = subset.file_of(subset.table_html(formed(html)))
    ran = subprocess.run([common.PROGRAM, "lay", str(width), "/dev/stdin", "/dev/stdout", "--style", "compact"], input=file.data,
                         stdout=subprocess.PIPE, check=False)
    lines = file.shown(ran.stdout.decode()).splitlines()
    return [it.rstrip() for it in lines[:-1]] if ran.returncode == 0 else lines


@common.needs_parser
class Cells(unittest.TestCase):
    def test_content(self):
        for content, wanted in (
            ("a  <b>b</b>\n<i> c</i>", "<p>a b c</p>"),
            ("a<b>b</b>c", "<p>abc</p>"),
            ("<p>a<p>b<div>c</div>d", "<p>a</p><p>b</p><p>c</p><p>d</p>"),
            ("a<br>b<br><br>c<br>", "<p>a<br>b</p><p>c</p>"),
            ("<ul><li>a<li>b b<p>c</ul>d", "<p>-_a</p><p>-_b b</p><p>__c</p><p>d</p>"),
            ("<ol start=9><li>a<li>b<li value=2>c</ol>", "<p>9._a</p><p>10._b</p><p>2._c</p>"),
            ("<ol reversed><li>a<li>b</ol>", "<p>2._a</p><p>1._b</p>"),
            ("<ol type=i><li>a<li>b<li>c<li>d</ol>", "<p>i._a</p><p>ii._b</p><p>iii._c</p><p>iv._d</p>"),
            ("<ol type=A start=26><li>a<li>b</ol>", "<p>Z._a</p><p>AA._b</p>"),
            ("<ul><li><ul><li>a</ul><li></ul>", "<p>-_-_a</p><p>-</p>"),
            ("<ul><li>a<ol><li>b</ol></ul>", "<p>-_a</p><p>__1._b</p>"),
            ("<dl><dt>a<dd>b<dd>c</dl>", "<p>a</p><p>__b</p><p>__c</p>"),
            ("<blockquote>a<blockquote>b</blockquote></blockquote>", "<p>__a</p><p>____b</p>"),
            ("<pre>\na  b\n\tc\n\n d \n</pre>", "<p>a_ b<br>________c<br>_<br>_d</p>"),
            ("<pre>a\r\nb</pre>", "<p>a<br>b</p>"),
            ("<pre>ab\tc</pre>", "<p>ab_____ c</p>"),
            ("a <code>x  y</code>", "<p>a x y</p>"),
            ("<a href=x>a</a> <img src=x alt='b c'><img src=x alt=''><img src=x><img title=t>", "<p>a [b c][t]</p>"),
            ("a<hr>b", "<p>a</p><p>-----</p><p>b</p>"),
            ("<h1>a</h1>b<h2>c</h2>", "<p>a</p><p>b</p><p>c</p>"),
            ("x<sup>2</sup> H<sub>2</sub>O a<sup>n</sup> <sub>i j</sub> <sup></sup>", "<p>x² H₂O a^(n) _(i j)</p>"),
            ("<q>a</q> <ruby>b<rp>(<rt>c<rp>)</ruby>", "<p>“a” b(c)</p>"),
            ("<input value=a><input type=hidden value=b><input type=checkbox checked><input type=radio>", "<p>a[x]( )</p>"),
            ("<input type=submit><input type=button value=b><input placeholder=c><input type=image alt=d>", "<p>[Submit][b]c[d]</p>"),
            ("<select><option>a<option selected>b</select> <select multiple><option>c<option>d</select>", "<p>b c, d</p>"),
            ("<textarea>\na\n b</textarea><button>c</button>", "<p>a<br>_bc</p>"),
            ("a<script>b</script><style>c</style><template>d</template><p hidden>e</p><!-- f -->g", "<p>ag</p>"),
            ("<details><summary>a</summary>b</details><dialog>c</dialog><dialog open>d</dialog>", "<p>a</p><p>b</p><p>d</p>"),
            ("<svg><title>a</title><text>b</text></svg><math><mi>c</mi><annotation>d</annotation></math>", "<p>bc</p>"),
            ("<noscript>a</noscript><iframe>b</iframe><object>c</object>", "<p>ac</p>"),
            ("&lt;td&gt; &amp;amp; &copy; &nbsp; &#x80; &#1;", "<p>&lt;td&gt; &amp;amp; © \u00a0 € \ufffd</p>"),
            ("a\u202eb<p>c\u2067d\u202ae", "<p>a\u202eb\u202c</p><p>c\u2067d\u202ae\u202c\u2069</p>"),
            ("a<table><tr><td>b</table>c", "<p>a</p><table>\n<tbody>\n<tr><td><p>b</p></td></tr>\n</tbody>\n</table>\n<p>c</p>"),
            ("<ul><li><table><tr><td>b</table></ul>", "<p>-</p><table>\n<tbody>\n<tr><td><p>b</p></td></tr>\n</tbody>\n</table>\n"),
            ("<b><font><table><tr><td>b</table></font></b>", "<table>\n<tbody>\n<tr><td><p>b</p></td></tr>\n</tbody>\n</table>\n"),
        ):
            with self.subTest(content=content):
                self.assertEqual(written(content), wanted)

    def test_no_text_is_lost(self):
        cell = table_of("<table><tr><td>a<ul><li>b<sup>2n</sup><b>c<p>d</b>e<pre>f\tg\n</pre><table><tr><th>h</table>i<q>j</table>")
        for part in (it.element for row in forming.form(cell).rows for it in row):
            self.assertEqual(lost(characters(own_text(part)), characters(written_text(subset.flow_html(flow.blocks_of(part))))), "")
        self.assertEqual(lost("abc", "xaxbc"), "")
        self.assertEqual(lost("abc", "acb"), "abc")

    def test_deep_nesting(self):
        self.assertIn("deep", subset.table_html(formed("<table><tr><td>" + "<div>" * 5000 + "deep")))

    def test_blank(self):
        file = subset.file_of(subset.table_html(formed("<table><tr><td>\ufdd0<ul><li>a</ul></table>")))
        self.assertEqual(file.blank, "\ufdd1")
        self.assertIn("-\ufdd1a", file.data.decode())
        self.assertEqual(file.shown("\ufdd0-\ufdd1a"), "\ufdd0- a")


@common.needs_parser
class Tables(unittest.TestCase):
    def test_places(self):
        for rows, wanted in (
            # The later cell ends before the one that covers its place.
            ("<tr><td>A<td rowspan=2>B<tr><td colspan=2>C", ["A B", "C"]),
            ("<tr><td rowspan=2>A<td>B<tr><td>C<td>D", ["A B", "  C D"]),
            ("<td>A<tr><td>B", ["A", "B"]),
            ("<tr><td rowspan=0>A<td>B<tr><td>C<tbody><tr><td>D<td>E", ["A B", "  C", "D E"]),
            ("<tfoot><tr><td>F</tfoot><tr><td>A", ["A", "F"]),
            ("<caption>Cap</caption><tr><td>A<tr hidden><td>no", ["Cap", "A"]),
            ("<tr><td colspan=0>A<td colspan=1001 rowspan=x>B<tr><td>C<td>D", ["A B", "C D"]),
        ):
            with self.subTest(rows=rows):
                self.assertEqual(page(f"<table>{rows}</table>"), wanted)

    def test_sides(self):
        for attributes, wanted in (
            ("align=right", " align=right"), ("ALIGN=Center", " align=center"), ("align=middle", " align=center"), ("align=left align=right", " align=left"),
            # White space is not left out, and what is no side is as if it were not there.
            ("align=' right'", ""), ("align='right '", ""), ("align=justify", ""), ("align", ""), ("valign=top", ""),
            # A style counts more than the attribute, and the last of two styles.
            ("style='text-align: right' align=left", " align=right"), ("style='color: red;TEXT-ALIGN : Center ;'", " align=center"),
            ("style='text-align:left; text-align:right !important'", " align=right"), ("style='text-align: start' align=left", " align=left"),
            ("style='text-align: right x'", ""), ("style='-x-text-align: right'", ""), ("style='text-align-last: right'", ""),
            ("rowspan=2 colspan=2 data-min=5 align=right", " colspan=2 align=right"),
        ):
            for name in ("td", "th"):
                with self.subTest(name=name, attributes=attributes):
                    self.assertIn(f"<tr><{name}{wanted}><p>a</p>", subset.table_html(formed(f"<table><tr><{name} {attributes}>a</table>")))
        # Cells alone ask for a side, each for its own.
        others = "<table align=right><caption align=right>a<tbody align=right><tr align=right><td>"
        html = subset.table_html(formed(f"{others}<p align=right>b</p><table align=right><tr><td align=center>c<td>d</table>"))
        self.assertEqual(html.count("align"), 1)
        self.assertIn("<td><p>b</p><table>\n<tbody>\n<tr><td align=center><p>c</p></td><td><p>d</p></td></tr>", html)

    def test_size(self):
        table = forming.form(table_of("<table><tr><td rowspan=2 colspan=2>A<td>B<tr><td>C<td>D</table>"))
        self.assertEqual((len(table.rows), table.columns), (2, 4))

    def test_tables_of_a_page(self):
        html = "<?xml version='1.0'?><!DOCTYPE html><p>x<table><tr><td>1<table><tr><td>2</table></table><table hidden></table><div><table></table>"
        tables = web.tables_of(web.parse(html.encode()))
        self.assertEqual([characters(own_text(it)) for it in tables], ["12", ""])

    def test_misplaced_text_is_before_the_table(self):
        tree = web.parse(b"<body><table>stray<tr><td>a</table>")
        self.assertEqual(characters(own_text(web.tables_of(tree)[0])), "a")

    def test_encodings(self):
        for data, wanted in (
            (b"<meta charset=iso-8859-15><table><tr><td>\xa4", "€"),
            ("<table><tr><td>é".encode(), "é"),
            (b"<table><tr><td>\xe9\x80", "é€"),
            ("\ufeff<table><tr><td>é".encode("utf-16-le"), "é"),
            ("<meta http-equiv=content-type content='text/html; charset=shift_jis'><table><tr><td>日本".encode("shift_jis"), "日本"),
        ):
            with self.subTest(data=data):
                self.assertEqual(characters(own_text(web.tables_of(web.parse(data))[0])), wanted)
        self.assertEqual(own_text(web.tables_of(web.parse(b"<table><tr><td>\xe9", "iso-8859-7"))[0]).strip(), "ι")


def item_of(html):
    return web_items.item_of(table_of(html))


@common.needs_parser
class Limits(unittest.TestCase):
    def refusal(self, item):
        """What the program says of an item on a page of one column, which no layout fits."""
        ran = subprocess.run([common.PROGRAM, "lay", "1", "/dev/stdin", "/dev/null"], input=item.source.data, stdout=subprocess.PIPE,
                             check=False)
        return "" if ran.returncode in (0, 4) else ran.stdout.decode()

    def test_rows(self):
        item = item_of("<table>" + "<tr><td>ab" * 2100 + "</table>")
        self.assertEqual((self.refusal(item), item.more, item.rows), ("", "100 more rows", 2100))
        self.assertEqual(item_of("<table>" + ("<tr>" + "<td>ab" * 30) * 700 + "</table>").more, "34 more rows")

    def test_columns(self):
        item = item_of("<table><tr>" + "<td colspan=2>ab" * 61 + "<tr><td colspan=130>ab</table>")
        self.assertEqual((self.refusal(item), item.more), ("", "1 more column"))

    def test_bytes(self):
        item = item_of("<table>" + f"<tr><td>{'word ' * 200}" * 1500 + "</table>")
        self.assertLess(len(item.source.data), 1 << 20)
        self.assertIn("more rows", item.more)

    def test_nested(self):
        for html in ("<table><tr><td>xy" * 12, "<table><tr><td>xy" * 800, "<table><tr><td>" + "<table><tr><td>xy</table>" * 250,
                     "<table><tr><td><table>" + "<tr><td>xy" * 2100):
            item = item_of(html)
            self.assertEqual((self.refusal(item), item.more), ("", ""))
            self.assertEqual(written_text(item.source.data.decode()).count("xy"), html.count("xy"))


class Marks(unittest.TestCase):
    def test_ends_of_marks(self):
        for text, wanted in (("a", ""), ("\u202ea", "\u202c"), ("\u202ea\u202c", ""), ("\u2066\u202a\u2069", ""), ("\u2069\u202c", ""),
                             ("\u202a\u2067x\u202c", "\u2069\u202c"), ("\u2068\u2068\u2069", "\u2069")):
            with self.subTest(text=text):
                self.assertEqual(texts.ends_of_marks(text), wanted)


if __name__ == "__main__":
    unittest.main()
