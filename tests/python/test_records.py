"""CSV and JSON as they come."""
import unittest

import common

from tablelayout import decoding, json_values, kinds, records
from tablelayout.faults import BadChoice, BadFile
from tablelayout.rows import csv_of


class Decoding(unittest.TestCase):
    def test_encodings(self):
        text = "name,é\nx,日本\n"
        for data, wanted in (
            (text.encode(), (text, "utf-8", False)),
            (text.encode("utf-8-sig"), (text, "utf-8", False)),
            (text.encode("utf-16"), (text, "utf-16-le", False)),
            (b"\xfe\xff" + text.encode("utf-16-be"), (text, "utf-16-be", False)),
            (text.encode("utf-32"), (text, "utf-32-le", False)),
            ("name,a\n".encode("utf-16-le"), ("name,a\n", "utf-16-le", True)),
            ("name,a\n".encode("utf-16-be"), ("name,a\n", "utf-16-be", True)),
            (b"\xe9\x80,\x81", ("é€,\ufffd", "windows-1252", True)),
            (b"", ("", "utf-8", False)),
        ):
            with self.subTest(data=data):
                self.assertEqual(decoding.decode(data), wanted)
        self.assertEqual(decoding.decode(b"\xe9", "iso-8859-7").text, "ι")
        with self.assertRaises(LookupError):
            decoding.decode(b"", "none")


class Csv(unittest.TestCase):
    def test_delimiters(self):
        for text, wanted in (("a,b\nc,d\n", ","), ("a\tb\nc\td\n", "\t"), ("a;b,c\nd;e,f,g\n", ";"), ("a|b\nc|d\n", "|"), ("a\nb\n", ","),
                             ("a;b;c\nd;e\nf\n", ";"), ("name\nx; y\n", ","), ("", ","), ('"a;b",c\n"d;e",f\n', ","), ("1,5;2,5\n3,1;4\n", ";")):
            with self.subTest(text=text):
                self.assertEqual(records.find_delimiter(text), wanted)

    def test_records(self):
        for text, wanted in (
            ("a,b\nc\n", [["a", "b"], ["c", ""]]),
            ('a,"b\nc"\r\nd,"e ""f"""\r\n', [["a", "b\nc"], ["d", 'e "f"']]),
            ("a,b\n\n\nc,d", [["a", "b"], ["c", "d"]]),
            ("a,b\rc,d\r", [["a", "b"], ["c", "d"]]),
            ("a\u2028b,c\x0bd\x00e\n", [["a\u2028b", "c\ufffdd\ufffde"]]),
            ("a,b\nc,d,e\n", [["a", "b", ""], ["c", "d", "e"]]),
            ("", []),
        ):
            with self.subTest(text=text):
                self.assertEqual(records.read_csv(text, ",").records, wanted)

    def test_example(self):
        text = (common.TOP / "examples" / "settings.csv").read_text()
        found = records.read_csv(text, records.find_delimiter(text))
        self.assertEqual(([len(it) for it in found.records], found.records[2][1], found.notes), ([4] * 5, '"$user", public', []))

    def test_long_records_are_named(self):
        self.assertEqual(records.read_csv('a,b\n"c\n",d\n\ne,f,g\n', ",").notes, ["line 5 has 3 fields, and the first record 2"])

    def test_many_long_records_are_counted(self):
        notes = records.read_csv("a\n" + "b,c\n" * 9, ",").notes
        self.assertEqual((len(notes), notes[-1]), (6, "4 more lines have more fields than the first record"))

    def test_long_field(self):
        with self.assertRaises(BadFile):
            records.read_csv("a" * (1 << 25), ",")

    def test_rows_chosen(self):
        for text, wanted in (("5", (5, 5)), ("5-9", (5, 9)), ("5-", (5, 1 << 31))):
            self.assertEqual(records.rows_chosen(text), wanted)
        for text in ("", "0", "5-4", "a", "-5", "5-9-"):
            with self.subTest(text=text), self.assertRaises(BadChoice):
                records.rows_chosen(text)

    def test_columns_chosen(self):
        names = ["a", "b", "c-d", "e", "7"]
        for text, wanted in (("a", [0]), ("b-e,a", [1, 2, 3, 0]), ("c-d", [2]), ("2", [1]), ("2-4", [1, 2, 3]), ("e-b", [3, 2, 1]), ("7", [4])):
            with self.subTest(text=text):
                self.assertEqual(records.columns_chosen(text, names), wanted)
        for text in ("", "f", "0", "6", "a-", "-a"):
            with self.subTest(text=text), self.assertRaises(BadChoice):
                records.columns_chosen(text, names)

    def test_choose(self):
        table = [["a", "b"], ["1", "2"], ["3", "4"], ["5", "6"]]
        self.assertEqual(records.choose(table, True, records.Choice((2, 3), "b")), [["b"], ["4"], ["6"]])
        self.assertEqual(records.choose(table, False, records.Choice((1, 1))), [["a", "b"]])

    def test_first_part(self):
        part = records.first_part([["x"] * 70] * 500)
        self.assertEqual((len(part.records), len(part.records[0]), part.rest()), (333, 60, "167 more rows and 10 more columns"))
        part = records.first_part([["x"]] * 2001)
        self.assertEqual((len(part.records), part.rest()), (2000, "1 more row"))
        part = records.first_part([["é" * 1000]] * 600)
        self.assertEqual((len(part.records), part.rest()), (522, "78 more rows"))
        self.assertEqual(records.first_part([]).rest(), "")

    def test_first_part_is_within_the_limits(self):
        for table in ([["x"] * 70] * 2100, [['"' * 60, ","] * 5] * 2100, [["é" * 700, ""]] * 2100):
            part = records.first_part(table).records
            self.assertLessEqual(len(csv_of(part)[0]), 1 << 20)
            self.assertLessEqual(len(part), 2000)
            self.assertLessEqual(sum(map(len, part)), 20_000)


class Json(unittest.TestCase):
    def test_tables(self):
        for text, wanted in (
            ('[{"a": 1, "b": "x"}, {"b": null, "c": [1, "é"]}]', ([["a", "b", "c"], ["1", "x", ""], ["", "", '[1, "é"]']], True)),
            ('[["a", true], [1.5]]', ([["a", "true"], ["1.5", ""]], False)),
            ('{"a": 1, "b": {"c": 2}}', ([["a", "1"], ["b", '{"c": 2}']], False)),
            ('{"a": 1}\n\n{"b": 2}\n', ([["a", "b"], ["1", ""], ["", "2"]], True)),
            ("[1, 2]", ([["1"], ["2"]], False)),
        ):
            with self.subTest(text=text):
                self.assertEqual(json_values.read_json(text), wanted)
        self.assertEqual(json_values.read_json('{"a": 1}\n', True).records, [["a"], ["1"]])

    def test_no_tables(self):
        for text in ("", "{", "[]", "3", '{"a": 1}\n{"b"\n'):
            with self.subTest(text=text), self.assertRaises(BadFile):
                json_values.read_json(text)


class Kinds(unittest.TestCase):
    def test_names(self):
        for name, wanted in (("a.csv", "csv"), ("a.TSV", "csv"), ("a.html", "html"), ("b.jsonl", "jsonl"), ("c.docx", "pandoc")):
            self.assertEqual(kinds.kind_by_name(name).name, wanted)
        self.assertIsNone(kinds.kind_by_name("-"))

    def test_contents(self):
        for data, wanted in ((b"<!DOCTYPE html>", "html"), (b"\xef\xbb\xbf \n<table>", "html"), (b'[{"a": 1}]', "json"), (b"a,b\nc,d\n", "csv"),
                             (b"some text\nof two lines, of which one has a comma\n", "html"), (b"x <table><tr><td>", "html"), (b"", "html"),
                             (b"a,b\nc\0,d\n", "csv"), (bytes(9), "html")):
            with self.subTest(data=data):
                self.assertEqual(kinds.kind_by_content(data).name, wanted)


if __name__ == "__main__":
    unittest.main()
