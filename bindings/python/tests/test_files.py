"""CSV and files of rows, read and written; the quick way against the careful one; output that is whole or not there."""

import io
import os
import random
import tempfile
import unittest
from fractions import Fraction
from pathlib import Path

import numpy as np

import rowstation as station
from rowstation import csvfile, rowfile
from rowstation.cells import FORMS, quantised, read_column, write_column
from rowstation.csvfile import Table
from rowstation.files import Progress, Trouble, Unusable, opened, written
from rowstation.rowfile import RowReader, RowWriter


def table(text, **words):
    data = text if isinstance(text, bytes) else text.encode()
    return Table("f.csv", io.BytesIO(data), **words)


def columns(text, schema, null="", **words):
    """The columns of a CSV text as lists, and the lines of its rows."""
    schema = station.Schema(schema)
    read = table(text, **words)
    indices = [read.index(name) for name in schema.names]
    parts, lines = [station.Rows.of(schema, [])], []
    for block in read.blocks():
        parts.append(station.encode(schema, [read_column(c, block, i, null, "f.csv") for c, i in zip(schema, indices)]))
        lines += block.lines.tolist()
    return [values.tolist() for values in station.Rows.concatenated(parts).decode().values()], lines


class Small:
    """Blocks of a few bytes, so that their edges fall everywhere."""

    def __init__(self, size):
        self.size = size

    def __enter__(self):
        self.kept = csvfile.BLOCK_BYTES, csvfile.BLOCK_ROWS, rowfile.BLOCK_BYTES, rowfile.BLOCK_ROWS
        csvfile.BLOCK_BYTES = csvfile.BLOCK_ROWS = rowfile.BLOCK_BYTES = rowfile.BLOCK_ROWS = self.size

    def __exit__(self, *_):
        csvfile.BLOCK_BYTES, csvfile.BLOCK_ROWS, rowfile.BLOCK_BYTES, rowfile.BLOCK_ROWS = self.kept


class Read(unittest.TestCase):
    def test_plain(self):
        text = "plate,other,glyph\n7,x,ae\n8,y,\n,z,ß\n"
        wanted = [[7, 8, None], ["ae", None, "ß"]]
        for given in (text, text[:-1], text.replace("\n", "\r\n"), "\ufeff" + text, text.replace("ae", '"ae"'), text + "\n\n", '"plate"' + text[5:]):
            for size in (1, 7, 1 << 20):
                with Small(size), self.subTest(given=given, size=size):
                    self.assertEqual(columns(given, "plate:u8,glyph:text")[0], wanted)
        self.assertEqual(columns(text, "glyph:text,plate:u8")[0], wanted[::-1])
        self.assertEqual(columns(text.encode("latin-1"), "plate:u8,glyph:text", encoding="latin-1")[0], wanted)
        self.assertEqual(columns(text.encode("utf-16"), "plate:u8,glyph:text", encoding="utf-16")[0], wanted)
        self.assertEqual(columns(text.replace(",", ";"), "plate:u8,glyph:text", delimiter=";")[0], wanted)
        self.assertEqual(columns(text.replace(",", "\t"), "plate:u8,glyph:text", delimiter="\t")[0], wanted)

    def test_lines(self):
        text = 'a,b\n1,x\n\n2,"y\nz"\n3,w\n'
        self.assertEqual(columns(text, "a:u8,b:text"), ([[1, 2, 3], ["x", "y\nz", "w"]], [2, 5, 6]))
        self.assertEqual(columns("a\n1\n\n2\n", "a:u8"), ([[1, 2]], [2, 4]))

    def test_nulls(self):
        self.assertEqual(columns("a,b\nNA,NA\n1,\n", "a:u8,b:text", null="NA")[0], [[None, 1], [None, ""]])
        self.assertEqual(columns("a,b\nNA,NA\n1,xy\n", "a:i64,b:text", null="NA")[0], [[None, 1], [None, "xy"]])
        with self.assertRaisesRegex(Trouble, "line 3, column a: '' is no u8"):
            columns("a\n1\n\"\"\n", "a:u8", null="NA")

    def test_no_rows(self):
        self.assertEqual(columns("a,b\n", "a:u8,b:text"), ([[], []], []))
        self.assertEqual(columns("a,b", "a:u8,b:text"), ([[], []], []))

    def test_every_family(self):
        text = ("x,y,z,w,v,u\n true ,-1, 1e3,0 1 -5,00ff,6162\nFALSE,+2,.5,\"0  1\t2\",\"\",6364\n1,9223372036854775807,-inf,1 2 3,0A,0000\n"
                "0,-9223372036854775808,nan,-1 -2 -3,,ffff\n")
        got = columns(text, "x:bool,y:i64,z:f64,w:month_day_nano,v:bytes,u:fixed:2")[0]
        self.assertEqual(got[0], [True, False, True, False])
        self.assertEqual(got[1], [-1, 2, 2**63 - 1, -(2**63)])
        self.assertEqual(repr(got[2]), "[1000.0, 0.5, -inf, nan]")
        self.assertEqual(got[3], [(0, 1, -5), (0, 1, 2), (1, 2, 3), (-1, -2, -3)])
        self.assertEqual(got[4], [b"\0\xff", None, b"\n", None])
        self.assertEqual(got[5], [b"ab", b"cd", b"\0\0", b"\xff\xff"])
        self.assertEqual(columns("y\n18446744073709551615\n", "y:u64")[0], [[2**64 - 1]])

    def test_quick_and_careful_agree(self):
        rnd = random.Random(8)
        cells = {
            "u8": ["0", "255", "256", "-1", "+7", " 8", "9 ", "1_0", "1.0", "1e2", "", "x", "٣", "00012", "99999999999999999999999"],
            "f32": ["0", "1.5", "-2e3", ".5", "5.", ".", "1e", "1e400", "1e39", "nan", "-nan", "inf", "1_0", "0x10", "", "nan:7fc00001",
                    "nan:00000000", "--1", "1 2"],
            "day_time": ["1 2", "1", "1 2 3", "-1 -2", "1  2", " 1 2", "1 x", "", "1_0 2", "2147483648 0", "1,2"],
            "text": ["a", "", "ß", "a,b", "NA"],
        }
        for _ in range(400):
            kind = rnd.choice(list(cells))
            some = [rnd.choice(cells[kind][: rnd.choice([3, len(cells[kind])])]) for _ in range(rnd.randrange(1, 6))]
            plain = [cell for cell in some if "," not in cell] or ["1"]
            quick = "a,b\n" + "".join(f"{cell},1\n" for cell in plain)
            careful = "a,b\n" + "".join(f'"{cell}",1\n' for cell in plain)
            results = []
            for text in (quick, careful):
                try:
                    results.append(repr(columns(text, f"a:{kind},b:u8")))
                except Trouble as trouble:
                    results.append(str(trouble))
            with self.subTest(kind=kind, cells=plain):
                self.assertEqual(*results)

    def test_trouble(self):
        for text, words, pattern in (
            ("", {}, "f.csv, line 1: the file is empty"),
            ("\n\n", {}, "f.csv, line 1: the file is empty"),
            ("x,y\n1,2\n", {}, "f.csv, line 1, column a: there is no column a; the names are x, y"),
            ("a,a\n1,2\n", {}, "line 1, column a: there is 2 columns a"),
            ("a,b\n1,2\n300,4\n", {}, "f.csv, line 3, column a: 300 does not fit u8, 0 to 255"),
            ("a,b\n1,2\nx,4\n", {}, "f.csv, line 3, column a: 'x' is no u8"),
            ("a,b\n1,2\n3\n", {}, "f.csv, line 3: 1 cells, and there are 2 names"),
            ("a,b\n1,2\n3,4,5\n", {}, "f.csv, line 3: 3 cells, and there are 2 names"),
            ('a,b\n1,"2\n3,4\n', {}, "f.csv, line 3: this is no CSV: unexpected end of data"),
            ('a,b\n1,"2"x\n', {}, "f.csv, line 2: this is no CSV"),
            ("a,b\n1,2\n3,\xe4\n".encode("latin-1"), {}, "f.csv, line 3: byte E4 is not UTF-8; say with --encoding"),
            ("a,b\n1,2\n".encode("utf-16"), {}, "f.csv, line 1: byte FF is not UTF-8"),
            (b"a,b\n1,2\n3,\x81\n", {"encoding": "cp1252"}, "f.csv, line 3: byte 81 is not cp1252"),
            ("a,b\n1\r2,2\n", {}, "line 2"),
            ("a,b\n1,2\nx,4\n5\n", {}, "f.csv, line 3, column a: 'x' is no u8"),
        ):
            with self.subTest(text=text), self.assertRaisesRegex(Trouble, pattern) as caught:
                columns(text, "a:u8", **words)
            self.assertNotIn("\n", str(caught.exception))

    def test_open_end(self):
        for text, wanted in (("a\n1\n2", True), ("a\n1\n2\n", False)):
            read = table(text)
            list(read.blocks())
            self.assertEqual(read.open_end, wanted)


class Cells(unittest.TestCase):
    def test_what_is_written_reads_back(self):
        rng = np.random.default_rng(9)
        for kind, bits in (("f16", "<u2"), ("f32", "<u4"), ("f64", "<u8")):
            schema = station.Schema([("x", kind)])
            values = rng.integers(0, 2 ** (8 * np.dtype(bits).itemsize), 3000, np.uint64).astype(bits)
            rows = station.encode(schema, {"x": values.view(schema.columns[0].kind.dtype)})
            words = write_column(schema.columns[0], rows.decode()["x"], "")
            text = "x\n" + "".join(f"{word}\n" for word in words)
            read = next(table(text).blocks())
            self.assertEqual(station.encode(schema, [read_column(schema.columns[0], read, 0, "", "f.csv")]), rows)

    def test_every_family_has_its_form(self):
        self.assertEqual(set(FORMS), {kind.family for kind in station.KINDS.values()})

    def test_a_text_that_reads_as_null(self):
        column = station.Schema("a:text").columns[0]
        values = station.ByteColumn.of(["x", "", None], text=True)
        with self.assertRaisesRegex(station.BadValue, "row 1: the value '' would be read as null"):
            write_column(column, values, "")
        self.assertEqual(write_column(column, values, "NA"), ["x", "", "NA"])
        number = station.Schema("a:u8").columns[0]
        with self.assertRaisesRegex(station.BadValue, "row 1: the value '0' would be read as null"):
            write_column(number, np.ma.array([5, 0], mask=[True, False]), "0")
        self.assertEqual(write_column(number, np.ma.array([5, 0], mask=[True, False]), "None"), ["None", "0"])
        with self.assertRaisesRegex(station.BadValue, "row 0: the value '' would be read as null"):
            write_column(station.Schema("a:bytes").columns[0], station.ByteColumn.of([b""]), "")
        with self.assertRaisesRegex(station.BadValue, "row 1: the value is not UTF-8"):
            write_column(column, station.ByteColumn(np.frombuffer(b"a\xff", np.uint8), [0, 1, 2], text=True), "")

    def test_quantised(self):
        step = Fraction("0.01")
        values = np.array([0.004999, 0.005001, -0.0, 1e300, -1e300, np.inf, -np.nan, 57 * 0.01])
        got = quantised(values, step)
        self.assertEqual(got.tolist()[:6], [0.0, 0.01, 0.0, 1e300, -1e300, np.inf])
        self.assertFalse(np.signbit(got[[0, 2, 6]]).any())
        self.assertEqual(got[7], 0.57)
        self.assertEqual(quantised(np.array([7.0, 12.0]), Fraction(5)).tolist(), [5.0, 10.0])
        near = np.random.default_rng(10).normal(0, 1000, 10_000).round(2)
        self.assertTrue((quantised(near + 1e-7, step) == quantised(near - 1e-7, step)).all())


class RowFiles(unittest.TestCase):
    rows = station.Rows.of(None, [b"\1\2", b"", b"\xff" * 40] * 50)

    def written(self, form, rows):
        out = io.BytesIO()
        writer = RowWriter(out, form)
        writer.write(rows)
        writer.write(rows[:0])
        writer.finish()
        return out.getvalue()

    def read(self, data):
        return RowReader("f.rows", io.BytesIO(data)).all()

    def test_back(self):
        for form in rowfile.FORMATS:
            for rows in (self.rows, self.rows[:0], self.rows[7:9]):
                for size in (1, 5, 1 << 20):
                    with Small(size):
                        self.assertEqual(list(self.read(self.written(form, rows))), list(rows))
        self.assertEqual(list(self.read(b"0A0b\r\nFF\r\n")), [b"\n\x0b", b"\xff"])

    def test_trouble(self):
        binary = self.written("binary", self.rows)
        for data, pattern in (
            (b"00\n0g\n", "f.rows, line 2: 'g', character 2, is no hex digit"),
            (b"00\n000\n", "f.rows, line 2: 3 hex digits, and a byte has two"),
            (b"00\n00", "f.rows, line 2: the last line has no newline: the file is cut"),
            (b"\xffhello..", "f.rows, byte 0: neither hex lines nor a binary file of rows"),
            (binary[:-1], "f.rows, row 150: the file is cut, at byte"),
            (binary[:-4], "f.rows, row 150: the file is cut, at byte"),
            (binary[:100], "f.rows, row 0: the file is cut, at byte 100"),
            (binary + b"x", "f.rows, row 150: bytes follow the end"),
            (rowfile.MAGIC + b"\xff\xff\xff\xff", "f.rows, row 0: a block of 4294967295 rows, over 65536, at byte 8"),
        ):
            with self.subTest(data=data[:20]), self.assertRaisesRegex(Trouble, pattern):
                self.read(data)


class Output(unittest.TestCase):
    def test_whole_or_not_there(self):
        with tempfile.TemporaryDirectory() as name:
            path = Path(name, "out")
            path.write_text("old")
            with self.assertRaises(KeyError), written(str(path)) as file:
                file.write(b"half")
                raise KeyError
            self.assertEqual((os.listdir(name), path.read_text()), (["out"], "old"))
            with written(str(path)) as file:
                file.write(b"new")
                self.assertEqual(path.read_text(), "old")
            self.assertEqual((os.listdir(name), path.read_text()), (["out"], "new"))
            link = Path(name, "link")
            link.symlink_to("out")
            with written(str(link)) as file:
                file.write(b"through")
            self.assertEqual((link.is_symlink(), path.read_text()), (True, "through"))
            with self.assertRaisesRegex(Unusable, "cannot be written"), written(str(Path(name, "no", "out"))):
                pass

    def test_a_device_stays_one(self):
        with written(os.devnull) as file:
            file.write(b"x")
        self.assertFalse(os.path.isfile(os.devnull))

    def test_unreadable(self):
        for path in ("/no/such/file", "/"):
            with self.assertRaisesRegex(Unusable, "cannot be read"), opened(path) as file:
                file.read()


class Terminal(io.StringIO):
    def isatty(self):
        return True


class Bars(unittest.TestCase):
    def test_on_a_terminal(self):
        stream = Terminal()
        progress = Progress(stream, 0)
        with progress.step("reading", 10):
            progress.advance(5)
            with progress.step("encoding"):
                pass
        progress.clear()
        self.assertIn("reading [" + "#" * 15 + " " * 15 + "]  50%", stream.getvalue())
        self.assertIn("encoding ...", stream.getvalue())
        self.assertTrue(stream.getvalue().endswith("\r\x1b[K"))
        self.assertEqual(set(progress.seconds), {"reading", "encoding"})

    def test_elsewhere_nothing(self):
        stream = io.StringIO()
        progress = Progress(stream, 0)
        with progress.step("reading", 10):
            progress.advance(5)
        progress.clear()
        self.assertEqual(stream.getvalue(), "")

    def test_not_for_short_work(self):
        stream = Terminal()
        progress = Progress(stream)
        with progress.step("reading", 10):
            progress.advance(5)
        self.assertEqual(stream.getvalue(), "")


if __name__ == "__main__":
    unittest.main()
