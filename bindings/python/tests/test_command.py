"""The command as it is typed: what it writes, what it says, how it ends, and what it leaves behind."""

import csv
import io
import os
import pty
import random
import shutil
import signal
import subprocess
import sys
import tempfile
import time
import unittest
from pathlib import Path
from typing import NamedTuple
from unittest import mock

import numpy as np

import rowstation as station
from rowstation.command import COLUMNS, COMMANDS, main, parser

from . import EXAMPLES, PACKAGE, model

try:
    import matplotlib
except ImportError:
    matplotlib = None

KEY = "plate:u32,glyph:text,contour:u16,position:f64"
ENVIRONMENT = {**os.environ, "PYTHONPATH": str(PACKAGE), "COLUMNS": "140"}


class Run(NamedTuple):
    """How a run ended, and what it wrote."""

    returncode: int
    stdout: bytes
    stderr: bytes


class Stream(io.TextIOWrapper):
    """A stream that keeps its bytes."""

    def __init__(self, given=b""):
        super().__init__(io.BytesIO(given), "utf-8", write_through=True)

    def bytes(self):
        return self.buffer.getvalue()


class Typed(unittest.TestCase):
    def setUp(self):
        self.folder = Path(tempfile.mkdtemp())
        self.addCleanup(shutil.rmtree, self.folder)
        for name in ("a.csv", "b.csv"):
            shutil.copy(EXAMPLES / name, self.folder)

    def put(self, name, content):
        (self.folder / name).write_bytes(content if isinstance(content, bytes) else content.encode())

    def table(self, name):
        return list(csv.reader(io.StringIO((self.folder / name).read_text())))

    def run_it(self, *words, given=b""):
        """A run within this process, which is quick."""
        before = os.getcwd()
        streams = Stream(given), Stream(), Stream()
        os.chdir(self.folder)
        try:
            with mock.patch.multiple(sys, stdin=streams[0], stdout=streams[1], stderr=streams[2]):
                try:
                    status = main(words)
                except SystemExit as ended:
                    status = ended.code
        finally:
            os.chdir(before)
        return Run(status, streams[1].bytes(), streams[2].bytes())

    def run_apart(self, *words, **environment):
        """A run in a process of its own, as it is typed."""
        run = subprocess.run([sys.executable, "-m", "rowstation", *words], capture_output=True, cwd=self.folder,
                             env={**ENVIRONMENT, **environment}, check=False)
        return Run(run.returncode, run.stdout, run.stderr)

    def done(self, *words, given=b""):
        """What a run that goes well writes; it says nothing else."""
        run = self.run_it(*words, given=given)
        self.assertEqual((run.returncode, run.stderr.decode()), (0, ""))
        return run.stdout.decode()

    def refused(self, status, line, *words, given=b""):
        """A run that ends so: it says one line, writes nothing, and leaves nothing behind."""
        before = sorted(os.listdir(self.folder))
        run = self.run_it(*words, given=given)
        self.assertEqual((run.returncode, run.stdout), (status, b""), run.stderr.decode())
        self.assertEqual(run.stderr.decode(), f"rowstation: {line}\n")
        self.assertEqual(sorted(os.listdir(self.folder)), before)


class Rows(Typed):
    def test_in_a_process_of_its_own(self):
        self.assertEqual(self.run_apart("encode", "a.csv", "-o", "a.rows"), (0, b"", b""))
        self.assertEqual(self.run_apart("decode", "a.rows"), (0, (self.folder / "a.csv").read_bytes(), b""))
        run = self.run_apart("decode", "a.rows", "--columns", "plate:u8")
        self.assertEqual(run[:2], (1, b""))

    def test_there_and_back(self):
        for form in ("hex", "binary"):
            self.assertEqual(self.done("encode", "a.csv", "--format", form, "-o", "a.rows"), "")
            self.assertEqual(self.done("decode", "a.rows"), (self.folder / "a.csv").read_text())
            self.assertEqual(self.done("decode", "-", given=(self.folder / "a.rows").read_bytes()), (self.folder / "a.csv").read_text())
        self.assertEqual(sorted(os.listdir(self.folder)), ["a.csv", "a.rows", "b.csv"])

    def test_every_kind_there_and_back(self):
        rnd = random.Random(12)
        for trial in range(60):
            schema = model.some_schema(rnd, station.KINDS)
            values = [[model.some_value(rnd, column) for column in schema] for _ in range(rnd.choice([0, 1, 5, 40]))]
            texts = [i for i, column in enumerate(schema) if column.kind.name == "text"]
            for row in values:
                for i in texts:
                    words = ["", "a", "".join(rnd.choice('aß", ;\n\r\t\\N') for _ in range(rnd.randrange(9)))]
                    row[i] = rnd.choice(words if schema.columns[i].required else [None, *words])
            rows = station.encode(schema, [list(column) for column in zip(*values)] or [[]] * len(schema))
            self.put("x.hex", "".join(row.hex() + "\n" for row in rows))
            words = ("--columns", str(schema), "--null", "\\N", "--delimiter", rnd.choice([",", ";", "tab"]))
            with self.subTest(trial=trial, schema=str(schema)):
                try:
                    self.done("decode", "x.hex", *words, "-o", "x.csv")
                except AssertionError:
                    self.assertIn("\\N", [row[i] for row in values for i in texts])
                    continue
                self.assertEqual(self.done("encode", "x.csv", *words), (self.folder / "x.hex").read_text())

    def test_hex_lines(self):
        self.put("x.csv", "plate,glyph\n258,a\n,\n")
        rows = self.done("encode", "x.csv", "--columns", "plate:u32:nulls_last,glyph:text")
        self.assertEqual(rows, "010000010202610000000000000001\nff0000000000\n")

    def test_sort_is_the_order_of_values(self):
        self.done("encode", "a.csv", "-o", "a.hex")
        self.done("sort", "a.hex", "-o", "sorted.hex")
        lines = (self.folder / "sorted.hex").read_text().split()
        self.assertEqual(lines, sorted((self.folder / "a.hex").read_text().split()))
        rows = list(csv.reader(io.StringIO(self.done("decode", "sorted.hex"))))[1:]
        wanted = self.table("a.csv")[1:]
        self.assertEqual(rows, sorted(wanted, key=lambda r: (int(r[0]), r[1] != "", r[1], int(r[2]), float(r[3]))))
        binary = self.run_it("sort", "a.hex", "--format", "binary").stdout
        self.assertEqual(self.run_it("sort", "-", "--format", "hex", given=binary).stdout.decode().split(), lines)
        self.assertEqual(self.run_it("sort", "-", given=binary).stdout, binary)

    def test_join(self):
        for name in ("a", "b"):
            self.done("encode", f"{name}.csv", "--columns", KEY, "--quantise", "position=0.01", "-o", f"{name}.hex")
            self.done("sort", f"{name}.hex", "-o", f"{name}.hex")
        rows = list(csv.reader(io.StringIO(self.done("join", "a.hex", "b.hex"))))
        self.assertEqual(rows[0], ["pass", "row", "mark", "bytes"])
        self.assertEqual([r[3] for r in rows[1:]], sorted((self.folder / "a.hex").read_text().split() + (self.folder / "b.hex").read_text().split()))
        self.assertEqual([r[:3] for r in rows[1:4]], [["0", "0", "dust"], ["0", "1", "ink"], ["1", "0", "ink"]])

    def test_many_rows_in_little_memory(self):
        self.put("many.csv", "plate,glyph\n" + "".join(f"{i % 5000},g{i % 77}\n" for i in range(300_000)))
        words = ("--columns", "plate:u16,glyph:text")
        self.done("encode", "many.csv", *words, "--format", "binary", "-o", "many.rows")
        self.assertEqual(self.done("decode", "many.rows", *words), (self.folder / "many.csv").read_text())

    def test_show(self):
        run = self.run_it("show", "--columns", "plate:u16,glyph:text", "01000701", "01000703")
        self.assertEqual(run.returncode, 1)
        self.assertIn("accepted: plate 7, glyph ''", run.stdout.decode())
        self.assertIn("refused 17 1 1 3: row 1, column 1, byte 3: this lead byte is not allowed", run.stdout.decode())
        told = "refused 17 1 1 3: row 1, column 1, byte 3: this lead byte is not allowed"
        self.assertEqual(run.stderr.decode(), f"rowstation: show, row 1, column glyph: {told}\n")
        self.done("encode", "a.csv", "-o", "a.hex")
        self.assertIn("accepted: plate 7, glyph null", self.done("show", "--in", "a.hex", "--row", "4"))
        self.assertEqual(self.done("show", "--in", "a.hex").count("accepted"), 8)


class Dust(Typed):
    WORDS = ("dust", "a.csv", "b.csv", "--key", "plate,glyph,contour,position", "--quantise", "position=0.01")

    def test_text(self):
        self.assertEqual(self.done(*self.WORDS), """\
a.csv: 8 rows, 7 points, 1 duplicate
b.csv: 8 rows, 8 points, 0 duplicates
ink: 6 points in both
dust: 1 point in a.csv only, 2 in b.csv only

plate  glyph       ink  dust a  dust b  duplicates a  duplicates b
7      null          0       1       0             0             0
7      ae            2       0       1             1             0
8      germandbls    2       0       1             0             0
7      a             2       0       0             0             0
""")

    def test_without_quantising_all_is_dust(self):
        self.assertIn("ink: 0 points in both\n", self.done(*self.WORDS[:5]))

    def test_most(self):
        self.assertIn("\nand 3 more; --most 0 shows all", self.done(*self.WORDS, "--most", "1"))

    def test_tables(self):
        self.done(*self.WORDS, "--csv", "groups.csv", "--points", "points.csv", "-o", "report.txt")
        self.assertEqual((self.folder / "groups.csv").read_text(), """\
plate,glyph,ink,dust_a,dust_b,duplicates_a,duplicates_b
7,,0,1,0,0,0
7,a,2,0,0,0,0
7,ae,2,0,1,1,0
8,germandbls,2,0,1,0,0
""")
        self.assertEqual((self.folder / "points.csv").read_text(), """\
plate,glyph,contour,position,mark,pass,rows_a,rows_b,line_a,line_b
7,,0,0.25,dust,a,1,0,6,
7,a,0,1.5,ink,both,1,1,2,6
7,a,1,12.25,ink,both,1,1,3,4
7,ae,0,-2.0,ink,both,1,1,4,3
7,ae,0,3.03,ink,both,2,1,5,8
7,ae,2,9.9,dust,b,0,1,,7
8,germandbls,0,4.4,ink,both,1,1,8,5
8,germandbls,1,7.12,ink,both,1,1,9,2
8,germandbls,1,8.0,dust,b,0,1,,9
""")

    def test_against_sets(self):
        rng = np.random.default_rng(11)
        for _ in range(5):
            passes = [[(int(rng.integers(0, 3)), "abc"[rng.integers(0, 3)], int(rng.integers(0, 4))) for _ in range(60)] for _ in range(2)]
            for name, points in zip("ab", passes):
                self.put(f"{name}.csv", "contour,plate,glyph\n" + "".join(f"{c},{p},{g}\n" for p, g, c in points))
            self.done("dust", "a.csv", "b.csv", "--key", "plate,glyph,contour", "--by", "plate", "--csv", "out.csv")
            counts = [[0] * 5 for _ in range(3)]
            for point in {*passes[0], *passes[1]}:
                rows = [one.count(point) for one in passes]
                counts[point[0]][0 if all(rows) else 1 if rows[0] else 2] += 1
                counts[point[0]][3] += max(rows[0] - 1, 0)
                counts[point[0]][4] += max(rows[1] - 1, 0)
            got = [list(map(int, row)) for row in self.table("out.csv")[1:]]
            self.assertEqual(got, [[plate, *row] for plate, row in enumerate(counts)])

    def test_a_glyph_named_null(self):
        self.put("a.csv", "plate,glyph\n7,null\n00,\n")
        self.put("b.csv", "plate,glyph\n7,null\n")
        words = ("dust", "a.csv", "b.csv", "--key", "plate,glyph")
        self.assertEqual(self.done(*words).splitlines()[-2:], ["0      null     0       1       0             0             0",
                                                               "7      null     1       0       0             0             0"])
        self.refused(1, "c.csv, column plate: the value '0' would be read as null; say another word for null with --null",
                     *words, "--null", "0", "--points", "p.csv", "--csv", "c.csv")

    def test_no_rows(self):
        self.put("a.csv", "plate,glyph,contour,position\n")
        self.put("b.csv", "plate,glyph,contour,position\n")
        self.assertEqual(self.done(*self.WORDS, "--csv", "c.csv", "--points", "p.csv").splitlines()[2:],
                         ["ink: 0 points in both", "dust: 0 points in a.csv only, 0 in b.csv only"])
        self.assertEqual((self.folder / "c.csv").read_text(), "plate,glyph,ink,dust_a,dust_b,duplicates_a,duplicates_b\n")

    def test_times(self):
        run = self.run_it(*self.WORDS, "--times")
        self.assertEqual(run.returncode, 0)
        for step in ("reading a.csv", "encoding", "sorting and joining", "decoding", "counting", "writing"):
            self.assertRegex(run.stderr.decode(), f"s  {step}")

    @unittest.skipIf(matplotlib is None, "matplotlib is not at hand")
    def test_picture(self):
        for name, begins in (("out.png", b"\x89PNG"), ("out.svg", b"<?xml"), ("out.pdf", b"%PDF")):
            self.assertIn(f"{name}: plate 7, 6 points", self.done(*self.WORDS, "--picture", name))
            self.assertTrue((self.folder / name).read_bytes().startswith(begins))
        self.assertIn("plate 8, 3 points", self.done(*self.WORDS, "--picture", "out.png", "--plate", "8", "--across", "contour", "--up", "position"))
        self.refused(2, "no point has plate 9", *self.WORDS, "--picture", "other.png", "--plate", "9")
        self.refused(2, "--plate x: plate is u32", *self.WORDS, "--picture", "other.png", "--plate", "x")
        self.refused(2, "--plate -1: plate is u32", *self.WORDS, "--picture", "other.png", "--plate=-1")
        self.refused(2, "--picture out.gif: the file's name ends in .png, .svg, .pdf", *self.WORDS, "--picture", "out.gif")
        self.refused(2, "there is no column exposure in the key, plate,glyph,contour,position", *self.WORDS, "--picture", "x.png", "--up", "exposure")

    def test_no_matplotlib(self):
        self.put("matplotlib.py", "raise ImportError")
        run = self.run_apart(*self.WORDS, "--picture", "out.png", PYTHONPATH=f"{self.folder}:{PACKAGE}")
        self.assertEqual((run.returncode, run.stdout), (2, b""))
        self.assertEqual(run.stderr.decode(), "rowstation: a picture needs matplotlib (in Debian and Ubuntu the package python3-matplotlib)\n")


class BadInput(Typed):
    def test_csv(self):
        good = "plate,glyph\n7,a\n"
        words = ("encode", "x.csv", "--columns", "plate:u8,glyph:text", "-o", "out.hex")
        for content, line in (
            ("", "x.csv, line 1: the file is empty: there is not even a line of names"),
            ("plate\n7\n", "x.csv, line 1, column glyph: there is no column glyph; the names are plate"),
            (good + "256,b\n", "x.csv, line 3, column plate: 256 does not fit u8, 0 to 255"),
            (good + "seven,b\n", "x.csv, line 3, column plate: 'seven' is no u8"),
            (good.encode() + b"8,\xe4\n", "x.csv, line 3: byte E4 is not UTF-8; say with --encoding what the file is written in"),
            (good + "8", "x.csv, line 3: 1 cells, and there are 2 names"),
            (good + '8,"cut', "x.csv, line 3: this is no CSV: unexpected end of data"),
            (good + f"8,{'a' * 65536}\n", "x.csv, line 3, column glyph: refused 10 1 1 0: a slot over 65,535 bytes in column 1, row 1"),
        ):
            with self.subTest(content=content[:40]):
                self.put("x.csv", content)
                self.refused(1, line, *words)
        self.put("x.csv", good + "8,b")
        run = self.run_it(*words)
        self.assertEqual((run.returncode, run.stderr.decode()), (0, "rowstation: x.csv: the last line has no newline; was the file cut?\n"))

    def test_an_old_file_stays(self):
        self.put("out.hex", "old")
        self.put("x.csv", "plate\n7\n300\n")
        self.refused(1, "x.csv, line 3, column plate: 300 does not fit u8, 0 to 255", "encode", "x.csv", "--columns", "plate:u8", "-o", "out.hex")
        self.assertEqual((self.folder / "out.hex").read_text(), "old")

    def test_rows(self):
        words = ("decode", "x.rows", "--columns", "plate:u8,glyph:text", "-o", "out.csv")
        for content, line in (
            ("010500\n010503\n", "x.rows, line 2, column glyph: refused 17 1 1 2: row 1, column 1, byte 2: this lead byte is not allowed"),
            ("010500\n0105010\n", "x.rows, line 2: 7 hex digits, and a byte has two"),
            ("010500\n01050", "x.rows, line 2: the last line has no newline: the file is cut"),
            ("010500ff\n", "x.rows, line 1: refused 22 0 2 3: row 0, column 2, byte 3: bytes follow the last field"),
            (b"\xffrowbin1\1\0\0\0\3\0\0\0\1\5", "x.rows, row 0: the file is cut, at byte 18"),
            (b"\xffrowbin1\1\0\0\0\3\0\0\0\1\5\3\0\0\0\0",
             "x.rows, row 0, column glyph: refused 17 0 1 2: row 0, column 1, byte 2: this lead byte is not allowed"),
            ("010502ff" + "00" * 7 + "01\n", "x.rows, line 1, column glyph: the value is not UTF-8; for bytes in hex say kind bytes"),
            ("010501\n", "x.rows, line 1, column glyph: the value '' would be read as null; say another word for null with --null"),
        ):
            with self.subTest(content=content[:40]):
                self.put("x.rows", content)
                self.refused(1, line, *words)
        self.put("x.rows", "0105\n0104\n")
        self.put("y.rows", "0105\n")
        told = "x.rows, line 2: this row is below the one before it; `rowstation sort` puts rows in order"
        self.refused(1, told, "join", "x.rows", "y.rows")
        self.refused(1, told, "join", "y.rows", "x.rows")
        self.refused(1, "standard input, line 1: 'x', character 1, is no hex digit", "sort", "-", given=b"xx\n")

    def test_many_rows_before_the_bad_one(self):
        self.put("x.csv", "plate\n" + "7\n" * 50_000 + "x\n")
        self.refused(1, "x.csv, line 50002, column plate: 'x' is no u8", "encode", "x.csv", "--columns", "plate:u8")
        self.put("x.rows", "0107\n" * 50_000 + "0207\n")
        self.refused(1, "x.rows, line 50001, column plate: refused 17 50000 0 0: row 50000, column 0, byte 0: this lead byte is not allowed",
                     "decode", "x.rows", "--columns", "plate:u8")

    def test_wrong_use(self):
        for line, *words in (
            ("none.csv: cannot be read: No such file or directory", "encode", "none.csv"),
            (".: cannot be read: Is a directory", "encode", "."),
            ("no/out.hex: cannot be written: No such file or directory", "encode", "a.csv", "-o", "no/out.hex"),
            ("--columns: column plate: there is no kind 'u33'; the kinds are " + ", ".join(station.KINDS),
             "encode", "a.csv", "--columns", "plate:u33"),
            ("--columns: refused 4 0 0 0: a width over 1,024, or outside fixed binary, in the column at place 0 of the list", "encode", "a.csv", "--columns", "h:fixed:2000"),
            ("--quantise position: it is NAME=STEP, as position=0.01", "dust", "a.csv", "b.csv", "--quantise", "position"),
            ("--quantise position=-1: it is NAME=STEP, as position=0.01", "dust", "a.csv", "b.csv", "--quantise", "position=-1"),
            ("--quantise plate=2: column plate is u32, and only floats are quantised", "dust", "a.csv", "b.csv", "--quantise", "plate=2"),
            ("--quantise x=2: there is no column x among plate, glyph", "dust", "a.csv", "b.csv", "--key", "plate,glyph", "--quantise", "x=2"),
            (f"--key: there is no column x; the columns are {', '.join(c.split(':')[0] for c in COLUMNS.split(','))}, and --columns says others",
             "dust", "a.csv", "b.csv", "--key", "x"),
            ("--by glyph: points are grouped by the first columns of the key, plate,glyph",
             "dust", "a.csv", "b.csv", "--key", "plate,glyph", "--by", "glyph"),
            ("--key: two columns have the name plate", "dust", "a.csv", "b.csv", "--key", "plate,plate"),
            ("show: a row is given in hex, two digits a byte", "show", "xyz"),
            ("show: either rows in hex or --in FILE", "show"),
        ):
            with self.subTest(words=words):
                self.refused(2, line, *words)
        for words in ((), ("encode",), ("fly", "a.csv"), ("encode", "a.csv", "--format", "xml"), ("encode", "a.csv", "--delimiter", "ab")):
            run = self.run_it(*words)
            self.assertEqual((run.returncode, run.stdout), (2, b""))
            self.assertIn(b"usage: rowstation", run.stderr)

    def test_no_library(self):
        run = self.run_apart("encode", "a.csv", STATION_LIB_DIR=str(self.folder))
        self.assertEqual((run.returncode, run.stdout), (2, b""))
        self.assertIn("Say in STATION_LIB_DIR which folder has libstation.so", run.stderr.decode())
        self.assertEqual(run.stderr.count(b"\n"), 1)

    def test_a_reader_that_leaves(self):
        self.put("many.csv", "plate\n" + "7\n" * 200_000)
        command = f"{sys.executable} -m rowstation encode many.csv --columns plate:u32; echo $? >status"
        run = subprocess.run(["sh", "-c", f"({command}) | head -n 1"], cwd=self.folder, env=ENVIRONMENT, capture_output=True, check=False)
        self.assertEqual(run.stdout, b"0100000007\n")
        self.assertEqual(run.stderr.decode(), "rowstation: standard output: cannot be written: Broken pipe\n")
        self.assertEqual((self.folder / "status").read_text(), "2\n")

    def test_a_stopped_run_leaves_nothing(self):
        for number in (signal.SIGTERM, signal.SIGINT):
            # A shell that runs the tests in the background may have made signals deaf.
            words = [sys.executable, "-m", "rowstation", "encode", "-", "--columns", "plate:u32", "-o", "out.hex"]
            run = subprocess.Popen(words, stdin=subprocess.PIPE, stderr=subprocess.DEVNULL, cwd=self.folder, env=ENVIRONMENT,
                                   preexec_fn=lambda: signal.signal(signal.SIGINT, signal.default_int_handler))
            self.addCleanup(run.kill)
            run.stdin.write(b"plate\n" + b"7\n" * 3_000_000)
            run.stdin.flush()
            deadline = time.monotonic() + 60
            while len(os.listdir(self.folder)) == 2 and time.monotonic() < deadline:
                time.sleep(0.02)
            self.assertEqual(len(os.listdir(self.folder)), 3)
            run.send_signal(number)
            with self.subTest(signal=number):
                self.assertNotEqual(run.wait(60), 0)
            run.stdin.close()
            self.assertEqual(sorted(os.listdir(self.folder)), ["a.csv", "b.csv"])


class Help(Typed):
    def test_it_suffices(self):
        text = self.done("--help")
        for word in (*COMMANDS, *station.KINDS, *station.OPTIONS, "exit status", "LC_ALL=C sort"):
            self.assertIn(word, text)
        for name in COMMANDS:
            self.assertIn("exit status", self.done(name, "--help"))
        self.assertIn("why quantise", self.done("dust", "--help"))
        self.assertEqual(set(COMMANDS), set(parser()._subparsers._group_actions[0].choices))

    def test_version(self):
        self.assertEqual(self.done("--version"), station.version() + "\n")

    def test_a_bar_on_a_terminal(self):
        self.put("many.csv", "plate,glyph\n" + "".join(f"{i},glyph{i}\n" for i in range(400_000)))
        code = "import sys\nfrom rowstation import files, command\nfiles.Progress.WAIT = 0.0\nsys.exit(command.main())"
        above, below = pty.openpty()
        run = subprocess.Popen([sys.executable, "-c", code, "encode", "many.csv", "--columns", "plate:u32,glyph:text", "-o", "many.hex"],
                               stderr=below, cwd=self.folder, env=ENVIRONMENT)
        os.close(below)
        seen = b""
        while True:
            try:
                more = os.read(above, 1 << 16)
            except OSError:
                break
            if not more:
                break
            seen += more
        os.close(above)
        self.assertEqual(run.wait(), 0)
        self.assertIn(b"reading many.csv [###", seen)
        self.assertTrue(seen.endswith(b"\r\x1b[K"))


if __name__ == "__main__":
    unittest.main()
