"""Rows beyond one batch and one machine: as keys in engines that sort byte strings, and as lines that sort and comm merge."""

import os
import random
import shutil
import sqlite3
import subprocess
import sys
import tempfile
import unittest
from pathlib import Path

import rowstation as station
from rowstation.kinds import KINDS
from rowstation.rowfile import hex_lines

from . import EXAMPLES, PACKAGE, model

try:
    import lmdb
except ImportError:
    lmdb = None


def ran(*words):
    environment = {**os.environ, "PYTHONPATH": str(PACKAGE), "ROWSTATION": f"{sys.executable} -m rowstation"}
    return subprocess.run([str(word) for word in words], env=environment, capture_output=True, check=True).stdout.decode()


def some_rows(seed):
    """Rows of all kinds, with one schema."""
    rnd = random.Random(seed)
    schema = model.some_schema(rnd, set(KINDS) - {"bytes", "text"})
    schema = station.Schema([*schema.columns, ("name", "text", "descending")])
    values = [[model.some_value(rnd, column) for column in schema] for _ in range(300)]
    return station.encode(schema, [list(column) for column in zip(*values)])


class Examples(unittest.TestCase):
    def test_sqlite(self):
        self.assertEqual(ran(sys.executable, EXAMPLES / "sqlite_keys.py"), "None\na\nae\n")

    @unittest.skipIf(lmdb is None, "LMDB is not at hand")
    def test_lmdb(self):
        self.assertEqual(ran(sys.executable, EXAMPLES / "lmdb_keys.py"), "a row of 513 bytes is over the 511 of a key\nNone\na\nae\n")

    @unittest.skipUnless(shutil.which("comm"), "comm is not at hand")
    def test_merged_lines(self):
        words = ("plate:u32,glyph:text,contour:u16,position:f64", "--quantise", "position=0.01")
        self.assertEqual(ran("sh", EXAMPLES / "merge_lines.sh", EXAMPLES / "a.csv", EXAMPLES / "b.csv", *words), """\
ink:
7,a,0,1.5
7,a,1,12.25
7,ae,0,-2.0
7,ae,0,3.03
8,germandbls,0,4.4
8,germandbls,1,7.12
dust.a:
7,,0,0.25
dust.b:
7,ae,2,9.9
8,germandbls,1,8.0
""")


class Engines(unittest.TestCase):
    """Every engine gives the rows in their order, and a prefix finds exactly the rows that share the first values."""

    def test_sqlite(self):
        for seed in range(8):
            rows = some_rows(seed)
            database = sqlite3.connect(":memory:")
            database.execute("create table points (row blob primary key) without rowid")
            database.executemany("insert or ignore into points values (?)", ((row,) for row in rows))
            stored = [row for (row,) in database.execute("select row from points")]
            self.assertEqual(stored, sorted(set(rows)))
            begins = rows[0][: len(station.encode(rows.schema.first(1), [rows.decode()[rows.schema.names[0]][:1]])[0])]
            least, most = begins, station.after(begins)
            found = database.execute("select row from points where row >= ?1 and (?2 is null or row < ?2)", (least, most))
            self.assertEqual([row for (row,) in found], [row for row in stored if row.startswith(begins)])
            database.close()

    @unittest.skipIf(lmdb is None, "LMDB is not at hand")
    def test_lmdb(self):
        for seed in range(3):
            rows = some_rows(seed)
            with tempfile.TemporaryDirectory() as folder, lmdb.open(folder, map_size=1 << 24) as database:
                with database.begin(write=True) as change:
                    for row in rows:
                        change.put(row, b"")
                with database.begin() as view:
                    self.assertEqual([bytes(row) for row, _ in view.cursor()], sorted(set(rows)))
                self.assertEqual(database.max_key_size(), 511)

    @unittest.skipUnless(shutil.which("sort"), "sort is not at hand")
    def test_sort_merges_lines(self):
        for seed in range(3):
            rows = some_rows(seed)
            with tempfile.TemporaryDirectory() as folder:
                for name, part in (("a", rows[:100].sort()), ("b", rows[100:].sort())):
                    Path(folder, name).write_bytes(hex_lines(*part._whole()))
                merged = subprocess.run(["sort", "-m", "a", "b"], cwd=folder, env={**os.environ, "LC_ALL": "C"}, capture_output=True, check=True)
            self.assertEqual(merged.stdout, hex_lines(*rows.sort()._whole()))


if __name__ == "__main__":
    unittest.main()
