"""A release as its folder stands: what is in it, what its library shows, and a C program that links it."""

import hashlib
import os
import re
import shutil
import subprocess
import tempfile
import unittest
from pathlib import Path

from rowstation import library

from . import REPOSITORY

FOLDER = Path(library.load()._name).resolve().parent
FILES = {"libstation.a", "libstation.so", library.SONAME, "station.h", "station.pc", "VERSION", "NOTICE", "SHA256SUMS"}

PROGRAM = r"""
#include <stdio.h>
#include "station.h"
int main(void) {
    const uint8_t list[] = {4, 2}, sheet[] = {1, 1, 0, 0, 0, 0, 0, 0, 0};
    uint8_t rows[10], offsets[24], answer[STATION_ANSWER_BYTES];
    station_encode(list, 2, 2, sheet, 9, rows, 10, offsets, 24, answer, sizeof answer);
    for (int i = 0; i < 10; i++) printf("%02x", rows[i]);
    printf(" %d %d\n", answer[0], station_version() == STATION_VERSION);
    return 0;
}
"""


def said(*words):
    return subprocess.run([str(word) for word in words], capture_output=True, check=True).stdout.decode()


@unittest.skipUnless((FOLDER / "SHA256SUMS").is_file(), "the library does not stand in a release")
class Release(unittest.TestCase):
    def test_files(self):
        self.assertEqual({path.name for path in FOLDER.iterdir()}, FILES)
        self.assertEqual((FOLDER / "VERSION").read_text(), library.version() + "\n")
        self.assertEqual((FOLDER / library.SONAME).read_bytes(), (FOLDER / "libstation.so").read_bytes())
        self.assertFalse([path for path in FOLDER.iterdir() if path.is_symlink()])
        sums = dict(reversed(line.split("  ")) for line in (FOLDER / "SHA256SUMS").read_text().splitlines())
        self.assertEqual(set(sums), FILES - {"SHA256SUMS"})
        for name, digest in sums.items():
            self.assertEqual(hashlib.sha256((FOLDER / name).read_bytes()).hexdigest(), digest)

    def test_no_path_is_in_it(self):
        for path in FOLDER.iterdir():
            for word in filter(None, (str(REPOSITORY or ""), str(FOLDER), os.path.expanduser("~"))):
                self.assertNotIn(word.encode(), path.read_bytes(), path)

    @unittest.skipUnless(shutil.which("readelf"), "readelf is not at hand")
    def test_only_the_entries_show(self):
        header = set(re.findall(r"\b(station_\w+)\(", (FOLDER / "station.h").read_text()))
        symbols = said("readelf", "-W", "--dyn-syms", FOLDER / "libstation.so")
        shown = dict(re.findall(r"(?:GLOBAL|WEAK) +DEFAULT +(?:\d+|ABS) (\w+)(?:@@(\w+))?", symbols))
        node = "STATION_" + library.VERSION.split(".")[0]
        self.assertEqual({name: version for name, version in shown.items() if name != node}, {name: node for name in header})
        self.assertIn(f"[{library.SONAME}]", said("readelf", "-d", FOLDER / "libstation.so"))
        archive = said("readelf", "-W", "-s", FOLDER / "libstation.a")
        self.assertEqual(set(re.findall(r"GLOBAL +DEFAULT +\d+ (\w+)", archive)), header)
        self.assertNotIn("Build ID", said("readelf", "-W", "-n", FOLDER / "libstation.so"))

    @unittest.skipUnless(shutil.which("gcc") and shutil.which("pkg-config"), "gcc or pkg-config is not at hand")
    def test_a_c_program(self):
        with tempfile.TemporaryDirectory() as name:
            folder = Path(name)
            moved = folder / "somewhere else"
            shutil.copytree(FOLDER, moved, symlinks=True)
            (folder / "p.c").write_text(PROGRAM)
            environment = {**os.environ, "PKG_CONFIG_PATH": str(moved)}
            words = subprocess.run(["pkg-config", "--cflags", "--libs", "station"], env=environment, capture_output=True, check=True).stdout.decode()
            self.assertIn("-lstation", words)
            linked = [f"-I{moved}", f"-L{moved}", "-lstation", f"-Wl,-rpath,{moved}"]
            for end in (linked, [f"-I{moved}", moved / "libstation.a"]):
                said("gcc", "-Wall", "-Werror", folder / "p.c", "-o", folder / "p", *end)
                self.assertEqual(said(folder / "p"), "01800000010000000000 0 1\n")


if __name__ == "__main__":
    unittest.main()
