"""How the library is found, and what is said of one that is not the right one."""

import os
import shutil
import subprocess
import sys
import tempfile
import unittest
from pathlib import Path

from rowstation import library

from . import PACKAGE

PROGRAM = "import rowstation\ntry:\n    print(rowstation.version())\nexcept rowstation.LibraryError as error:\n    print(error)\n"


def said(package=PACKAGE, **environment):
    kept = {name: value for name, value in os.environ.items() if name != "STATION_LIB_DIR"}
    # Python looks for packages in the folder that it runs in first, so it runs elsewhere.
    run = subprocess.run([sys.executable, "-c", PROGRAM], env={**kept, "PYTHONPATH": str(package), **environment}, cwd="/",
                         capture_output=True, check=True)
    return run.stdout.decode().strip(), run.stderr.decode()


class Found(unittest.TestCase):
    def setUp(self):
        self.folder = Path(tempfile.mkdtemp())
        self.addCleanup(shutil.rmtree, self.folder)
        self.library = Path(library.load()._name).resolve()

    def package(self):
        """The package alone, in a folder of its own."""
        shutil.copytree(PACKAGE / "rowstation", self.folder / "alone" / "rowstation")
        return self.folder / "alone"

    def test_the_named_folder(self):
        shutil.copy(self.library, self.folder / "libstation.so")
        self.assertEqual(said(STATION_LIB_DIR=str(self.folder)), (library.version(), ""))

    def test_beside_the_package(self):
        package = self.package()
        shutil.copy(self.library, package / "rowstation" / "libstation.so")
        self.assertEqual(said(package), (library.version(), ""))

    def test_where_the_system_has_it(self):
        shutil.copy(self.library, self.folder / library.SONAME)
        self.assertEqual(said(self.package(), LD_LIBRARY_PATH=str(self.folder)), (library.version(), ""))

    def test_nowhere(self):
        told, _ = said(STATION_LIB_DIR=str(self.folder))
        self.assertIn("the station's library was not found", told)
        self.assertIn("`tools/release OUT` makes one", told)
        self.assertIn("was not found", said(self.package())[0])

    def test_a_release_is_built(self):
        """In a repository with the toolchain, which is played here, one is made."""
        repository = self.folder / "repository"
        package = repository / "bindings" / "python"
        shutil.copytree(PACKAGE / "rowstation", package / "rowstation")
        (repository / "tools").mkdir()
        (repository / "path").mkdir()
        for name, text in (("tools/release", f'#!/bin/sh\nmkdir -p "$1" && cp "{self.library}" "$1/libstation.so"\n'), ("path/rt", "#!/bin/sh\n")):
            (repository / name).write_text(text)
            (repository / name).chmod(0o755)
        told, aside = said(package, PATH=f"{repository / 'path'}:{os.environ['PATH']}")
        self.assertEqual(told, library.version())
        self.assertIn("building one with tools/release", aside)

    @unittest.skipUnless(shutil.which("gcc"), "gcc is not at hand")
    def test_another_edition(self):
        for version, entries, pattern in (
            (library.VERSION, list(library.ENTRIES)[:-1], "has no station_compare: it is older than this package"),
            ("999.0.0", library.ENTRIES, "is edition 999.0.0, and this package is for " + library.VERSION),
        ):
            major, minor, patch = map(int, version.split("."))
            number = 1_000_000 * major + 1000 * minor + patch
            (self.folder / "p.c").write_text("".join(f"unsigned long {name}(void) {{ return {number}; }}\n" for name in entries))
            subprocess.run(["gcc", "-shared", "-o", self.folder / "libstation.so", self.folder / "p.c"], check=True)
            self.assertIn(pattern, said(STATION_LIB_DIR=str(self.folder))[0])


if __name__ == "__main__":
    unittest.main()
