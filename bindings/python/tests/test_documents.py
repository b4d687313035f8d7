"""What is written stands: the examples in the package and on the pages are run, and the tables that stand twice agree."""

import doctest
import importlib
import os
import pkgutil
import re
import shutil
import subprocess
import sys
import tempfile
import unittest
from pathlib import Path

import rowstation
from rowstation import library
from rowstation.kinds import KINDS
from rowstation.refusals import REASONS

from . import EXAMPLES, PACKAGE, REPOSITORY

try:
    import matplotlib
except ImportError:
    matplotlib = None


def blocks(page: Path, language: str):
    """The blocks of a page in one language, each with its first line's number."""
    lines, found, start = page.read_text().splitlines(), [], None
    for number, line in enumerate(lines, 1):
        if line == f"```{language}":
            start = number
        elif line == "```" and start is not None:
            found.append((start + 1, "\n".join(lines[start : number - 1]) + "\n"))
            start = None
    return found


def load_tests(loader, tests, pattern):
    """The examples in the package's own text are tests too."""
    for module in pkgutil.iter_modules(rowstation.__path__, "rowstation."):
        if not module.name.endswith("__main__"):
            tests.addTests(doctest.DocTestSuite(importlib.import_module(module.name)))
    tests.addTests(doctest.DocTestSuite(rowstation))
    return tests


@unittest.skipIf(REPOSITORY is None, "the repository is not at hand")
class Pages(unittest.TestCase):
    def test_python(self):
        page = REPOSITORY / "docs" / "PYTHON.md"
        found = blocks(page, "python")
        lines = [""] * len(page.read_text().splitlines())
        for line, text in found:
            lines[line - 1 : line - 1 + text.count("\n")] = text.splitlines()
        runner = doctest.DocTestRunner()
        runner.run(doctest.DocTestParser().get_doctest("\n".join(lines), {}, page.name, str(page), 0))
        self.assertEqual(runner.summarize(verbose=False).failed, 0)
        self.assertGreater(len(found), 3)

    def typed(self, page):
        """Every command of a page, and what it must write."""
        for line, text in blocks(page, "console"):
            for part in re.split(r"^\$ ", text, flags=re.M)[1:]:
                command, _, wanted = part.partition("\n")
                yield line, command, wanted

    @unittest.skipIf(matplotlib is None, "matplotlib is not at hand")
    def test_commands(self):
        folder = tempfile.mkdtemp()
        self.addCleanup(shutil.rmtree, folder)
        for name in ("a.csv", "b.csv"):
            shutil.copy(EXAMPLES / name, folder)
        shell = f'rowstation() {{ "{sys.executable}" -m rowstation "$@"; }}; tools/rowstation() {{ rowstation "$@"; }}\n'
        environment = {**os.environ, "PYTHONPATH": str(PACKAGE)}
        count = 0
        for page in (REPOSITORY / "docs" / "PYTHON.md", REPOSITORY / "README.md"):
            for line, command, wanted in self.typed(page):
                for name in ("a.csv", "b.csv"):
                    command = command.replace(f"bindings/python/examples/{name}", name)
                    wanted = wanted.replace(f"bindings/python/examples/{name}", name)
                run = subprocess.run(["bash", "-c", shell + command], cwd=folder, env=environment, stdout=subprocess.PIPE, stderr=subprocess.STDOUT,
                                     check=False)
                with self.subTest(page=page.name, line=line, command=command):
                    self.assertEqual(run.stdout.decode(), wanted)
                count += 1
        self.assertGreater(count, 10)


@unittest.skipIf(REPOSITORY is None, "the repository is not at hand")
class Tables(unittest.TestCase):
    def test_refusals_of_the_bindings_for_rust(self):
        text = (REPOSITORY / "bindings" / "rust" / "src" / "refusal.rs").read_text()
        display, _, rows = text.partition("fn row_reason")
        words = {int(number): said for number, said in re.findall(r'(\d+) => write!\(\s*f,\s*"([^"]*)"\s*\)', display)}
        prefix = re.search(r'_ => write!\(\s*f,\s*"([^"]*): \{\}",\s*row_reason\(number\)\s*\)', display).group(1)
        words.update({int(number): f"{prefix}: {said}" for number, said in re.findall(r'(\d+) => "([^"]*)"', rows)})
        names = {"{a}": "{second}", "{b}": "{third}", "{place}": "{fourth}"}
        words = {number: re.sub(r"\{\w+\}", lambda match: names[match.group()], said) for number, said in words.items()}
        self.assertEqual({number: reason.words for number, reason in REASONS.items()}, words)

    def test_refusals_of_the_header(self):
        text = (REPOSITORY / "include" / "station.h").read_text()
        table = text[text.index("0   done") : text.index("On a refusal only")]
        self.assertEqual({0, *REASONS}, {int(number) for number in re.findall(r"^(?: \* +)?(\d+)   ?\S", table, re.M)})
        for number, reason in REASONS.items():
            places = {"place": "place", "row": "row", "column": "column"}
            line = re.search(rf"^ \* +{number}  +(.*)$", text[text.index("0   done"):], re.M).group(1)
            for what in {reason.second, reason.third} & set(places):
                self.assertTrue(what in line or "the same" in line, (number, line))

    def test_refusals_and_kinds_of_the_format(self):
        text = (REPOSITORY / "docs" / "FORMAT.md").read_text()
        table = text[text.index("| no. | reason |") :].split("\n\n")[0]
        self.assertEqual({*REASONS, 25}, set(map(int, re.findall(r"^\| (\d+) \|", table, re.M))))
        table = text[text.index("| kind | byte |") :].split("\n\n")[0]
        numbers = {int(number) for cell in re.findall(r"^\| ([\d, ]+) \|", table, re.M) for number in cell.split(", ")}
        self.assertEqual({kind.number for kind in KINDS.values()}, numbers)
        limits = text[text.index("| what | least | most |") :].split("\n\n")[0]
        self.assertIn(f"| rows, n | 0 | {library.MAX_ROWS:,} |", limits)
        self.assertIn(f"| row bytes together | 0 | {library.MAX_ROW_BYTES:,} |", limits)

    def test_editions(self):
        major, minor, patch = map(int, library.VERSION.split("."))
        number = 1_000_000 * major + 1000 * minor + patch
        self.assertEqual(library.load().station_version(), number)
        self.assertEqual(library.version(), library.VERSION)
        for file, pattern in (
            ("include/station.h", rf"enum {{ STATION_VERSION = {number} }};"),
            ("bindings/rust/Cargo.toml", rf'^version = "{library.VERSION}"$'),
            ("bindings/python/pyproject.toml", rf'^version = "{library.VERSION}"$'),
            ("crates/edition/specs/Version.antt", rf"^major = {major}$(.|\n)*^minor = {minor}$(.|\n)*^patch = {patch}$"),
        ):
            self.assertRegex((REPOSITORY / file).read_text(), re.compile(pattern, re.M), file)

    def test_entries(self):
        text = (REPOSITORY / "include" / "station.h").read_text()
        self.assertEqual(set(library.ENTRIES), set(re.findall(r"\b(station_\w+)\(", text)))
        self.assertIn(f"STATION_ANSWER_BYTES = {8 * library.ANSWER_NUMBERS} ", text)
        self.assertIn(f"STATION_CUTTER_BYTES = {library.STATE_BYTES} ", text)


if __name__ == "__main__":
    unittest.main()
