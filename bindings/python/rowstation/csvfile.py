"""CSV files, read and written in blocks of some thousands of rows.

A block without quotes is cut by numpy; from the first quote on, and wherever something is odd, the csv module reads on, line by line, and
says what is wrong. Both give the same cells. The csv module writes.
"""

from __future__ import annotations

import codecs
import csv
import io
from functools import partial
from itertools import chain, compress, islice
from typing import Any, BinaryIO, Callable, Iterable, Iterator, List, Optional, Sequence

import numpy as np

from . import pieces
from .files import Progress, Trouble, read

BLOCK_BYTES = 1 << 22
BLOCK_ROWS = 1 << 15
LONGEST_LINE = 1 << 26

_NEWLINE, _RETURN, _QUOTE = b"\n"[0], b"\r"[0], b'"'


class Block:
    """Some rows of a file: the bytes of the cells of each column, in UTF-8, and the line that each row ends on."""

    lines: np.ndarray

    def __len__(self) -> int:
        return len(self.lines)

    def lengths(self, column: int) -> np.ndarray:
        """How many bytes each cell of a column has."""
        raise NotImplementedError

    def pieces(self, column: int) -> pieces.Pieces:
        """The cells of a column."""
        raise NotImplementedError

    def joined(self, column: int, which: np.ndarray) -> bytes:
        """Those cells of a column for which ``which`` is true, each followed by a comma."""
        raise NotImplementedError


def _between(data: np.ndarray, starts: np.ndarray, ends: np.ndarray) -> np.ndarray:
    """The bytes from each start up to its end, joined."""
    some = ends > starts
    starts, ends = starts[some], ends[some]
    if len(starts) == 0:
        return np.empty(0, np.uint8)
    # The place of each byte: one more than that of the byte before it, but at a start.
    lengths = ends - starts
    places = np.ones(lengths.sum(), np.int64)
    places[0] = starts[0]
    places[np.cumsum(lengths)[:-1]] = starts[1:] - ends[:-1] + 1
    return data.take(np.cumsum(places, out=places))


class QuickBlock(Block):
    """Rows cut by numpy."""

    def __init__(self, data: np.ndarray, separators: np.ndarray, line: int) -> None:
        self.lines = np.arange(line, line + len(separators))
        self.data, self.separators = data, separators
        #: Where the last cell of each row ends: before the return of a line that ends in return and newline.
        self.last = separators[:, -1] - (data[separators[:, -1] - 1] == _RETURN)
        self.starts = np.empty_like(separators)
        self.starts[:, 1:] = separators[:, :-1] + 1
        self.starts[:1, 0] = 0
        self.starts[1:, 0] = separators[:-1, -1] + 1

    def _ends(self, column: int) -> np.ndarray:
        return self.last if column == self.separators.shape[1] - 1 else self.separators[:, column]

    def lengths(self, column: int) -> np.ndarray:
        return self._ends(column) - self.starts[:, column]

    def pieces(self, column: int) -> pieces.Pieces:
        return _between(self.data, self.starts[:, column], self._ends(column)), pieces.ends_of(self.lengths(column))

    def joined(self, column: int, which: np.ndarray) -> bytes:
        starts, ends = self.starts[which, column], self._ends(column)[which] + 1
        out = _between(self.data, starts, ends)
        out[np.cumsum(ends - starts) - 1] = ord(",")
        return out.tobytes()

    @staticmethod
    def cut(block: bytes, delimiter: str, columns: int, line: int) -> Optional[QuickBlock]:
        """Whole lines as rows, or nothing where a line has a quote, another count of cells, or anything else that is not plain."""
        if _QUOTE in block:
            return None
        data = np.frombuffer(block, np.uint8)
        separators = np.flatnonzero((data == ord(delimiter)) | (data == _NEWLINE))
        if len(separators) % columns:
            return None
        table = separators.reshape(-1, columns)
        if (data[table[:, -1]] != _NEWLINE).any() or (data[table[:, :-1]] == _NEWLINE).any():
            return None
        returns = np.flatnonzero(data == _RETURN)
        if len(returns) and (data[returns + 1] != _NEWLINE).any():
            return None
        cut = QuickBlock(data, table, line)
        if columns == 1 and (cut.lengths(0) == 0).any():
            return None
        return cut


class ListBlock(Block):
    """Rows that the csv module read."""

    def __init__(self, rows: List[List[str]], lines: List[int]) -> None:
        self.lines = np.array(lines, np.int64)
        self.columns: Sequence[Sequence[str]] = list(zip(*rows))

    def lengths(self, column: int) -> np.ndarray:
        return np.diff(self.pieces(column)[1])

    def pieces(self, column: int) -> pieces.Pieces:
        return pieces.from_list(list(map(str.encode, self.columns[column])))

    def joined(self, column: int, which: np.ndarray) -> bytes:
        # A comma within a cell would make two of it.
        return b"".join([cell.replace(",", ";").encode() + b"," for cell in compress(self.columns[column], which)])


class _Recoded:
    """A file of another encoding, read as UTF-8."""

    def __init__(self, path: str, file: BinaryIO, encoding: str) -> None:
        self.path, self.file, self.encoding = path, file, encoding
        self.decoder = codecs.getincrementaldecoder(encoding)()
        self.line = 1

    def read(self, size: int) -> bytes:
        while True:
            more = read(self.path, self.file, size)
            try:
                text = self.decoder.decode(more, not more).encode()
            except UnicodeDecodeError as error:
                line = self.line + error.object[: error.start].decode(self.encoding, "replace").count("\n")
                raise Trouble(self.path, f"byte {error.object[error.start]:02X} is not {self.encoding}", f"line {line}") from None
            self.line += text.count(b"\n")
            if text or not more:
                return text


class Table:
    """A CSV file: the names in its first line at once, and its rows in blocks."""

    def __init__(self, path: str, file: BinaryIO, delimiter: str = ",", encoding: str = "utf-8",
                 progress: Optional[Progress] = None) -> None:
        self.path, self.delimiter = path, delimiter
        self.progress = progress or Progress()
        #: Whether the last line lacks its newline: it may have been cut.
        self.open_end = False
        utf8 = codecs.lookup(encoding).name in ("utf-8", "utf-8-sig", "ascii")
        self._read: Callable[[int], bytes] = partial(read, path, file) if utf8 else _Recoded(path, file, encoding).read
        self._line = 1
        self._blocks = self._whole_lines()
        first = next(self._blocks, b"")
        if not first.strip():
            raise Trouble(path, "the file is empty: there is not even a line of names", "line 1")
        head, _, rest = first.partition(b"\n")
        if _QUOTE in head:
            self._rows: Optional[Iterator[List[str]]] = self._read_on(first, 1)
            self.names = [name.strip() for name in next(self._rows)]
        else:
            self._rows, self._rest = None, rest
            self.names = [name.strip() for name in head.decode().rstrip("\r").split(delimiter)]

    def index(self, name: str) -> int:
        """Which column has this name."""
        found = [index for index, other in enumerate(self.names) if other == name]
        if len(found) != 1:
            how = "no column" if not found else f"{len(found)} columns"
            raise Trouble(self.path, f"there is {how} {name}; the names are {', '.join(self.names)}", "line 1", name)
        return found[0]

    def _whole_lines(self) -> Iterator[bytes]:
        """The file as UTF-8, in blocks that end with a line, without a byte order mark."""
        rest, line = b"", 1
        while True:
            more = self._read(BLOCK_BYTES)
            self.progress.advance(len(more))
            whole = rest + more
            cut = whole.rfind(b"\n") + 1 if more else len(whole)
            if not more and whole and whole[-1] != _NEWLINE:
                self.open_end = True
                whole += b"\n"
                cut += 1
            if cut:
                self._check(whole[:cut], line)
                marked = line == 1 and whole.startswith(codecs.BOM_UTF8)
                yield whole[len(codecs.BOM_UTF8) : cut] if marked else whole[:cut]
                line += whole.count(b"\n", 0, cut)
            rest = whole[cut:]
            if len(rest) > LONGEST_LINE:
                raise Trouble(self.path, f"a line of over {LONGEST_LINE} bytes", f"line {line}")
            if not more:
                return

    def _check(self, block: bytes, line: int) -> None:
        """That a block is UTF-8."""
        if block.isascii():
            return
        try:
            block.decode()
        except UnicodeDecodeError as error:
            line += block.count(b"\n", 0, error.start)
            reason = f"byte {block[error.start]:02X} is not UTF-8; say with --encoding what the file is written in"
            raise Trouble(self.path, reason, f"line {line}") from None

    def blocks(self) -> Iterator[Block]:
        """The rows, some thousands at a time."""
        rows = self._rows
        if rows is None:
            line = 2
            for block in chain([self._rest] if self._rest else [], self._blocks):
                cut = QuickBlock.cut(block, self.delimiter, len(self.names), line)
                if cut is None:
                    rows = self._read_on(block, line)
                    break
                yield cut
                line += len(cut)
        if rows is not None:
            yield from self._listed(rows)

    def _read_on(self, block: bytes, line: int) -> Iterator[List[str]]:
        """The rows from this block on, by the csv module. ``_line`` is the line that the last row ended on."""
        lines = (raw.decode() for some in chain([block], self._blocks) for raw in some.splitlines(keepends=True))
        reader = csv.reader(lines, delimiter=self.delimiter, strict=True)
        while True:
            try:
                row = next(reader, None)
            except csv.Error as error:
                raise Trouble(self.path, f"this is no CSV: {error}", f"line {line + max(reader.line_num, 1) - 1}") from None
            if row is None:
                return
            self._line = line + reader.line_num - 1
            if row:
                yield row

    def _listed(self, rows: Iterator[List[str]]) -> Iterator[Block]:
        """Rows in blocks; those before a bad one are given before it is told, so that what is wrong first is told first."""
        trouble: Optional[Trouble] = None
        while trouble is None:
            some: List[List[str]] = []
            lines: List[int] = []
            try:
                for row in islice(rows, BLOCK_ROWS):
                    if len(row) != len(self.names):
                        raise Trouble(self.path, f"{len(row)} cells, and there are {len(self.names)} names", f"line {self._line}")
                    some.append(row)
                    lines.append(self._line)
            except Trouble as told:
                trouble = told
            if some:
                yield ListBlock(some, lines)
            elif trouble is None:
                return
        raise trouble


class TableWriter:
    """Writes a CSV file: the names at once, then columns, as many rows at a time as they have. ``finish`` belongs at the end."""

    def __init__(self, file: BinaryIO, names: Sequence[str], delimiter: str) -> None:
        self.text = io.TextIOWrapper(file, "utf-8", newline="", write_through=True)
        self.delimiter = delimiter
        self._rows([names], False)

    def _rows(self, rows: Iterable[Sequence[Any]], quoted: bool) -> None:
        quoting = csv.QUOTE_ALL if quoted else csv.QUOTE_MINIMAL
        csv.writer(self.text, delimiter=self.delimiter, lineterminator="\n", quoting=quoting).writerows(rows)

    def write(self, columns: Sequence[Sequence[Any]]) -> None:
        """So many rows more. The csv module leaves a cell with a return in it bare, which then ends a line: where there is one, all cells
        are quoted."""
        quoted = any("\r" in "".join([word for word in column if isinstance(word, str)]) for column in columns)
        self._rows(zip(*columns), quoted)

    def finish(self) -> None:
        """No rows follow. The file stays open."""
        self.text.detach()
