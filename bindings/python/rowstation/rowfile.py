"""Files of rows: hex lines, or binary.

Hex: a line for each row, two digits a byte. In the order of their bytes such lines stand in the order of their rows, so that any tool that
sorts lines as bytes (``LC_ALL=C sort``) can sort and merge them.

Binary: the eight bytes ``FF rowbin1``; then blocks, each of a count in four bytes, as many row lengths in four bytes each, and the rows,
joined; then a count of 0, without which the file is cut. Numbers stand low byte first.

Joined: the rows and nothing else. It is written here, and read by the row cutter alone, under the columns of the rows.
"""

from __future__ import annotations

import binascii
import re
from typing import BinaryIO, Iterator, Optional

import numpy as np

from . import pieces
from .files import Progress, Trouble, read
from .rows import Rows
from .schema import Schema

MAGIC = b"\xffrowbin1"
BLOCK_ROWS = 1 << 16
BLOCK_BYTES = 1 << 22

FORMATS = ("hex", "binary")
JOINED = "joined"


class RowReader:
    """The rows of a file, block by block; its first byte tells the two formats apart."""

    def __init__(self, path: str, file: BinaryIO, schema: Optional[Schema] = None, progress: Optional[Progress] = None) -> None:
        self.path, self.file, self.schema = path, file, schema
        self.progress = progress or Progress()
        self._begin = read(path, file, len(MAGIC))
        self.format = "binary" if self._begin[:1] == MAGIC[:1] else "hex"

    def place(self, row: int) -> str:
        """Where a row stands in the file, as errors have it."""
        return f"line {row + 1}" if self.format == "hex" else f"row {row}"

    def all(self) -> Rows:
        """Every row of the file."""
        return Rows.concatenated([Rows.of(self.schema, [])] + list(self.blocks()))

    def blocks(self) -> Iterator[Rows]:
        """The rows, some thousands at a time."""
        for data, offsets in self._binary() if self.format == "binary" else self._hex():
            yield Rows(self.schema, data, offsets)

    def _read(self, size: int) -> bytes:
        data = read(self.path, self.file, size)
        self.progress.advance(len(data))
        return data

    def _hex(self) -> Iterator[pieces.Pieces]:
        rest, line = self._begin, 0
        while True:
            more = self._read(BLOCK_BYTES)
            whole = rest + more
            cut = whole.rfind(b"\n") + 1
            if cut:
                lines = whole[:cut].replace(b"\r\n", b"\n")
                yield self._lines(lines, line)
                line += lines.count(b"\n")
            rest = whole[cut:]
            if not more:
                break
        if rest:
            raise Trouble(self.path, "the last line has no newline: the file is cut", self.place(line))

    def _lines(self, lines: bytes, before: int) -> pieces.Pieces:
        """Whole lines as rows."""
        newlines = np.flatnonzero(np.frombuffer(lines, np.uint8) == ord("\n"))
        lengths = np.diff(newlines, prepend=-1) - 1
        try:
            if (lengths % 2).any():
                raise binascii.Error
            data = binascii.unhexlify(lines.replace(b"\n", b""))
        except binascii.Error:
            raise self._bad_line(lines, before) from None
        return np.frombuffer(data, np.uint8), pieces.ends_of(lengths // 2)

    def _bad_line(self, lines: bytes, before: int) -> Trouble:
        """The first line that is no row in hex."""
        for number, line in enumerate(lines.split(b"\n")):
            bad = re.search(rb"[^0-9a-fA-F]", line)
            if bad:
                character = bad.group().decode("latin-1")
                return Trouble(self.path, f"{character!r}, character {bad.start() + 1}, is no hex digit", self.place(before + number))
            if len(line) % 2:
                return Trouble(self.path, f"{len(line)} hex digits, and a byte has two", self.place(before + number))
        raise AssertionError("every line is hex")

    def _binary(self) -> Iterator[pieces.Pieces]:
        if self._begin != MAGIC:
            raise Trouble(self.path, "neither hex lines nor a binary file of rows", "byte 0")
        row, at = 0, len(MAGIC)

        def next_bytes(size: int) -> np.ndarray:
            nonlocal at
            data = self._read(size)
            at += len(data)
            if len(data) < size:
                raise Trouble(self.path, f"the file is cut, at byte {at}", self.place(row))
            return np.frombuffer(data, np.uint8)

        while True:
            count = int(next_bytes(4).view("<u4")[0])
            if count == 0:
                break
            if count > BLOCK_ROWS:
                raise Trouble(self.path, f"a block of {count} rows, over {BLOCK_ROWS}, at byte {at - 4}", self.place(row))
            offsets = pieces.ends_of(next_bytes(4 * count).view("<u4").astype(np.int64))
            yield next_bytes(int(offsets[-1])), offsets
            row += count
        if self._read(1):
            raise Trouble(self.path, f"bytes follow the end, from byte {at} on", self.place(row))


class RowWriter:
    """Writes rows to a file. ``finish`` belongs at the end."""

    def __init__(self, file: BinaryIO, form: str) -> None:
        self.file, self.format = file, form
        if form == "binary":
            file.write(MAGIC)

    def write(self, rows: Rows) -> None:
        """So many rows more."""
        for start in range(0, len(rows), BLOCK_ROWS):
            some = rows[start : start + BLOCK_ROWS]
            data = some.data[some.offsets[0] : some.offsets[-1]]
            if self.format == "hex":
                self.file.write(hex_lines(data, some.offsets - some.offsets[0]))
            elif self.format == JOINED:
                self.file.write(data.tobytes())
            else:
                self.file.write(len(some).to_bytes(4, "little"))
                self.file.write(np.diff(some.offsets).astype("<u4").tobytes())
                self.file.write(data.tobytes())

    def finish(self) -> None:
        """No rows follow."""
        if self.format == "binary":
            self.file.write(bytes(4))


def hex_lines(data: np.ndarray, offsets: np.ndarray) -> bytes:
    """A line of hex for each row.

    >>> hex_lines(np.array([1, 128, 255], np.uint8), np.array([0, 2, 3]))
    b'0180\\nff\\n'
    """
    digits = np.frombuffer(binascii.hexlify(data), np.uint8)
    out = np.empty(len(digits) + len(offsets) - 1, np.uint8)
    newlines = 2 * offsets[1:] + np.arange(len(offsets) - 1)
    out[newlines] = ord("\n")
    inside = np.ones(len(out), bool)
    inside[newlines] = False
    out[inside] = digits
    return out.tobytes()
