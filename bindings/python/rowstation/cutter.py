"""Rows from a stream, joined, with no list of their ends: where each of them ends, however the stream is cut into pieces."""

from __future__ import annotations

from typing import Any, Iterable, Iterator, List

import numpy as np

from . import library
from .refusals import Refused
from .rows import Rows
from .schema import Schema

#: So many bytes of a piece are cut at once: the station wants room for as many ends.
PIECE_BYTES = 1 << 16


class StreamRefused(Refused):
    """A stream is refused. ``ends`` are those of the rows that the piece at hand completes before what is wrong."""

    def __init__(self, number: int, second: int, third: int, fourth: int, ends: np.ndarray) -> None:
        super().__init__(number, second, third, fourth)
        self.ends = ends
        # What makes the same exception again, in another process for instance.
        self.args = (number, second, third, fourth, ends)


class Cutter:
    """A row cutter: it is handed a stream of rows in pieces, and says where each row ends, counted from the start of the stream.

    >>> cutter = Cutter(Schema("contour:u8,glyph:text"))
    >>> [cutter.cut(piece).tolist() for piece in (b"\\1\\5", b"\\0\\1\\7", b"", b"\\1")]
    [[], [3], [], [6]]
    >>> cutter.finish()
    2

    What decode would refuse of a row is refused, at the byte that shows it. A refusal stands: every later call raises it.

    >>> cutter.cut(b"\\1\\7\\1\\1\\7\\x09")
    Traceback (most recent call last):
    rowstation.cutter.StreamRefused: refused 17 3 1 2: row 3, column 1, byte 2: this lead byte is not allowed
    >>> cutter.finish()
    Traceback (most recent call last):
    rowstation.refusals.Refused: refused 17 3 1 2: row 3, column 1, byte 2: this lead byte is not allowed
    """

    __slots__ = ("_state",)

    def __init__(self, schema: Schema) -> None:
        self._state = np.zeros(library.STATE_BYTES, np.uint8)
        library.answer("station_cutter_start_read", schema.read, self._state)

    @classmethod
    def of(cls, state: bytes) -> Cutter:
        """A cutter whose :attr:`state` was kept. It is not looked at: every call refuses one that breaks its rule.

        >>> cutter = Cutter(Schema("contour:u8"))
        >>> ends = cutter.cut(b"\\1\\5\\1")
        >>> Cutter.of(cutter.state).cut(b"\\6").tolist()
        [4]
        >>> Cutter.of(bytes(360)).finish()
        Traceback (most recent call last):
        rowstation.refusals.Refused: refused 33 0 0 0: the state of the row cutter breaks its rule
        """
        cutter = cls.__new__(cls)
        cutter._state = np.frombuffer(bytearray(memoryview(state)), np.uint8)
        return cutter

    @property
    def state(self) -> bytes:
        """The state as bytes, which may be kept and handed on; ``docs/CUTTER.md`` of the repository has their meaning."""
        return self._state.tobytes()

    def cut(self, piece: Any) -> np.ndarray:
        """The ends of the rows that the next piece completes. A piece is bytes of any length, none too."""
        data = np.frombuffer(piece, np.uint8) if len(piece) else np.empty(0, np.uint8)
        found: List[np.ndarray] = [np.empty(0, np.int64)]
        for start in range(0, max(1, len(data)), PIECE_BYTES):
            part = data[start : start + PIECE_BYTES]
            # No row is empty, so no end is 0.
            room = np.zeros(len(part), "<u8")
            refused = None
            try:
                library.answer("station_cut", self._state, part, room)
            except Refused as refusal:
                refused = refusal
            found.append(room[: np.count_nonzero(room)].astype(np.int64))
            if refused is not None:
                raise StreamRefused(*refused.numbers, np.concatenate(found)) from None
        return np.concatenate(found)

    def finish(self) -> int:
        """How many rows the stream has, if it may end here; within a row it is refused, 16. The cutter stays as it is.

        >>> cutter = Cutter(Schema("contour:u8"))
        >>> ends = cutter.cut(b"\\1\\5\\1")
        >>> cutter.finish()
        Traceback (most recent call last):
        rowstation.refusals.Refused: refused 16 1 0 1: row 1, column 0, byte 1: the field or block is cut
        """
        return library.answer("station_cutter_finish", self._state)[0]


def cut(schema: Schema, pieces: Iterable[Any]) -> Iterator[Rows]:
    """The rows of a stream, as they come: for each piece that completes any, these. The stream must end after a row.

    Only the row that is being read is held, so a stream takes no more memory than its largest piece and row. What is before a refusal
    is given first.

    >>> schema = Schema("contour:u8,glyph:text")
    >>> for rows in cut(schema, [b"\\1\\5\\0\\1", b"\\7\\1\\1\\7", b"\\1"]):
    ...     print(rows.decode()["contour"].tolist())
    [5]
    [7]
    [7]
    """
    cutter, held, start = Cutter(schema), bytearray(), 0
    for piece in pieces:
        refused = None
        try:
            ends = cutter.cut(piece)
        except StreamRefused as refusal:
            ends, refused = refusal.ends, refusal
        held += piece
        if len(ends):
            offsets = np.concatenate([np.zeros(1, np.int64), ends - start])
            data = np.frombuffer(bytes(held[: offsets[-1]]), np.uint8)
            del held[: offsets[-1]]
            start = int(ends[-1])
            yield Rows(schema, data, offsets)
        if refused is not None:
            raise refused
    cutter.finish()
