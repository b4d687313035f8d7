"""Schemas: which columns a row has, by name, with their kinds and options."""

from __future__ import annotations

from typing import Iterable, Iterator, List, Sequence, Tuple, Union

import numpy as np

from . import library
from .kinds import FIXED, KINDS, NO_OPTION, OPTIONS, Kind, option_names
from .refusals import Refused

#: A column as it is given: a name, the name of its kind, for ``fixed`` the width, and names of options.
Given = Sequence[Union[str, int]]


class Column:
    """One column of a schema: its name, kind, width (of ``fixed`` only, else 0) and options byte."""

    __slots__ = ("name", "kind", "width", "options")

    def __init__(self, name: str, kind: str, *rest: Union[str, int]) -> None:
        if not isinstance(name, str) or not name:
            raise ValueError(f"a column's name is text, and not empty: {name!r}")
        if kind not in KINDS:
            raise ValueError(f"column {name}: there is no kind {kind!r}; the kinds are {', '.join(KINDS)}")
        self.name = name
        self.kind: Kind = KINDS[kind]
        self.width, words = self._width(list(rest))
        self.options = NO_OPTION
        seen = 0
        for word in words:
            if word not in OPTIONS:
                raise ValueError(f"column {name}: there is no option {word!r}; the options are {', '.join(OPTIONS)}")
            option = OPTIONS[word]
            if seen >> option.bit & 1:
                raise ValueError(f"column {name}: {word} is said beside another word for the same thing")
            seen |= 1 << option.bit
            self.options = option.applied(self.options)

    def _width(self, words: List[Union[str, int]]) -> Tuple[int, List[Union[str, int]]]:
        """The width that the words begin with, where there is to be one, and the words after it."""
        if self.kind is not FIXED:
            return 0, words
        width = words[0] if words else None
        if isinstance(width, str) and width.isascii() and width.isdigit():
            width = int(width)
        if not isinstance(width, int) or isinstance(width, bool) or not 0 <= width < 1 << 16:
            raise ValueError(f"column {self.name}: fixed is followed by its width, as in fixed:16")
        return width, words[1:]

    @property
    def value_bytes(self) -> int:
        """How many bytes a value has in a row, of a kind that is not ended."""
        return self.width if self.kind is FIXED else self.kind.dtype.itemsize

    @property
    def description(self) -> bytes:
        """The column as it stands in a column list."""
        width = self.width.to_bytes(2, "little") if self.kind is FIXED else b""
        return bytes([self.kind.number, self.options]) + width

    @property
    def descending(self) -> bool:
        """Whether large values come first."""
        return bool(self.options & 1)

    @property
    def required(self) -> bool:
        """Whether no value may be null."""
        return bool(self.options & 4)

    @property
    def fold(self) -> bool:
        """Whether floats are folded."""
        return bool(self.options & 8)

    @property
    def null_byte(self) -> int:
        """The lead byte of a null in a row."""
        return 0x00 if self.options & 2 else 0xFF

    def null_lead(self, byte: int) -> bool:
        """Whether a field with this lead byte is null, which none is in a required column."""
        return byte == self.null_byte and not self.required

    def __str__(self) -> str:
        width = (str(self.width),) if self.kind is FIXED else ()
        return ":".join((self.name, self.kind.name) + width + option_names(self.options))

    def __repr__(self) -> str:
        return f"Column({str(self)!r})"

    def _parts(self) -> Tuple[str, str, int, int]:
        return self.name, self.kind.name, self.width, self.options

    def __eq__(self, other: object) -> bool:
        return isinstance(other, Column) and self._parts() == other._parts()

    def __hash__(self) -> int:
        return hash(self._parts())


class Schema:
    """The columns of a row, first to last.

    A column is a name, a kind, for ``fixed`` a width, and options, all by name:

    >>> schema = Schema([("plate", "u32"), ("glyph", "text", "descending", "nulls_last"), ("hash", "fixed", 16)])
    >>> schema
    Schema('plate:u32,glyph:text:descending:nulls_last,hash:fixed:16')
    >>> schema == Schema("plate:u32,glyph:text:descending:nulls_last,hash:fixed:16")
    True
    >>> schema.list.hex(" ")
    '08 02 10 01 0f 02 10 00'

    What is wrong in it is said before anything is encoded:

    >>> Schema([("plate", "u33")])  # doctest: +ELLIPSIS
    Traceback (most recent call last):
    ValueError: column plate: there is no kind 'u33'; the kinds are bool, i8, ...
    >>> Schema("hash:fixed:1025")
    Traceback (most recent call last):
    rowstation.refusals.Refused: refused 4 0 0 0: a width over 1,024, or outside fixed binary, in the column at place 0 of the list
    """

    def __init__(self, columns: Union[str, Iterable[Union[Column, Given]]]) -> None:
        if isinstance(columns, str):
            columns = [tuple(word.strip() for word in column.split(":")) for column in columns.split(",")]
        self.columns: Tuple[Column, ...] = tuple(_column(given) for given in columns)
        self.names: Tuple[str, ...] = tuple(column.name for column in self.columns)
        for name in self.names:
            if self.names.count(name) > 1:
                raise ValueError(f"two columns have the name {name}")
        #: The column list of the station.
        self.list: bytes = b"".join(column.description for column in self.columns)
        #: What the station read from the list, once: four bytes a column, for every batch of rows.
        self.read = np.zeros((len(self.columns), 4), np.uint8)
        library.answer("station_read_list", np.frombuffer(self.list, np.uint8), self.read)

    def first(self, k: int) -> Schema:
        """The schema of the first k columns. The bytes of a row's first k fields are the row of the same values under it.

        >>> Schema("plate:u32,glyph:text").first(1)
        Schema('plate:u32')
        """
        if not 1 <= k <= len(self.columns):
            raise ValueError(f"the first {k} of {len(self.columns)} columns")
        return Schema(self.columns[:k])

    def only(self, names: Iterable[str]) -> Schema:
        """The schema of the columns that are named, in the order of the names.

        >>> Schema("plate:u32,glyph:text,contour:u16").only(["contour", "plate"])
        Schema('contour:u16,plate:u32')
        """
        return Schema([self[name] for name in names])

    def column_of(self, refusal: Refused) -> str:
        """The name of the column that a refusal is about, or nothing where it is about none.

        >>> Schema("plate:u32,glyph:text").column_of(Refused(17, 0, 1, 5))
        'glyph'
        """
        index = refusal.column
        if refusal.place is not None:
            starts = np.cumsum([0] + [len(column.description) for column in self.columns])
            index = int(np.searchsorted(starts, refusal.place, "right")) - 1
        return self.names[index] if index is not None and index < len(self.names) else ""

    def __getitem__(self, name: str) -> Column:
        try:
            return self.columns[self.names.index(name)]
        except ValueError:
            raise KeyError(name) from None

    def __iter__(self) -> Iterator[Column]:
        return iter(self.columns)

    def __len__(self) -> int:
        return len(self.columns)

    def __str__(self) -> str:
        return ",".join(map(str, self.columns))

    def __repr__(self) -> str:
        return f"Schema({str(self)!r})"

    def __eq__(self, other: object) -> bool:
        return isinstance(other, Schema) and self.columns == other.columns

    def __hash__(self) -> int:
        return hash(self.columns)


def _column(given: Union[Column, Given]) -> Column:
    if isinstance(given, Column):
        return given
    if isinstance(given, str) or len(given) < 2:
        raise ValueError(f"a column is a name, a kind and options: {given!r}")
    return Column(*given)
