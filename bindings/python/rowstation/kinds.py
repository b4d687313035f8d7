"""The kinds and options of columns: one table of each, from which everything else in this package takes its names and shapes."""

from __future__ import annotations

from typing import NamedTuple, Optional, Tuple

import numpy as np


class Kind(NamedTuple):
    """What the values of a column are.

    ``layout`` is how they stand in a sheet: ``bits`` packed eight to a byte, ``wide`` one after the other in the same number of bytes,
    ``ended`` as ends and bytes. ``family`` is how they are given and written in Python and CSV: each has one reader and one writer.
    """

    name: str
    number: int
    layout: str
    family: str
    words: str
    dtype: Optional[np.dtype] = None


DAY_TIME = np.dtype([("days", "<i4"), ("milliseconds", "<i4")])
MONTH_DAY_NANO = np.dtype([("months", "<i4"), ("days", "<i4"), ("nanoseconds", "<i8")])


def _number(name: str, number: int, dtype: str) -> Kind:
    family = "float" if name[0] == "f" else "integer"
    signed = {"f": "float", "i": "signed number", "u": "unsigned number"}[name[0]]
    return Kind(name, number, "wide", family, f"{signed} of {name[1:]} bits", np.dtype(dtype))


_TABLE = (
    Kind("bool", 1, "bits", "bool", "true or false", np.dtype(bool)),
    _number("i8", 2, "<i1"),
    _number("i16", 3, "<i2"),
    _number("i32", 4, "<i4"),
    _number("i64", 5, "<i8"),
    _number("u8", 6, "<u1"),
    _number("u16", 7, "<u2"),
    _number("u32", 8, "<u4"),
    _number("u64", 9, "<u8"),
    _number("f16", 10, "<f2"),
    _number("f32", 11, "<f4"),
    _number("f64", 12, "<f8"),
    Kind("day_time", 13, "wide", "parts", "interval: days and milliseconds", DAY_TIME),
    Kind("month_day_nano", 14, "wide", "parts", "interval: months, days and nanoseconds", MONTH_DAY_NANO),
    Kind("fixed", 15, "wide", "bytes", "bytes, as many as the width says, 0 to 1,024: fixed:16 has sixteen"),
    Kind("bytes", 16, "ended", "bytes", "bytes, 0 to 65,535"),
    Kind("text", 16, "ended", "text", "text, as its UTF-8 bytes, 0 to 65,535"),
    # numpy has no integers so long: in a sheet they are bytes, and for Python its own integers.
    Kind("i128", 17, "wide", "long", "signed number of 128 bits", np.dtype("V16")),
    Kind("i256", 18, "wide", "long", "signed number of 256 bits", np.dtype("V32")),
)

#: Every kind by its name. ``bytes`` and ``text`` are one kind of the station: they differ in what Python and CSV see of it.
KINDS = {kind.name: kind for kind in _TABLE}

#: The one kind whose description carries a width.
FIXED = KINDS["fixed"]


class Option(NamedTuple):
    """What an option's name does to a column's options byte: its bit is set or cleared."""

    bit: int
    on: bool
    words: str

    def applied(self, options: int) -> int:
        """The options byte with this option in it."""
        return options | 1 << self.bit if self.on else options & ~(1 << self.bit)


#: Every option by its name.
OPTIONS = {
    "ascending": Option(0, False, "small values first (this is so unless said)"),
    "descending": Option(0, True, "large values first"),
    "nulls_first": Option(1, True, "nulls before all values (this is so unless said)"),
    "nulls_last": Option(1, False, "nulls after all values"),
    "nullable": Option(2, False, "nulls may stand in the column (this is so unless said)"),
    "required": Option(2, True, "no value may be null"),
    "unfolded": Option(3, False, "floats as they are (this is so unless said)"),
    "fold": Option(3, True, "floats only: every NaN becomes one, and -0 becomes 0"),
}

#: The options byte of a column that names no option: ascending, nulls first, nullable, unfolded.
NO_OPTION = 0b10


def option_names(options: int) -> Tuple[str, ...]:
    """The names to write for an options byte: those that are not so unless said.

    >>> option_names(0b1101)
    ('descending', 'nulls_last', 'required', 'fold')
    >>> option_names(NO_OPTION)
    ()
    """
    return tuple(name for name, option in OPTIONS.items() if option.applied(NO_OPTION) != NO_OPTION and option.applied(options) == options)
