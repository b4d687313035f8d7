"""Cells: values as text in CSV, read and written, for each family of kinds.

Numbers stand as usual, bools as true and false, intervals as their parts with spaces between them, bytes in hex, text as it is. A NaN other
than the usual one is ``nan:`` and its bits in hex, so that what is written reads back as the same bits.
"""

from __future__ import annotations

import binascii
import re
import warnings
from fractions import Fraction
from typing import Any, Callable, Dict, List, NamedTuple, Optional, Tuple

import numpy as np

from . import pieces
from .csvfile import Block
from .files import Trouble
from .kinds import Kind
from .schema import Column
from .sheets import Values
from .values import BadValue, ByteColumn, Prepared, prepare, shown


class BadCell(ValueError):
    """A cell that is no value of its kind, with what should stand there."""


_INTEGER = re.compile(r"[ \t]*[+-]?[0-9]+[ \t]*")
_FLOAT = re.compile(r"[ \t]*[+-]?([0-9]+\.?[0-9]*|\.[0-9]+)([eE][+-]?[0-9]+)?[ \t]*")
_NAMED_FLOATS = {"nan": np.nan, "inf": np.inf, "+inf": np.inf, "-inf": -np.inf}
_BOOLS = {"true": True, "false": False, "1": True, "0": False}

_PLAIN = np.zeros(256, bool)
_PLAIN[list(b"0123456789+-.eE ,")] = True


class Form(NamedTuple):
    """How a family stands in a cell.

    ``read`` reads one cell. ``quick`` reads all cells of a column at once, given with a comma after each, or says nothing where they are
    not all plain. ``write`` gives what csv is to write for each value, None for null.
    """

    read: Callable[[Kind, str], Any]
    write: Callable[[Kind, Values], List[Any]]
    quick: Optional[Callable[[Kind, bytes, int], Optional[np.ndarray]]] = None


def _read_bool(kind: Kind, cell: str) -> bool:
    try:
        return _BOOLS[cell.strip().lower()]
    except KeyError:
        raise BadCell from None


def _write_bools(kind: Kind, values: Values) -> List[Any]:
    return [None if value is None else str(value).lower() for value in values.tolist()]


def _read_integer(kind: Kind, cell: str) -> int:
    if not _INTEGER.fullmatch(cell):
        raise BadCell
    return int(cell)


def _quick_numbers(text: bytes, dtype: Any, count: int) -> Optional[np.ndarray]:
    """So many numbers with a comma after each, or nothing where they are not all plain numbers that the type holds."""
    if not _PLAIN[np.frombuffer(text, np.uint8)].all():
        return None
    with warnings.catch_warnings():
        warnings.simplefilter("error")
        try:
            array = np.fromstring(text, dtype, sep=",")
        except (DeprecationWarning, ValueError):
            return None
    if len(array) != count:
        return None
    # What is past an integer's range is read as the end of the range.
    if array.dtype.kind == "i" and count and (array.max() == 2**63 - 1 or array.min() == -(2**63)):
        return None
    return array


def _quick_integers(kind: Kind, text: bytes, count: int) -> Optional[np.ndarray]:
    return _quick_numbers(text, np.int64, count)


def _write_plainly(kind: Kind, values: Values) -> List[Any]:
    return values.tolist()


def _read_float(kind: Kind, cell: str) -> float:
    word = cell.strip(" \t").lower()
    if _FLOAT.fullmatch(cell):
        return float(cell)
    if word in _NAMED_FLOATS:
        return _NAMED_FLOATS[word]
    if nan_bits(kind, word) is not None:
        return np.nan
    raise BadCell


def nan_bits(kind: Kind, word: str) -> Optional[int]:
    """The bits of a NaN that is spelled by them.

    >>> from rowstation.kinds import KINDS
    >>> hex(nan_bits(KINDS["f16"], "nan:fe01")), nan_bits(KINDS["f16"], "nan:0001")
    ('0xfe01', None)
    """
    if not re.fullmatch(f"nan:[0-9a-f]{{{2 * kind.dtype.itemsize}}}", word):
        return None
    bits = int(word[4:], 16)
    return bits if np.isnan(np.array(bits, f"<u{kind.dtype.itemsize}").view(kind.dtype)) else None


def _quick_floats(kind: Kind, text: bytes, count: int) -> Optional[np.ndarray]:
    return _quick_numbers(text, np.float64, count)


def _write_floats(kind: Kind, values: Values) -> List[Any]:
    data = np.ma.getdata(values)
    # The shortest text of a narrow float is shorter than that of the same number as a wide one.
    words: List[Any] = data.tolist() if data.itemsize == 8 else data.astype("U").tolist()
    bits = data.view(f"<u{data.itemsize}")
    usual = np.array(np.nan, data.dtype).view(bits.dtype)
    for row in np.flatnonzero(np.isnan(data) & (bits != usual)).tolist():
        words[row] = f"nan:{int(bits[row]):0{2 * data.itemsize}x}"
    return _with_none(words, np.ma.getmaskarray(values))


def _with_none(words: List[Any], mask: np.ndarray) -> List[Any]:
    for row in np.flatnonzero(mask).tolist():
        words[row] = None
    return words


def _read_interval(kind: Kind, cell: str) -> Tuple[int, ...]:
    parts, names = cell.split(), kind.dtype.names
    if len(parts) != len(names) or not all(map(_INTEGER.fullmatch, parts)):
        raise BadCell(f"{', '.join(names)}, with spaces between them")
    return tuple(map(int, parts))


def _quick_intervals(kind: Kind, text: bytes, count: int) -> Optional[np.ndarray]:
    """Where every cell has as many parts as it should, with single spaces between them."""
    parts = len(kind.dtype.names)
    data = np.frombuffer(text, np.uint8)
    between = data[(data == ord(" ")) | (data == ord(","))]
    if len(between) != parts * count or (between.reshape(count, parts)[:, :-1] == ord(",")).any():
        return None
    array = _quick_numbers(text.replace(b" ", b","), np.int64, parts * count)
    return None if array is None else array.reshape(count, parts)


def _write_intervals(kind: Kind, values: Values) -> List[Any]:
    data, mask = np.ma.getdata(values), np.ma.getmaskarray(values)
    columns = [data[name].tolist() for name in kind.dtype.names]
    return _with_none(list(map(" ".join(["{}"] * len(columns)).format, *columns)), mask[kind.dtype.names[0]])


def _read_hex(kind: Kind, cell: str) -> bytes:
    try:
        return binascii.unhexlify(cell)
    except (binascii.Error, ValueError):
        raise BadCell("bytes stand in hex; for text say kind text") from None


def _write_hex(kind: Kind, values: Values) -> List[Any]:
    return [None if value is None else value.hex() for value in values.tolist()]


def _read_text(kind: Kind, cell: str) -> str:
    return cell


#: Every family of kinds.
FORMS: Dict[str, Form] = {
    "bool": Form(_read_bool, _write_bools),
    "integer": Form(_read_integer, _write_plainly, _quick_integers),
    "long": Form(_read_integer, _write_plainly, _quick_integers),
    "float": Form(_read_float, _write_floats, _quick_floats),
    "parts": Form(_read_interval, _write_intervals, _quick_intervals),
    "bytes": Form(_read_hex, _write_hex),
    "text": Form(_read_text, _write_plainly),
}


def quantised(values: np.ndarray, step: Fraction) -> np.ndarray:
    """Each float at the nearest multiple of a step, so that floats which differ in their last bits become equal.

    >>> quantised(np.array([0.28999, 0.29001, -0.001]), Fraction("0.01")).tolist()
    [0.29, 0.29, 0.0]
    """
    with np.errstate(over="ignore", invalid="ignore"):
        scaled = values * float(step.denominator) / float(step.numerator)
        out = np.rint(scaled) * float(step.numerator) / float(step.denominator)
    # Where floats are further apart than the step, each is its own multiple. A zero has no sign, and there is one NaN.
    out = np.where(np.abs(scaled) < 2.0**52, out, values) + 0.0
    out[np.isnan(out)] = np.nan
    return out


def _nulls(block: Block, index: int, word: bytes) -> np.ndarray:
    """Which cells of a column are the word for null."""
    mask = block.lengths(index) == len(word)
    if word and mask.any():
        some = np.flatnonzero(mask)
        table = pieces.take(*block.pieces(index), some)[0].reshape(len(some), len(word))
        mask[some] = (table == np.frombuffer(word, np.uint8)).all(axis=1)
    return mask


def read_column(column: Column, block: Block, index: int, null: str, path: str, step: Optional[Fraction] = None) -> Prepared:
    """A column of a block of a CSV file, quantised if a step is given. A cell that is no value of its kind is told with its line."""
    mask = _nulls(block, index, null.encode())
    if column.kind.family == "text":
        return Prepared(ByteColumn(*block.pieces(index), mask, text=True), mask)
    values, bits = _quick(column, block, index, mask), {}
    if values is None:
        values, bits = _slow(column, block, index, mask, path)
    if step is not None:
        if isinstance(values, list):
            values = np.array([0.0 if value is None else value for value in values], np.float64)
        values, bits = quantised(values, step), {}
    try:
        prepared = prepare(column, values if isinstance(values, list) else Prepared(values, mask))
    except BadValue as bad:
        raise Trouble(path, bad.reason, f"line {block.lines[bad.row]}", column.name) from None
    for row, pattern in bits.items():
        prepared.values.view(f"<u{prepared.values.itemsize}")[row] = pattern
    return prepared


def _quick(column: Column, block: Block, index: int, mask: np.ndarray) -> Optional[np.ndarray]:
    """All cells of a column read at once, zeros for nulls, or nothing where they are not all plain."""
    quick = FORMS[column.kind.family].quick
    valid = ~mask
    some = quick(column.kind, block.joined(index, valid), int(valid.sum())) if quick else None
    if some is None or valid.all():
        return some
    values = np.zeros((len(block), *some.shape[1:]), some.dtype)
    values[valid] = some
    return values


def _slow(column: Column, block: Block, index: int, mask: np.ndarray, path: str) -> Tuple[List[Any], Dict[int, int]]:
    """The cells of a column read one by one, None for null; and of NaNs that are spelled by their bits, the bits."""
    cells, missing, lines = pieces.to_list(*block.pieces(index)), mask.tolist(), block.lines.tolist()
    values = [None if null else _read_cell(column, cell, line, path) for cell, null, line in zip(cells, missing, lines)]
    bits = {}
    for row, cell in enumerate(cells) if column.kind.family == "float" else ():
        if b":" in cell and not missing[row]:
            bits[row] = nan_bits(column.kind, cell.decode().strip(" \t").lower())
    return values, bits


def _read_cell(column: Column, cell: bytes, line: int, path: str) -> Any:
    try:
        return FORMS[column.kind.family].read(column.kind, cell.decode())
    except BadCell as bad:
        reason = f"{shown(cell.decode())} is no {column.kind.name}" + (f": {bad}" if str(bad) else "")
        raise Trouble(path, reason, f"line {line}", column.name) from None


def spelled(column: Column, values: Values) -> List[Any]:
    """What csv is to write for each value, None for null. Text that is not UTF-8 is a :class:`BadValue`."""
    try:
        return FORMS[column.kind.family].write(column.kind, values)
    except UnicodeDecodeError:
        row = next(row for row, value in enumerate(pieces.to_list(values.data, values.ends)) if not _is_text(value))
        raise BadValue(column.name, row, "the value is not UTF-8; for bytes in hex say kind bytes") from None


def write_column(column: Column, values: Values, null: str) -> List[Any]:
    """What csv is to write for each value, a word for null. A value that would be read as null is a :class:`BadValue`."""
    words = spelled(column, values)
    if null:
        words = [word if word is None else str(word) for word in words]
    if null in words:
        reason = f"the value {shown(null)} would be read as null; say another word for null with --null"
        raise BadValue(column.name, words.index(null), reason)
    return [null if word is None else word for word in words] if null else words


def _is_text(value: bytes) -> bool:
    try:
        value.decode()
    except UnicodeDecodeError:
        return False
    return True
