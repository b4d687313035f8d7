"""Columns of values: what a caller may give, as the arrays that a sheet is made of."""

from __future__ import annotations

from itertools import repeat
from operator import is_
from typing import Any, Callable, Dict, Iterator, List, Mapping, NamedTuple, Optional, Sequence, Tuple, Union

import numpy as np

from . import pieces
from .kinds import FIXED
from .schema import Column, Schema


class BadValue(ValueError):
    """A value that its column cannot hold, told with the column's name and the row, before anything is encoded."""

    def __init__(self, column: str, row: Optional[int], reason: str) -> None:
        super().__init__(column, row, reason)
        self.column = column
        self.row = row
        self.reason = reason

    def __str__(self) -> str:
        where = "" if self.row is None else f", row {self.row}"
        return f"column {self.column}{where}: {self.reason}"


def shown(value: Any) -> str:
    """A value as an error shows it: not over 60 characters."""
    text = repr(value)
    return text if len(text) <= 60 else text[:57] + "..."


class ByteColumn:
    """A column of bytes or text as numpy arrays: value i is ``data[ends[i]:ends[i + 1]]``, and null where ``mask[i]`` is true.

    It has a length, items (``None`` for null) and an iteration, and can be given to :func:`rowstation.encode` as it is.

    >>> names = ByteColumn.of(["ae", None, "ß"], text=True)
    >>> len(names), names[0], names[1], list(names)
    (3, 'ae', None, ['ae', None, 'ß'])
    >>> names.data.tobytes(), names.ends.tolist(), names.mask.tolist()
    (b'ae\\xc3\\x9f', [0, 2, 2, 4], [False, True, False])
    >>> names[1:].tolist()
    [None, 'ß']
    """

    __slots__ = ("data", "ends", "mask", "text")

    def __init__(self, data: np.ndarray, ends: np.ndarray, mask: Optional[np.ndarray] = None, text: bool = False) -> None:
        self.data = np.ascontiguousarray(data, np.uint8)
        self.ends = np.asarray(ends, np.int64)
        if self.data.ndim != 1 or self.ends.ndim != 1 or len(self.ends) == 0:
            raise ValueError("bytes in one array, and one end more than there are values")
        if self.ends[0] < 0 or self.ends[-1] > len(self.data) or (np.diff(self.ends) < 0).any():
            raise ValueError("the ends fall, or pass the bytes")
        self.mask = np.zeros(len(self), bool) if mask is None else np.asarray(mask, bool)
        if self.mask.shape != (len(self),):
            raise ValueError(f"{len(self)} values and a mask of {self.mask.size}")
        self.text = text

    @classmethod
    def of(cls, values: Sequence[Any], text: bool = False) -> ByteColumn:
        """The column of a list of bytes, or of str for text, with ``None`` for null."""
        values, mask = _without_none(list(values), "" if text else b"")
        return cls(*pieces.from_list(list(map(str.encode, values)) if text else values), mask, text)

    def __len__(self) -> int:
        return len(self.ends) - 1

    def __getitem__(self, which: Union[int, slice, np.ndarray]) -> Any:
        if isinstance(which, slice):
            which = np.arange(len(self))[which]
        if isinstance(which, np.ndarray):
            return ByteColumn(*pieces.take(self.data, self.ends, which), self.mask[which], self.text)
        row = range(len(self))[which]
        if self.mask[row]:
            return None
        value = self.data[self.ends[row] : self.ends[row + 1]].tobytes()
        return value.decode() if self.text else value

    def __iter__(self) -> Iterator[Any]:
        return iter(self.tolist())

    def tolist(self) -> List[Any]:
        """The values as Python objects, ``None`` for null."""
        values: List[Any] = pieces.to_list(self.data, self.ends)
        if self.text:
            values = list(map(bytes.decode, values))
        for row in np.flatnonzero(self.mask).tolist():
            values[row] = None
        return values

    def to_numpy(self) -> np.ma.MaskedArray:
        """The values as Python objects in a masked array."""
        out = np.empty(len(self), object)
        out[:] = self.tolist()
        return np.ma.MaskedArray(out, self.mask)

    def __repr__(self) -> str:
        return f"<ByteColumn of {len(self)} values, {int(self.mask.sum())} of them null>"


class Prepared(NamedTuple):
    """The values of a column as they go into a sheet, and which of them are null.

    Bits are an array of bools, wide values an array of the column's own type (of ``fixed`` a table of bytes), ended ones a ByteColumn.
    """

    values: Any
    mask: Optional[np.ndarray]


def _without_none(values: List[Any], fill: Any) -> Tuple[List[Any], Optional[np.ndarray]]:
    """A list with something else in the place of None, and where None was, if anywhere."""
    mask = np.fromiter(map(is_, values, repeat(None)), bool, len(values))
    if not mask.any():
        return values, None
    return [fill if value is None else value for value in values], mask


def _apart(given: Any, fill: Any) -> Tuple[Any, Optional[np.ndarray]]:
    """What was given as an array or a list, and its nulls: from masks, from None, and from what pandas counts as missing."""
    if isinstance(given, ByteColumn):
        return given, given.mask
    if hasattr(given, "isna") and hasattr(given, "to_numpy"):
        return _apart_pandas(given, fill)
    if isinstance(given, np.ma.MaskedArray):
        mask = np.ma.getmaskarray(given)
        if mask.dtype.names:
            mask = np.logical_and.reduce([mask[name] for name in mask.dtype.names])
        if given.dtype == object:
            return [fill if null else value for value, null in zip(given.data.tolist(), mask.tolist())], mask
        return given.data, mask
    if isinstance(given, np.ndarray) and given.dtype != object:
        return ([] if given.shape == (0,) else given), None
    if isinstance(given, (str, bytes, bytearray, Mapping)) or not hasattr(given, "__iter__"):
        raise TypeError(f"a {type(given).__name__} is given, and not an array or a list of values")
    return _without_none(list(given), fill)


def _apart_pandas(given: Any, fill: Any) -> Tuple[Any, Optional[np.ndarray]]:
    mask = np.asarray(given.isna(), bool)
    nullable = getattr(given.dtype, "numpy_dtype", None)
    if nullable is not None and nullable != object:
        return given.to_numpy(dtype=nullable, na_value=fill), mask
    values = given.to_numpy()
    if values.dtype == object:
        return [fill if null else value for value, null in zip(values.tolist(), mask.tolist())], mask
    return values, mask


def _first(bad: np.ndarray) -> int:
    return int(np.flatnonzero(bad)[0])


def _no(column: Column, row: int, value: Any, reason: str = "") -> BadValue:
    return BadValue(column.name, row, f"{shown(value)} {reason or 'is no ' + column.kind.name}")


def _numbers(column: Column, values: Any, mask: Optional[np.ndarray]) -> np.ndarray:
    """Numbers as numpy has them, zeros for nulls; as Python's own where no one type of numpy holds them all."""
    if isinstance(values, np.ndarray):
        array = values
        if array.ndim != 1 or (len(array) and array.dtype.kind not in "iuf"):
            raise BadValue(column.name, None, f"an array of {array.dtype}, shape {array.shape}, for {column.kind.name}")
    elif _alike(values):
        array = np.array(values)
    else:
        for row, value in enumerate(values):
            if isinstance(value, (bool, np.bool_)) or not isinstance(value, (int, float, np.integer, np.floating)):
                raise _no(column, row, value)
        array = np.array(values, object)
    return array if mask is None else np.where(mask, np.zeros(1, array.dtype), array)


def _alike(values: List[Any]) -> bool:
    """Whether numpy makes an array of numbers of these that has every one of them as it is."""
    types = set(map(type, values))
    if types <= {int}:
        return not values or (-(2**63) <= min(values) and max(values) < 2**63)
    return types == {float} or (len(types) == 1 and issubclass(*types, (np.integer, np.floating)))


def _whole(value: Any) -> bool:
    """Whether a number is an integer, or a float that is one."""
    return isinstance(value, (int, np.integer)) or float(value).is_integer()


def _integers(column: Column, values: Any, mask: Optional[np.ndarray]) -> np.ndarray:
    """Integers of any type, and floats that are whole, within the kind's range."""
    array = _numbers(column, values, mask)
    if len(array) == 0:
        return np.empty(0, column.kind.dtype)
    if array.dtype.kind not in "iu":
        whole = np.isfinite(array) & (array == np.rint(array)) if array.dtype != object else np.fromiter(map(_whole, array), bool, len(array))
        if not whole.all():
            raise _no(column, _first(~whole), array.tolist()[_first(~whole)])
    least, most = np.iinfo(column.kind.dtype).min, np.iinfo(column.kind.dtype).max
    if int(array.min()) < least or int(array.max()) > most:
        row = next(row for row, value in enumerate(array.tolist()) if not least <= int(value) <= most)
        raise _no(column, row, array.tolist()[row], f"does not fit {column.kind.name}, {least} to {most}")
    return array.astype(column.kind.dtype)


def _long_integers(column: Column, values: Any, mask: Optional[np.ndarray]) -> np.ndarray:
    """The same of the kinds that numpy has not: each number as its bytes, low byte first."""
    width = column.kind.dtype.itemsize
    most = (1 << 8 * width - 1) - 1
    out = []
    for row, value in enumerate(_numbers(column, values, mask).tolist()):
        if not _whole(value):
            raise _no(column, row, value)
        if not -most - 1 <= int(value) <= most:
            raise _no(column, row, value, f"does not fit {column.kind.name}, {-most - 1} to {most}")
        out.append(int(value).to_bytes(width, "little", signed=True))
    return np.frombuffer(b"".join(out), column.kind.dtype)


def _floats(column: Column, values: Any, mask: Optional[np.ndarray]) -> np.ndarray:
    """Floats of any width, rounded to the kind's own, and integers that it has exactly."""
    array = _numbers(column, values, mask)
    reason = f"does not fit {column.kind.name}"
    if array.dtype == object:
        for row, value in enumerate(array.tolist()):
            if isinstance(value, int) and (abs(value) >> 1023 or int(float(value)) != value):
                raise _no(column, row, value, reason)
        array = array.astype(np.float64)
    with np.errstate(over="ignore", invalid="ignore"):
        out = array.astype(column.kind.dtype)
        bad = np.isinf(out) & ~np.isinf(array)
        if array.dtype.kind in "iu":
            bad |= out.astype(array.dtype) != array
    if bad.any():
        raise _no(column, _first(bad), array.tolist()[_first(bad)], reason)
    return out


def _bools(column: Column, values: Any, mask: Optional[np.ndarray]) -> np.ndarray:
    array = values if isinstance(values, np.ndarray) else np.array(values, object)
    if array.dtype == object:
        bad = [not isinstance(value, (bool, np.bool_)) for value in values]
        if any(bad):
            raise _no(column, bad.index(True), values[bad.index(True)])
    elif array.ndim != 1 or array.dtype != bool:
        raise BadValue(column.name, None, f"an array of {array.dtype}, shape {array.shape}, for bool")
    return array.astype(bool)


def _parts(column: Column, values: Any, mask: Optional[np.ndarray]) -> np.ndarray:
    """Intervals: an array with the parts as its fields, an array with a column for each part, or a list of tuples."""
    dtype = column.kind.dtype
    names = dtype.names
    if not isinstance(values, np.ndarray):
        for row, value in enumerate(values):
            if not isinstance(value, (tuple, list, np.void)) or len(value) != len(names):
                raise _no(column, row, value, f"is no {column.kind.name}, which is {', '.join(names)}")
        columns = list(map(list, zip(*values))) or [[]] * len(names)
    elif values.ndim == 1 and values.dtype.names == names:
        columns = [values[name] for name in names]
    elif values.ndim == 2 and values.shape[1] == len(names):
        columns = list(values.T)
    else:
        raise BadValue(column.name, None, f"an array of {values.dtype}, shape {values.shape}, for {column.kind.name}")
    out = np.zeros(len(columns[0]), dtype)
    for name, part in zip(names, columns):
        try:
            out[name] = _integers(Column(column.name, "i64" if dtype[name].itemsize == 8 else "i32"), part, mask)
        except BadValue as bad:
            raise BadValue(column.name, bad.row, f"{name}: {bad.reason}") from None
    return out


def _bytes(column: Column, values: Any, mask: Optional[np.ndarray]) -> Any:
    """Bytes or text: a ByteColumn, an array of numpy's own strings, a list; and bytes as a table with a row for each value."""
    text = column.kind.family == "text"
    if isinstance(values, np.ndarray):
        values = _byte_array(column, values, mask)
    elif not isinstance(values, ByteColumn):
        if not set(map(type, values)) <= ({str} if text else {bytes}):
            for row, value in enumerate(values):
                if not isinstance(value, str if text else (bytes, bytearray)):
                    raise _no(column, row, value, "is no text" if text else "is no bytes; for str say kind text")
        try:
            values = ByteColumn(*pieces.from_list(list(map(str.encode, values)) if text else values), mask, text)
        except UnicodeEncodeError as error:
            raise _no(column, values.index(error.object), error.object, "has a character that UTF-8 has not") from None
    return _fixed(column, values, mask) if column.kind is FIXED else values


def _byte_array(column: Column, values: np.ndarray, mask: Optional[np.ndarray]) -> ByteColumn:
    kind, text = values.dtype.kind, column.kind.family == "text"
    if values.ndim == 1 and kind == ("U" if text else "S"):
        # numpy's strings end before their trailing zeros.
        values = np.ascontiguousarray(np.char.encode(values, "utf-8") if text else values)
        lengths = np.char.str_len(values)
        table = values.view(np.uint8).reshape(len(values), values.dtype.itemsize)
        return ByteColumn(table[np.arange(table.shape[1]) < lengths[:, None]], pieces.ends_of(lengths), mask, text)
    if values.ndim == 1 and kind == "V" and values.dtype.names is None and not text:
        values = np.ascontiguousarray(values).view(np.uint8).reshape(len(values), values.dtype.itemsize)
    if values.ndim == 2 and values.dtype == np.uint8 and not text:
        return ByteColumn(values.reshape(-1), np.arange(len(values) + 1) * values.shape[1], mask)
    if values.size:
        raise BadValue(column.name, None, f"an array of {values.dtype}, shape {values.shape}, for {column.kind.name}")
    return ByteColumn.of([], text)


def _fixed(column: Column, values: ByteColumn, mask: Optional[np.ndarray]) -> np.ndarray:
    """A table with a row of the column's width for each value; zeros for a null."""
    lengths = np.diff(values.ends)
    valid = np.ones(len(values), bool) if mask is None else ~mask
    bad = valid & (lengths != column.width)
    if bad.any():
        row = _first(bad)
        raise _no(column, row, values[row], f"has {lengths[row]} bytes, and fixed:{column.width} has {column.width}")
    table = np.zeros((len(values), column.width), np.uint8)
    table[valid] = pieces.take(values.data, values.ends, np.flatnonzero(valid))[0].reshape(int(valid.sum()), column.width)
    return table


class Family(NamedTuple):
    """How the values of a family are taken, and what stands in the place of a null of a column meanwhile."""

    taken: Callable[[Column, Any, Optional[np.ndarray]], Any]
    fill: Callable[[Column], Any]


#: Every family of kinds.
FAMILIES: Dict[str, Family] = {
    "bool": Family(_bools, lambda column: False),
    "integer": Family(_integers, lambda column: 0),
    "long": Family(_long_integers, lambda column: 0),
    "float": Family(_floats, lambda column: 0.0),
    "parts": Family(_parts, lambda column: (0,) * len(column.kind.dtype.names)),
    "bytes": Family(_bytes, lambda column: bytes(column.width)),
    "text": Family(_bytes, lambda column: ""),
}


def prepare(column: Column, given: Any) -> Prepared:
    """A column as the caller gave it, as it goes into a sheet. Raises :class:`BadValue`."""
    family = FAMILIES[column.kind.family]
    if isinstance(given, Prepared):
        return given if _ready(column, given.values) else Prepared(family.taken(column, *given), given.mask)
    try:
        values, mask = _apart(given, family.fill(column))
    except TypeError as error:
        raise BadValue(column.name, None, str(error)) from None
    return Prepared(family.taken(column, values, mask), mask)


def _ready(column: Column, values: Any) -> bool:
    """Whether values are what a sheet is made of already."""
    if column.kind.layout == "ended":
        return isinstance(values, ByteColumn)
    if column.kind is FIXED:
        return isinstance(values, np.ndarray) and values.shape[1:] == (column.width,)
    return isinstance(values, np.ndarray) and values.dtype == column.kind.dtype and values.ndim == 1


def prepare_all(schema: Schema, given: Any) -> Tuple[List[Prepared], int]:
    """Every column of a schema, and the count of rows. Columns are given by name (a dict, a DataFrame) or in the schema's order."""
    if isinstance(given, np.ndarray) and given.dtype.names:
        given = {name: given[name] for name in given.dtype.names}
    if hasattr(given, "keys"):
        for name in schema.names:
            if name not in given:
                raise ValueError(f"there is no column {name} among {', '.join(map(str, given.keys())) or 'none'}")
        columns = [given[name] for name in schema.names]
    elif isinstance(given, (list, tuple)):
        columns = list(given)
        if len(columns) != len(schema):
            raise ValueError(f"{len(columns)} columns are given, and the schema has {len(schema)}: {schema}")
    else:
        raise ValueError(f"columns are given by name or in the order of the schema, and not as a {type(given).__name__}")
    prepared = [prepare(column, values) for column, values in zip(schema, columns)]
    lengths = [len(one.values) for one in prepared]
    for name, length in zip(schema.names, lengths):
        if length != lengths[0]:
            raise ValueError(f"column {schema.names[0]} has {lengths[0]} rows, and column {name} has {length}")
    return prepared, lengths[0]
