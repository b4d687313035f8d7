"""Sheets: prepared columns as the bytes that the station reads, and the bytes that it writes as columns again."""

from __future__ import annotations

from typing import Any, Dict, List, Sequence, Union

import numpy as np

from . import pieces
from .kinds import FIXED
from .schema import Column, Schema
from .values import ByteColumn, Prepared

#: A column as :func:`rowstation.decode` gives it.
Values = Union[np.ma.MaskedArray, ByteColumn]

#: The bytes of a variable column of one sheet have ends of four bytes each.
MAX_ENDS = 0xFFFF_FFFF


def ends_hold(schema: Schema, prepared: Sequence[Prepared], start: int, end: int) -> bool:
    """Whether ends of four bytes reach over the values of these rows."""
    return all(
        values.ends[end] - values.ends[start] <= MAX_ENDS
        for column, (values, _) in zip(schema, prepared)
        if column.kind.layout == "ended"
    )


def sheet(schema: Schema, prepared: Sequence[Prepared], start: int, end: int) -> np.ndarray:
    """The sheet of the rows from ``start`` up to ``end``: for each column validity bits, then values."""
    parts: List[np.ndarray] = []
    for column, (values, mask) in zip(schema, prepared):
        valid = np.ones(end - start, bool) if mask is None else ~mask[start:end]
        parts.append(np.packbits(valid, bitorder="little"))
        if column.kind.layout == "bits":
            parts.append(np.packbits(values[start:end], bitorder="little"))
        elif column.kind.layout == "wide":
            parts.append(values[start:end].view(np.uint8).reshape(-1))
        else:
            ends = values.ends[start : end + 1]
            parts.append((ends - ends[0]).astype("<u4").view(np.uint8))
            parts.append(values.data[ends[0] : ends[-1]])
    return np.concatenate(parts)


class Taker:
    """Takes the cleared sheets of batches apart, and puts their columns together for all rows."""

    def __init__(self, schema: Schema, rows: int) -> None:
        self.schema = schema
        self.masks = [np.empty(rows, bool) for _ in schema]
        self.values = [self._room(column, rows) for column in schema]

    @staticmethod
    def _room(column: Column, rows: int) -> Any:
        if column.kind.layout == "ended":
            return []
        return np.empty((rows, column.width), np.uint8) if column.kind is FIXED else np.empty(rows, column.kind.dtype)

    def add(self, start: int, end: int, cleared: np.ndarray) -> None:
        """The rows from ``start`` up to ``end``, as decode wrote them."""
        at = 0

        def next_bytes(count: int) -> np.ndarray:
            nonlocal at
            at += count
            return cleared[at - count : at]

        def next_bits() -> np.ndarray:
            return np.unpackbits(next_bytes((end - start + 7) // 8), count=end - start, bitorder="little").view(bool)

        for column, mask, values in zip(self.schema, self.masks, self.values):
            mask[start:end] = ~next_bits()
            if column.kind.layout == "bits":
                values[start:end] = next_bits()
            elif column.kind.layout == "wide":
                some = values[start:end]
                some.view(np.uint8).reshape(-1)[:] = next_bytes(some.nbytes)
            else:
                ends = next_bytes(4 * (end - start + 1)).view("<u4").astype(np.int64)
                values.append((next_bytes(int(ends[-1])).copy(), ends))

    def columns(self) -> Dict[str, Values]:
        """The columns by name."""
        return {column.name: self._column(column, values, mask) for column, values, mask in zip(self.schema, self.values, self.masks)}

    @staticmethod
    def _column(column: Column, values: Any, mask: np.ndarray) -> Values:
        if column.kind.layout == "ended":
            return ByteColumn(*pieces.concatenated(values), mask, column.kind.family == "text")
        if column.kind is FIXED:
            return ByteColumn(values.reshape(-1), np.arange(len(values) + 1) * column.width, mask)
        if column.kind.family == "long":
            numbers = np.empty(len(values), object)
            numbers[:] = [int.from_bytes(value, "little", signed=True) for value in values.tolist()]
            return np.ma.MaskedArray(numbers, mask)
        if column.kind.dtype.names:
            parts = np.empty(len(values), np.ma.make_mask_descr(column.kind.dtype))
            for name in column.kind.dtype.names:
                parts[name] = mask
            mask = parts
        return np.ma.MaskedArray(values, mask)
