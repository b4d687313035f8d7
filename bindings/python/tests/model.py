"""The format in plain Python, one value at a time, from docs/FORMAT.md: what the package and the station are held to."""

import random
import struct

from rowstation import Schema
from rowstation.schema import Column

STRUCTS = {
    "i8": "b", "i16": "h", "i32": "i", "i64": "q", "u8": "B", "u16": "H", "u32": "I", "u64": "Q", "f16": "e", "f32": "f", "f64": "d",
    "day_time": "ii", "month_day_nano": "iiq",
}


LONG = {"i128": 16, "i256": 32}


def value_bytes(column: Column, value) -> bytes:
    """The value bytes of a field of a fixed kind, ascending."""
    name = column.kind.name
    if name == "bool":
        return bytes([value])
    if name == "fixed":
        return value
    if name[0] == "f":
        data = struct.pack(">" + STRUCTS[name], folded(column, value))
        return bytes(b ^ 0xFF for b in data) if data[0] & 0x80 else bytes([data[0] ^ 0x80]) + data[1:]
    if name[0] == "u":
        return struct.pack(">" + STRUCTS[name], value)
    if name in LONG:
        data = value.to_bytes(LONG[name], "big", signed=True)
        return bytes([data[0] ^ 0x80]) + data[1:]
    parts = value if isinstance(value, tuple) else (value,)
    out = b""
    for code, part in zip(STRUCTS[name], parts):
        data = struct.pack(">" + code, part)
        out += bytes([data[0] ^ 0x80]) + data[1:]
    return out


def folded(column: Column, value):
    """The value that stands for this one: itself, unless the column folds."""
    if not column.fold or value is None:
        return value
    return float("nan") if value != value else value + 0.0


def field(column: Column, value) -> bytes:
    """The field of a value, or of None."""
    variable = column.kind.layout == "ended"
    if value is None:
        return bytes([column.null_byte]) + bytes(0 if variable else column.value_bytes)
    flip = 0xFF if column.descending else 0
    if not variable:
        return b"\1" + bytes(b ^ flip for b in value_bytes(column, value))
    data = value.encode() if isinstance(value, str) else value
    out = b"\2" if data else b"\1"
    number = 0
    while data:
        size = 8 if number < 4 else 32
        block, data, number = data[:size], data[size:], number + 1
        out += block.ljust(size, b"\0") + bytes([0xFF if data else len(block)])
    return bytes(b ^ flip for b in out)


def row(schema: Schema, values) -> bytes:
    """The row of a tuple of values."""
    return b"".join(field(column, value) for column, value in zip(schema, values))


def some_value(rnd: random.Random, column: Column):
    """A value of a column, or None; the edges come often."""
    if not column.required and rnd.random() < 0.15:
        return None
    name = column.kind.name
    if name == "bool":
        return rnd.random() < 0.5
    if name in ("bytes", "text", "fixed"):
        length = column.width if name == "fixed" else rnd.choice([0, 1, 7, 8, 9, 16, 24, 31, 32, 33, 63, 64, 65, 100])
        if name == "text":
            return "".join(rnd.choice("abß\0") for _ in range(length))
        return bytes(rnd.choice([0, 1, 97, 255]) for _ in range(length))
    if name[0] == "f":
        if column.fold and rnd.random() < 0.2:
            return float("nan")
        return rnd.choice([0.0, -0.0, 1.5, -1.5, 2.0**-14, 1024.0, -65504.0, float("inf"), float("-inf")])
    if name in LONG:
        top = 1 << 8 * LONG[name] - 1
        return rnd.choice([-top, 1 - top, -1 << 64, -1, 0, 1, (1 << 64) - 1, 1 << 64, 1 << 127 if LONG[name] > 16 else 5, top - 1])
    codes = STRUCTS[name]
    parts = []
    for code in codes:
        bits = 8 * struct.calcsize(code)
        least, most = (0, 2**bits - 1) if code.isupper() else (-(2 ** (bits - 1)), 2 ** (bits - 1) - 1)
        parts.append(rnd.choice([least, least + 1, 0, 1, 255 % (most + 1), most - 1, most]))
    return tuple(parts) if len(codes) > 1 else parts[0]


def some_schema(rnd: random.Random, kinds) -> Schema:
    """A schema of some columns of these kinds, with any options."""
    columns = []
    for index in range(rnd.choice([1, 2, 3, 5])):
        kind = rnd.choice(list(kinds))
        width = [rnd.choice([0, 1, 3, 16])] if kind == "fixed" else []
        folds = ("fold", "unfolded") if kind in ("f16", "f32", "f64") else ("unfolded",)
        options = [rnd.choice(pair) for pair in (("ascending", "descending"), ("nulls_first", "nulls_last"), ("nullable", "required"), folds)]
        columns.append((f"c{index}", kind, *width, *options))
    return Schema(columns)
