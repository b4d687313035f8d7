"""A row explained byte by byte: field, lead, value, blocks, padding, and the byte at which it is refused."""

from __future__ import annotations

from typing import Dict, Iterator, List, NamedTuple, Optional, Tuple

from .cells import FORMS
from .refusals import Refused
from .rows import decode
from .schema import Column, Schema


class Part(NamedTuple):
    """Some bytes of a row, and what they are."""

    place: int
    bytes: bytes
    column: str
    words: str


class Fault(NamedTuple):
    """What is wrong in a row: the number of the refusal, the column's index, and the byte."""

    number: int
    column: int
    place: int


class _Bad(Exception):
    """The number of a refusal, and its place."""


MAX_VALUE = 65_535

#: The bits of infinity, of a float of so many bytes.
INFINITIES = {2: 0x7C00, 4: 0x7F80_0000, 8: 0x7FF0_0000_0000_0000}


def _blocks(row: bytes, at: int, column: Column) -> Iterator[Part]:
    """The blocks of a value that is not empty: four of 8, then of 32, each with an end byte."""
    flip = 0xFF if column.descending else 0
    number = length = 0
    while True:
        size = 8 if number < 4 else 32
        number += 1
        if len(row) < at + size + 1:
            yield Part(at, row[at:], column.name, f"block {number}, of {size}: cut")
            raise _Bad(16, len(row))
        block = bytes(byte ^ flip for byte in row[at : at + size])
        end = row[at + size] ^ flip
        more = end == 0xFF
        count = size if more else end
        if not 1 <= count <= size:
            yield Part(at, row[at : at + size], column.name, f"block {number}, of {size}")
            yield Part(at + size, row[at + size : at + size + 1], column.name, f"end byte {end:02X}: neither FF nor 1 to {size}")
            raise _Bad(20, at + size)
        yield Part(at, row[at : at + count], column.name, f"block {number}, of {size}: data {_quoted(block[:count])}")
        if count < size:
            yield Part(at + count, row[at + count : at + size], column.name, f"block {number}: padding, zeros{_inverted(column)}")
        bad = next((i for i in range(count, size) if block[i]), None)
        if bad is not None:
            raise _Bad(21, at + bad)
        words = "more blocks follow" if more else f"the last block, {count} bytes of data"
        yield Part(at + size, row[at + size : at + size + 1], column.name, f"block {number}: end byte, {words}")
        length += count
        if length > MAX_VALUE:
            raise _Bad(23, at + size)
        at += size + 1
        if not more:
            return


def _inverted(column: Column) -> str:
    return ", inverted" if column.descending else ""


def _not_allowed(column: Column, lead: int) -> str:
    return "lead: null, and the column is required" if lead == column.null_byte else "lead: not allowed here"


def _quoted(data: bytes) -> str:
    return ascii(data.decode("latin-1")) if all(32 <= byte < 127 for byte in data) else data.hex(" ")


def _ended(row: bytes, at: int, column: Column) -> Iterator[Part]:
    """A field of variable bytes."""
    flip = 0xFF if column.descending else 0
    lead = row[at : at + 1]
    if column.null_lead(lead[0]):
        yield Part(at, lead, column.name, "lead: null")
    elif lead[0] ^ flip == 1:
        yield Part(at, lead, column.name, f"lead: a value, empty{_inverted(column)}")
    elif lead[0] ^ flip == 2:
        yield Part(at, lead, column.name, f"lead: a value, not empty{_inverted(column)}")
        yield from _blocks(row, at + 1, column)
    else:
        yield Part(at, lead, column.name, _not_allowed(column, lead[0]))
        raise _Bad(17, at)


def _sized(row: bytes, at: int, column: Column) -> Iterator[Part]:
    """A field of a kind whose values all have the same length."""
    lead, rest = row[at : at + 1], row[at + 1 : at + 1 + column.value_bytes]
    null = column.null_lead(lead[0])
    if not null and lead[0] != 1:
        yield Part(at, lead, column.name, _not_allowed(column, lead[0]))
        raise _Bad(17, at)
    yield Part(at, lead, column.name, "lead: null" if null else "lead: a value")
    cut = len(rest) < column.value_bytes
    if rest or cut:
        words = "zeros after a null" if null else f"value, {column.kind.name}{_inverted(column)}"
        yield Part(at + 1, rest, column.name, words + (": cut" if cut else ""))
    if cut:
        raise _Bad(16, len(row))
    if null and any(rest):
        raise _Bad(18, at + 1 + next(i for i, byte in enumerate(rest) if byte))
    if not null and column.kind.layout == "bits" and rest[0] ^ (0xFF if column.descending else 0) > 1:
        raise _Bad(19, at + 1)
    if not null and column.fold and not _is_folded(column, rest):
        raise _Bad(28, at + 1)


def _is_folded(column: Column, key: bytes) -> bool:
    """Whether the value bytes of a float are of a number, but -0, or of the one NaN."""
    sign, infinity = 1 << 8 * len(key) - 1, INFINITIES[len(key)]
    bits = int.from_bytes(key, "big") ^ (2 * sign - 1 if column.descending else 0)
    bits ^= sign if bits & sign else 2 * sign - 1
    return bits != sign and (bits & ~sign <= infinity or bits == infinity | infinity >> 1)


def explain(schema: Schema, row: bytes) -> Tuple[List[Part], Optional[Fault]]:
    """The parts of a row, first to last, and what is wrong in it, if anything.

    >>> parts, fault = explain(Schema("plate:u16,glyph:text"), bytes.fromhex("01000703"))
    >>> for part in parts:
    ...     print(part.place, part.bytes.hex(" "), part.column, part.words)
    0 01 plate lead: a value
    1 00 07 plate value, u16
    3 03 glyph lead: not allowed here
    >>> fault
    Fault(number=17, column=1, place=3)
    """
    parts: List[Part] = []
    at = 0
    for index, column in enumerate(schema):
        try:
            if at == len(row):
                raise _Bad(16, at)
            for part in (_ended if column.kind.layout == "ended" else _sized)(row, at, column):
                parts.append(part)
                at = part.place + len(part.bytes)
        except _Bad as bad:
            return parts, Fault(bad.args[0], index, bad.args[1])
    if at < len(row):
        parts.append(Part(at, row[at:], "", "bytes after the last field"))
        return parts, Fault(22, len(schema), at)
    return parts, None


def _spelled(data: bytes) -> str:
    return data.hex(" ") if len(data) <= 16 else f"{data[:8].hex(' ')} .. {len(data) - 8} more"


def _values(schema: Schema, row: bytes) -> Dict[str, str]:
    """The values of a good row: as CSV has them, text in quotes. Raises what the station refuses."""
    values = {}
    for name, column in decode(schema, [row]).items():
        kind = schema[name].kind
        try:
            word = FORMS[kind.family].write(kind, column)[0]
        except UnicodeDecodeError:
            word = "not UTF-8"
        values[name] = "null" if word is None else ascii(word) if kind.family == "text" else str(word)
    return values


def told(schema: Schema, row: bytes, number: int) -> Tuple[List[str], Optional[Refused]]:
    """The lines that explain a row, and the station's refusal, if it refuses it.

    >>> lines, refusal = told(Schema("plate:u16,glyph:text"), bytes.fromhex("01000702616500000000000002"), 0)
    >>> print(*lines, sep="\\n")
    row 0: 13 bytes
         0  01                 plate  lead: a value
         1  00 07              plate  value, u16: 7
         3  02                 glyph  lead: a value, not empty
         4  61 65              glyph  block 1, of 8: data 'ae'
         6  00 00 00 00 00 00  glyph  block 1: padding, zeros
        12  02                 glyph  block 1: end byte, the last block, 2 bytes of data
    accepted: plate 7, glyph 'ae'
    """
    parts, _ = explain(schema, row)
    refusal: Optional[Refused] = None
    values: Dict[str, str] = {}
    try:
        values = _values(schema, row)
        last = "accepted: " + ", ".join(f"{name} {value}" for name, value in values.items())
    except Refused as refused:
        refusal = refused.moved(number)
        last = str(refusal)
        good = min(refused.column or 0, len(schema))
        if good:
            # The fields before the one that is refused are the row of their values under the columns before it.
            end = next((part.place for part in parts if part.column not in schema.names[:good]), len(row))
            values = _values(schema.first(good), row[:end])
    width = max(map(len, schema.names))
    shown = max([len(_spelled(part.bytes)) for part in parts], default=0)
    lines = [f"row {number}: {len(row)} bytes"]
    for part in parts:
        value = f": {values[part.column]}" if part.words.startswith("value") and part.column in values else ""
        lines.append(f"{part.place:6}  {_spelled(part.bytes):{shown}}  {part.column:{width}}  {part.words}{value}")
    return lines + [last], refusal
