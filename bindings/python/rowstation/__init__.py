"""The row station from Python: columns of values as rows of bytes that sort as the values do, and back.

>>> import rowstation as station
>>> schema = station.Schema("plate:u32,glyph:text,position:f64")
>>> first = station.encode(schema, {"plate": [7, 7], "glyph": ["ae", None], "position": [-2.0, 0.25]})
>>> second = station.encode(schema, {"plate": [7, 7], "glyph": ["ae", "ae"], "position": [-2.0, 3.0]})
>>> first.sort().join(second.sort())
<Join of 4 rows: ink 1, dust 2>

``docs/PYTHON.md`` of the repository is the guide, and ``python3 -m rowstation --help`` tells of the command.
"""

try:
    import numpy as _numpy  # noqa: F401
except ImportError:
    raise ImportError("rowstation needs numpy (in Debian and Ubuntu the package python3-numpy)") from None

from .cutter import Cutter, StreamRefused, cut
from .kinds import KINDS, OPTIONS
from .library import LibraryError, compare, version
from .refusals import REASONS, Refused
from .rows import Join, OutOfOrder, Rows, after, compare_values, decode, encode, key
from .schema import Column, Schema
from .values import BadValue, ByteColumn

__all__ = [
    "BadValue", "ByteColumn", "Column", "Cutter", "Join", "KINDS", "LibraryError", "OPTIONS", "OutOfOrder", "REASONS", "Refused", "Rows", "Schema",
    "StreamRefused", "after", "compare", "compare_values", "cut", "decode", "encode", "key", "version",
]
