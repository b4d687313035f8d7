"""The station's shared library: found, loaded, and its C entries as calls on numpy arrays.

``STATION_LIB_DIR`` names the folder of a release (``tools/release`` makes one). Without it the library is looked for beside this file,
in ``target/release`` of the repository that this file is in, and where the system keeps its libraries; in a repository with the
toolchain at hand a release is then built.
"""

from __future__ import annotations

import ctypes
import os
import platform
import shutil
import subprocess
import sys
from functools import lru_cache
from pathlib import Path
from typing import Any, Iterator, List, Tuple

import numpy as np

from .refusals import Refused

#: The edition of the C entries that this package calls: it takes a library of the same major and of this minor or a later one.
VERSION = "0.2.0"
SONAME = "libstation.so." + VERSION.split(".")[0]

#: How much one call takes.
MAX_ROWS = 4096
MAX_ROW_BYTES = 16_777_216

#: An answer is so many numbers of eight bytes: the refusal's number or 0, then what goes with it.
ANSWER_NUMBERS = 4

#: The state of a row cutter.
STATE_BYTES = 360

_SLICE = (ctypes.c_void_p, ctypes.c_size_t)
_NUMBER = (ctypes.c_uint64,)

#: The C entries: what each answers, and what it is lent. ``include/station.h`` has the layout of every argument.
ENTRIES = {
    "station_version": (ctypes.c_uint64, ()),
    "station_check_list": (None, _SLICE * 2),
    "station_read_list": (None, _SLICE * 3),
    "station_measure": (None, _SLICE + _NUMBER + _SLICE * 2),
    "station_measure_read": (None, _SLICE + _NUMBER + _SLICE * 2),
    "station_encode": (None, _SLICE + _NUMBER + _SLICE * 4),
    "station_encode_read": (None, _SLICE + _NUMBER + _SLICE * 4),
    "station_decode": (None, _SLICE + _NUMBER + _SLICE * 4),
    "station_decode_read": (None, _SLICE + _NUMBER + _SLICE * 4),
    "station_compare_sheets": (None, _SLICE + (_NUMBER + _SLICE + _NUMBER) * 2 + _SLICE),
    "station_compare_sheets_read": (None, _SLICE + (_NUMBER + _SLICE + _NUMBER) * 2 + _SLICE),
    "station_compare_pairs": (None, _SLICE + (_NUMBER + _SLICE) * 2 + _SLICE * 3),
    "station_compare_pairs_read": (None, _SLICE + (_NUMBER + _SLICE) * 2 + _SLICE * 3),
    "station_look_up": (None, _SLICE + _NUMBER + _SLICE + _NUMBER + _SLICE * 3),
    "station_look_up_read": (None, _SLICE + _NUMBER + _SLICE + _NUMBER + _SLICE * 3),
    "station_cutter_start": (None, _SLICE * 3),
    "station_cutter_start_read": (None, _SLICE * 3),
    "station_cut": (None, _SLICE * 4),
    "station_cutter_finish": (None, _SLICE * 2),
    "station_join": (None, (_NUMBER + _SLICE * 2) * 2 + _SLICE * 2),
    "station_compare": (ctypes.c_int32, _SLICE * 2),
}


class LibraryError(RuntimeError):
    """There is no library of the station, or not one that this package can call."""


def _places() -> Iterator[str]:
    """Where the library may stand, first to last."""
    named = os.environ.get("STATION_LIB_DIR")
    if named:
        yield str(Path(named, "libstation.so"))
        return
    here = Path(__file__).resolve().parent
    for folder in (here, here.parents[2] / "target" / "release"):
        if (folder / "libstation.so").is_file():
            yield str(folder / "libstation.so")
    yield SONAME
    if _build(here.parents[2]):
        yield str(here.parents[2] / "target" / "release" / "libstation.so")


def _build(repository: Path) -> bool:
    """Builds a release, in a repository with the toolchain at hand. It takes some minutes the first time, so it is said."""
    release = repository / "tools" / "release"
    if not release.is_file() or not shutil.which("rt"):
        return False
    print("rowstation: there is no library yet; building one with tools/release, once", file=sys.stderr)
    folder = repository / "target" / "release"
    return subprocess.run([str(release), str(folder)], stdout=sys.stderr, check=False).returncode == 0


def _open() -> ctypes.CDLL:
    failures: List[str] = []
    for place in _places():
        try:
            return ctypes.CDLL(place)
        except OSError as error:
            failures.append(str(error))
    raise LibraryError(
        "the station's library was not found ({}). Say in STATION_LIB_DIR which folder has libstation.so; "
        "`tools/release OUT` makes one where the toolchain is".format("; ".join(failures))
    )


@lru_cache(maxsize=None)
def load() -> ctypes.CDLL:
    """The library, looked for and opened at the first call."""
    if platform.system() != "Linux" or platform.machine() != "x86_64":
        raise LibraryError("the station's library is made for Linux on x86-64, and this is {} on {}".format(
            platform.system(), platform.machine()))
    opened = _open()
    for name, (result, arguments) in ENTRIES.items():
        try:
            entry = getattr(opened, name)
        except AttributeError:
            raise LibraryError(f"{opened._name} has no {name}: it is older than this package, which is {VERSION}") from None
        entry.restype = result
        entry.argtypes = arguments
    major, minor, _ = map(int, VERSION.split("."))
    found = opened.station_version()
    if found // 1_000_000 != major or found // 1000 % 1000 < minor:
        raise LibraryError(f"{opened._name} is edition {spelled(found)}, and this package is for {VERSION}")
    return opened


def spelled(number: int) -> str:
    """An edition as three numbers.

    >>> spelled(2013004)
    '2.13.4'
    """
    return f"{number // 1_000_000}.{number // 1000 % 1000}.{number % 1000}"


def version() -> str:
    """The edition of the library that was found.

    >>> version() >= VERSION
    True
    """
    return spelled(load().station_version())


def answer(entry: str, *lent: Any) -> Tuple[int, ...]:
    """Calls an entry with numbers and arrays of bytes, and gives what it counted; raises what it refused.

    The arrays are contiguous and do not overlap. Their bytes are read and written where they stand.
    """
    numbers = np.zeros(ANSWER_NUMBERS, "<u8")
    words: List[int] = []
    for thing in (*lent, numbers):
        if isinstance(thing, np.ndarray):
            words += (thing.ctypes.data, thing.nbytes)
        else:
            words.append(thing)
    getattr(load(), entry)(*words)
    refused, *counted = numbers.tolist()
    if refused:
        raise Refused(refused, *counted)
    return tuple(counted)


def compare(a: bytes, b: bytes) -> int:
    """Compares two rows, or any bytes: unsigned, a proper beginning first. -1, 0 or 1.

    >>> compare(b"\\x01\\x02", b"\\x01\\x80"), compare(b"a", b"a"), compare(b"ab", b"a")
    (-1, 0, 1)
    """
    a, b = bytes(memoryview(a)), bytes(memoryview(b))
    return int(load().station_compare(a, len(a), b, len(b)))
