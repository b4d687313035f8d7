"""Tests of the package and the command. From the folder bindings/python:

    python3 -m unittest

They need numpy and the station's library (STATION_LIB_DIR, or a release in target/release). What needs pandas, matplotlib, LMDB, a C
compiler, the system's sort or the repository around the package is skipped where that is not at hand.
"""

import unittest
from pathlib import Path

try:
    import numpy  # noqa: F401
except ImportError:
    raise unittest.SkipTest("numpy is not at hand (in Debian and Ubuntu the package python3-numpy)") from None

#: The folder of the package.
PACKAGE = Path(__file__).resolve().parents[1]

#: The repository around it, if it is there.
REPOSITORY = PACKAGE.parents[1] if (PACKAGE.parents[1] / "include" / "station.h").is_file() else None

EXAMPLES = PACKAGE / "examples"
