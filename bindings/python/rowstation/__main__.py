"""``python3 -m rowstation``."""

import sys

from .command import main

if __name__ == "__main__":
    sys.exit(main())
