"""Runs the command, for `python -m revealed.long`."""

import sys

from . import main

if __name__ == "__main__":
    sys.exit(main())
