"""Answers from a table of roads: `python -m spt --help`."""

import sys

from ._tables import main

if __name__ == "__main__":
    sys.exit(main())
