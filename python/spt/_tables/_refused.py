"""Errors in what the user gave."""

from __future__ import annotations

# exit statuses
WRONG_LINE = 1
WRONG_FILE = 2


class Refused(Exception):
    """Why the command line (status 1), or a file or a name in it (status 2), can't be used."""

    def __init__(self, told: str, status: int = WRONG_FILE) -> None:
        super().__init__(told)
        self.status = status
