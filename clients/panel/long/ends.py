"""Signals that ask for the end of a run: they end its work, and nothing that is made or removed for it.

A signal becomes an exception within `with ends:` alone, and once at most; at any other time it is noted, and raised where the next
such part begins. So a folder that is made before that part, and removed by a `finally` around it, is never left behind.
"""

from __future__ import annotations

import signal
from typing import Any

# The signals that ask for an end.
ENDS = [int(getattr(signal, name)) for name in ("SIGINT", "SIGTERM", "SIGHUP") if hasattr(signal, name)]


class Signalled(Exception):
    """A signal asked for the end."""


class Ends:
    """What has been asked of this process by signals."""

    def __init__(self) -> None:
        self.noted = 0
        self.may_raise = False

    def listen(self) -> None:
        for number in ENDS:
            signal.signal(number, self._note)

    def _note(self, number: int, frame: Any) -> None:
        self.noted = self.noted or number
        self._raise()

    def _raise(self) -> None:
        if self.may_raise and self.noted:
            self.may_raise = False
            raise Signalled(self.noted)

    def __enter__(self) -> None:
        self.may_raise = True
        self._raise()

    def __exit__(self, *wrong: Any) -> None:
        self.may_raise = False
