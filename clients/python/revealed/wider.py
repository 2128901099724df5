"""What the program leaves and its wider edition gives: the program `rp-wide`, or the call `rp_answer_wide` of the library.

The program is asked first, and the wider edition only where something is withheld of which it seeks evidence, or where choices are
refused that it takes: elsewhere both write the same. What comes of it is the wider answer, and beside it what the program itself
said.
"""

from __future__ import annotations

import re
from typing import Callable, Mapping, NamedTuple, Optional, Sequence

# How a call ended: its status, and what it wrote to standard output and standard error.
Ended = tuple[int, bytes, bytes]
Run = Callable[[Sequence[str], Mapping[str, bytes]], Ended]
# What stands in the answer of a command where it withholds something that the wider edition seeks.
WITHHELD = {
    "analyse": b"\nhomothetic withheld ",
    "certify": b'"item":"homothetic","withheld":',
    "trial": b"\nhomothetic withheld",
    "demand": b'"withheld":',
    "welfare": b'"withheld":',
    "cost": b" lower withheld ",
}
# The faults by which the program refuses choices from budgets that its wider edition takes, and the commands over these.
REFUSED = ("TooManyPatches", "TooManyCombinations", "TooManyTypes")
OVER_CHOICES = ("random", "checkrandom", "patches")
REFUSAL = re.compile(rb"(?m)^rp: (?:%s)\b" % "|".join(REFUSED).encode())
# What is said of a value that stays withheld: the wider edition was asked, it was not to be asked, or it is not there.
ASKED = "rp-wide found no evidence either; docs/reference/limits.md, 'Undetermined results', says what to do"
UNASKED = "rp-wide may give it: leave wide=False out"
ABSENT = "rp-wide may give it, which is neither beside the program, nor in the library, nor named by the variable RP_WIDE"


class Calls(NamedTuple):
    """A call of the program, and one of its wider edition where that is there and asked."""

    run: Run
    wide: Optional[Run]


class Told(NamedTuple):
    """How a call ended; `stated` is how that of the program itself did, where this one is of the wider edition."""

    ended: Ended
    stated: Optional[Ended]


def is_withheld(command: str, ended: Ended) -> bool:
    """Whether an answer withholds something of which the wider edition seeks evidence."""
    status, out, _ = ended
    return status == 0 and command in WITHHELD and WITHHELD[command] in out


def is_refused(command: str, ended: Ended) -> bool:
    """Whether choices from budgets are refused that the wider edition may take."""
    status, _, said = ended
    return status == 4 and command in OVER_CHOICES and REFUSAL.search(said) is not None


def told(calls: Calls, words: Sequence[str], files: Mapping[str, bytes]) -> Told:
    """Returns how a call ended, and where it withheld something how that of the wider edition did."""
    ended = calls.run(words, files)
    if calls.wide is None or not is_withheld(words[0], ended):
        return Told(ended, None)
    return Told(calls.wide(words, files), ended)
