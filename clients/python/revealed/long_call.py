"""The call that makes the table of many households from one long file: what it is asked, and its answer row by row.

Nothing is taken for an answer but a table that has a row for each household that was asked about, and for each record without one.
"""

from __future__ import annotations

import csv
import io
import re
from collections import deque
from concurrent.futures import ThreadPoolExecutor
from typing import Any, Callable, Iterable, Iterator, NamedTuple, Optional, Sequence

from . import program
from .catalogue import LIMITS
from .faults import Unreadable

LONG = "long.csv"
# The columns of the table, behind which those stand whose texts are kept, and then those of budgets that were offered.
COLUMNS = ["household", "observations", "goods", "garp", "efficiency", "efficiency_floor", "attained", "homothetic", "quasilinear"]
COLUMNS += ["pump", "pump_floor", "power", "fault", "record", "column"]
OFFERED = ["offered_least", "below_line", "over_line"]
FAULT, RECORD = COLUMNS.index("fault"), COLUMNS.index("record")
# A record that is refused for its id: there is none, or it has too many bytes.
OF_ID = ("NoId", "LongId")
ID_BYTES = LIMITS["long.household_bytes"]
# What is cut round an id.
BLANKS = " \t"
# A household with more records than a table has is refused for that alone, so no more of its records decide anything.
DECIDING = LIMITS["table.records"] + 1
WORDS, SHARE, FLOOR, COUNT = (("holds", "violated"), r"[0-9]+(/[0-9]+)?", r"[0-9]+\.[0-9]{6}", r"[0-9]+")
# What stands in the fields of a row with verdicts, from `observations` to `power`; the last three may be empty.
VERDICTS = [COUNT, COUNT, "|".join(WORDS), SHARE, FLOOR, "yes|no", "holds|violated|withheld", "|".join(WORDS)]
VERDICTS += [f"({SHARE})?", f"({FLOOR})?", r"([0-9]+/[0-9]+)?"]
IS_VERDICTS = re.compile(",".join(f"(?:{it})" for it in VERDICTS))
IS_FAULT = re.compile(r"[A-Z][A-Za-z]*,(?:[0-9]+)?,(?:[0-9]+)?")
EMPTY = [""] * len(VERDICTS)
IS_OFFERED = re.compile(f"{FLOOR},{COUNT},{COUNT}")


class Asked(NamedTuple):
    """What is asked of each household: the name of the column of ids, the columns that are kept, and what stands beside the
    verdicts; `power` is how many behaviours are drawn, and the seed. With `intercepts` the prices are exchanged intercepts, and it
    is asked what share of the offered budgets was spent."""

    id: str = "household"
    kept: Sequence[str] = ()
    pump: bool = False
    power: Optional[Sequence[int]] = None
    wide: bool = False
    intercepts: bool = False

    @property
    def columns(self) -> list[str]:
        """The names of the columns of the table."""
        return [*COLUMNS, *self.kept, *(OFFERED if self.intercepts else [])]

    def words(self, file: str = LONG) -> list[str]:
        """Returns the words of the call over a long file."""
        found = [file, "--id", self.id, *(word for name in self.kept for word in ("--keep", name))]
        found += ["--pump"] if self.pump else []
        found += ["--power", *map(str, self.power)] if self.power else []
        found += ["--intercepts"] if self.intercepts else []
        return found + (["--wide"] if self.wide else [])


def rows_of(text: str) -> list[list[str]]:
    """Returns the records of a CSV text."""
    if '"' not in text and "\r" not in text:
        return [line.split(",") for line in text.split("\n") if line]
    return [row for row in csv.reader(io.StringIO(text, newline="")) if row]


def line_of(fields: Sequence[str]) -> str:
    """Returns a record as a line, as the call itself writes it."""
    return f"{program.joined(fields)}\n"


def is_row(row: Sequence[str]) -> bool:
    """Whether this is a row with verdicts, or with a fault."""
    verdicts, fault = row[1:FAULT], row[FAULT : len(COLUMNS)]
    if fault[0]:
        return list(verdicts) == EMPTY and IS_FAULT.fullmatch(",".join(fault)) is not None
    return IS_VERDICTS.fullmatch(",".join(verdicts)) is not None and fault == ["", "", ""]


def is_offered(row: Sequence[str]) -> bool:
    """Whether a row ends with what was spent of the offered budgets, or with nothing of it where it has a fault."""
    told = row[-len(OFFERED) :]
    return not any(told) if row[FAULT] else IS_OFFERED.fullmatch(",".join(told)) is not None


def answered(out: str, households: Sequence[str], unnamed: int, asked: Asked) -> list[list[str]]:
    """Returns the rows of an answer, one for each of these households, by their ids, and one for each of so many records that have
    none; raises Unreadable where it has any other."""
    rows = rows_of(out)
    if not rows or rows[0][: len(COLUMNS)] != COLUMNS:
        raise Unreadable(out, "it has no table of verdicts")
    del rows[0]
    width = len(asked.columns)
    if not all(len(row) == width and is_row(row) for row in rows):
        raise Unreadable(out, "a row has neither verdicts nor a fault")
    if asked.intercepts and not all(map(is_offered, rows)):
        raise Unreadable(out, "a row does not tell what was spent of the offered budgets")
    if [row[0] for row in rows] != [*households, *[""] * unnamed]:
        raise Unreadable(out, "its households are not those that were asked about")
    if any(row[FAULT] not in OF_ID for row in rows[len(households) :]):
        raise Unreadable(out, "a record without a household has verdicts")
    return rows


def in_turn(jobs: Iterable[Any], answer: Callable[[Any], Any], workers: int, ends: Callable[[], None] = lambda: None) -> Iterator[tuple[Any, Any]]:
    """Yields each job with its answer, in their order, by so many threads, which begin no more than a few jobs ahead. A call of the
    library, or of a program, leaves the other threads alone. Where no more is wanted, `ends` ends what still works."""
    if workers == 1:
        for job in jobs:
            yield job, answer(job)
        return
    waiting: deque[Any] = deque()
    pool = ThreadPoolExecutor(workers)
    try:
        for job in jobs:
            waiting.append((job, pool.submit(answer, job)))
            if len(waiting) >= 4 * workers:
                first, future = waiting.popleft()
                yield first, future.result()
        while waiting:
            first, future = waiting.popleft()
            yield first, future.result()
    finally:
        for _, future in waiting:
            future.cancel()
        ends()
        pool.shutdown()
