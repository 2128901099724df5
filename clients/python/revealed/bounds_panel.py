"""The bounds of each unit of a panel at new prices: demand on new budgets, or the money metric, by the call of panels.

The long text is that of `panels.py`. The call writes several rows for a unit, one for each bound, and one for a unit with an error.
"""

from __future__ import annotations

from fractions import Fraction
from functools import partial
from math import ceil, floor
from numbers import Integral
from typing import Any, Callable, Iterable, Iterator, Sequence

from . import exact, program, wider
from .answers import bounds_record
from .faults import BadData, Refused, Unreadable
from .frames import Frame
from .long_call import LONG, OF_ID, Asked, line_of, rows_of
from .panel_results import Units, of_words
from .panels import HOUSEHOLD, LongFrame, bar_of, processors, stop_where_all_are_refused, taken_as_it_is
from .tables import Forms, Sheet, beside, forms_of, takes_places

NEW = "new.csv"
# The column that says what a bound is of, by the question.
OF = {"demand": "good", "welfare": "observation"}
# What a result calls the row of new prices, as `demand` and `welfare` do.
AT = {"demand": "budget", "welfare": "prices"}
HEAD, AMOUNTS, PLACE = ["household", "observations", "goods", "price"], ["lower", "lower_floor", "upper", "upper_ceiling"], ["fault", "record", "column"]
# A fault of the new prices beside a unit's own table has this in front.
OF_NEW = "NEW: "
VIOLATED, WITHHELD = "violated", "withheld"


class UnitBounds:
    """The bounds of a unit. `key` is its id, and `garp` says whether its data satisfy GARP.

    `bounds` has the lower and the upper bound as Fractions, by the row of new prices and the good or the observation. A bound of None is
    undetermined: `rp-wide` did not find it.

    `fault` is None, or the error, with the `record`, from 1, and the `column` of the frame. `refusal` is the error as an exception, and
    `message` the error in words.
    """

    def __init__(self, key: Any, fault: str | None = None, refusal: Callable[[], Exception] | None = None) -> None:
        self.key, self.fault = key, fault
        self.observations: int | None = None
        self.goods: int | None = None
        self.garp: bool | None = None
        self.record: int | None = None
        self.column: int | None = None
        self.bounds: dict[tuple[Any, Any], tuple[Fraction | None, Fraction | None]] = {}
        self.hint = wider.UNASKED
        self._refusal = refusal

    @property
    def refusal(self) -> Exception | None:
        """The error as an exception, or None."""
        return None if self._refusal is None else self._refusal()

    @property
    def message(self) -> str:
        """Why bounds are missing, in words."""
        return str(self.refusal) if self.fault is not None else "" if self.garp else "the axiom fails"

    def __repr__(self) -> str:
        if self.fault is not None or not self.garp:
            return f"{self.key!r}: {self.message}"
        told = (f"{place} at {row}: {told_of(low, floor)} to {told_of(high, ceil)}" for (row, place), (low, high) in self.bounds.items())
        return f"{self.key!r}: {', '.join(told)}"


class BoundsPanel(Units):
    """The UnitBounds of a panel, in the order in which the keys first come. `question` is `demand` or `welfare`."""

    def __init__(self, by: Sequence[str], rows: Iterable[UnitBounds], units: str, question: str) -> None:
        super().__init__(by, rows, units)
        self.question = question

    def __getitem__(self, at: Any) -> Any:
        """Returns the bounds of the unit of a position or of an id that is a text, or of a slice a panel of these units."""
        found = self._unit(at)
        return BoundsPanel(self.by, found, self.units, self.question) if isinstance(at, slice) else found

    def records(self) -> list[dict[str, Any]]:
        """Returns a dictionary for each bound.

        It has the key; the row of new prices (`budget` or `prices`); the `good` or the `observation`; and `garp`. `lower` and `upper` are
        floats, rounded down and up, and `lower_exact` and `upper_exact` are Fractions. `reason` says why a bound is missing. A unit with an
        error, or whose data violate GARP, has one dictionary.
        """
        found = []
        for own in self:
            cells = own.bounds or {(None, None): (None, None)}
            for (row, place), (low, high) in cells.items():
                why = own.message or (own.hint if low is None or high is None else None)
                named = {AT[self.question]: row, OF[self.question]: place, "garp": own.garp}
                found.append({**dict(zip(self.by, self.keys(own))), **named, **bounds_record(low, high), "reason": why, "fault": own.fault})
        return found

    def names(self) -> list[str]:
        """Returns the names of the columns."""
        own = [AT[self.question], OF[self.question], "garp", "lower", "upper", "lower_exact", "upper_exact", "reason", "fault"]
        return [*self.by, *own]

    def frame(self) -> Any:
        """Returns the bounds as a pandas frame; exact numbers are texts. It needs pandas."""
        pandas = self.pandas()
        found = self.records()
        told = lambda it: exact.written(it) if isinstance(it, Fraction) else it
        made = pandas.DataFrame({name: [told(row[name]) for row in found] for name in self.names()})
        for name in (AT[self.question], OF[self.question]):
            own = [row[name] for row in found]
            # A unit without bounds has neither, and integers beside a missing value become floats.
            if any(it is not None for it in own) and all(it is None or isinstance(it, Integral) and abs(it) < 2**63 for it in own):
                made[name] = pandas.array(own, dtype="Int64")
        return made.astype({"lower": "float64", "upper": "float64", "garp": "boolean"})

    def csv(self) -> bytes:
        """Returns the bounds as a CSV file."""
        told = lambda it: "" if it is None else exact.written(it) if isinstance(it, Fraction) else str(it)
        lines = [line_of(self.names()), *(line_of([told(it) for it in row.values()]) for row in self.records())]
        return "".join(lines).encode("utf-8", "surrogateescape")

    def said(self) -> list[str]:
        """Returns what is said of the panel as a whole."""
        own = [it for it in self if it.fault is None]
        holds = sum(it.garp is True for it in own)
        lines = [self.head(f"bounds on {'demand' if self.question == 'demand' else 'the money metric'} for {holds:,}")]
        lines += [f"garp violated {len(own) - holds:,}: no bounds"] if holds < len(own) else []
        return [*lines, *self.faults_said()]


@takes_places
def panel_demand(d: Any, by: Any, new: Any, m: Any = None, workers: Any = None, **more: Any) -> BoundsPanel:
    """Computes bounds on demand at new budgets for each unit of a long frame. Returns a BoundsPanel.

    `new` has the new prices, a row or a frame, and `m` the new expenditure, as in `demand`. They are the same for each unit. `by` and the
    other arguments are those of `panel`: `decimals`, `numbers`, `units`, `wide`, `exe`, `progress`.

    References:
        Varian, H. R. (1982). The Nonparametric Approach to Demand Analysis. Econometrica 50, 945-973.
    """
    return _bounds("demand", d, by, new, m, workers, **more)


@takes_places
def panel_welfare(d: Any, by: Any, new: Any, workers: Any = None, **more: Any) -> BoundsPanel:
    """Computes bounds on the money metric at new prices for each observation of each unit. Returns a BoundsPanel.

    `new` has the new prices, a row or a frame, as in `welfare`. They are the same for each unit. The other arguments are those of `panel`.

    References:
        Varian, H. R. (1982). The Nonparametric Approach to Demand Analysis. Econometrica 50, 945-973.
    """
    return _bounds("welfare", d, by, new, None, workers, **more)


def _bounds(
    question: str,
    d: Any,
    by: Any,
    new: Any,
    m: Any,
    workers: Any,
    *,
    decimals: Any = None,
    numbers: Any = "shortest",
    units: str | None = None,
    exe: Any = None,
    wide: bool = True,
    progress: bool = True,
) -> BoundsPanel:
    names = [by] if not isinstance(by, (list, tuple)) else list(by)
    if workers is not None:
        workers = program.whole(workers, "workers", 1, 1024)
    asked = Asked(HOUSEHOLD, (), False, None, program.switch(wide, "wide"))
    whole = BoundsFrame(Frame(d), names, forms_of(decimals, numbers), asked, exe, question, new, m)
    whole.refuse_floats()
    found = BoundsPanel(names, bar_of(whole.answers(workers or processors()), whole, progress), of_words(units, names), question)
    stop_where_new_is_refused(found)
    stop_where_all_are_refused(found)
    return found


def stop_where_new_is_refused(found: BoundsPanel) -> None:
    """Raises the error of the new prices where they have one beside the data of every unit that has none of its own."""
    own = [it for it in found if it.fault is None or it.fault.startswith(OF_NEW)]
    if own and own[0].refusal is not None and len({it.fault for it in own}) == 1:
        raise own[0].refusal


class BoundsFrame(LongFrame):
    """A frame as a long file, with the new prices beside it."""

    def __init__(self, frame: Frame, by: Sequence[Any], forms: Forms, asked: Asked, exe: Any, question: str, new: Any, m: Any) -> None:
        super().__init__(frame, by, None, forms, asked, exe)
        if new is None:
            raise BadData("there are no new prices: give the argument new")
        self.question = question
        self.new: Sheet = beside(self.goods, new, "p_", "m" if question == "demand" else None, m, forms)

    def answer(self, block: Sequence[Any], run: program.Runs, path: str) -> list[Any]:
        """Returns the bounds of the units of a block."""
        pooled = {own.id: wrong for own in block if own.id for wrong in self.pooled(own)}
        sent = [own for own in block if own.id not in pooled]
        found = iter(self.called(sent, run, path) if sent else [])
        return [UnitBounds(own.key, "Pooled", partial(taken_as_it_is, pooled[own.id])) if own.id in pooled else next(found) for own in block]

    def called(self, sent: Sequence[Any], run: program.Runs, path: str) -> list[Any]:
        """Returns the bounds that the call gives of some units, or the errors of rows without one."""
        data, places = self.data_of(sent)
        words = [LONG, "--id", HOUSEHOLD, f"--{self.question}", NEW, *(["--wide"] if self.asked.wide else [])]
        ran = program.ran_of(*run(path, words, {LONG: data, NEW: self.new.csv()}))
        out = program.output(ran, self.explained)
        return list(self.units_of(out, sent, places))

    def explained(self, file: str | None, fault: str, places: dict[str, int]) -> Refused:
        return self.new.refused(fault, places) if file == "new" else self.refused(fault, places)

    def units_of(self, out: str, sent: Sequence[Any], places: Sequence[int]) -> Iterator[UnitBounds]:
        """Yields the bounds of each unit; raises Unreadable where the answer is not a table of these units."""
        rows = rows_of(out)
        if not rows or rows.pop(0) != [*HEAD, OF[self.question], *AMOUNTS, *PLACE]:
            raise Unreadable(out, "it has no table of bounds")
        at = 0
        try:
            for own in sent:
                count = self.rows_of_unit(own, rows[at])
                yield self.unit(own, rows[at : at + count], places)
                at += count
        except (IndexError, ValueError, KeyError) as wrong:
            raise Unreadable(out, f"its rows are not those of the units that were sent: {wrong}") from None
        if at != len(rows):
            raise Unreadable(out, "it has rows of other units")

    def rows_of_unit(self, own: Any, first: Sequence[str]) -> int:
        """Returns how many rows a unit has in the answer."""
        if first[-3]:
            return 1
        return len(self.new.rows) * (len(self.goods) if self.question == "demand" else len(own.places))

    def unit(self, own: Any, rows: Sequence[Sequence[str]], places: Sequence[int]) -> UnitBounds:
        """Returns the bounds of one unit by its rows."""
        if any(row[0] != (own.id if rows[0][-3] not in OF_ID else "") for row in rows):
            raise ValueError("another unit")
        if rows[0][-3]:
            return self.unit_with_fault(own, rows[0][-3:], places)
        found = UnitBounds(own.key)
        found.observations, found.goods, found.hint = int(rows[0][1]), int(rows[0][2]), wider.ASKED if self.asked.wide else wider.UNASKED
        found.garp = rows[0][5] != VIOLATED
        inside = [self.labels[at] for at in own.places] if self.question == "welfare" else self.goods
        wanted = iter((row, number, place) for row in range(1, len(self.new.rows) + 1) for number, place in enumerate(inside, 1))
        for fields in rows:
            row, number, place = next(wanted)
            if int(fields[3]) != row or fields[4] not in (str(number), str(place)):
                raise ValueError("other bounds")
            if found.garp:
                found.bounds[self.new.labels[row - 1], place] = (bound(fields[5]), bound(fields[7]))
        return found

    def unit_with_fault(self, own: Any, fields: Sequence[str], places: Sequence[int]) -> UnitBounds:
        fault, *rest = fields
        at = {name: int(it) for name, it in zip(("record", "column"), rest) if it}
        if fault.startswith(OF_NEW):
            return UnitBounds(own.key, fault, partial(self.new.refused, fault.removeprefix(OF_NEW), at))
        if "record" in at:
            at["record"] = places[at["record"] - 1] + 1
        found = UnitBounds(own.key, fault, partial(self.refused, fault, at))
        found.record, found.column = at.get("record"), self.column_of(at["column"]) if "column" in at else None
        return found


def told_of(amount: Fraction | None, rounded: Callable[[Fraction], int]) -> str:
    """Returns the text of a bound with at most 6 decimal places: `rounded` is `floor` for a lower bound and `ceil` for an upper bound."""
    return "undetermined" if amount is None else exact.decimal_text(Fraction(rounded(amount * 10**6), 10**6))


def bound(text: str) -> Fraction | None:
    """Returns a bound; None where it is undetermined."""
    return None if text == WITHHELD else exact.fraction_read(text)
