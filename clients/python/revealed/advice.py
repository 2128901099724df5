"""What to do about a refusal: how many places fit, and what is taken of a number."""

from __future__ import annotations

from fractions import Fraction
from functools import cached_property
from math import isfinite
from typing import Any, Callable, Sequence

from . import exact
from .catalogue import LIMITS, sentence

LARGEST = LIMITS["table.largest"]
LARGEST_MONEY = LIMITS["table.largest_expenditure"]
# What is scaled by one power of ten, by the name that a column has in a sheet.
PRICES, QUANTITIES, LEVELS, MONEY, WHOLE = "prices", "quantities", "levels", "money", "whole numbers"
LEVEL_HINT = f"A level is a share of what was spent, such as 0.95, or an integer of thousandths from 1 to {LIMITS['table.level_scale']}, such as 950."
# What an argument of this package does about a fault, behind the sentence of the catalogue.
ALSO = {
    "TooManyRecords": "If the rows are those of many units, they are a panel: panel(d, by=..).",
    "OwnLevels": "The argument levels gives them too.",
    "UnknownBudget": "Budgets can have names: give them in a column 'budget' of both frames.",
    "TooManyCombinations": "Leave wide=False out, and have rp-wide beside the program, in the library, or named by RP_WIDE.",
    "TooManyTypes": "Leave wide=False out, and have rp-wide beside the program, in the library, or named by RP_WIDE.",
}
# What is said of a fault of a panel in place of that.
OF_PANEL = {
    "TooManyRecords": f"One unit has at most {LIMITS['table.records']} observations. Test parts of its observations, such as years.",
    "OwnLevels": "The money pump and the power are defined without efficiency levels. Leave out pump and power, or the levels.",
}


def hint_of(fault: str, in_panel: bool = False) -> str | None:
    """Returns what is wrong and what to do, where nothing more is known than the fault."""
    if in_panel and fault in OF_PANEL:
        return OF_PANEL[fault]
    if fault == "BadLevel":
        return LEVEL_HINT
    found = sentence("fault", fault)
    return f"{found} {ALSO[fault]}" if found is not None and fault in ALSO else found


def largest_of(values: Sequence[Any]) -> Fraction:
    """Returns the largest of those of the values that are numbers, and 0 where there is none."""
    most = max((value for value in values if isinstance(value, float) and isfinite(value)), default=0.0)
    # Of the other kinds each value is looked at once, however often it comes.
    others = {value for value in values if not isinstance(value, float) and type(value).__hash__ is not None}
    found = [Fraction(0), Fraction(exact.shortest_of(most)), *map(exact.fraction_of, others)]
    return max(number for number in found if number is not None)


def places_that_fit(values: Sequence[Any]) -> int | None:
    """Returns the most places to which all of them can be rounded so that none is too large made whole; None where there is none.

    The numbers of a kind are made whole by one power of ten, and none may be above 9,999,999 then: 7 digits of the largest one.
    """
    largest = largest_of(values)
    return next((places for places in range(exact.MOST_PLACES, -1, -1) if exact.rounded(largest, places) * 10**places <= LARGEST), None)


def is_too_fine(value: Any, shortest: bool = True) -> bool:
    """Whether a number has more places than are taken, or a float more digits."""
    if isinstance(value, float):
        return exact.is_beyond(value, shortest)
    number = exact.fraction_of(exact.shortest_of(value) if shortest else value)
    try:
        return number is not None and exact.places_of(number) > exact.MOST_PLACES
    except exact.NotFinite:
        return True


class Kinds:
    """The values of each kind of what is asked about together, a table or a panel, and how each kind is taken. They are gathered where
    something is told of them, and what is told is reckoned once."""

    def __init__(self, values: Callable[[], dict[str, Sequence[Any]]], shortest: bool = True) -> None:
        self.values, self.shortest = values, shortest
        self.known: dict[tuple[str, str], Any] = {}

    @cached_property
    def of(self) -> dict[str, Sequence[Any]]:
        return self.values()

    def _once(self, what: str, kind: str, reckon: Callable[[Sequence[Any]], Any]) -> Any:
        if (what, kind) not in self.known:
            self.known[what, kind] = reckon(self.of.get(kind, ()))
        return self.known[what, kind]

    def most(self, kind: str) -> int | None:
        """Returns the most places that fit."""
        found: int | None = self._once("most", kind, places_that_fit)
        return found

    def too_fine(self, kind: str) -> int:
        """Returns how many numbers have too many places."""
        return int(self._once("fine", kind, lambda values: sum(is_too_fine(value, self.shortest) for value in values)))

    def shortest_fits(self) -> bool:
        """Whether each float has a shortest decimal that is taken."""
        return not any(self._once("short", kind, lambda values: any(map(is_too_fine, values))) for kind in (PRICES, QUANTITIES))


def asked_for(kinds: Kinds, always: str | None = None) -> str | None:
    """Returns the argument that rounds each kind which needs it, to the most places that fit; the other kind is left as it is."""
    places: list[int | None] = []
    for kind in (PRICES, QUANTITIES):
        needs = kind == always or kinds.too_fine(kind) > 0
        most = kinds.most(kind) if needs else None
        if needs and most is None:
            return None
        places.append(most)
    return f"decimals=({places[0]}, {places[1]})"


# What a double that is refused needs, by the program's limits on prices and quantities.
NEEDS = f"more than {exact.MOST_PLACES} decimal places or {exact.MOST_FIGURES} digits"
INTERCEPTS = "If prices are 1 over an intercept, give the intercepts in columns i_NAME: nothing is rounded then."


def too_many_places(kind: str, kinds: Kinds, may_be_a_line: bool) -> str:
    """Returns what to do about a number of too many places, in at most four lines; `may_be_a_line` says that it is a price of two goods
    and not given by intercepts already."""
    if kind not in (PRICES, QUANTITIES):
        return f"It needs more than {exact.MOST_PLACES} decimal places. Give it as a text or a Decimal of at most {exact.MOST_PLACES} decimal places."
    others = kinds.too_fine(PRICES) + kinds.too_fine(QUANTITIES) - 1
    more = f", as do {others:,} other numbers" if others > 1 else ", as does 1 other number" if others == 1 else ""
    lines = [f"It needs {NEEDS}{more}."]
    if may_be_a_line:
        lines.append(INTERCEPTS)
    if not kinds.shortest and kinds.shortest_fits():
        lines.append("numbers='shortest', the default, takes each float as the shortest decimal that gives it back, and rounds nothing.")
    argument = asked_for(kinds)
    if argument is None:
        lines.append(without_places(kind))
    else:
        lines.append(f"{argument} rounds prices and quantities to the most decimal places that fit. Rounded prices can change a verdict.")
    return "\n".join(lines)


def without_places(kind: str) -> str:
    """Returns what to do about a number that does not fit without any place."""
    unit = (
        "a smaller unit of the good (its price less, its quantity more)" if kind == PRICES else "a larger unit of the good (its quantity less, its price more)"
    )
    return f"A number above {LARGEST:,} is not taken: take {unit}, which changes no verdict."


def too_large(kind: str, kinds: Kinds) -> str:
    """Returns the limit that a number is above, and the way out."""
    if kind == MONEY:
        return f"In units of the last decimal place, and of that of quantities, an amount of money is at most {LARGEST_MONEY:,}."
    if kind not in (PRICES, QUANTITIES):
        return f"It is at most {LARGEST:,}."
    most = kinds.most(kind)
    limit = f"In units of the last decimal place that any of the {kind} has, a number is at most {LARGEST:,}."
    if most is None:
        return f"{limit} {without_places(kind)}"
    other = QUANTITIES if kind == PRICES else PRICES
    argument = f"decimals=({most}, None)" if kind == PRICES else f"decimals=(None, {most})"
    if kinds.too_fine(other):
        argument = asked_for(kinds, kind) or argument
    changes = " Rounded prices can change a verdict." if kind == PRICES else ""
    return f"{limit} {argument} rounds to the most decimal places that fit.{changes}"
