"""Random behaviour on the budgets of a table, uniformly on the budget line: what Bronars (1987) and Choi, Fisman, Gale and Kariv
(2007) compare people with. The command `power` draws another way (docs/explain/indices.md).

The same seed gives the same behaviours in Python, in R and in the page (clients/tests/behaviours.json). The words are those of
MRG32k3a (L'Ecuyer 1999), with the seeding of R's generator "L'Ecuyer-CMRG"; all else is reckoned in whole numbers.
"""

from __future__ import annotations

from fractions import Fraction
from typing import Any, Iterable, Sequence

from . import exact, program
from .advice import LARGEST
from .faults import BadData
from .tables import Table

SEEDS = (0, 2**32 - 1)
FIRST, SECOND = 4294967087, 4294944443
# A share of what is spent is a whole number of these parts of it.
PARTS = 2**29
# The powers of ten that quantities are counted in, the finest first.
UNITS = range(6, -10, -1)


class Words:
    """The words of MRG32k3a from a seed, each from 1 to FIRST."""

    def __init__(self, seed: Any) -> None:
        drawn = program.whole(seed, "seed", *SEEDS)
        for _ in range(50):
            drawn = (69069 * drawn + 1) % 2**32
        state: list[int] = []
        while len(state) < 6:
            drawn = (69069 * drawn + 1) % 2**32
            if drawn < SECOND:
                state.append(drawn)
        self.first, self.second = state[:3], state[3:]

    def next(self) -> int:
        a, b = self.first, self.second
        p = (1403580 * a[1] - 810728 * a[0]) % FIRST
        q = (527612 * b[2] - 1370589 * b[0]) % SECOND
        self.first, self.second = [*a[1:], p], [*b[1:], q]
        return p - q if p > q else p - q + FIRST

    def shares(self, goods: int) -> list[int]:
        """Returns parts of what is spent, uniformly among all divisions of PARTS: the gaps between cuts that are drawn."""
        cuts = sorted((self.next() - 1) // 8 for _ in range(goods - 1))
        return [after - before for before, after in zip([0, *cuts], [*cuts, PARTS])]


class Budgets:
    """The budgets of a table, in whole numbers: the prices, and how much of each good what was spent would buy, in units that are
    as fine as fit."""

    def __init__(self, table: Table) -> None:
        self.table = table
        count = len(table.goods)
        rows = [[Fraction(text) for text in texts[: 2 * count]] for texts in table.texts]
        price, quantity = table.price_scale, table.quantity_scale
        self.prices = [[int(number * price) for number in row[:count]] for row in rows]
        quantities = [[int(number * quantity) for number in row[count:]] for row in rows]
        spent = [sum(p * q for p, q in zip(*row)) for row in zip(self.prices, quantities)]
        self.most = next(found for found in (self._most(spent, unit) for unit in UNITS) if max((max(row) for row in found), default=0) <= LARGEST)

    def _most(self, spent: Sequence[int], unit: int) -> list[list[int]]:
        amounts = [money * 10**unit if unit >= 0 else money // 10**-unit for money in spent]
        return [[money // price for price in row] for money, row in zip(amounts, self.prices)]

    def behaviour(self, words: Words) -> list[list[int]]:
        """Returns the quantities of one behaviour, by the next words."""
        found = []
        for most in self.most:
            bought = [whole * part // PARTS for whole, part in zip(most, words.shares(len(most)))]
            found.append(bought if any(bought) else [1, *bought[1:]])
        return found

    def drawn(self, words: Words) -> Table:
        """Returns the table of one behaviour, by the next words. Its units are of its own, which changes neither the axiom nor the
        index."""
        own = self.table
        drawn = Table(own.goods, self.prices, self.behaviour(words), list(own.labels))
        # Its prices are no columns of the user, so nothing is said of the budgets that were offered.
        drawn.own_money = own.own_money
        return drawn


def on_budget_lines(table: Table, seed: Any) -> Table:
    """Returns the table of one random behaviour at the prices and expenditures of a table, in whole numbers and units of its own."""
    return Budgets(table).drawn(Words(seed))


def on_budgets_of(panel: Any, count: int = 1000, seed: Any = 1) -> list[Table]:
    """Returns so many behaviours on the budgets of a panel: each unit that has verdicts in turn, all from one seed."""
    own = [Budgets(row.table) for row in panel if row.fault is None]
    if not own:
        raise BadData("no unit of this panel has a verdict, so there are no budgets")
    words = Words(seed)
    return [own[number % len(own)].drawn(words) for number in range(program.whole(count, "count", 0, 1_000_000))]


def verdicts(panel: Any, count: int = 1000, seed: Any = 1, *, exe: Any = None, workers: Any = None) -> list[Any]:
    """Returns the Row of each of `on_budgets_of`: the benchmark beside the figure of Choi, Fisman, Gale and Kariv (2007)."""
    from .panels import of_tables

    return of_tables(on_budgets_of(panel, count, seed), workers, exe)


def share_above(answers: Iterable[Any], level: Any) -> Fraction:
    """Returns the share of some verdicts, or of the rows of a panel, whose efficiency index is above a level, exactly."""
    indices = [it.efficiency for it in answers if it.efficiency is not None]
    least = exact.fraction_of(level)
    if not indices or least is None:
        raise BadData("a share is of one verdict or more, above a level such as 0.9 or '0.95'")
    return Fraction(sum(it > least for it in indices), len(indices))
