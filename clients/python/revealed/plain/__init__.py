"""Answers by plain whole numbers without bound, where the program withholds one because its numbers get too long.

**No proof stands behind these.** They are found here, in Python, without the program, and only where they are asked for by these
names. Each has evidence in the form of a certificate, which `revealed.verify` looks at by the definitions:

    >>> from revealed import plain, verify
    >>> verdict = plain.analyse([[1, 2], [2, 1]], [[1, 2], [2, 1]])
    >>> verdict.proved, verdict.garp, verdict.efficiency, bool(verify(verdict))
    (False, False, Fraction(4, 5), True)

Nothing is withheld, whatever the digits. A table is taken within the limits of the program's.
"""

from __future__ import annotations

import json
from typing import Any

from .. import exact
from ..answers import Answers, Certificate, Verdict, demands, welfares
from ..faults import BadData
from ..tables import Forms, Sheet, Table, beside, forms_of, table, takes_places
from ..verifier import NoTable, tables
from . import axioms, bounds, chains

__all__ = ["PlainVerdict", "analyse", "demand", "demand_bounds", "welfare", "welfare_bounds"]


class PlainVerdict(Verdict):
    """The verdicts on a table by plain whole numbers: as a Verdict, and nothing is withheld, but no proof stands behind them."""

    proved = False


@takes_places
def analyse(p: Any, q: Any = None, *, levels: Any = None, decimals: Any = None, numbers: Any = "shortest") -> PlainVerdict:
    """Returns the verdicts on a table, as `revealed.analyse` does, and withholds none. No proof stands behind them."""
    own = table(p, q, decimals=decimals, numbers=numbers, levels=levels)
    costs = costs_of(own)
    garp = axioms.garp(costs)
    items = [garp, axioms.afriat(costs, garp), axioms.efficiency(costs), chains.homothetic(costs), chains.quasilinear(costs)]
    return PlainVerdict(own, certificate(items, costs.table.levels))


@takes_places
def demand_bounds(p: Any, q: Any = None, new: Any = None, m: Any = None, *, decimals: Any = None, numbers: Any = "shortest") -> Answers:
    """Returns the Demand on each new budget, as `revealed.demand_bounds` does, and withholds none. No proof stands behind it."""
    own = table(p, q, decimals=decimals, numbers=numbers)
    costs, sheet = without_levels(own), asked(own, new, "m", m, forms_of(decimals, numbers))
    records = scaled(sheet, own, money=True)
    garp = axioms.garp(costs)
    items = [garp, *(bounds.demand(costs, garp, prices, spent) for *prices, spent in records)]
    return unproved(demands(own, sheet, certificate(items)))


@takes_places
def welfare_bounds(p: Any, q: Any = None, new: Any = None, *, decimals: Any = None, numbers: Any = "shortest") -> Answers:
    """Returns the Welfare bounds at new prices, as `revealed.welfare_bounds` does, and withholds none. No proof stands behind it."""
    own = table(p, q, decimals=decimals, numbers=numbers)
    costs, sheet = without_levels(own), asked(own, new, None, None, forms_of(decimals, numbers))
    garp = axioms.garp(costs)
    items = [bounds.welfare(costs, garp, prices, t) for prices in scaled(sheet, own) for t in range(costs.n)]
    return unproved(welfares(own, sheet, certificate([garp, *items])))


def costs_of(own: Table) -> axioms.Costs:
    """Returns the costs of a table."""
    try:
        return axioms.Costs(tables.read_table(own.csv()))
    except NoTable as why:
        raise BadData(f"the data are no table: {why}") from None


def without_levels(own: Table) -> axioms.Costs:
    """Returns the costs of a table for what is defined without levels."""
    if own.levels is not None:
        raise BadData("this is defined on a table without levels: leave the column 'e', or the argument levels, out")
    return costs_of(own)


def asked(own: Table, new: Any, more: str | None, values: Any, forms: Forms) -> Sheet:
    if new is None:
        raise BadData("there are no new prices")
    return beside(own.goods, new, "p_", more, values, forms)


def scaled(sheet: Sheet, own: Table, money: bool = False) -> list[list[int]]:
    """Returns the records of new prices as whole numbers in the order of the table's goods, and what is spent at their end."""
    names = [f"p_{good}" for good in own.goods] + (["m"] if money else [])
    if sorted(sheet.names) != sorted(names) or not sheet.rows:
        raise BadData(f"new: the columns that are wanted are {', '.join(names)}; those that were found are {', '.join(sheet.names)}")
    price = sheet.scale("p_")
    scales = [price] * len(own.goods) + [price * own.quantity_scale]
    found = []
    for record, texts in enumerate(sheet.texts, 1):
        row = []
        for name, scale in zip(names, scales):
            number = exact.fraction_of(texts[sheet.names.index(name)])
            if number is None or number <= 0 or (number * scale).denominator != 1:
                column = sheet.names.index(name) + 1
                raise sheet.refused("BadNumber" if number is None else "ZeroPrice" if number <= 0 else "TooFine", {"record": record, "column": column})
            row.append(int(number * scale))
        found.append(row)
    return found


def certificate(items: list[dict[str, Any]], levels: list[int] | None = None) -> Certificate:
    """Returns the certificate with these items."""
    value: dict[str, Any] = {"items": items, "kind": "table", "version": 2 if levels else 1}
    if levels:
        value["levels"] = levels
    return Certificate((json.dumps(value, sort_keys=True, separators=(",", ":")) + "\n").encode())


def unproved(found: Answers) -> Answers:
    found.proved = False
    return found


demand, welfare = demand_bounds, welfare_bounds
