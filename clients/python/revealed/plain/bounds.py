"""Bounds on demand and on what it costs to be as well off, by whole numbers, each with an equal pair of its linear program.

A program asks for the greatest c·y over A y <= b and y >= 0, where no entry of b is negative (Dantzig 1963). Its tableau has whole
numbers over one denominator, the last entry that it was turned on, so that each division is exact (Edmonds 1967).
"""

from __future__ import annotations

from fractions import Fraction
from typing import Any, Sequence

from ..exact import written
from .axioms import Costs, bits


def greatest(columns: Sequence[Sequence[int]], worth: Sequence[int], right: Sequence[int]) -> dict[str, Any]:
    """Returns an equal pair of the program with these columns: y, and the prices x of the rows, over one denominator."""
    m, n = len(right), len(columns)
    table = [[*(column[i] for column in columns), *(int(i == j) for j in range(m)), right[i]] for i in range(m)]
    top = [*(-it for it in worth), *[0] * (m + 1)]
    basis, den = list(range(n, n + m)), 1
    while True:
        enters = next((j for j in range(n + m) if top[j] < 0), None)
        if enters is None:
            break
        leaves = leaving(table, basis, enters)
        pivot = table[leaves]
        by = pivot[enters]
        for i, row in enumerate(table):
            if i != leaves:
                own = row[enters]
                table[i] = [(a * by - own * b) // den for a, b in zip(row, pivot)]
        own = top[enters]
        top = [(a * by - own * b) // den for a, b in zip(top, pivot)]
        basis[leaves], den = enters, by
    y = {basis[i]: table[i][-1] for i in range(m) if basis[i] < n and table[i][-1] > 0}
    return {"den": den, "x": top[n : n + m], "y": sorted((column + 1, value) for column, value in y.items())}


def leaving(table: Sequence[Sequence[int]], basis: Sequence[int], enters: int) -> int:
    """Returns the row that leaves: the least quotient, and of equal ones that of the first column (Bland 1977)."""
    best = None
    for i, row in enumerate(table):
        if row[enters] > 0:
            if best is None:
                best = i
                continue
            ahead = row[-1] * table[best][enters] - table[best][-1] * row[enters]
            if ahead < 0 or (ahead == 0 and basis[i] < basis[best]):
                best = i
    if best is None:
        raise AssertionError("the program has no greatest value")
    return best


def bound(pair: dict[str, Any], value: Fraction) -> dict[str, Any]:
    """Returns a bound as it stands in an item."""
    y = [[column, written(entry)] for column, entry in pair["y"]]
    return {"den": written(pair["den"]), "value": written(value), "x": list(map(written, pair["x"])), "y": y}


def spending(prices: Sequence[int], bundle: Sequence[int]) -> int:
    return sum(map(int.__mul__, prices, bundle))


def demand(costs: Costs, garp: dict[str, Any], prices: list[int], spent: int) -> dict[str, Any]:
    """Demand at new prices (Varian 1982): the least and the most of each good with which the table still meets the axiom."""
    item: dict[str, Any] = {"item": "demand", "prices": list(map(written, prices)), "expenditure": written(spent)}
    if "cycle" in garp:
        return {**item, "cycle": garp["cycle"]}
    table = costs.table
    reach = costs.reach
    bought = [spending(prices, bundle) for bundle in table.quantities]
    below = strictly = 0
    for s, cost in enumerate(bought):
        if cost <= spent:
            below |= 1 << s | reach[s]
        if cost < spent:
            strictly |= 1 << s | reach[s]
    for s in bits(below):
        for t in bits(costs.strict[s]):
            strictly |= 1 << t | reach[t]
    listed = bits(below)
    columns = [*(table.prices[s] for s in listed), prices, [-price for price in prices]]
    worth = [*(costs.c[s][s] for s in listed), spent, -spent]
    goods = []
    for good in range(len(prices)):
        alone = [int(it == good) for it in range(len(prices))]
        others = [0 if it == good else price for it, price in enumerate(prices)]
        both = [greatest(columns, worth, right) for right in (alone, others)]
        lower, upper = (bound(pair, Fraction(pair["x"][good], pair["den"])) for pair in both)
        goods.append({"lower": lower, "upper": upper})
    inner = inner_demand(table, garp["ranks"], prices, spent, bought)
    lists = {"below": [s + 1 for s in listed], "strict": [s + 1 for s in bits(strictly)]}
    return {**item, **lists, "inner": inner, "goods": goods}


def inner_demand(table: Any, ranks: Sequence[int], prices: Sequence[int], spent: int, bought: Sequence[int]) -> dict[str, Any]:
    """One demand: of the bundles that the budget buys the one of greatest rank, then of least cost, with the rest spent on the
    first good; where it buys none, all is."""
    choices = [s for s, cost in enumerate(bought) if cost <= spent]
    best = min(choices, key=lambda s: (-ranks[s], bought[s], s)) if choices else None
    bundle, left = ([0] * len(prices), spent) if best is None else (table.quantities[best], spent - bought[best])
    numbers = [quantity * prices[0] for quantity in bundle]
    numbers[0] += left
    return {"den": written(prices[0]), "num": list(map(written, numbers))}


def welfare(costs: Costs, garp: dict[str, Any], prices: list[int], t: int) -> dict[str, Any]:
    """What it costs at new prices to be as well off as at t (after Varian 1982)."""
    item: dict[str, Any] = {"item": "welfare", "prices": list(map(written, prices)), "observation": t + 1}
    if "cycle" in garp:
        return {**item, "cycle": garp["cycle"]}
    table = costs.table
    reach = costs.reach
    above = [s for s in range(costs.n) if s == t or reach[s] >> t & 1]
    cost, at = min((spending(prices, table.quantities[s]), s) for s in above)
    listed = bits(reach[t] | 1 << t)
    pair = greatest([table.prices[s] for s in listed], [costs.c[s][s] for s in listed], prices)
    lower = bound(pair, Fraction(spending(prices, pair["x"]), pair["den"]))
    return {**item, "at": at + 1, "lower": lower, "upper": written(cost)}
