"""GARP, Afriat's numbers and the efficiency index of a table, by whole numbers, each with its evidence as an item of a certificate.

Sets of observations are masks: bit t of a number says that t is among them. Observations count from 0 here, and from 1 in items.
"""

from __future__ import annotations

from fractions import Fraction
from functools import cached_property
from typing import Any, Sequence

from ..exact import written
from ..verifier.tables import Table


class Costs:
    """The costs of a table: `c[s][t]` is what the bundle of t costs at the prices of s."""

    def __init__(self, table: Table) -> None:
        self.table = table
        self.n = len(table.prices)
        self.c: list[list[int]] = [[sum(map(int.__mul__, prices, bundle)) for bundle in table.quantities] for prices in table.prices]

    @cached_property
    def weak(self) -> list[int]:
        """The weak steps from each observation, without levels."""
        return [mask(t for t, cost in enumerate(row) if cost <= row[s]) for s, row in enumerate(self.c)]

    @cached_property
    def strict(self) -> list[int]:
        """The strict steps from each observation, without levels."""
        return [mask(t for t, cost in enumerate(row) if cost < row[s]) for s, row in enumerate(self.c)]

    @cached_property
    def reach(self) -> list[int]:
        """What weak steps lead to from each observation."""
        return reached(self.weak)

    def gap(self, s: int, t: int) -> int:
        """How much more than what counts as spent at s the bundle of t costs, in thousandths where the table has levels."""
        if not self.table.levels:
            return self.c[s][t] - self.c[s][s]
        return int(1000 * self.c[s][t] - self.table.levels[s] * self.c[s][s])


def mask(places: Any) -> int:
    return sum(1 << place for place in places)


def bits(mask: int) -> list[int]:
    """Returns the places of a mask."""
    found = []
    while mask:
        low = mask & -mask
        found.append(low.bit_length() - 1)
        mask ^= low
    return found


def reached(weak: Sequence[int]) -> list[int]:
    """Returns what each observation reaches in one step or more (Warshall 1962)."""
    reach = list(weak)
    for middle in range(len(weak)):
        bit, through = 1 << middle, reach[middle]
        for s, own in enumerate(reach):
            if own & bit:
                reach[s] = own | through
    return reach


def path(steps: Sequence[int], start: int, end: int) -> list[int]:
    """Returns a walk of fewest steps, one or more, from one observation to another."""
    before: dict[int, int] = {}
    waiting = [start]
    for s in waiting:
        for t in bits(steps[s]):
            if t not in before:
                before[t] = s
                if t == end:
                    walk = [t]
                    while len(walk) == 1 or walk[-1] != start:
                        walk.append(before[walk[-1]])
                    return walk[::-1]
                waiting.append(t)
    raise AssertionError("there is no walk")


def ordinals(walk: Sequence[int]) -> list[int]:
    return [s + 1 for s in walk]


def axiom(weak: Sequence[int], strict: Sequence[int]) -> tuple[list[int] | None, list[int]]:
    """Returns the ranks where no closed walk of weak steps has a strict one, else None with such a walk."""
    reach = reached(weak)
    for s, steps in enumerate(strict):
        for t in bits(steps):
            if t == s or reach[t] >> s & 1:
                return None, [s, t] if t == s else [s, *path(weak, t, s)]
    return [bin(own | 1 << s).count("1") for s, own in enumerate(reach)], []


def garp(costs: Costs) -> dict[str, Any]:
    """The generalized axiom, by each observation's own level."""
    everyone = range(costs.n)
    gaps = [[costs.gap(s, t) for t in everyone] for s in everyone]
    weak = [mask(t for t in everyone if gap[t] <= 0) for gap in gaps]
    strict = [mask(t for t in everyone if gap[t] < 0) for gap in gaps]
    ranks, walk = axiom(weak, strict)
    return {"item": "garp", "cycle": ordinals(walk)} if ranks is None else {"item": "garp", "ranks": ranks}


def afriat(costs: Costs, garp: dict[str, Any]) -> dict[str, Any]:
    """Afriat's numbers, class by class from the highest rank down (Afriat 1967; Varian 1982).

    A class has one U, the least that an observation of a higher class allows one of it. A lambda is the least whole number, 1 or
    more, by which its observation allows each of a higher class its U.
    """
    if "cycle" in garp:
        return {"item": "afriat", "cycle": garp["cycle"]}
    ranks = garp["ranks"]
    utility, multiplier = [0] * costs.n, [1] * costs.n
    higher: list[int] = []
    for rank in sorted(set(ranks), reverse=True):
        own = [s for s in range(costs.n) if ranks[s] == rank]
        if higher:
            least = min(utility[h] + multiplier[h] * costs.gap(h, t) for h in higher for t in own)
            for s in own:
                utility[s] = least
                multiplier[s] = max(1, *(-((least - utility[h]) // costs.gap(s, h)) for h in higher))
        higher += own
    return {"item": "afriat", "utility": list(map(written, utility)), "lambda": list(map(written, multiplier))}


def efficiency(costs: Costs) -> dict[str, Any]:
    """The critical cost efficiency index (Afriat 1973): the least level at which steps of a ratio up to it close a walk, or 1."""
    c, everyone = costs.c, range(costs.n)
    shift = 2 * max(c[s][s] for s in everyone).bit_length() + 2
    steps = sorted(((c[s][t] << shift) // c[s][s], s, t) for s in everyone for t in everyone if c[s][t] < c[s][s])
    index, below = Fraction(1), graph(steps, len(steps), costs.n)
    if has_cycle(below):
        low, high = 0, len(steps) - 1
        while low < high:
            middle = (low + high) // 2
            if has_cycle(graph(steps, middle + 1, costs.n)):
                high = middle
            else:
                low = middle + 1
        key, s, t = steps[low]
        index = Fraction(c[s][t], c[s][s])
        below = graph(steps, next(at for at, step in enumerate(steps) if step[0] == key), costs.n)
    num, den = index.numerator, index.denominator
    weak = [mask(t for t in everyone if den * c[s][t] <= num * c[s][s]) for s in everyone]
    strict = [mask(t for t in everyone if den * c[s][t] < num * c[s][s]) for s in everyone]
    ranks, walk = axiom(weak, strict)
    at = {"at_cycle": ordinals(walk)} if ranks is None else {"at_ranks": ranks}
    above: list[int] = []
    if index < 1:
        reach = reached(weak)
        first = next(s for s in everyone if reach[s] >> s & 1)
        above = ordinals(path(weak, first, first))
    fallen = [bin(own | 1 << s).count("1") for s, own in enumerate(reached(below))]
    return {"item": "efficiency", "level": written(index), "above": above, "below": fallen, **at}


def graph(steps: Sequence[tuple[int, int, int]], count: int, n: int) -> list[int]:
    """Returns the first so many steps, as masks."""
    found = [0] * n
    for _, s, t in steps[:count]:
        found[s] |= 1 << t
    return found


def has_cycle(steps: Sequence[int]) -> bool:
    """Whether steps close a walk: what no step leads on from is taken away until nothing changes."""
    left = (1 << len(steps)) - 1
    while True:
        kept = mask(s for s in bits(left) if steps[s] & left)
        if kept == left:
            return left != 0
        left = kept
