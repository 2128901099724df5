"""The homothetic and the quasilinear test of a table, by whole numbers, each with its evidence as an item of a certificate.

Both look for the least that walks multiply, or add up to, among all that end at each observation (Ford 1956; Bellman 1958), or for
a closed walk that comes back lower.
"""

from __future__ import annotations

import math
from fractions import Fraction
from typing import Any

from ..exact import written
from .axioms import Costs, ordinals

# Logarithms that are farther apart than this are those of different numbers: what they are off by, added up along a walk of
# 512 steps, is less than a thousandth of it.
APART = 1e-8


def quasilinear(costs: Costs) -> dict[str, Any]:
    """No closed walk has a sum of c(t,s) - c(t,t) below 0 (Brown and Calsamiglia 2007)."""
    n = costs.n
    steps = [[cost - row[t] for cost in row] for t, row in enumerate(costs.c)]
    values, before = [0] * n, [-1] * n
    changed = list(range(n))
    while changed:
        lower = set()
        for t in changed:
            for s, step in enumerate(steps[t]):
                if values[t] + step < values[s]:
                    values[s], before[s] = values[t] + step, t
                    lower.add(s)
        walk = closed(before) if lower else None
        if walk:
            return {"item": "quasilinear", "cycle": ordinals(walk)}
        changed = sorted(lower)
    return {"item": "quasilinear", "values": list(map(written, values))}


def closed(before: list[int]) -> list[int] | None:
    """Returns a closed walk along the last steps of the walks, where these close one: it is one that comes back lower."""
    seen = [0] * len(before)
    for start in range(len(before)):
        s = start
        while s >= 0 and not seen[s]:
            seen[s] = start + 1
            s = before[s]
        if s >= 0 and seen[s] == start + 1:
            walk = [s]
            while len(walk) == 1 or walk[-1] != s:
                walk.append(before[walk[-1]])
            return walk[::-1]
    return None


class Forest:
    """Walks that end at each observation by their last steps, with what they multiply to, exactly."""

    def __init__(self, costs: Costs, before: list[int]) -> None:
        self.costs = costs
        self.before = before
        self.values: list[tuple[int, int]] = [(1, 1)] * costs.n
        self.logs = [0.0] * costs.n
        self.children: list[set[int]] = [set() for _ in before]
        for s, t in enumerate(before):
            if t >= 0:
                self.children[t].add(s)
        for s, t in enumerate(before):
            if t < 0:
                self.renew(s)

    def renew(self, start: int) -> None:
        """Works out again what the walks through an observation multiply to."""
        waiting = [start]
        while waiting:
            s = waiting.pop()
            t = self.before[s]
            if t >= 0:
                num, den = self.values[t]
                num, den = num * self.costs.c[t][s], den * self.costs.c[t][t]
                common = math.gcd(num, den)
                self.values[s] = num // common, den // common
            self.logs[s] = math.log(self.values[s][0]) - math.log(self.values[s][1])
            waiting.extend(self.children[s])

    def lowers(self, t: int, s: int) -> bool:
        """Whether a step from t brings s lower."""
        c = self.costs.c
        ahead = self.logs[t] + math.log(c[t][s] / c[t][t]) - self.logs[s]
        if abs(ahead) > APART:
            return ahead < 0
        (first, over), (second, under) = self.values[t], self.values[s]
        return first * c[t][s] * under < second * c[t][t] * over

    def walk_to(self, s: int) -> list[int]:
        """Returns the walk that ends at an observation, from its end."""
        walk = [s]
        while self.before[walk[-1]] >= 0:
            walk.append(self.before[walk[-1]])
        return walk

    def move(self, t: int, s: int) -> list[int] | None:
        """Lets the walk to s come from t; returns a closed walk that comes back lower, where that of t goes through s."""
        walk = self.walk_to(t)
        if s in walk:
            return [s, *walk[: walk.index(s) + 1]][::-1]
        if self.before[s] >= 0:
            self.children[self.before[s]].discard(s)
        self.before[s] = t
        self.children[t].add(s)
        self.renew(s)
        return None


def homothetic(costs: Costs) -> dict[str, Any]:
    """No closed walk has a product of c(t,s) / c(t,t) below 1 (Varian 1983).

    Logarithms find walks that are nearly the least; from there on the numbers are exact.
    """
    before = nearly_least(costs)
    walk = closed(before)
    if walk and product(costs, walk) < 1:
        return {"item": "homothetic", "cycle": ordinals(walk), "start": "1"}
    forest = Forest(costs, [-1] * costs.n if walk else before)
    waiting = list(range(costs.n))
    while waiting:
        lower = set()
        for t in waiting:
            for s in range(costs.n):
                if s != t and forest.lowers(t, s):
                    walk = forest.move(t, s)
                    if walk:
                        return {"item": "homothetic", "cycle": ordinals(walk), "start": "1"}
                    lower.add(s)
        waiting = list(range(costs.n)) if lower else []
    values = [written(Fraction(num, den)) for num, den in forest.values]
    return {"item": "homothetic", "values": values}


def product(costs: Costs, walk: list[int]) -> Fraction:
    """Returns what a walk multiplies to."""
    num = den = 1
    for t, s in zip(walk, walk[1:]):
        num, den = num * costs.c[t][s], den * costs.c[t][t]
    return Fraction(num, den)


def nearly_least(costs: Costs) -> list[int]:
    """Returns the last steps of walks that are nearly the least, by logarithms; they may close a walk."""
    n = costs.n
    steps = [[math.log(cost / row[t]) for cost in row] for t, row in enumerate(costs.c)]
    values, before = [0.0] * n, [-1] * n
    changed = list(range(n))
    for _ in range(n):
        lower = set()
        for t in changed:
            own = values[t]
            for s, step in enumerate(steps[t]):
                if own + step < values[s] - 1e-12:
                    values[s], before[s] = own + step, t
                    lower.add(s)
        if not lower or closed(before):
            break
        changed = sorted(lower)
    return before
