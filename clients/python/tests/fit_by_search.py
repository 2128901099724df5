"""Goodness of fit of small tables by looking at all there is: all sets, all levels, all choices of steps, all cycles.

Written from the definitions alone, beside the second checker and the program: `is_true` says whether an item of a certificate is true
of a table, whatever evidence it has. A table is its costs as whole numbers, `costs[s][t]` of the bundle of t at the prices of s, and
its bundles; observations count from 0 here, and from 1 in items.
"""
from __future__ import annotations

import itertools
from fractions import Fraction
from math import prod

UNIT = 2**40


class Table:
    """Costs and bundles, and what was found of them."""

    def __init__(self, prices, bundles):
        self.bundles = bundles
        self.costs = [[sum(map(int.__mul__, p, q)) for q in bundles] for p in prices]
        self.all = range(len(bundles))
        self.found = {}

    def once(self, search, *more):
        """Returns what a search finds, which is made once."""
        key = search.__name__, *more
        if key not in self.found:
            self.found[key] = search(self, *more)
        return self.found[key]


# ---- steps and cycles


def steps_at(table, levels, holds):
    """Returns the steps s, t whose cost there and the level's part of what was spent stand in a relation."""
    return {(s, t) for s in table.all for t in table.all if holds(table.costs[s][t], levels[s] * table.costs[s][s])}


def weak_at(table, levels):
    return steps_at(table, levels, lambda cost, spent: cost <= spent)


def strict_at(table, levels):
    return steps_at(table, levels, lambda cost, spent: cost < spent)


def ones(table):
    return [1] * len(table.all)


def closure(table, steps):
    """Returns the pairs that some walk of these steps joins."""
    found = set(steps)
    for middle, s, t in itertools.product(table.all, repeat=3):
        if (s, middle) in found and (middle, t) in found:
            found.add((s, t))
    return found


def violates(table, weak, strict):
    """Whether some closed walk of weak steps has a strict one."""
    joined = closure(table, weak)
    return any(s == t or (t, s) in joined for s, t in strict)


def is_acyclic(table, steps):
    return all(s != t for s, t in closure(table, steps))


def cycles(table):
    """Yields the closed walks through distinct observations, each with its first observation again at its end."""
    for size in range(1, len(table.all) + 1):
        for first, *rest in itertools.permutations(table.all, size):
            if all(first < s for s in rest):
                yield [first, *rest, first]


def joined(walk):
    return list(zip(walk, walk[1:]))


# ---- the indices


def pairs(table):
    """Returns the numbers of pairs that violate GARP, its weak form, WARP and SARP, and of the observations in some pair of GARP."""
    weak, strict = weak_at(table, ones(table)), strict_at(table, ones(table))
    reached = closure(table, weak)
    both = list(itertools.permutations(table.all, 2))
    differing = [(s, t) for s, t in both if table.bundles[s] != table.bundles[t]]
    of_garp = [(s, t) for s, t in both if (s, t) in reached and (t, s) in strict]
    return {
        "garp": len(of_garp),
        "wgarp": sum((s, t) in weak and (t, s) in strict for s, t in both),
        "warp": sum((s, t) in weak and (t, s) in weak for s, t in differing),
        "sarp": sum((s, t) in reached and (t, s) in weak for s, t in differing),
        "observations": len(set(itertools.chain(*of_garp))),
    }


def efficiency(table):
    """Returns the index and whether it is attained: all levels that may matter are tried, and one between each two."""
    ratios = sorted({Fraction(table.costs[s][t], table.costs[s][s]) for s in table.all for t in table.all if table.costs[s][t] <= table.costs[s][s]})

    def holds(level):
        return not violates(table, weak_at(table, [level] * len(table.all)), strict_at(table, [level] * len(table.all)))

    index, under = Fraction(0), Fraction(0)
    for ratio in ratios:
        if not holds((under + ratio) / 2):
            break
        index = under = ratio
    return index, holds(index)


def is_consistent(table, some):
    weak, strict = weak_at(table, ones(table)), strict_at(table, ones(table))
    return not violates(table, {it for it in weak if set(it) <= set(some)}, {it for it in strict if set(it) <= set(some)})


def largest(table):
    """Returns a largest consistent set: all sets are tried, from the largest on."""
    sets = (some for size in range(len(table.all), -1, -1) for some in itertools.combinations(table.all, size))
    return next(some for some in sets if is_consistent(table, some))


def lacking(table, at, power):
    """Returns what levels lack in sum; `at` has for each observation the one whose bundle gives its level, itself for 1."""
    return sum((1 - Fraction(table.costs[s][t], table.costs[s][s])) ** power for s, t in enumerate(at))


def holds_below(table, at):
    """Whether GARP holds just below these levels: no closed walk of steps to bundles cheaper than the level's."""
    return is_acyclic(table, {(s, t) for s in table.all for t in table.all if table.costs[s][t] < table.costs[s][at[s]]})


def best_levels(table, power):
    """Returns levels that lack least, as `at`: all that may matter are tried."""
    may = [[s] + [t for t in table.all if table.costs[s][t] < table.costs[s][s]] for s in table.all]
    return min((at for at in itertools.product(*may) if holds_below(table, at)), key=lambda at: lacking(table, at, power))


def saved(table, step):
    return table.costs[step[0]][step[0]] - table.costs[step[0]][step[1]]


def best_steps(table):
    """Returns strict steps of least cost whose removal leaves no closed walk of them: all sets of steps on some closed walk are tried."""
    strict = strict_at(table, ones(table))
    reached = closure(table, strict)
    on_cycles = sorted((s, t) for s, t in strict if (t, s) in reached)
    best, least = (), None
    for taken in itertools.chain.from_iterable(itertools.combinations(on_cycles, size) for size in range(len(on_cycles) + 1)):
        cost = sum(saved(table, it) for it in taken)
        if (least is None or cost < least) and is_acyclic(table, strict - set(taken)):
            best, least = taken, cost
    return best


def best_pump(table):
    """Returns a cycle of weak steps of the greatest ratio; a mixture of cycles has none that is greater than that of each."""
    weak = weak_at(table, ones(table))
    return max((walk for walk in cycles(table) if set(joined(walk)) <= weak), key=lambda walk: pump_ratio(table, walk))


def pump_ratio(table, walk):
    return Fraction(sum(saved(table, it) for it in joined(walk)), spent(table, walk))


def spent(table, walk):
    return sum(table.costs[s][s] for s in walk[:-1])


def quotient(table, walk):
    return Fraction(sum(table.costs[s][t] for s, t in joined(walk)), spent(table, walk))


def best_quotient(table):
    return min(cycles(table), key=lambda walk: quotient(table, walk))


def mean_is_at_least(table, walk, low):
    """Whether the geometric mean of c(s,t)/c(s,s) over the steps is at least low/2^40."""
    steps = joined(walk)
    left = low ** len(steps) * prod(table.costs[s][s] for s, _ in steps)
    return left <= UNIT ** len(steps) * prod(table.costs[s][t] for s, t in steps)


def mean_is_at_most(table, walk, high):
    """Whether it is at most high/2^40."""
    steps = joined(walk)
    right = high ** len(steps) * prod(table.costs[s][s] for s, _ in steps)
    return UNIT ** len(steps) * prod(table.costs[s][t] for s, t in steps) <= right


# ---- whether an item is true


def is_true(table, item):
    """Whether what an item says of the table is so."""
    return TRUE[item["item"]](table, item)


def true_violations(table, item):
    return table.once(pairs) == {name: int(item[name]) for name in table.once(pairs)}


def true_efficiency(table, item):
    return table.once(efficiency) == (Fraction(item["level"]), "at_ranks" in item)


def true_kept(table, item):
    kept = [s - 1 for s in item["kept"]]
    return len(set(kept)) == len(kept) and is_consistent(table, kept) and len(table.once(largest)) <= int(item["most"])


def true_levels(table, item):
    power = {"mean": 1, "squares": 2}[item["measure"]]
    at, least = [t - 1 if t else s for s, t in enumerate(item["at"])], lacking(table, table.once(best_levels, power), power)
    lower = Fraction(sum(int(it["weight"]) for it in item["cycles"]), int(item["den"]) * UNIT)
    return holds_below(table, at) and lower <= least <= lacking(table, at, power)


def true_steps(table, item):
    taken = {(s, t - 1) for s, row in enumerate(item["taken"]) for t in row}
    least = sum(saved(table, it) for it in table.once(best_steps))
    lower = Fraction(sum(int(it["weight"]) for it in item["cycles"]), int(item["den"]))
    is_enough = is_acyclic(table, strict_at(table, ones(table)) - taken)
    return is_enough and sum(saved(table, it) for it in taken) == int(item["cost"]) and lower <= least <= int(item["cost"])


def true_pump(table, item):
    return Fraction(int(item["num"]), int(item["den"])) == pump_ratio(table, table.once(best_pump))


def true_quotient(table, item):
    return Fraction(int(item["num"]), int(item["den"])) == quotient(table, table.once(best_quotient))


def true_means(table, item):
    walks = list(cycles(table))
    at_least = all(mean_is_at_least(table, walk, int(item["low"])) for walk in walks)
    return at_least and any(mean_is_at_most(table, walk, int(item["high"])) for walk in walks)


TRUE = {
    "violations": true_violations,
    "efficiency": true_efficiency,
    "kept": true_kept,
    "levels": true_levels,
    "steps": true_steps,
    "pump": true_pump,
    "quasilinear_level": true_quotient,
    "homothetic_level": true_means,
}
