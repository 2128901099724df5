"""The greatest money pump ratio over closed walks of weak steps (Echenique, Lee and Shum 2011).

Along a closed walk c(s,s) − c(s,t) is lost at each step, and c(s,s) was spent there; its ratio is the sum of the one over that
of the other. Evidence that num/den is the greatest are a closed walk of weak steps that has it, and a value of each observation
with U_t ≤ U_s + num c(s,s) − den (c(s,s) − c(s,t)) along each weak step from s to another t: along a closed walk these add up
to 0 ≤ num times what was spent − den times what is lost, and a step from s to s loses nothing. The ratio is above 0 just where
GARP fails, since there a closed walk of weak steps has a strict one: that is decided here anew.
"""

from __future__ import annotations

from . import clauses as common
from . import walks

WIDEST_PART = 2**60
WIDEST_VALUE = 2**121


def look(table, item):
    """Returns why the item does not prove its ratio on the table, and None where it does."""
    num, den, walk, values = item["num"], item["den"], item["cycle"], item["values"]
    if den < 1:
        return "the denominator is 0"
    why = walks.no_closed_walk(len(table.observations), walk)
    if why:
        return why
    weak = walks.weakly_preferred(table)
    for number, (s, t) in enumerate(walks.steps_of(walk), 1):
        if t not in weak[s]:
            return f"step {number} of the walk, from {s + 1} to {t + 1}, is not weak"
    spent = sum(table.cost(s, s) for s, _ in walks.steps_of(walk))
    lost = sum(loss(table, s, t) for s, t in walks.steps_of(walk))
    if lost * den != num * spent:
        return "the walk has another ratio"
    if len(values) != len(table.observations):
        return "there is not one value for each observation"
    for s in table.observations:
        for t in weak[s]:
            if t != s and values[t] > values[s] + num * table.cost(s, s) - den * loss(table, s, t):
                return f"the value of {t + 1} is above what {s + 1} allows it"
    return None if walks.meets_axiom(table) == (num == 0) else "the ratio is 0 just where the axiom holds"


def loss(table, s, t):
    """What is lost at a step from s to t."""
    return table.cost(s, s) - table.cost(s, t)


def remarks(table, item):
    """Returns what the program's check refuses besides."""
    found = []
    if max(item["num"], item["den"]) > WIDEST_PART:
        found.append("a part of the ratio is above 2^60")
    if len(item["cycle"]) > len(table.observations) + 1:
        found.append("the walk has more steps than there are observations")
    wide = [s for s, value in enumerate(item["values"], 1) if abs(value) > WIDEST_VALUE]
    return found + [f"the value of {s} is above 2^121 in size" for s in wide]


def clauses(table, item):
    """Yields the clauses of the item in a certificate on goodness of fit, in order."""
    num, den, walk, values = item["num"], item["den"], item["cycle"], item["values"]
    weak, count = walks.weakly_preferred(table), len(table.observations)
    yield "the denominator is 0", 0, den >= 1
    yield "a part of the ratio is above 2^60", 0, max(num, den) <= WIDEST_PART
    yield "the walk has more steps than there are observations", 1, len(walk) <= count + 1
    yield from common.of_closed_walk(count, walk)
    yield from common.of_weak_steps(walk, weak)
    spent = sum(table.cost(s, s) for s, _ in walks.steps_of(walk))
    lost = sum(loss(table, s, t) for s, t in walks.steps_of(walk))
    yield "the walk has another ratio", 0, lost * den == num * spent
    allows = lambda s, t: s == t or t not in weak[s] or values[t] <= values[s] + num * table.cost(s, s) - den * loss(table, s, t)
    yield from common.of_values(count, values, lambda value: abs(value) <= WIDEST_VALUE, allows)
