"""Bounds on the level at which the homothetic test holds (Heufer 2013; Heufer and Hjertstrand 2019).

The level is the least geometric mean of c(s,t)/c(s,s) over the steps of closed walks, a root in general. Evidence that it is from
low/2^40 to high/2^40 are a closed walk of k steps whose product is at most (high/2^40)^k, and positive values of the observations
with V_t low c(s,s) ≤ V_s c(s,t) 2^40 for all s and t: multiplied along a closed walk of k steps, these make its product at least
(low/2^40)^k. Powers are compared, so no root is taken.
"""

from fractions import Fraction
from math import prod

from . import clauses as common
from . import walks

UNIT = 2**40
WIDEST_VALUE = 2**60


def clauses(table, item):
    """Yields the clauses of the item, in order."""
    low, high, walk, values = item["low"], item["high"], item["cycle"], item["values"]
    count = len(table.observations)
    yield "the upper bound is above 1", 0, high <= UNIT
    yield "the walk has more steps than there are observations", 1, len(walk) <= count + 1
    yield from common.of_closed_walk(count, walk)
    steps = walks.steps_of(walk)
    dear, spent = prod(table.cost(s, t) for s, t in steps), prod(table.cost(s, s) for s, _ in steps)
    yield "the mean of the walk is above the upper bound", 0, UNIT ** len(steps) * dear <= high ** len(steps) * spent
    allows = lambda s, t: values[t] * low * table.cost(s, s) <= values[s] * table.cost(s, t) * UNIT
    yield from common.of_values(count, values, lambda value: 1 <= value <= WIDEST_VALUE, allows)


def bounds(item):
    """Returns the two bounds on the level that accepted evidence proves."""
    return Fraction(item["low"], UNIT), Fraction(item["high"], UNIT)
