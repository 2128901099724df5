"""The level at which the quasilinear test holds (Afriat 1973; Brown and Calsamiglia 2007).

It is the least quotient, over closed walks of any steps, of the sum of c(s,t) over that of c(s,s); a step from an observation to
itself has the quotient 1. Evidence that it is num/den are a closed walk that has it, and a value of each observation with
U_t + num c(s,s) ≤ U_s + den c(s,t) for all s and t: along a closed walk these add up to num times what was spent ≤ den times what
the next bundles cost.
"""

from . import clauses as common
from . import walks

WIDEST_VALUE = 2**120


def clauses(table, item):
    """Yields the clauses of the item, in order."""
    num, den, walk, values = item["num"], item["den"], item["cycle"], item["values"]
    count = len(table.observations)
    yield "the denominator is 0", 0, den >= 1
    yield "the walk has more steps than there are observations", 1, len(walk) <= count + 1
    yield from common.of_closed_walk(count, walk)
    spent = sum(table.cost(s, s) for s, _ in walks.steps_of(walk))
    dear = sum(table.cost(s, t) for s, t in walks.steps_of(walk))
    yield "the walk has another ratio", 0, num * spent == den * dear
    allows = lambda s, t: values[t] + num * table.cost(s, s) <= values[s] + den * table.cost(s, t)
    yield from common.of_values(count, values, lambda value: abs(value) <= WIDEST_VALUE, allows)
