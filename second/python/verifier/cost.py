"""Production: does a firm minimise its cost, and maximise its profit, and what does an output cost? (Varian 1984)

The weak axiom of cost minimisation: no observation's inputs cost more at its prices than those of one that made as much or more.
That of profit maximisation: no observation would have made more profit at its prices with the inputs and the output of another.
Both are decided here by looking at every pair.

What an output y costs at new prices is at most what the inputs of an observation that made y or more cost there, and at least
the least cost of inputs that cost, at the prices of each observation that made y or less, no less than what was spent there: the
value of a linear program, which an equal pair shows.
"""

from __future__ import annotations

from . import pairs


def breaks_cost(technology, t, s):
    """Whether s made as much as t or more, and its inputs cost less at the prices of t."""
    table, y = technology.table, technology.outputs
    return y[t] <= y[s] and table.cost(t, s) < table.cost(t, t)


def breaks_profit(technology, t, s):
    """Whether t would have made more profit at its prices with the inputs and the output of s."""
    table, y, p = technology.table, technology.outputs, technology.prices
    return p[t] * y[t] - table.cost(t, t) < p[t] * y[s] - table.cost(t, s)


def first_pair(technology, breaks):
    """Returns the first pair that breaks an axiom, from 1, and () where none does."""
    everyone = technology.table.observations
    return next(((t + 1, s + 1) for t in everyone for s in everyone if breaks(technology, t, s)), ())


def look_at_axiom(technology, told, breaks):
    """Returns why what is told of an axiom is not so: () where it holds, else a pair that breaks it."""
    if not told:
        first = first_pair(technology, breaks)
        return f"{first[0]} and {first[1]} break it" if first else None
    if not all(1 <= it <= len(technology.table.observations) for it in told):
        return "the pair names an observation that there is not"
    return None if breaks(technology, told[0] - 1, told[1] - 1) else "the pair does not break it"


def look(technology, prices, output, item):
    """Returns why these are no bounds on what an output costs at new prices, and None where they are."""
    return no_upper_bound(technology, prices, output, item["upper"]) or no_lower_bound(technology, prices, output, item["lower"])


def no_upper_bound(technology, prices, output, upper):
    """Returns why this is not the least cost of inputs that made the output or more."""
    table = technology.table
    enough = [s for s in table.observations if technology.outputs[s] >= output]
    if upper is None:
        return f"observation {enough[0] + 1} made as much" if enough else None
    if not 1 <= upper["at"] <= len(table.observations) or technology.outputs[upper["at"] - 1] < output:
        return "where the upper bound stands there is no observation that made as much"
    costs = {s: table.spending(prices, table.quantities[s]) for s in enough}
    if costs[upper["at"] - 1] != upper["cost"]:
        return "the upper bound is not what its inputs cost"
    return "other inputs that made as much cost less than the upper bound" if min(costs.values()) < upper["cost"] else None


def no_lower_bound(technology, prices, output, bound):
    """Returns why the lower bound is not shown by its pair; one that is withheld claims nothing."""
    if "withheld" in bound:
        return None
    table = technology.table
    listed = [t for t in table.observations if technology.outputs[t] <= output]
    program = pairs.Program([table.prices[t] for t in listed], [table.cost(t, t) for t in listed], prices)
    why = pairs.no_equal_pair(program, bound)
    if why is None and table.spending(prices, pairs.prices_of(bound)) != bound["value"]:
        why = "its pair has another value"
    return f"the lower bound: {why}" if why else None


def remarks(item):
    """Returns what the program's check refuses besides."""
    return pairs.remarks(item["lower"])
