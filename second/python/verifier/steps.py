"""The minimum cost index (Dean and Martin 2016).

It is the least sum of c(s,s) − c(s,t) over strict steps whose removal leaves no closed walk of strict steps, over the sum of what
was spent. Evidence are the steps that are taken away, with what they cost, and ranks that fall along each strict step that is left;
and weighted walks (`weighted`), which show that no choice of steps costs less than their weights over the denominator.
"""

from fractions import Fraction

from . import walks, weighted


def clauses(table, item):
    """Yields the clauses of the item, in order."""
    taken, ranks, count = item["taken"], item["ranks"], len(table.observations)
    strict = walks.strictly_preferred(table)
    yield "the denominator is 0", 0, item["den"] >= 1
    yield "there is not one list of steps for each observation", 1, len(taken) == count
    yield "there is not one rank for each observation", 2, len(ranks) == count
    for s in table.observations:
        rises = all(t < u for t, u in zip(taken[s], taken[s][1:]))
        yield "the steps are not strict ones in rising order", s + 1, rises and all(t - 1 in strict[s] for t in taken[s])
    for s in table.observations:
        left = [t for t in strict[s] if t + 1 not in taken[s]]
        yield "the ranks do not respect the preference", s + 1, all(ranks[t] < ranks[s] for t in left)
    cost = sum(saved(table, s, t - 1) for s in table.observations for t in taken[s])
    yield "the steps cost another sum", 0, cost == item["cost"]
    yield from weighted.of_cycles(table, item["cycles"])
    by_step = lambda s, t, leaving: sum(weight for u, weight in leaving if u == t)
    yield from weighted.of_loads(table, item["cycles"], item["den"], by_step, lambda s, t: saved(table, s, t))


def saved(table, s, t):
    """What a strict step costs to take away."""
    return table.cost(s, s) - table.cost(s, t)


def bounds(table, item):
    """Returns the two bounds on the index that accepted evidence proves."""
    spent = sum(table.cost(s, s) for s in table.observations)
    return Fraction(weighted.weight_of_all(item["cycles"]), item["den"] * spent), Fraction(item["cost"], spent)


def is_exact(table, item):
    """Whether no sum of whole numbers lies between the two bounds on the cost."""
    return weighted.weight_of_all(item["cycles"]) > item["den"] * (item["cost"] - 1)
