"""Closed walks of strict steps with weights, and what they load (duality of linear programming: Gale, Kuhn and Tucker 1951).

At levels at which GARP holds, and where enough steps are taken away, no closed walk of strict steps is whole: some observation of
the walk has a level at most that of the step by which the walk leaves it, or that step is taken away. Where the walks that pay
for a step, or for a level, weigh no more than the denominator times what it costs, all of them weigh no more than the denominator
times the cost of any choice.
"""

from . import walks

LOADED = "the walks load a step or a level of this observation more than they may"


def of_cycles(table, cycles):
    """Each walk has some weight, is closed, has strict steps alone, and goes through no observation twice."""
    strict = walks.strictly_preferred(table)
    for number, each in enumerate(cycles, 1):
        yield "the weight is 0", number, each["weight"] >= 1
        yield "this is no closed walk of strict steps through distinct observations", number, is_simple(table, each["cycle"], strict)


def weight_of_all(cycles):
    """The weights of all cycles."""
    return sum(each["weight"] for each in cycles)


def is_simple(table, walk, strict):
    """Whether the list is such a walk."""
    count = len(table.observations)
    if len(walk) > count + 1 or walks.no_closed_walk(count, walk):
        return False
    return len(set(walk[:-1])) == len(walk) - 1 and all(t in strict[s] for s, t in walks.steps_of(walk))


def of_loads(table, cycles, den, load, limit):
    """No strict step from an observation carries more than the denominator times its limit.

    `load` says what loads the step from s to t, of the steps from s with their weights; `limit` what that step may carry."""
    strict = walks.strictly_preferred(table)
    leaving = {s: [] for s in table.observations}
    for each in cycles:
        for s, u in walks.steps_of(each["cycle"]):
            leaving[s].append((u, each["weight"]))
    for s in table.observations:
        yield LOADED, s + 1, all(load(s, t, leaving[s]) <= den * limit(s, t) for t in strict[s])
