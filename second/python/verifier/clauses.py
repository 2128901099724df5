"""Clauses in order, of which the first that fails gives the reason and the place of a rejection (docs/reference/certificate.md).

A check of an item yields its clauses one by one: what is wrong where the clause fails, the place, and whether it holds. A clause
is only worked out where those before it hold, so it may rely on them. Observations count from 1, as certificates count them.
"""

from . import walks

# What is wrong where a clause fails, and the reason under which the program's checker names it.
REASONS = {
    # of numbers
    "another number of pairs violates the axiom": "Number",
    "another number of observations is in a pair that violates the axiom": "Number",
    "the denominator is 0": "Number",
    "a part of the ratio is above 2^60": "Wide",
    "the upper bound is above 1": "Number",
    "a value is past its width": "Number",
    "the weight is 0": "Number",
    # of lists, and of what they are of
    "there is not one rank for each": "Shape",
    "there is not one level for each": "Shape",
    "there is not one rank for each observation": "Shape",
    "there is not one list of steps for each observation": "Shape",
    "there is not one value for each observation": "Shape",
    "the walk has more steps than there are observations": "Shape",
    "at the level 1 there is nothing above": "Shape",
    "an entry is no observation": "Number",
    "the kept observations do not rise": "Set",
    "the group is not what it is said to be": "Set",
    "the steps are not strict ones in rising order": "Set",
    "this is no closed walk of strict steps through distinct observations": "Set",
    # of walks
    "a closed walk has a step": "Shape",
    "the walk does not end where it begins": "NotClosed",
    "the step is not weak": "NotWeak",
    "no step is strict": "NoStrict",
    # of ranks, values and bounds
    "the ranks do not respect the preference": "Order",
    "a value is above what this one allows it": "Order",
    "the level is not above 0 and at most 1, or its denominator is too large": "Level",
    "the level is neither 1 nor that of a cheaper bundle": "Level",
    "the walk has another ratio": "Bound",
    "the mean of the walk is above the upper bound": "Bound",
    "the steps cost another sum": "Bound",
    "the groups allow another number": "Bound",
    "more are kept than the groups allow": "Least",
    "the groups of this observation weigh less than the denominator": "Dual",
    "the walks load a step or a level of this observation more than they may": "Dual",
}


class Failure:
    """The first clause of an item that fails: its reason, its place, and what is wrong, in words."""

    def __init__(self, what, place):
        self.reason = REASONS[what]
        self.place = place
        self.what = what

    def __repr__(self):
        return f"{self.reason} place {self.place}: {self.what}"


def first_failure(clauses):
    """Returns the first clause that fails, or None."""
    return next((Failure(what, place) for what, place, holds in clauses if not holds), None)


# ---- clauses that several kinds of items have


def of_closed_walk(count, walk):
    """A closed walk over so many observations."""
    yield "a closed walk has a step", 0, len(walk) >= 2
    yield from of_observations(count, walk)
    yield "the walk does not end where it begins", 0, walk[0] == walk[-1]


def of_observations(count, entries):
    """Entries that are observations."""
    for place, entry in enumerate(entries, 1):
        yield "an entry is no observation", place, 1 <= entry <= count


def of_weak_steps(walk, weak):
    """Each step of the walk is weak."""
    for number, (s, t) in enumerate(walks.steps_of(walk), 1):
        yield "the step is not weak", number, t in weak[s]


def of_violation(table, walk, level):
    """A closed walk of weak steps at a level, one of them strict."""
    strict = walks.strictly_preferred(table, level)
    yield from of_closed_walk(len(table.observations), walk)
    yield from of_weak_steps(walk, walks.weakly_preferred(table, level))
    yield "no step is strict", 0, any(t in strict[s] for s, t in walks.steps_of(walk))


def of_falling_ranks(count, ranks, strict):
    """A rank for each observation, which falls along each strict step."""
    yield "there is not one rank for each observation", 0, len(ranks) == count
    for s in range(count):
        yield "the ranks do not respect the preference", s + 1, all(ranks[t] < ranks[s] for t in strict[s])


def of_ranks(count, ranks, weak, strict):
    """A rank for each observation, which rises along no weak step and falls along each strict one."""
    yield "there is not one rank for each observation", 0, len(ranks) == count
    for s in range(count):
        respects = all(ranks[t] <= ranks[s] for t in weak[s]) and all(ranks[t] < ranks[s] for t in strict[s])
        yield "the ranks do not respect the preference", s + 1, respects


def of_values(count, values, fits, allows):
    """A value for each observation, each within its width, and each allows what the steps from it end at."""
    yield "there is not one value for each observation", 2, len(values) == count
    for s in range(count):
        yield "a value is past its width", s + 1, fits(values[s])
    for s in range(count):
        yield "a value is above what this one allows it", s + 1, all(allows(s, t) for t in range(count))
