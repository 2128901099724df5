"""The most observations that are consistent with each other (Houtman and Maks 1985).

A set is consistent where no closed walk of weak steps within it has a strict one. Ranks that respect the steps between the kept
observations show that these are: no walk within the set rises, so none falls. No consistent set has more than one observation of
a group of which every two contradict each other, and none has a whole violation. Where the weights of the groups of each
observation are the denominator or more, a set of k observations takes k times the denominator of weight at least, and at most
what the groups allow: so k is at most that over the denominator, rounded down.
"""

from . import clauses as common
from . import walks


def clauses(table, item):
    """Yields the clauses of the item, in order."""
    yield "the denominator is 0", 0, item["den"] >= 1
    yield from of_set(table, item["kept"], item["ranks"])
    for number, group in enumerate(item["groups"], 1):
        yield "the weight is 0", number, group["weight"] >= 1
        yield "the group is not what it is said to be", number, is_group(table, group)
    for s in table.observations:
        weight = sum(group["weight"] for group in item["groups"] if s + 1 in members(group))
        yield "the groups of this observation weigh less than the denominator", s + 1, weight >= item["den"]
    allowed = sum(group["weight"] * allows(group) for group in item["groups"])
    yield "the groups allow another number", 0, allowed // item["den"] == item["most"]
    yield "more are kept than the groups allow", 0, len(item["kept"]) <= item["most"]


def of_set(table, kept, ranks):
    """Kept observations that rise, with a rank each that respects the steps between them."""
    weak, strict = walks.weakly_preferred(table), walks.strictly_preferred(table)
    yield "there is not one rank for each", 0, len(ranks) == len(kept)
    yield from common.of_observations(len(table.observations), kept)
    for place, (s, t) in enumerate(zip(kept, kept[1:]), 1):
        yield "the kept observations do not rise", place, s < t
    rank = {s - 1: own for s, own in zip(kept, ranks)}
    for place, s in enumerate(rank, 1):
        never_rises = all(rank[t] <= rank[s] for t in weak[s] if t in rank)
        falls = all(rank[t] < rank[s] for t in strict[s] if t in rank)
        yield "the ranks do not respect the preference", place, never_rises and falls


def members(group):
    """The observations of a group, as its list has them."""
    return group["cycle"] if "cycle" in group else group["pairs"]


def allows(group):
    """How many observations of a group a consistent set has at most. A cycle has its first observation again at its end."""
    return len(group["cycle"]) - 2 if "cycle" in group else 1


def is_group(table, group):
    """Whether a group is what it is said to be."""
    listed, count = members(group), len(table.observations)
    if not all(1 <= s <= count for s in listed):
        return False
    if "pairs" in group:
        return all(contradict(table, s - 1, t - 1) for place, s in enumerate(listed) for t in listed[:place])
    if len(listed) > count + 1 or len(set(listed[:-1])) != len(listed) - 1:
        return False
    return walks.no_violation(table, listed) is None


def contradict(table, s, t):
    """Whether a weak step leads one way and a strict one the other."""
    weak, strict = walks.weakly_preferred(table), walks.strictly_preferred(table)
    return (t in weak[s] and s in strict[t]) or (s in weak[t] and t in strict[s])
