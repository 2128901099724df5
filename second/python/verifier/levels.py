"""Levels of the observations' own at which GARP holds (Varian 1990; Halevy, Persitz and Zrill 2018).

At levels e, above 0 and at most 1, s weakly prefers t where c(s,t) is at most e times c(s,s). The index is the infimum, over such
levels at which GARP holds, of the mean of what the levels lack of 1, or of the mean of the squares of that. Evidence are a level
for each observation, 1 or c(s,t)/c(s,s) of a cheaper bundle, and ranks that fall along each step below it: just below these levels
GARP holds, so the index is at most what they lack. Weighted walks (`weighted`) show what it is at least, in parts of 2^40.
"""

from fractions import Fraction

from . import weighted

UNIT = 2**40
POWERS = {"mean": 1, "squares": 2}


def clauses(table, item):
    """Yields the clauses of the item, in order."""
    at, ranks, count = item["at"], item["ranks"], len(table.observations)
    yield "the denominator is 0", 0, item["den"] >= 1
    yield "there is not one level for each", 1, len(at) == count
    yield "there is not one rank for each observation", 2, len(ranks) == count
    for s in table.observations:
        yield "the level is neither 1 nor that of a cheaper bundle", s + 1, is_level(table, s, at[s])
    for s in table.observations:
        below = [t for t in table.observations if table.cost(s, t) < table.cost(s, bundle_of(s, at[s]))]
        yield "the ranks do not respect the preference", s + 1, all(ranks[t] < ranks[s] for t in below)
    yield from weighted.of_cycles(table, item["cycles"])
    power = POWERS[item["measure"]]
    as_dear = lambda s, t, leaving: sum(weight for u, weight in leaving if table.cost(s, u) >= table.cost(s, t))
    yield from weighted.of_loads(table, item["cycles"], item["den"], as_dear, lambda s, t: lack_floor(table, power, s, t))


def is_level(table, s, at):
    """Whether this is 0, for the level 1, or an observation whose bundle is cheaper at s."""
    return at == 0 or (at <= len(table.observations) and table.cost(s, at - 1) < table.cost(s, s))


def bundle_of(s, at):
    """The observation, from 0, whose bundle costs at s the part of what was spent that is the level."""
    return at - 1 if at else s


def lack(table, power, s, t):
    """What the level c(s,t)/c(s,s) lacks of 1, to a power."""
    return Fraction(table.cost(s, s) - table.cost(s, t), table.cost(s, s)) ** power


def lack_floor(table, power, s, t):
    """The same in parts of 2^40, rounded down."""
    return UNIT * (table.cost(s, s) - table.cost(s, t)) ** power // table.cost(s, s) ** power


def bounds(table, item):
    """Returns the two bounds on the index that accepted evidence proves."""
    power, count = POWERS[item["measure"]], len(table.observations)
    upper = sum(lack(table, power, s, bundle_of(s, at)) for s, at in enumerate(item["at"]))
    return Fraction(weighted.weight_of_all(item["cycles"]), item["den"] * UNIT * count), upper / count


def is_exact(table, item):
    """Whether the bounds meet, but for what the levels lost where they were rounded down."""
    power = POWERS[item["measure"]]
    rounded = sum(lack_floor(table, power, s, bundle_of(s, at)) for s, at in enumerate(item["at"]))
    return weighted.weight_of_all(item["cycles"]) > item["den"] * (rounded - 1)
