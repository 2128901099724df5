"""The critical cost efficiency index (Afriat 1973).

It is the level above 0 and at most 1 such that the axiom holds at all lower levels, and a violation exists at all higher
ones, up to 1. It is attained where the axiom holds at it. Steps change only at the ratios c(s,t)/c(s,s), and a violation
at a level lasts at every higher one: so one level between the index and the next ratio on each side tells of all there.
"""

from fractions import Fraction

from . import clauses as common
from . import walks

WIDEST_DENOMINATOR = 2**51


def look(table, item):
    """Returns why the item does not prove its verdict on the table, and None where it does."""
    level = item["level"]
    if not 0 < level <= 1:
        return "the level is not above 0 and at most 1"
    return no_index(table, level) or no_evidence(table, item, level)


def no_index(table, level):
    """Returns why a level is not the index, by its definition."""
    ratios = {Fraction(table.cost(s, t), table.cost(s, s)) for s in table.observations for t in table.observations}
    under = max((ratio for ratio in ratios if ratio < level), default=Fraction(0))
    if not walks.meets_axiom(table, (under + level) / 2):
        return "the axiom fails at a lower level"
    if level < 1:
        over = min((ratio for ratio in ratios if level < ratio <= 1), default=Fraction(1))
        if walks.meets_axiom(table, (level + over) / 2):
            return "the axiom holds at a higher level"
    return None


def no_evidence(table, item, level):
    """Returns what is wrong with the evidence: below the level, above it, and at it."""
    why = walks.ranks_that_do_not_fall(table, item["below"], walks.strictly_preferred(table, level))
    if why:
        return f"below: {why}"
    why = no_walk_above(table, item["above"], level)
    if why:
        return f"above: {why}"
    if "at_ranks" in item:
        why = walks.no_ranks(table, item["at_ranks"], level)
    else:
        why = walks.no_violation(table, item["at_cycle"], level)
    return f"at the level: {why}" if why else None


def no_walk_above(table, walk, level):
    """Returns why this is no closed walk of steps that are weak at the level; at 1 there is none."""
    if level == 1:
        return "at the level 1 there is nothing above" if walk else None
    why = walks.no_closed_walk(len(table.observations), walk)
    if why:
        return why
    weak = walks.weakly_preferred(table, level)
    for s, t in walks.steps_of(walk):
        if t not in weak[s]:
            return f"the step from {s + 1} to {t + 1} is not weak"
    return None


def clauses(table, item):
    """Yields the clauses of the item in a certificate on goodness of fit, in order."""
    level, count = item["level"], len(table.observations)
    fits = 0 < level <= 1 and level.denominator < WIDEST_DENOMINATOR
    yield "the level is not above 0 and at most 1, or its denominator is too large", 0, fits
    weak, strict = walks.weakly_preferred(table, level), walks.strictly_preferred(table, level)
    yield from common.of_falling_ranks(count, item["below"], strict)
    if level == 1:
        yield "at the level 1 there is nothing above", 1, not item["above"]
    else:
        yield from common.of_closed_walk(count, item["above"])
        yield from common.of_weak_steps(item["above"], weak)
    if "at_ranks" in item:
        yield from common.of_ranks(count, item["at_ranks"], weak, strict)
    else:
        yield from common.of_violation(table, item["at_cycle"], level)
