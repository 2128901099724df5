"""Goodness of fit of small tables, exactly and slowly, written apart from the program: what tools/measure/fit compares others with.

A table is its costs as whole numbers: `costs[s][t]` is what the bundle of observation t costs at the prices of s. Up to about 12
observations are looked at: the largest consistent sets by branching, the others by a dynamic program over who stands below whom.
"""
from fractions import Fraction


def weak_steps(costs):
    """Returns the observations to which each has a weak step, as masks."""
    return [sum(1 << t for t, cost in enumerate(row) if cost <= row[s]) for s, row in enumerate(costs)]


def strict_steps(costs):
    """Returns those to which each has a strict step."""
    return [sum(1 << t for t, cost in enumerate(row) if cost < row[s]) for s, row in enumerate(costs)]


def places(mask):
    """Returns the observations of a mask."""
    return [s for s in range(mask.bit_length()) if mask >> s & 1]


def shortest_violation(weak, strict, within):
    """Returns the observations of a shortest closed walk of weak steps within a mask that has a strict one, or None."""
    best = None
    for s in places(within):
        for t in places(strict[s] & within):
            walk = path(weak, t, s, within)
            if walk and (best is None or len(walk) < len(best)):
                best = walk
    return best


def path(weak, start, end, within):
    """Returns a shortest walk of weak steps within a mask, by breadth."""
    before, waiting, seen = {start: None}, [start], 1 << start
    for s in waiting:
        if s == end:
            found = [s]
            while before[found[-1]] is not None:
                found.append(before[found[-1]])
            return found
        for t in places(weak[s] & within & ~seen):
            seen |= 1 << t
            before[t] = s
            waiting.append(t)
    return None


def most_kept(costs):
    """Returns the index of Houtman and Maks (1985): each violation that is left loses one of its observations, each in turn."""
    weak, strict = weak_steps(costs), strict_steps(costs)
    waiting, seen, best = [(1 << len(costs)) - 1], set(), 0
    while waiting:
        within = waiting.pop()
        if within in seen or bin(within).count("1") <= best:
            continue
        seen.add(within)
        apart, rest, lost = within, 0, shortest_violation(weak, strict, within)
        if lost is None:
            best = bin(within).count("1")
            continue
        found = lost
        while found:  # disjoint violations lose one observation each
            rest += 1
            apart &= ~sum(1 << s for s in found)
            found = shortest_violation(weak, strict, apart)
        if bin(within).count("1") - rest > best:
            waiting += [within & ~(1 << s) for s in lost]
    return best


def is_consistent(costs, kept):
    """Whether no closed walk of weak steps within these observations has a strict one."""
    return shortest_violation(weak_steps(costs), strict_steps(costs), sum(1 << s for s in kept)) is None


def least_over_orders(count, need):
    """Returns the least sum, over all orders of the observations, of what each needs with those that stand below it."""
    best = [None] * (1 << count)
    best[0] = Fraction(0)
    for below in range(1 << count):
        for s in range(count):
            if not below >> s & 1:
                both, total = below | 1 << s, best[below] + need(s, below)
                if best[both] is None or total < best[both]:
                    best[both] = total
    return best[-1]


def lacks(costs, s, power):
    """Returns what levels of s may lack, from most on, each with the observation to which the step then has to be no more."""
    row = costs[s]
    found = [(Fraction(row[s] - cost, row[s]) ** power, t) for t, cost in enumerate(row) if cost < row[s]]
    return sorted(found, reverse=True)


def least_lack(costs, power=1):
    """Returns the infimum of the mean of what levels at which GARP holds lack of 1, or of its squares (Varian 1990)."""
    by = [lacks(costs, s, power) for s in range(len(costs))]
    need = lambda s, below: next((lack for lack, t in by[s] if not below >> t & 1), Fraction(0))
    return least_over_orders(len(costs), need) / len(costs)


def least_steps(costs):
    """Returns the minimum cost index (Dean and Martin 2016)."""
    saved = [[(row[s] - cost, t) for t, cost in enumerate(row) if cost < row[s]] for s, row in enumerate(costs)]
    need = lambda s, below: sum(cost for cost, t in saved[s] if not below >> t & 1)
    return least_over_orders(len(costs), need) / sum(row[s] for s, row in enumerate(costs))


def lack_of_order(costs, stands):
    """Returns the mean that levels lack where each has to be at most that of each step to one that does not stand below it."""
    all_of = range(len(costs))
    needs = [max((lack for lack, t in lacks(costs, s, 1) if not stands[t] < stands[s]), default=Fraction(0)) for s in all_of]
    return Fraction(sum(needs), len(costs))


def steps_of_order(costs, stands):
    """Returns the part of what was spent that strict steps cost to one that does not stand below."""
    rows = list(enumerate(costs))
    cost = sum(row[s] - row[t] for s, row in rows for t, _ in rows if row[t] < row[s] and not stands[t] < stands[s])
    return Fraction(cost, sum(row[s] for s, row in rows))
