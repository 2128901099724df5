"""Steps between observations, walks, and violations (docs/dev/DEFINITIONS.md; Varian 1982).

A relation is a list of sets: the set at s has every t to which there is a step from s. All numbers are from 0 here.
A level e is one for all observations; without one (None), each has its own where the table has levels, and else 1.
"""


def weakly_preferred(table, level=None):
    """The bundle of s is weakly preferred to that of t at a level e: c(s,t) is at most e times c(s,s)."""
    return _relation(table, "weak", level, lambda gap: gap <= 0)


def strictly_preferred(table, level=None):
    """The same with `below` for `at most`."""
    return _relation(table, "strict", level, lambda gap: gap < 0)


def _relation(table, name, level, holds):
    if (name, level) not in table.known:
        everyone = table.observations
        gap = table.gap if level is None else lambda s, t: table.cost(s, t) - level * table.cost(s, s)
        table.known[name, level] = [{t for t in everyone if holds(gap(s, t))} for s in everyone]
    return table.known[name, level]


def reached(steps, start):
    """Returns what a walk of one step or more leads to from an observation."""
    found, waiting = set(), list(steps[start])
    while waiting:
        t = waiting.pop()
        if t not in found:
            found.add(t)
            waiting.extend(steps[t] - found)
    return found


def has_violation(weak, strict):
    """Whether some closed walk of weak steps has a strict one: a strict step from s to t, and a walk from t to s."""
    back = [reached(weak, t) | {t} for t in range(len(weak))]
    return any(s in back[t] for s in range(len(weak)) for t in strict[s])


def meets_axiom(table, level=None):
    """Whether no list of observations is a violation at this level."""
    return not has_violation(weakly_preferred(table, level), strictly_preferred(table, level))


# ---- walks and ranks that a certificate lists; observations count from 1 there


def no_closed_walk(count, walk):
    """Returns why this list is no closed walk over so many observations, and None where it is one."""
    if len(walk) < 2:
        return "a closed walk has a step"
    if not all(1 <= s <= count for s in walk):
        return "an entry of the walk is no observation"
    if walk[0] != walk[-1]:
        return "the walk does not end where it begins"
    return None


def steps_of(walk):
    """Returns the steps of a walk, from 0."""
    return [(s - 1, t - 1) for s, t in zip(walk, walk[1:])]


def no_violation(table, walk, level=None):
    """Returns why this list is no violation at a level, and None where it is one."""
    why = no_closed_walk(len(table.observations), walk)
    if why:
        return why
    weak, strict = weakly_preferred(table, level), strictly_preferred(table, level)
    for number, (s, t) in enumerate(steps_of(walk), 1):
        if t not in weak[s]:
            return f"step {number} of the walk, from {s + 1} to {t + 1}, is not weak"
    if not any(t in strict[s] for s, t in steps_of(walk)):
        return "no step of the walk is strict"
    return None


def no_ranks(table, ranks, level=None):
    """Returns why these ranks do not respect the preference at a level: no weak step rises, each strict one falls."""
    return ranks_that_rise(table, ranks, weakly_preferred(table, level)) or ranks_that_do_not_fall(table, ranks, strictly_preferred(table, level))


def ranks_that_rise(table, ranks, weak):
    """Returns which step of a relation rises in rank."""
    if len(ranks) != len(table.observations):
        return "there is not one rank for each observation"
    for s in table.observations:
        for t in weak[s]:
            if ranks[s] < ranks[t]:
                return f"{s + 1} is weakly preferred to {t + 1}, and ranks below it"
    return None


def ranks_that_do_not_fall(table, ranks, strict):
    """Returns which step of a relation does not fall in rank."""
    if len(ranks) != len(table.observations):
        return "there is not one rank for each observation"
    for s in table.observations:
        for t in strict[s]:
            if ranks[s] <= ranks[t]:
                return f"{s + 1} is strictly preferred to {t + 1}, and does not rank above it"
    return None
