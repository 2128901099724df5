"""The textbook's tests in exact arithmetic, written apart from the program: what the measuring scripts compare it with.

A table is here its costs as whole numbers: `costs[s][t]` is what the bundle of observation t costs at the prices of s.
"""
from fractions import Fraction
from math import lcm


def whole(numbers):
    """Returns records of numbers (texts, floats, fractions), all times one number that makes them whole."""
    exact = [[Fraction(it) for it in record] for record in numbers]
    unit = lcm(*(it.denominator for record in exact for it in record))
    return [[int(it * unit) for it in record] for record in exact]


def costs_of(prices, quantities):
    """Returns the costs of a table, from any numbers, without rounding."""
    prices, quantities = whole(prices), whole(quantities)
    return [[sum(map(int.__mul__, p, q)) for q in quantities] for p in prices]


def mask(places):
    return sum(1 << it for it in places)


def reached(weak):
    """Returns what each observation reaches in one step or more, as masks (Warshall 1962)."""
    reach = [*weak]
    for middle, bit in enumerate(1 << it for it in range(len(weak))):
        through = reach[middle]
        for s, from_s in enumerate(reach):
            if from_s & bit:
                reach[s] = from_s | through
    return reach


def meets_axiom(costs, level=Fraction(1)):
    """Whether the generalized axiom holds at a level (Varian 1982): no walk of weak steps is closed by a strict one."""
    n, num, den = len(costs), level.numerator, level.denominator
    weak = [mask(t for t in range(n) if den * costs[s][t] <= num * costs[s][s]) for s in range(n)]
    strictly_to = [mask(t for t in range(n) if den * costs[t][s] < num * costs[t][t]) for s in range(n)]
    return not any(map(int.__and__, reached(weak), strictly_to))


def has_cycle(steps):
    """Whether steps, as masks, close a walk: what no step leads on from is taken away until nothing changes."""
    left = (1 << len(steps)) - 1
    while True:
        kept = mask(s for s in range(len(steps)) if left >> s & 1 and steps[s] & left)
        if kept == left:
            return left != 0
        left = kept


def efficiency(costs):
    """Returns the critical cost efficiency index (Afriat 1973), and whether the axiom holds at it too.

    It is the least level at which the steps of a ratio up to it close a walk, and 1 where no ratios below 1 do.
    """
    if meets_axiom(costs):
        return Fraction(1), True
    n = len(costs)
    shift = 2 * max(costs[s][s] for s in range(n)).bit_length() + 2
    pairs = [(s, t) for s in range(n) for t in range(n) if costs[s][t] < costs[s][s]]
    steps = sorted(((costs[s][t] << shift) // costs[s][s], s, t) for s, t in pairs)
    levels = sorted({key for key, _, _ in steps})
    low, high = 0, len(levels)
    while low < high:
        middle = (low + high) // 2
        below = [0] * n
        for key, s, t in steps:
            if key <= levels[middle]:
                below[s] |= 1 << t
        low, high = (low, middle) if has_cycle(below) else (middle + 1, high)
    index = Fraction(1)
    if low < len(levels):
        _, s, t = next(it for it in steps if it[0] == levels[low])
        index = Fraction(costs[s][t], costs[s][s])
    return index, meets_axiom(costs, index)


def least_totals(steps, combine):
    """Returns the least totals of walks between observations, of one step or more (Floyd 1962), by `combine`."""
    totals, n = [[*it] for it in steps], len(steps)
    for middle in range(n):
        for s in range(n):
            for t in range(n):
                totals[s][t] = min(totals[s][t], combine(totals[s][middle], totals[middle][t]))
    return totals


def meets_homothetic(costs):
    """Whether no closed walk multiplies the ratios c(t,s) / c(t,t) to less than 1 (Varian 1983)."""
    steps = [[Fraction(it, record[s]) for it in record] for s, record in enumerate(costs)]
    return all(record[s] >= 1 for s, record in enumerate(least_totals(steps, Fraction.__mul__)))


def meets_quasilinear(costs):
    """Whether no closed walk adds the differences c(t,s) - c(t,t) to less than 0 (Brown and Calsamiglia 2007)."""
    steps = [[it - record[s] for it in record] for s, record in enumerate(costs)]
    return all(record[s] >= 0 for s, record in enumerate(least_totals(steps, int.__add__)))


def greatest(rows, limits, gains):
    """Returns the greatest gains·y over rows y <= limits, y >= 0, where no limit is negative (simplex, Bland 1977)."""
    m, n = len(rows), len(gains)
    slacks = [[Fraction(i == j) for j in range(m)] for i in range(m)]
    table = [[*map(Fraction, row), *slack, Fraction(limit)] for row, slack, limit in zip(rows, slacks, limits)]
    top, basis = [*(-Fraction(it) for it in gains), *[Fraction(0)] * (m + 1)], [*range(n, n + m)]
    while any(it < 0 for it in top[:-1]):
        enters = next(j for j, it in enumerate(top) if it < 0)
        ratios = [(row[-1] / row[enters], basis[i], i) for i, row in enumerate(table) if row[enters] > 0]
        leaves = min(ratios)[2]
        pivot = table[leaves] = [it / table[leaves][enters] for it in table[leaves]]
        basis[leaves] = enters
        for i, row in enumerate(table):
            if i != leaves:
                table[i] = [a - row[enters] * b for a, b in zip(row, pivot)]
        top = [a - top[enters] * b for a, b in zip(top, pivot)]
    return top[-1]


def weak_reach(costs):
    """Returns what each observation is revealed preferred to, directly or not, as masks."""
    n = len(costs)
    return reached([mask(t for t in range(n) if costs[s][t] <= costs[s][s]) for s in range(n)])


def demand_bounds(prices, quantities, new, spent):
    """Returns of each good the infimum and the supremum over the demands with which the axiom still holds.

    They cost what is spent and, at the prices of each observation that the new budget is preferred to, no less than
    what was spent there (Varian 1982).
    """
    costs, goods = costs_of(prices, quantities), range(len(new))
    reach, below = weak_reach(costs), 0
    for s, bundle in enumerate(quantities):
        if sum(map(int.__mul__, new, bundle)) <= spent:
            below |= 1 << s | reach[s]
    kept = [s for s in range(len(costs)) if below >> s & 1]
    columns = [*(prices[s] for s in kept), new, [-it for it in new]]
    gains = [*(costs[s][s] for s in kept), spent, -spent]
    rows = [[column[good] for column in columns] for good in goods]
    least = lambda weights: greatest(rows, weights, gains)
    bounds = []
    for good in goods:
        # The most of a good is what the least cost of the others leaves.
        others = [0 if it == good else new[it] for it in goods]
        bounds.append((least([int(it == good) for it in goods]), (spent - least(others)) / new[good]))
    return bounds


def welfare_bounds(prices, quantities, new):
    """Returns of each observation the least cost at new prices of its region, and of the bundles that reach or are it."""
    costs, goods = costs_of(prices, quantities), range(len(new))
    reach, bounds = weak_reach(costs), []
    for t in range(len(costs)):
        kept = [s for s in range(len(costs)) if s == t or reach[t] >> s & 1]
        rows = [[prices[s][good] for s in kept] for good in goods]
        above = [s for s in range(len(costs)) if s == t or reach[s] >> t & 1]
        bought = min(sum(map(int.__mul__, new, quantities[s])) for s in above)
        bounds.append((greatest(rows, new, [costs[s][s] for s in kept]), bought))
    return bounds
