"""Demand at new prices (Varian 1982): a bundle on the new budget is a supporting demand where the table with it, as one
observation more, still meets the axiom. Its bounds are the infimum and the supremum of each good over all of these.

A supporting demand x has P·x = M. The new budget is preferred to what it buys, and from there weak steps lead on: these
are the observations below. Each of them may not prefer x strictly, so x costs there at least what was spent; where the
preference is strict on the way, more. The closure of this set, which is convex, is all x ≥ 0 on the budget that cost at
least so much at each observation below; the inner demand shows that the set is not empty. So the bounds are the values of
two linear programs, and an equal pair shows each.
"""

from fractions import Fraction

from . import pairs, walks
from .tables import LARGEST, LARGEST_INCOME, Table


def look(table, item, axiom_is_shown):
    """Returns why the item does not prove its verdict on the table, and None where it does.

    A demand counts on the axiom only where an item before it shows it by ranks.
    """
    prices, expenditure = item["prices"], item["expenditure"]
    if len(prices) != len(table.goods) or not all(prices):
        return "there is not one price for each good, or one is 0"
    if expenditure < 1:
        return "the expenditure is 0"
    if "cycle" in item:
        return walks.no_violation(table, item["cycle"])
    if not axiom_is_shown:
        return "no item before it shows the axiom by ranks"
    below, strict = observations_below(table, prices, expenditure)
    if len(set(item["below"])) != len(item["below"]) or {t - 1 for t in item["below"]} != below:
        return "the observations below are others"
    if len(set(item["strict"])) != len(item["strict"]) or {t - 1 for t in item["strict"]} != strict:
        return "the observations strictly below are others"
    why = no_supporting_demand(table, prices, expenditure, item["inner"])
    if why:
        return f"the inner demand: {why}"
    return no_bounds(table, prices, expenditure, item)


def observations_below(table, prices, expenditure):
    """Returns what the new budget is preferred to, directly or not, and what it is strictly."""
    weak, strict = walks.weakly_preferred(table), walks.strictly_preferred(table)
    spent = [table.spending(prices, bundle) for bundle in table.quantities]
    below = closed(weak, {t for t in table.observations if spent[t] <= expenditure})
    strictly = {t for t in table.observations if spent[t] < expenditure}
    strictly |= {t for s in below for t in strict[s]}
    return below, closed(weak, strictly)


def closed(steps, start):
    """Returns these observations and what steps lead to from them."""
    return start.union(*(walks.reached(steps, t) for t in start))


def no_supporting_demand(table, prices, expenditure, point):
    """Returns why the point is no supporting demand: one bundle more, with which the axiom is decided anew."""
    if point["den"] < 1 or len(point["num"]) != len(table.goods):
        return "there is not one number for each good, or the denominator is 0"
    bundle = [Fraction(number, point["den"]) for number in point["num"]]
    if table.spending(prices, bundle) != expenditure:
        return "it does not cost just the expenditure"
    more = Table(table.goods, [*table.prices, prices], [*table.quantities, bundle])
    return None if walks.meets_axiom(more) else "with it the axiom fails"


def no_bounds(table, prices, expenditure, item):
    """Returns what is wrong with the bounds of a good."""
    if len(item["goods"]) != len(table.goods):
        return "there are not bounds for each good"
    for good, bounds in enumerate(item["goods"]):
        others = [0 if g == good else price for g, price in enumerate(prices)]
        alone = [1 if g == good else 0 for g in range(len(prices))]
        for name, right in (("lower", alone), ("upper", others)):
            bound = bounds[name]
            if "withheld" not in bound:
                why = pairs.no_equal_pair(program(table, prices, expenditure, item["below"], right), bound)
                if why is None and pairs.prices_of(bound)[good] != bound["value"]:
                    why = "its pair has another value"
                if why:
                    return f"the {name} bound of good {good + 1}: {why}"
    return None


def program(table, prices, expenditure, below, right):
    """The program of a bound: a column for each observation below, by number, and the new budget from both sides."""
    below = [t - 1 for t in sorted(below)]
    columns = [*(table.prices[t] for t in below), prices, [-price for price in prices]]
    worth = [*(table.cost(t, t) for t in below), expenditure, -expenditure]
    return pairs.Program(columns, worth, right)


def remarks(item):
    """Returns what the program's checker refuses besides."""
    found = prices_remarks(item)
    if item["expenditure"] > LARGEST_INCOME:
        found.append("the expenditure is above its limit")
    for name in ("below", "strict"):
        if item.get(name, []) != sorted(item.get(name, [])):
            found.append(f"the list `{name}` does not rise")
    for bounds in item.get("goods", ()):
        found += pairs.remarks(bounds["lower"]) + pairs.remarks(bounds["upper"])
    return found


def prices_remarks(item):
    """Returns whether a price is above its limit."""
    return ["a price is above its limit"] if any(price > LARGEST for price in item["prices"]) else []
