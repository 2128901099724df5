"""Welfare bounds (after Varian 1982): what it costs at new prices to be as well off as at an observation T.

The lower bound is the least cost of a bundle that costs at least what was spent at T and at each observation that T
reaches. The upper bound is the least cost of an observed bundle that is that of T or reaches T.
"""

from . import pairs, walks
from .demand import prices_remarks


def look(table, item, axiom_is_shown):
    """Returns why the item does not prove its verdict on the table, and None where it does."""
    prices, count = item["prices"], len(table.observations)
    if len(prices) != len(table.goods) or not all(prices):
        return "there is not one price for each good, or one is 0"
    if not 1 <= item["observation"] <= count:
        return "there is no such observation"
    if "cycle" in item:
        return walks.no_violation(table, item["cycle"])
    if not 1 <= item["at"] <= count:
        return "the upper bound stands at no observation"
    if not axiom_is_shown:
        return "no item before it shows the axiom by ranks"
    return no_upper_bound(table, item) or no_lower_bound(table, item)


def no_upper_bound(table, item):
    """Returns why this is not the least cost of a bundle that is that of T or reaches it."""
    weak, own = walks.weakly_preferred(table), item["observation"] - 1
    as_good = [s for s in table.observations if s == own or own in walks.reached(weak, s)]
    if item["at"] - 1 not in as_good:
        return "where the upper bound stands does not reach the observation"
    costs = {s: table.spending(item["prices"], table.quantities[s]) for s in as_good}
    if costs[item["at"] - 1] != item["upper"]:
        return "the upper bound is not what its bundle costs"
    if min(costs.values()) < item["upper"]:
        return "another bundle that reaches the observation costs less than the upper bound"
    return None


def no_lower_bound(table, item):
    """Returns why the lower bound is not shown by its pair; one that is withheld claims nothing."""
    bound, own = item["lower"], item["observation"] - 1
    if "withheld" in bound:
        return None
    region = sorted({own} | walks.reached(walks.weakly_preferred(table), own))
    program = pairs.Program([table.prices[t] for t in region], [table.cost(t, t) for t in region], item["prices"])
    why = pairs.no_equal_pair(program, bound)
    if why is None and table.spending(item["prices"], pairs.prices_of(bound)) != bound["value"]:
        why = "its pair has another value"
    return f"the lower bound: {why}" if why else None


def remarks(item):
    """Returns what the program's checker refuses besides."""
    return prices_remarks(item) + pairs.remarks(item.get("lower", {}))
