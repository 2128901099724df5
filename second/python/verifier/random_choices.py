"""Random choices: can people with a preference each have made them? (McFadden and Richter 1990; Kitamura and Stoye 2018)

A patch is a budget with a sign to each budget: whether the choice, scaled to cost the whole income of its own, costs more
than the income there, just that, or less. A type has a patch of every budget. It is rational unless some closed walk over
the budgets is a violation: a choice is weakly preferred to each that its budget buys, and strictly where money is left. A
mixture gives types weights so that each patch gets its units. Where each rational type has patches that weigh DEN or more
together, types of weight W in all use units that weigh at least W; so no mixture has more than the units weigh.
"""

from math import lcm

from . import walks

WIDEST = 2**63 - 1


class Patches:
    """The patches of choices, by budget, and then by the first choice in them; with their units of a total."""

    def __init__(self, choices):
        self.budgets = range(len(choices.budgets))
        times = {}
        for j in self.budgets:
            for budget, bundle, count in choices.choices:
                if budget == j and count > 0:
                    patch = (j, signs(choices, j, bundle))
                    times[patch] = times.get(patch, 0) + count
        self.list = list(times)
        made = [sum(count for patch, count in times.items() if patch[0] == j) for j in self.budgets]
        self.total = lcm(*made) if choices.per is None else choices.per
        self.units = shared_out(list(times.values()), self.list, made, self.total)

    def on(self, budget):
        """The numbers of the patches of a budget, from 0."""
        return [number for number, (j, _) in enumerate(self.list) if j == budget]


def signs(choices, own, bundle):
    """On which side of each budget the choice from `own` lies when it is scaled to cost the whole income there."""

    def cost(budget):
        return sum(price * quantity for price, quantity in zip(choices.budgets[budget][0], bundle))

    found = []
    for other in range(len(choices.budgets)):
        there = choices.budgets[own][1] * cost(other)
        income = choices.budgets[other][1] * cost(own)
        found.append((there > income) - (there < income))
    return tuple(found)


def shared_out(times, patches, made, total):
    """Returns the units of each patch: the whole part of its share, and what is left by the largest rests."""
    units = [count * total // made[j] for count, (j, _) in zip(times, patches)]
    rests = [count * total % made[j] for count, (j, _) in zip(times, patches)]
    for j in range(len(made)):
        own = [number for number, (budget, _) in enumerate(patches) if budget == j]
        left = total - sum(units[number] for number in own)
        for number in sorted(own, key=lambda number: (-rests[number], number))[:left]:
            units[number] += 1
    return units


def is_rational(patches, chosen):
    """Whether the patches that are chosen, one of each of the first budgets, have no violation."""
    budgets = range(len(chosen))
    sign = [patches.list[number][1] for number in chosen]
    weak = [{k for k in budgets if sign[k][j] <= 0} for j in budgets]
    strict = [{k for k in budgets if sign[k][j] < 0} for j in budgets]
    return not walks.has_violation(weak, strict)


def go_together(patches, one, other):
    """Whether two patches of two budgets make no violation by themselves."""
    (j, own), (k, its) = patches.list[one], patches.list[other]
    return own[k] > 0 or its[j] > 0 or own[k] == its[j] == 0


def is_one_lighter(patches, weights, den):
    """Whether some rational type weighs less than this. A beginning is left where it has a violation, which all that follows has
    too, and where it weighs as much with the lightest patch of each budget that is to come, of those that go together with
    each that is taken."""
    every = range(len(patches.list))
    together = [{other for other in every if go_together(patches, number, other)} for number in every]

    def follows(begun, weight, left):
        if not left:
            return True
        for number in left[0]:
            longer, heavier = (*begun, number), weight + weights[number]
            rest = [[it for it in numbers if it in together[number]] for numbers in left[1:]]
            if not all(rest) or heavier + sum(min(weights[it] for it in numbers) for numbers in rest) >= den:
                continue
            if is_rational(patches, longer) and follows(longer, heavier, rest):
                return True
        return False

    return follows((), 0, [patches.on(budget) for budget in patches.budgets])


def look(patches, item):
    """Returns why the item does not prove its verdict on the patches, and None where it does."""
    if item["total"] != patches.total:
        return "the total is another"
    if "withheld" in item:
        return None
    if item["den"] < 1:
        return "the denominator is 0"
    for number, (chosen, _) in enumerate(item["parts"], 1):
        why = no_rational_type(patches, chosen)
        if why:
            return f"part {number}: {why}"
    used = [sum(weight for chosen, weight in item["parts"] if number + 1 in chosen) for number in range(len(patches.list))]
    if "weights" in item:
        return no_greatest_share(patches, item, used)
    for number, units in enumerate(patches.units):
        if used[number] != item["den"] * units:
            return f"patch {number + 1} does not get its units"
    return None


def no_rational_type(patches, chosen):
    """Returns why this list is no rational type."""
    if len(chosen) != len(patches.budgets) or not all(1 <= number <= len(patches.list) for number in chosen):
        return "it has not a patch of each budget"
    chosen = [number - 1 for number in chosen]
    if [patches.list[number][0] for number in chosen] != list(patches.budgets):
        return "it has not a patch of each budget"
    return None if is_rational(patches, chosen) else "it is not rational"


def no_greatest_share(patches, item, used):
    """Returns why these types and weights do not show that no mixture has the whole total, and which share is greatest."""
    den, weights = item["den"], item["weights"]
    if len(weights) != len(patches.list):
        return "there is not one weight for each patch"
    for number, units in enumerate(patches.units):
        if used[number] > den * units:
            return f"patch {number + 1} gets more than its units"
    if is_one_lighter(patches, weights, den):
        return "a rational type weighs less than the denominator"
    share = sum(weight for _, weight in item["parts"])
    if share != sum(weight * units for weight, units in zip(weights, patches.units)):
        return "the parts are not what the units weigh"
    return None if share < den * patches.total else "the parts are not below the total"


def remarks(item):
    """Returns what the program's checker refuses besides."""
    parts = item.get("parts", [])
    found = []
    if any(before >= after for (before, _), (after, _) in zip(parts, parts[1:])):
        found.append("the types do not rise")
    if any(weight == 0 for _, weight in parts):
        found.append("a part has the weight 0")
    numbers = [item.get("den", 1), *(weight for _, weight in parts), *item.get("weights", ())]
    if max(numbers) > WIDEST:
        found.append("a number is above 2^63 - 1")
    return found
