"""Choices from menus: can people who each have a strict order have made them? (Block and Marschak 1960; Falmagne 1978)

A person takes from each menu the letter that comes first in the own order. A mixture gives orders weights so that each letter
of each menu gets just its units, also the letter that nobody chose there: 0. So an order that picks such a letter has no
weight, and the others pick a cell from every menu. Where each of these picks cells that weigh DEN or more together, orders of
weight W in all use units that weigh at least W; so no mixture has more than the units weigh.

Where something was chosen from every menu of two or more letters, the sum of a letter at a menu adds the units of the letter on
the menus that hold that menu, with a minus where these have an odd number of letters more; a mixture keeps every sum at 0 or
more. On a menu of one letter its units are the total.
"""

from __future__ import annotations

from itertools import combinations, permutations

from .random_choices import shared_out

WIDEST = 2**63 - 1


def units_of(menus):
    """Returns the units of each cell."""
    return shared_out(menus.counts, menus.cells, menus.made, menus.total)


def picks(menus, order):
    """Returns the letter that an order picks from each menu."""
    return [min(menu, key=order.index) for menu in menus.menus]


def cells_picked(menus, order):
    """Returns the numbers of the cells that an order picks, menu by menu; None stands for a letter that nobody chose."""
    number = {cell: at for at, cell in enumerate(menus.cells)}
    return [number.get((own, letter)) for own, letter in enumerate(picks(menus, order))]


def orders_of(menus):
    """Yields each strict order that picks a cell from every menu, in lexicographic order."""
    for order in permutations(menus.letters):
        if None not in cells_picked(menus, order):
            yield order


def look(menus, item):
    """Returns why the evidence does not prove its verdict on the menus, and None where it does."""
    if "withheld" in item:
        return None
    if item["den"] < 1:
        return "the denominator is 0"
    used = [0] * len(menus.cells)
    for number, (order, weight) in enumerate(item["parts"], 1):
        if sorted(order) != list(menus.letters):
            return f"part {number} is no order of the letters"
        cells = cells_picked(menus, order)
        if None in cells and weight > 0:
            return f"part {number} picks a letter that nobody chose"
        for cell in cells:
            if cell is not None:
                used[cell] += weight
    units = units_of(menus)
    if "weights" in item:
        return no_greatest_share(menus, item, units, used)
    for cell, own in enumerate(units):
        if used[cell] != item["den"] * own:
            return f"cell {cell + 1} does not get its units"
    return None


def no_greatest_share(menus, item, units, used):
    """Returns why these orders and weights do not show that no mixture has the whole total, and which share is greatest."""
    den, weights = item["den"], item["weights"]
    if len(weights) != len(units):
        return "there is not one weight for each cell"
    for cell, own in enumerate(units):
        if used[cell] > den * own:
            return f"cell {cell + 1} gets more than its units"
    if any(sum(weights[cell] for cell in cells_picked(menus, order)) < den for order in orders_of(menus)):
        return "an order picks cells that weigh less than the denominator"
    share = sum(weight for _, weight in item["parts"])
    if share != sum(weight * own for weight, own in zip(weights, units)):
        return "the parts are not what the units weigh"
    return None if share < den * menus.total else "the parts are not below the total"


def remarks(menus, item):
    """Returns what the program's check refuses besides."""
    parts = item.get("parts", [])
    found = []
    if any(before >= after for (before, _), (after, _) in zip(parts, parts[1:])):
        found.append("the orders do not rise")
    if any(weight == 0 for _, weight in parts):
        found.append("a part has the weight 0")
    numbers = [item.get("den", 1), *(weight for _, weight in parts), *item.get("weights", ())]
    if max(numbers) > WIDEST:
        found.append("a number is above 2^63 - 1")
    return found


# ---- the least sum


def is_complete(menus):
    """Whether something was chosen from every menu of two or more letters."""
    wanted = ("".join(it) for size in range(2, len(menus.letters) + 1) for it in combinations(menus.letters, size))
    return all(menu in menus.menus for menu in wanted)


def number_of(menu):
    """The number of a menu: the sum of 1, 2, 4 up to 32 for a to f."""
    return sum(1 << "abcdef".index(letter) for letter in menu)


def sums(menus):
    """Yields the sum of each letter at each menu with its menu and letter, by the number of the menu and then by letter."""
    units = dict(zip(menus.cells, units_of(menus)))
    every = ["".join(it) for size in range(1, len(menus.letters) + 1) for it in combinations(menus.letters, size)]
    own = {menu: at for at, menu in enumerate(menus.menus)}

    def on(menu, letter):
        return menus.total if len(menu) == 1 else units.get((own[menu], letter), 0)

    for menu in sorted(every, key=number_of):
        above = [other for other in every if set(menu) <= set(other)]
        for letter in menu:
            yield sum((-1) ** (len(other) - len(menu)) * on(other, letter) for other in above), menu, letter


def look_at_sums(menus, told):
    """Returns why this is not the least sum, or why there is to be none; `told` is None where the report has none."""
    if not is_complete(menus):
        return None if told is None else "nothing was chosen from some menu, so there are no sums"
    if told is None:
        return "something was chosen from every menu, and the least sum is left out"
    least, menu, letter = min(sums(menus), key=lambda it: (it[0], number_of(it[1]), it[2]))
    if (told["least"], told["menu"], told["letter"]) != (least, menu, letter):
        return f"the least sum is {least}, of {letter} in {menu}"
    return None
