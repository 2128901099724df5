"""The homothetic test: no closed walk has a product of c(t,s)/c(t,t) below 1 (Varian 1983).

Evidence that it holds are positive values with v_s ≤ v_t c(t,s)/c(t,t) for all t and s: along a closed walk they multiply
to v ≤ v times the product. Evidence that it fails is a closed walk on which a positive start comes back lower.
"""

from fractions import Fraction

from . import walks

WIDEST_PART = 2**127 - 1


def look(table, item):
    """Returns why the item does not prove its verdict on the table, and None where it does."""
    if "cycle" in item:
        return no_falling_walk(table, item["start"], item["cycle"])
    values = item["values"]
    if len(values) != len(table.observations):
        return "there is not one value for each observation"
    if not all(value > 0 for value in values):
        return "a value is 0"
    for t in table.observations:
        for s in table.observations:
            if values[t] * factor(table, t, s) < values[s]:
                return f"the step from {t + 1} to {s + 1} ends below the value of {s + 1}"
    return None


def factor(table, t, s):
    """By how much a step from t to s multiplies."""
    return Fraction(table.cost(t, s), table.cost(t, t))


def no_falling_walk(table, start, walk):
    """Returns why the start does not come back lower along this walk."""
    if start <= 0:
        return "the start is 0"
    why = walks.no_closed_walk(len(table.observations), walk)
    if why:
        return why
    end = start
    for t, s in walks.steps_of(walk):
        end *= factor(table, t, s)
    return None if end < start else "the walk does not end below its start"


def remarks(table, item):
    """Returns what the program's checker refuses besides: products past its width."""
    found = []
    if "cycle" in item:
        product = item["start"]
        for number, (t, s) in enumerate(walks.steps_of(item["cycle"]), 1):
            product *= factor(table, t, s)
            if is_wide(product):
                found.append(f"the product after step {number} has a part above 2^127 - 1")
    else:
        for t, value in enumerate(item.get("values", ())):
            if any(is_wide(value * factor(table, t, s)) for s in table.observations):
                found.append(f"a product from the value of {t + 1} has a part above 2^127 - 1")
    return found


def is_wide(fraction):
    return max(fraction.numerator, fraction.denominator) > WIDEST_PART
