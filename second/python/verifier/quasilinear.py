"""The quasilinear test: no closed walk has a sum of c(t,s) − c(t,t) below 0 (Brown and Calsamiglia 2007).

Evidence that it holds are values with v_s ≤ v_t + c(t,s) − c(t,t) for all t and s: along a closed walk they add up to
v ≤ v plus the sum. Evidence that it fails is a closed walk with a sum below 0.
"""

from . import walks

WIDEST_VALUE = 2**100


def look(table, item):
    """Returns why the item does not prove its verdict on the table, and None where it does."""
    if "cycle" in item:
        why = walks.no_closed_walk(len(table.observations), item["cycle"])
        if why:
            return why
        total = sum(term(table, t, s) for t, s in walks.steps_of(item["cycle"]))
        return None if total < 0 else "the sum along the walk is not below 0"
    values = item["values"]
    if len(values) != len(table.observations):
        return "there is not one value for each observation"
    for t in table.observations:
        for s in table.observations:
            if values[t] + term(table, t, s) < values[s]:
                return f"the step from {t + 1} to {s + 1} ends below the value of {s + 1}"
    return None


def term(table, t, s):
    """What a step from t to s adds."""
    return table.cost(t, s) - table.cost(t, t)


def remarks(item):
    """Returns what the program's checker refuses besides."""
    wide = [s for s, value in enumerate(item.get("values", ()), 1) if abs(value) > WIDEST_VALUE]
    return [f"the value of {s} is above 2^100 in size" for s in wide]
