"""Afriat's numbers: whole U and λ ≥ 1 with U_t ≤ U_s + λ_s (c(s,t) − c(s,s)) for all s and t (Afriat 1967; Varian 1982).

Where the table has levels, c(s,t) is taken 1000 times and c(s,s) so many times as the level of s has thousandths.
There are such numbers exactly where the axiom holds, so evidence that there are none is a violation of it.
"""

from . import walks

WIDEST_UTILITY = 2**120
WIDEST_MULTIPLIER = 2**60


def look(table, item):
    """Returns why the item does not prove its verdict on the table, and None where it does."""
    if "cycle" in item:
        return walks.no_violation(table, item["cycle"])
    u, multiplier = item["utility"], item["lambda"]
    if len(u) != len(table.observations) or len(multiplier) != len(table.observations):
        return "there is not one number for each observation"
    for s in table.observations:
        if multiplier[s] < 1:
            return f"the lambda of {s + 1} is below 1"
        for t in table.observations:
            if u[t] > u[s] + multiplier[s] * table.gap(s, t):
                return f"the utility of {t + 1} is above what {s + 1} allows it"
    return None


def remarks(item):
    """Returns what the program's checker refuses besides."""
    found = []
    for s, (u, multiplier) in enumerate(zip(item.get("utility", ()), item.get("lambda", ())), 1):
        if multiplier > WIDEST_MULTIPLIER:
            found.append(f"the lambda of {s} is above 2^60")
        if abs(u) > WIDEST_UTILITY:
            found.append(f"the utility of {s} is above 2^120 in size")
    return found
