"""What an item says, in words: its verdict, the index, the bounds, and what of it is withheld."""

from fractions import Fraction

# So many levels are named.
NAMED = 8


def verdict_of(item, levels=()):
    """Returns the verdict of an item of a certificate, or of a report, in a few words. `levels` are those of the table, in thousandths:
    with them GARP and Afriat's numbers are those at the levels, which says less."""
    kind = item["item"]
    if "withheld" in item:
        return f"{kind} withheld"
    if kind in ("garp", "afriat") and levels:
        return f"{kind} {'violated' if 'cycle' in item else 'holds'} at {levels_told(levels)}"
    if kind == "efficiency":
        return f"efficiency {item['level']} attained {'yes' if 'at_ranks' in item else 'no'}"
    if kind in ("random", "menus"):
        return f"{kind} violated, maximum share {share_of(item)}" if "weights" in item else f"{kind} mixture"
    if kind == "pump":
        return f"pump {item['ratio']}"
    if kind == "demand":
        return demand(item)
    if kind == "welfare":
        return welfare(item)
    return f"{kind} violated" if "cycle" in item else f"{kind} holds"


def levels_told(levels):
    """Returns the efficiency levels of a table in words."""
    told = ", ".join(f"{int(it) / 1000:g}" for it in levels[:NAMED])
    return f"the levels {told}" + (f" and {len(levels) - NAMED} more" if len(levels) > NAMED else "")


def share_of(item):
    """Returns the share of all choices that the parts of an item make: as a report has it, or by the weights of the parts."""
    if "share" in item:
        return item["share"]
    made = sum(int(weight) for _, weight in item["parts"])
    whole = int(item["den"]) * int(item["total"])
    return Fraction(made, whole) if whole else 0


def demand(item):
    if "cycle" in item:
        return "demand none, since the axiom is violated"
    told = [f"{bound(good['lower'])} to {bound(good['upper'])}" for good in item["goods"]]
    return f"demand {', '.join(told)} (scaled)"


def welfare(item):
    if "cycle" in item:
        return "welfare none, since the axiom is violated"
    return f"welfare of {item['observation']} {bound(item['lower'])} to {item['upper']} (scaled)"


def bound(item):
    return "withheld" if "withheld" in item else str(item["value"])
