"""GARP, the generalized axiom of revealed preference: no closed walk of weak steps has a strict one (Varian 1982).

Evidence that it holds are ranks that respect the preference: along a closed walk no weak step rises, so none can fall,
and none can be strict. Evidence that it fails is a violation. The axiom itself is decided here too, from the relation.
Where the table has levels, the steps are those of each observation's own level.
"""

from . import walks


def look(table, item):
    """Returns why the item does not prove its verdict on the table, and None where it does."""
    if "cycle" in item:
        return walks.no_violation(table, item["cycle"])
    if not walks.meets_axiom(table):
        return "the axiom fails"
    return walks.no_ranks(table, item["ranks"])
