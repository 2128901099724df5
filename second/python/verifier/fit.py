"""Goodness of fit: the items of a certificate of kind `fit`, and what each says.

An item is an index with its evidence. Each kind has a page that says what the index is and why the evidence proves it:
`violations`, `efficiency`, `kept`, `levels`, `steps`, `pump`, `quasilinear_level` and `homothetic_level`. Here, other than in
certificates on a table, an item is looked at clause by clause, in the order in which the program's checker looks at it, and
the first clause that fails is named with its reason and place (`clauses`). So there are no remarks: what is accepted here has the
form that the program's checker asks for. No item rests on another. Only a table without levels has these indices.
"""

from fractions import Fraction

from . import clauses, efficiency, homothetic_level, kept, levels, pump, quasilinear_level, steps, violations

PAGES = {
    "violations": violations,
    "efficiency": efficiency,
    "kept": kept,
    "levels": levels,
    "steps": steps,
    "pump": pump,
    "quasilinear_level": quasilinear_level,
    "homothetic_level": homothetic_level,
}


def look(table, item):
    """Returns the first clause of an item that fails, or None where the item proves what it says."""
    return clauses.first_failure(PAGES[item["item"]].clauses(table, item))


def says(table, item):
    """Returns what an accepted item says of a table, in a few words."""
    return SAID[item["item"]](table, item)


def of_violations(table, item):
    count = len(table.observations)
    told = ", ".join(f"{axiom} {item[axiom]}" for axiom in violations.AXIOMS)
    return f"violations {told} of {count * (count - 1)} pairs, {item['observations']} of {count} observations"


def of_kept(table, item):
    least, most = len(item["kept"]), item["most"]
    return f"kept {least if least == most else f'{least} to {most}'} of {len(table.observations)}"


def of_bounds(name, lower, upper):
    return f"{name} {lower}" if lower == upper else f"{name} {lower} to {upper}"


def of_levels(table, item):
    exact = ", exact" if levels.is_exact(table, item) else ""
    return of_bounds(f"levels {item['measure']}", *levels.bounds(table, item)) + exact


def of_steps(table, item):
    exact = ", exact" if steps.is_exact(table, item) else ""
    return of_bounds("steps", *steps.bounds(table, item)) + exact


def of_ratio(name):
    return lambda table, item: f"{name} {Fraction(item['num'], item['den'])}"


SAID = {
    "violations": of_violations,
    "efficiency": lambda table, item: f"efficiency {item['level']} attained {'yes' if 'at_ranks' in item else 'no'}",
    "kept": of_kept,
    "levels": of_levels,
    "steps": of_steps,
    "pump": of_ratio("pump"),
    "quasilinear_level": of_ratio("quasilinear level"),
    "homothetic_level": lambda table, item: of_bounds("homothetic level", *homothetic_level.bounds(item)),
}
