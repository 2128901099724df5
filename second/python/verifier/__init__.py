"""A second checker of certificates, beside the one in the program: slow and plain, over fractions.

It is written from the definitions as docs/reference and docs/dev/DEFINITIONS.md tell them, shares no code with the program and
does not call it. Each kind of item has a page (`garp`, `afriat`, `efficiency`, `homothetic`, `quasilinear`, `demand`, `welfare`,
`random_choices`, and of what stands in reports alone `pump`, `menus`, `cost`) that says what its evidence proves and why, and
then looks. Nothing of it is proved.

It goes by the definitions. The program's checker goes by clauses, which also ask for a form: numbers within a width, lists
that rise. Where an item proves its verdict but has not that form, the item is accepted here with a remark. So the
program's checker accepts a certificate exactly where this one does, and remarks on nothing. A certificate on goodness of fit is
looked at by the clauses themselves (`fit`).
"""

from __future__ import annotations

from . import afriat, certificate, cost, demand, efficiency, fit, garp, homothetic, menus, pump, quasilinear, random_choices, reports
from . import tables, welfare, words
from .certificate import NoCertificate
from .reports import NoReport
from .tables import NoTable

__all__ = [
    "Finding",
    "Findings",
    "NoCertificate",
    "NoReport",
    "NoTable",
    "fit_told",
    "is_fit",
    "verify_choices",
    "verify_cost",
    "verify_fit",
    "verify_menus",
    "verify_pump",
    "verify_table",
]


# What stands below a certificate of which an item fails.
REJECTED = "What is not proved may be true or false: the certificate does not prove it on these data, or is of other data."


class Finding:
    """What was found of one item: `proves` is True, False, or None where the item withholds its verdict. `says` is that verdict.

    `failure` is the reason and the place, where the item was looked at clause by clause and fails."""

    def __init__(
        self,
        number: int,
        kind: str,
        proves: bool | None,
        why: str | None,
        remarks: list[str],
        withheld: int,
        says: str | None = None,
        failure: tuple[str, int] | None = None,
    ) -> None:
        self.number = number
        self.kind = kind
        self.proves = proves
        self.why = why
        self.remarks = remarks
        self.withheld = withheld
        self.says = says or kind
        self.failure = failure

    def __repr__(self) -> str:
        said = {True: ": proved", False: f": not proved, {self.why}", None: ": nothing is said"}[self.proves]
        return f"item {self.number} {self.says}{said}" + "".join(f"; remark: {it}" for it in self.remarks)


class Findings:
    """What was found of a certificate on some `data`, such as 2 observations of 2 goods. It is true where no item fails and one
    proves its verdict: one without items, and one that withholds all, prove nothing."""

    def __init__(self, items: list[Finding], data: str = "") -> None:
        self.items = items
        self.data = data

    @property
    def accepted(self) -> bool:
        return all(item.proves is not False for item in self.items)

    @property
    def proved(self) -> int:
        """How many items prove their verdicts."""
        return sum(item.proves is True for item in self.items)

    @property
    def rejected(self) -> Finding | None:
        """The first item that fails, or None."""
        return next((item for item in self.items if item.proves is False), None)

    @property
    def line(self) -> str:
        """The line that the program writes of a certificate on goodness of fit."""
        failing = self.rejected
        if failing is None:
            return f"accepted items {len(self.items)}"
        return f"rejected item {failing.number} {' place '.join(map(str, failing.failure or ()))}"

    @property
    def withheld(self) -> int:
        """How many values the items leave out."""
        return sum(item.withheld for item in self.items)

    @property
    def remarks(self) -> list[str]:
        """What is true and yet has not the form that the program's checker asks for."""
        return [f"item {item.number}: {remark}" for item in self.items for remark in item.remarks]

    def __bool__(self) -> bool:
        return self.accepted and self.proved > 0

    def __repr__(self) -> str:
        told = "rejected" if not self.accepted else "accepted" if self.proved else "accepted, and nothing is proved"
        counts = f"items {len(self.items)} proved {self.proved} withheld {self.withheld}"
        lines = [f"{told}: {counts}" + (f", on {self.data}" if self.data else ""), *map(repr, self.items)]
        return "\n".join(lines if self.accepted else [*lines, REJECTED])


def verify_table(table: bytes, data: bytes) -> Findings:
    """Looks at each item of a certificate on a table; both are bytes. Item 0 fails where the levels are not the table's."""
    own = tables.read_table(table)
    levels, items = certificate.read(data, "table")
    found, axiom_is_shown = [], False
    if levels != own.levels:
        found.append(Finding(0, "levels", False, other_levels(own.levels, levels), [], 0))
    for number, (item, remarks) in enumerate(items, 1):
        why, more, withheld = look_at(own, item, axiom_is_shown)
        found.append(finding(number, item, why, remarks + more, withheld, own.levels))
        if item["item"] == "garp" and "ranks" in item and why is None:
            axiom_is_shown = True
    return Findings(found, observations_of(own))


def is_fit(data: bytes) -> bool:
    """Whether these bytes are a certificate of the kind on goodness of fit."""
    return certificate.kind_of(data) == "fit"


def verify_fit(table: bytes, data: bytes) -> Findings:
    """Looks at a certificate on goodness of fit, clause by clause, up to the first item that fails; both are bytes."""
    own = tables.read_table(table)
    if own.levels:
        raise NoTable("goodness of fit is defined on a table without levels")
    found = []
    for number, (item, _) in enumerate(certificate.read(data, "fit")[1], 1):
        failure = fit.look(own, item)
        if failure:
            found.append(Finding(number, item["item"], False, repr(failure), [], 0, failure=(failure.reason, failure.place)))
            break
        found.append(Finding(number, item["item"], True, None, [], 0, fit.says(own, item)))
    return Findings(found, observations_of(own))


def fit_told(table: bytes, data: bytes) -> list[str]:
    """Returns what each item of a certificate on goodness of fit says of a table, in words, if it is accepted; both are bytes."""
    own = tables.read_table(table)
    return [fit.says(own, item) for item, _ in certificate.read(data, "fit")[1]]


def verify_choices(budgets: bytes, choices: bytes, data: bytes, per: int | None = None) -> Findings:
    """Looks at each item of a certificate on random choices; all files are bytes."""
    patches = random_choices.Patches(tables.read_choices(budgets, choices, per))
    found = []
    for number, (item, remarks) in enumerate(certificate.read(data, "random")[1], 1):
        why = random_choices.look(patches, item)
        found.append(finding(number, item, why, remarks + random_choices.remarks(item), int("withheld" in item)))
    return Findings(found, "choices from budgets")


def verify_pump(table: bytes, report: bytes) -> Findings:
    """Looks at a report on the greatest money pump ratio of a table. Item 0 fails where its first line is of another table."""
    own, told = tables.read_table(table), reports.read_pump(report)
    found = other_head(told["head"], len(own.prices), own)
    if own.levels:
        return Findings([*found, Finding(1, "pump", False, "a money pump is defined on a table without levels", [], 0)], observations_of(own))
    why = pump.look(own, told)
    return Findings([*found, finding(1, told, why, pump.remarks(own, told), 0)], observations_of(own))


def verify_menus(data: bytes, report: bytes, per: int | None = None) -> Findings:
    """Looks at a report on choices from menus. Item 0 fails where its counts, or the units that were asked for, are others."""
    told = reports.read_menus(report)
    seen = tables.read_menus(data, per)
    orders = sum(1 for _ in menus.orders_of(seen))
    sizes = {"alternatives": len(seen.letters), "menus": len(seen.menus), "cells": len(seen.cells)}
    counts: dict[str, int | None] = {**sizes, "orders": orders, "total": seen.total, "per": per}
    other = [name for name, count in counts.items() if told[name] != count]
    found = [Finding(0, "menus", False, f"{other[0]} is {counts[other[0]]} on these menus", [], 0)] if other else []
    item = told["item"]
    why = menus.look(seen, item)
    if why is None and "share" in item and item["share"] * item["den"] * seen.total != sum(weight for _, weight in item["parts"]):
        why = "the share is not that of the parts"
    found.append(finding(1, item, why, menus.remarks(seen, item), int("withheld" in item)))
    if told["sums"] is not None or menus.is_complete(seen):
        found.append(finding(2, {"item": "sums"}, menus.look_at_sums(seen, told["sums"]), [], 0))
    return Findings(found, f"{len(seen.menus)} menus")


def verify_cost(technology: bytes, asked: bytes, report: bytes) -> Findings:
    """Looks at a report on production: the two axioms, and then the bounds of each asked record. Item 0 is its first line."""
    told, firm = reports.read_cost(report), tables.read_technology(technology)
    questions = tables.read_asked(asked, firm)
    found = other_head(told["head"], len(firm.outputs), firm.table)
    for name, breaks, stands in (("cost", cost.breaks_cost, True), ("profit", cost.breaks_profit, firm.prices is not None)):
        number = len([item for item in found if item.number]) + 1
        if told[name] is None or not stands:
            if stands or told[name] is not None:
                found.append(Finding(number, name, False, "it stands there just where the output has a price", [], 0))
            continue
        why = cost.look_at_axiom(firm, told[name], breaks)
        first = why is None and told[name] != cost.first_pair(firm, breaks)
        says = f"{name} {'violated' if told[name] else 'holds'}"
        found.append(Finding(number, name, why is None, why, ["another pair comes first"] if first else [], 0, says))
    if len(told["bounds"]) != len(questions):
        return Findings([*found, Finding(len(found) + 1, "bounds", False, "there are not bounds for each asked record", [], 0)])
    for bound, (prices, output) in zip(told["bounds"], questions):
        number = len([item for item in found if item.number]) + 1
        found.append(Finding(number, "bounds", *look_at_bounds(firm, told, bound, prices, output)))
    return Findings(found, observations_of(firm.table))


def look_at_bounds(firm, told, bound, prices, output):
    """Returns whether the bounds of an asked record are shown, why not, the remarks on them, and how much they withhold."""
    if (bound["prices"], bound["output"]) != (prices, output):
        return False, "another output or other prices were asked", [], 0
    if "lower" not in bound:
        return (True, None, [], 0) if told["cost"] else (False, "the cost axiom holds, so there are bounds", [], 0)
    if told["cost"]:
        return False, "the cost axiom fails, so there are none", [], 0
    why = cost.look(firm, prices, output, bound)
    return why is None, why, cost.remarks(bound), int("withheld" in bound["lower"])


def other_head(told, count, table):
    """Returns the finding on a first line that is of another table."""
    own = (count, len(table.goods), *table.places)
    return [] if told == own else [Finding(0, "head", False, f"the numbers of its first line are {own} for these data", [], 0)]


def other_levels(own, levels):
    """Returns how the levels of a certificate are not those of the table."""
    if len(own) != len(levels):
        return f"the certificate has {len(levels) or 'no'} levels, the table {len(own) or 'none'}"
    place = next(place for place, (first, second) in enumerate(zip(own, levels), 1) if first != second)
    return f"the level of {place} is {own[place - 1]} in the table"


def finding(number, item, why, remarks, withheld, levels=()):
    proves = False if why else None if "withheld" in item else True
    says = "sums" if item["item"] == "sums" else words.verdict_of(item, levels)
    return Finding(number, item["item"], proves, why, remarks, withheld, says)


def observations_of(table):
    """Returns how much a table has, in words."""
    return f"{len(table.prices)} observations of {len(table.goods)} goods"


def look_at(table, item, axiom_is_shown):
    """Returns why an item on a table does not prove its verdict, the remarks on it, and how much it withholds."""
    kind = item["item"]
    if "withheld" in item:
        return None, [], 1
    if kind == "garp":
        return garp.look(table, item), [], 0
    if kind == "afriat":
        return afriat.look(table, item), afriat.remarks(item), 0
    if kind == "efficiency":
        return efficiency.look(table, item), [], 0
    if kind == "homothetic":
        why = homothetic.look(table, item)
        return why, [] if why else homothetic.remarks(table, item), 0
    if kind == "quasilinear":
        return quasilinear.look(table, item), quasilinear.remarks(item), 0
    if table.levels:
        return f"{kind} is defined on a table without levels", [], 0
    if kind == "demand":
        bounds = [bound for good in item.get("goods", ()) for bound in good.values()]
        withheld = sum("withheld" in bound for bound in bounds)
        return demand.look(table, item, axiom_is_shown), demand.remarks(item), withheld
    return welfare.look(table, item, axiom_is_shown), welfare.remarks(item), int("withheld" in item.get("lower", ()))
