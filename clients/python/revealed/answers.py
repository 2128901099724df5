"""What the program answers, by the labels of the data and in their own units."""

from __future__ import annotations

import json
import os
import re
from fractions import Fraction
from typing import Any, Callable, Iterable, Iterator, Sequence

from . import exact, verifier
from .catalogue import LIMITS, sentence
from .faults import BadData, Unreadable
from .tables import OWN_MONEY, Choices, Sheet, Table

TESTS = ("garp", "afriat", "homothetic", "quasilinear")
WORDS = {True: "holds", False: "violated", None: "withheld"}


class Certificate:
    """A certificate. `data` has its bytes, and `items` its items in their order.

    If it is the certificate of `rp-wide`, `stated` is the one of `rp`, which leaves more undetermined; otherwise None. `hint` is the
    program's sentence about a value that is still undetermined.
    """

    def __init__(self, data: bytes, stated: bytes | None = None, hint: str = "") -> None:
        self.data = data
        self.stated = None if stated is None else Certificate(stated)
        self.hint = hint
        try:
            self.items: list[dict[str, Any]] = json.loads(data)["items"]
            if not all(isinstance(item["item"], str) for item in self.items):
                raise TypeError
        except (ValueError, KeyError, TypeError, RecursionError):
            raise Unreadable(data.decode("utf-8", "replace"), "no certificate") from None

    def beside(self) -> list[tuple[dict[str, Any], dict[str, Any]]]:
        """Returns each item with that of `rp` itself, which is the same one where nothing is wider."""
        stated = self.items if self.stated is None else self.stated.items
        if len(stated) != len(self.items):
            raise ValueError("another number of items than rp's")
        return list(zip(self.items, stated))

    def save(self, path: str | os.PathLike[str]) -> None:
        """Writes it to a file."""
        with open(path, "wb") as it:
            it.write(self.data)

    def __bytes__(self) -> bytes:
        return self.data

    def __repr__(self) -> str:
        return f"<certificate: {', '.join(item['item'] for item in self.items)}>"


def reading(data: bytes) -> _Reading:
    return _Reading(data)


class _Reading:
    """While an answer is read, what it lacks becomes Unreadable."""

    def __init__(self, data: bytes | str) -> None:
        self.data = data if isinstance(data, str) else data.decode("utf-8", "replace")

    def __enter__(self) -> None:
        return None

    def __exit__(self, kind: Any, wrong: Any, trace: Any) -> None:
        if isinstance(wrong, (KeyError, IndexError, ValueError, TypeError, AttributeError, StopIteration)):
            raise Unreadable(self.data, f"{type(wrong).__name__}: {wrong}") from wrong


class Verdict:
    """The verdicts on a table.

    `garp`, `afriat`, `homothetic` and `quasilinear` are True or False; None if undetermined, and `reasons` says why. `wide` names the
    verdicts that `rp` leaves undetermined and `rp-wide` found, with evidence that the checker accepts.

    `efficiency` is the CCEI as a Fraction. `ccei` is the nearest float, and is 1 only if the CCEI is 1. `attained` says whether GARP holds
    at the CCEI itself.

    `evidence` has the evidence of each test: ranks, numbers and cycles by the labels of the rows. `ranks` and `cycle` are those of GARP,
    `utility` and `multipliers` the Afriat numbers; each may be None.

    If the table has levels, GARP and the Afriat numbers use them, and the other verdicts do not. If prices are exchanged intercepts,
    `quasilinear` is None, because it adds money of different rows. `proved` says that the verdicts are the program's.
    """

    proved = True

    def __init__(self, table: Table, certificate: Certificate) -> None:
        self.table = table
        self.certificate = certificate
        self.reasons: dict[str, str] = {}
        self.evidence: dict[str, dict[str, Any]] = {}
        with reading(certificate.data):
            items = {item["item"]: item for item in certificate.items}
            self.wide = [own["item"] for own, stated in certificate.beside() if is_wide(own, stated)]
            self.garp: bool = self._axiom("garp", items["garp"])
            self.afriat: bool | None = self._afriat(items["afriat"])
            self.efficiency, self.attained = self._efficiency(items["efficiency"])
            self.homothetic: bool | None = self._homothetic(items["homothetic"])
            self.quasilinear: bool | None = self._quasilinear(items["quasilinear"])

    @property
    def labels(self) -> list[Any]:
        return self.table.labels

    @property
    def ccei(self) -> float:
        return exact.nearest_double(self.efficiency)

    @property
    def ranks(self) -> dict[Any, int] | None:
        return self.evidence["garp"].get("ranks")

    @property
    def cycle(self) -> list[Any] | None:
        return self.evidence["garp"].get("cycle")

    @property
    def utility(self) -> dict[Any, Fraction] | None:
        return self.evidence["afriat"].get("utility")

    @property
    def multipliers(self) -> dict[Any, int] | None:
        return self.evidence["afriat"].get("lambda")

    def _by_label(self, values: Iterable[Any]) -> dict[Any, Any]:
        return by_label(self.table, values)

    def _walk(self, walk: list[int]) -> list[Any]:
        return walk_of(self.table)(walk)

    def _axiom(self, name: str, item: dict[str, Any]) -> bool:
        if "cycle" in item:
            self.evidence[name] = {"cycle": self._walk(item["cycle"])}
            return False
        self.evidence[name] = {"ranks": self._by_label(item["ranks"])}
        return True

    def _afriat(self, item: dict[str, Any]) -> bool | None:
        if "cycle" in item:
            return self._axiom("afriat", item)
        if "withheld" in item:
            label = self._walk([item["withheld"]])[0]
            why = f"the numbers get past their width at {label!r}; they exist where garp is True, and revealed.plain gives some, without a proof"
            self.reasons["afriat"] = why
            self.evidence["afriat"] = {}
            return None
        money = utility_scale(self.table)
        self.evidence["afriat"] = {
            "utility": self._by_label(Fraction(exact.whole_of(u), money) for u in item["utility"]),
            "lambda": self._by_label(exact.whole_of(multiplier) for multiplier in item["lambda"]),
        }
        return True

    def _efficiency(self, item: dict[str, Any]) -> tuple[Fraction, bool]:
        found = {"below": self._by_label(item["below"]), "above": self._walk(item["above"])}
        if "at_ranks" in item:
            found["at_ranks"] = self._by_label(item["at_ranks"])
        else:
            found["at_cycle"] = self._walk(item["at_cycle"])
        self.evidence["efficiency"] = found
        return exact.fraction_read(item["level"]), "at_ranks" in item

    def _homothetic(self, item: dict[str, Any]) -> bool | None:
        if "withheld" in item:
            steps, start, end = item["withheld"]
            start, end = self._walk([start, end])
            why = f"after {steps} steps the product from {start!r} to {end!r} gets past its width"
            self.reasons["homothetic"] = hinted(why, self.certificate.hint)
            self.evidence["homothetic"] = {}
            return None
        if "cycle" in item:
            self.evidence["homothetic"] = {"start": exact.fraction_read(item["start"]), "cycle": self._walk(item["cycle"])}
            return False
        self.evidence["homothetic"] = {"values": self._by_label(map(exact.fraction_read, item["values"]))}
        return True

    def _quasilinear(self, item: dict[str, Any]) -> bool | None:
        if self.table.own_money:
            self.reasons["quasilinear"] = OWN_MONEY
            self.evidence["quasilinear"] = {}
            return None
        if "cycle" in item:
            self.evidence["quasilinear"] = {"cycle": self._walk(item["cycle"])}
            return False
        money = money_scale(self.table)
        self.evidence["quasilinear"] = {"values": self._by_label(Fraction(exact.whole_of(it), money) for it in item["values"])}
        return True

    def as_dict(self) -> dict[str, Any]:
        """Returns the verdicts by name."""
        names = ("garp", "afriat", "efficiency", "ccei", "attained", "homothetic", "quasilinear")
        return {**{name: getattr(self, name) for name in names}, "wide": list(self.wide), "reasons": dict(self.reasons)}

    def plot(self, ax: Any = None, **more: Any) -> Any:
        """Draws the budget lines, the choices and the violating cycle of a table of two goods, with matplotlib; returns its axes."""
        from . import pictures

        return pictures.of_verdict(self, ax, **more)

    def __repr__(self) -> str:
        asked = [name for name in TESTS if name != "quasilinear" or not self.table.own_money]
        lines = [f"{name} {WORDS[getattr(self, name)]}{BY_WIDE if name in self.wide else ''}" for name in asked]
        lines.insert(2, f"efficiency {exact.written(self.efficiency)} attained {'yes' if self.attained else 'no'}")
        if self.cycle:
            lines.insert(1, "cycle " + " ".join(map(str, self.cycle)))
        told = [*lines, *(f"{name}: {why}" for name, why in self.reasons.items())]
        told += [str(self.table.offered)] if self.table.offered else []
        return with_numbers("\n".join(told if self.proved else [*told, NO_PROOF]), self.table)


BY_WIDE = " (by rp-wide; rp itself withholds it)"
TAKEN_BY_WIDE = " (by rp-wide; rp itself refuses these choices)"
UNFOUND = "rp-wide found no evidence in {} steps of its search; fewer budgets, or coarser shares by per=, make that shorter"
NO_PROOF = "by plain whole numbers: no proof stands behind this, and verify looks at its evidence"


def with_numbers(told: str, *sheets: Sheet) -> str:
    """Returns what is told, with a line that says how numbers were taken where a float was taken for a decimal that it is not."""
    found = next((it.numbers for it in sheets if it.numbers), None)
    return told if found is None else f"{told}\nnumbers: {found}"


def is_wide(own: dict[str, Any], stated: dict[str, Any]) -> bool:
    """Whether an item or a bound is given where `rp` itself withholds it."""
    return "withheld" in stated and "withheld" not in own


def hinted(why: str, hint: str) -> str:
    return f"{why}; {hint}" if hint else why


def by_label(table: Sheet, values: Iterable[Any]) -> dict[Any, Any]:
    """Returns one value for each row of a sheet, under its label."""
    found = list(values)
    if len(found) != len(table.labels):
        raise ValueError(f"{len(found)} values for {len(table.labels)} rows")
    return dict(zip(table.labels, found))


def walk_of(table: Sheet) -> Callable[[Sequence[int]], list[Any]]:
    """Returns the function that gives the labels of observations, which count from 1."""

    def walk(numbers: Sequence[int]) -> list[Any]:
        if not all(1 <= number <= len(table.labels) for number in numbers):
            raise ValueError("there is no such observation")
        return [table.labels[number - 1] for number in numbers]

    return walk


def money_scale(table: Table) -> int:
    """How many units of the table's costs are one unit of money times one of quantity."""
    return table.price_scale * table.quantity_scale


def utility_scale(table: Table) -> int:
    """The same of utilities: where the table has levels, costs are compared in thousandths."""
    return money_scale(table) * (LIMITS["table.level_scale"] if table.levels is not None else 1)


class Answers(list):
    """A list of results, with their table, the verdict on GARP, and the certificate (None for `utility`)."""

    labels: list[Any]
    reasons: dict[Any, str]

    def __init__(self, found: Iterable[Any], table: Table, certificate: Certificate | None = None, garp: bool | None = None) -> None:
        super().__init__(found)
        self.table = table
        self.certificate = certificate
        self.garp = garp
        self.ranks: dict[Any, int] | None = None
        self.cycle: list[Any] | None = None
        self.proved = True

    def records(self) -> list[dict[str, Any]]:
        """Returns a dictionary for each bound of demand or welfare.

        `lower` and `upper` are floats, rounded down and up; None if the bound is undetermined or does not exist. `lower_exact` and
        `upper_exact` are the Fractions.
        """
        if not all(hasattr(it, "records") for it in self):
            raise BadData("bounds of demand and of welfare have records; utilities are numbers already")
        return [record for it in self for record in it.records()]

    def frame(self) -> Any:
        """Returns the bounds as a pandas frame; exact numbers are texts. It needs pandas."""
        try:
            import pandas
        except ImportError as wrong:
            raise BadData("a frame needs the package pandas, which is not here: pip install pandas; .records() has the same without it") from wrong
        found = self.records()
        made = pandas.DataFrame({name: [exact.written(it) if isinstance(it := row[name], Fraction) else it for row in found] for name in found[0]})
        return made.astype({name: "float64" for name in made.columns if name in ("lower", "upper", "inner")})


def bounds_record(lower: Fraction | None, upper: Fraction | None) -> dict[str, Any]:
    """Returns two bounds as floats, rounded away from what is between them, and as they are."""
    return {
        "lower": None if lower is None else exact.double_below(lower),
        "upper": None if upper is None else exact.double_above(upper),
        "lower_exact": lower,
        "upper_exact": upper,
    }


class Demand:
    """Demand at a new budget. `garp` says whether GARP holds. If it is violated, no demand is consistent, and the rest is None.

    `bounds` has for each good the infimum and the supremum over all consistent demands, as Fractions. A demand on the budget is consistent
    if GARP still holds when it is added to the table. An undetermined bound is None, and `reasons` says why under (good, "lower") or
    (good, "upper"). `wide` has the bounds that `rp` itself leaves undetermined, in the same form.

    `inner` is one consistent demand. `below` and `strict` are the labels of the rows that the budget is revealed preferred to, and strictly
    revealed preferred to.
    """

    def __init__(
        self,
        label: Any,
        prices: dict[str, Fraction],
        expenditure: Fraction,
        garp: bool,
        below: list[Any] | None = None,
        strict: list[Any] | None = None,
        inner: dict[str, Fraction] | None = None,
        bounds: dict[str, tuple[Fraction | None, Fraction | None]] | None = None,
        reasons: dict[tuple[str, str], str] | None = None,
        wide: Sequence[tuple[str, str]] = (),
    ) -> None:
        self.label, self.prices, self.expenditure, self.garp = label, prices, expenditure, garp
        self.below, self.strict, self.inner, self.bounds, self.reasons = below, strict, inner, bounds, reasons or {}
        self.wide = list(wide)

    def records(self) -> list[dict[str, Any]]:
        """Returns a dictionary for each good: see `Answers.records`. `inner` is the one demand within the bounds, the nearest float."""
        found = []
        for good in self.prices:
            lower, upper = (self.bounds or {}).get(good, (None, None))
            inner = None if self.inner is None else exact.nearest_double(self.inner[good])
            why = "the axiom fails" if self.bounds is None else self.reasons.get((good, "lower")) or self.reasons.get((good, "upper"))
            found.append({"budget": self.label, "good": good, **bounds_record(lower, upper), "inner": inner, "reason": why})
        return found

    def __repr__(self) -> str:
        if self.bounds is None:
            return f"<demand at {self.label!r}: none, the axiom fails>"
        told = ", ".join(f"{good} {low} to {high}" for good, (low, high) in self.bounds.items())
        return f"<demand at {self.label!r}: {told}>"


class Welfare:
    """Bounds on the money metric at new prices: `lower`, `upper` and `at`, by the labels of the rows.

    A bundle as good as the row's own costs at least `lower` and at most `upper`, the cost of the bundle of the row `at`. An undetermined
    lower bound is None, and `reasons` says why. `wide` has the rows whose lower bound `rp` itself leaves undetermined. If GARP is violated,
    `garp` is False and the rest is None.
    """

    def __init__(
        self,
        label: Any,
        prices: dict[str, Fraction],
        garp: bool,
        lower: dict[Any, Fraction | None] | None = None,
        upper: dict[Any, Fraction] | None = None,
        at: dict[Any, Any] | None = None,
        reasons: dict[Any, str] | None = None,
        wide: Sequence[Any] = (),
    ) -> None:
        self.label, self.prices, self.garp = label, prices, garp
        self.lower, self.upper, self.at, self.reasons, self.wide = lower, upper, at, reasons or {}, list(wide)

    def records(self) -> list[dict[str, Any]]:
        """Returns a dictionary for each row of the table, or one where the axiom fails: see `Answers.records`."""
        if self.lower is None or self.upper is None or self.at is None:
            return [{"prices": self.label, "observation": None, **bounds_record(None, None), "at": None, "reason": "the axiom fails"}]
        return [
            {"prices": self.label, "observation": row, **bounds_record(low, self.upper[row]), "at": self.at[row], "reason": self.reasons.get(row)}
            for row, low in self.lower.items()
        ]

    def __repr__(self) -> str:
        if self.lower is None or self.upper is None:
            return f"<welfare at {self.label!r}: none, the axiom fails>"
        told = ", ".join(f"{row} {low} to {self.upper[row]}" for row, low in self.lower.items())
        return f"<welfare at {self.label!r}: {told}>"


def withheld(step: int | str) -> str:
    return f"the run of its program gets past 2^63 - 1 at step {step}"


def demands(table: Table, new: Sheet, certificate: Certificate) -> Answers:
    """Returns the demand of each record of new prices."""
    with reading(certificate.data):
        (first, _), *items = certificate.beside()
        if len(items) != len(new.rows):
            raise ValueError(f"{len(items)} answers for {len(new.rows)} budgets")
        found = [_demand(table, new, label, item, stated, certificate.hint) for label, (item, stated) in zip(new.labels, items)]
        return answers(found, table, certificate, first)


def _demand(table: Table, new: Sheet, label: Any, item: dict[str, Any], stated: dict[str, Any], hint: str) -> Demand:
    walk, quantity, price = walk_of(table), table.quantity_scale, new.scale("p_")
    prices = named_prices(table, item, price)
    expenditure = Fraction(exact.whole_of(item["expenditure"]), price * quantity)
    if "cycle" in item:
        return Demand(label, prices, expenditure, False)
    bounds, reasons, wide = {}, {}, []
    for good, (pair, other) in strictly(table.goods, list(strictly(item["goods"], stated["goods"]))):
        for name in ("lower", "upper"):
            if "withheld" in pair[name]:
                reasons[good, name] = hinted(withheld(pair[name]["withheld"]), hint)
            elif is_wide(pair[name], other[name]):
                wide.append((good, name))
        bounds[good] = (bound_value(pair["lower"], quantity), bound_value(pair["upper"], quantity))
    den = exact.whole_of(item["inner"]["den"]) * quantity
    inner = {good: Fraction(exact.whole_of(number), den) for good, number in strictly(table.goods, item["inner"]["num"])}
    return Demand(label, prices, expenditure, True, walk(item["below"]), walk(item["strict"]), inner, bounds, reasons, wide)


def welfares(table: Table, new: Sheet, certificate: Certificate) -> Answers:
    """Returns the welfare bounds of each record of new prices."""
    with reading(certificate.data):
        (first, _), *items = certificate.beside()
        if len(items) != len(new.rows) * len(table):
            raise ValueError(f"{len(items)} answers for {len(new.rows)} prices and {len(table)} observations")
        by_new = [items[number * len(table) : (number + 1) * len(table)] for number in range(len(new.rows))]
        found = [_welfare(table, new, label, own, certificate.hint) for label, own in zip(new.labels, by_new)]
        return answers(found, table, certificate, first)


def _welfare(table: Table, new: Sheet, label: Any, pairs: list[tuple[dict[str, Any], dict[str, Any]]], hint: str) -> Welfare:
    walk, price, own = walk_of(table), new.scale("p_"), [item for item, _ in pairs]
    money = price * table.quantity_scale
    prices = named_prices(table, own[0], price)
    if any("cycle" in item for item in own):
        return Welfare(label, prices, False)
    rows = walk([item["observation"] for item in own])
    lower = {row: bound_value(item["lower"], money) for row, item in zip(rows, own)}
    upper = {row: Fraction(exact.whole_of(item["upper"]), money) for row, item in zip(rows, own)}
    at = {row: walk([item["at"]])[0] for row, item in zip(rows, own)}
    reasons = {row: hinted(withheld(item["lower"]["withheld"]), hint) for row, item in zip(rows, own) if "withheld" in item["lower"]}
    wide = [row for row, (item, stated) in zip(rows, pairs) if is_wide(item["lower"], stated["lower"])]
    return Welfare(label, prices, True, lower, upper, at, reasons, wide)


def strictly(first: Sequence[Any], second: Sequence[Any]) -> Iterator[tuple[Any, Any]]:
    """Returns pairs of two lists of one length."""
    if len(first) != len(second):
        raise ValueError(f"{len(second)} numbers for {len(first)}")
    return zip(first, second)


def named_prices(table: Table, item: dict[str, Any], scale: int) -> dict[str, Fraction]:
    return {good: Fraction(exact.whole_of(price), scale) for good, price in strictly(table.goods, item["prices"])}


def bound_value(bound: dict[str, Any], scale: int) -> Fraction | None:
    return None if "withheld" in bound else exact.fraction_read(bound["value"]) / scale


def answers(found: list[Any], table: Table, certificate: Certificate, first: dict[str, Any]) -> Answers:
    made = Answers(found, table, certificate, "ranks" in first)
    made.ranks = by_label(table, first["ranks"]) if "ranks" in first else None
    made.cycle = walk_of(table)(first["cycle"]) if "cycle" in first else None
    return made


def utilities(table: Table, bundles: Sheet, text: str) -> Answers:
    """Returns the utility of each bundle, by the lines of the report."""
    with reading(text.encode()):
        lines = [line.split() for line in text.splitlines()]
        money = utility_scale(table)
        found: list[Fraction | None] = []
        reasons = {}
        for line in lines:
            if line[:1] == ["at"] and line[1].isdigit():
                label = bundles.labels[len(found)]
                if int(line[1]) != len(found) + 1:
                    raise ValueError("the bundles are not in their order")
                if line[2] == "value":
                    found.append(exact.fraction_read(line[3]) / money)
                else:
                    reasons[label] = {"none": "the axiom fails", "withheld": "Afriat's numbers get past their width"}[line[2]]
                    found.append(None)
        if len(found) != len(bundles.labels):
            raise ValueError(f"{len(found)} answers for {len(bundles.labels)} bundles")
        if ["garp", "holds"] not in lines and ["garp", "violated"] not in lines:
            raise ValueError("no verdict on the axiom")
        made = Answers(found, table, garp=["garp", "holds"] in lines)
        made.labels, made.reasons = bundles.labels, reasons
        return made


class Part:
    """A rational type: its patch of each budget, from 1, and its share of the population."""

    def __init__(self, patches: list[int], share: Fraction) -> None:
        self.patches = patches
        self.share = share

    def __repr__(self) -> str:
        return f"<patches {self.patches}: {self.share}>"


class Patch:
    """A patch: its number and the number of its budget, both from 1, with a share.

    In a list of all patches, the share is the part of the budget's choices in the patch. In a mixture, it is the part that the types choose
    there.

    Results of `patches` also have `units`, the number of the budget's units in the patch, and `sides`. `sides` has an entry for each budget, by
    its label. A choice in the patch costs less than the income there (`below`), exactly the income (`on`), or more (`above`).
    """

    def __init__(self, number: int, budget: int, share: Fraction, units: int | None = None, sides: dict[Any, str] | None = None) -> None:
        self.number, self.budget, self.share, self.units, self.sides = number, budget, share, units, sides

    def __repr__(self) -> str:
        told = "" if self.sides is None else f", {' '.join(self.sides.values())}"
        return f"<patch {self.number} of budget {self.budget}: {self.share}{told}>"


SIDES = re.compile(r"patch (\d+) budget (\d+) units (\d+) sides((?: (?:above|on|below))+)")


def patches_of(choices: Choices, report: str) -> list[Patch]:
    """Returns the patches that a report of `patches` tells, in their order."""
    with reading(report.encode()):
        head, *lines = report.splitlines()
        told = re.fullmatch(r"budgets (\d+) patches (\d+) total (\d+)", head)
        if told is None:
            raise ValueError("no line on the patches")
        budgets, count, total = map(exact.whole_of, told.groups())
        if choices.per is not None and lines.pop(0) != f"apportioned per {choices.per}":
            raise ValueError("another number of units")
        labels = choices.budgets.labels
        found = []
        for line in lines:
            own = SIDES.fullmatch(line)
            if own is None:
                raise ValueError("no line of a patch")
            number, budget, units = map(exact.whole_of, own.groups()[:3])
            sides = dict(strictly(labels, own[4].split()))
            found.append(Patch(number, budget, Fraction(units, total), units, sides))
        if len(found) != count or len(labels) != budgets or [it.number for it in found] != list(range(1, count + 1)):
            raise ValueError("other patches than were told")
        return found


class RandomVerdict:
    """Whether a population of utility maximizers could have made the choices.

    `rational` is True or False; None if undetermined, and `reason` says why. `share` is the maximum share of the choices that such a
    population could have made, a Fraction. `parts` are the types that make this share.

    If `rational` is False, `weights` has the weight of each patch, by which each rational type weighs 1 or more. They show that a higher
    share is impossible. `patches` are the patches of these types; `revealed.patches` has the sides of all.

    `wide` says whether `rp` itself rejects these choices, because they have more patches or types than it lists. `choices` and
    `certificate` are for `verify` and `check`.
    """

    def __init__(self, choices: Choices, certificate: Certificate, wide: bool = False) -> None:
        self.choices = choices
        self.certificate = certificate
        self.wide = wide
        self.rational: bool | None = None
        self.reason: str | None = None
        self.share: Fraction | None = None
        self.parts: list[Part] | None = None
        self.weights: list[Fraction] | None = None
        with reading(certificate.data):
            (item,) = certificate.items
            self.total = exact.whole_of(item["total"])
            if "withheld" in item:
                self.reason = UNFOUND.format(item["withheld"]) if wide else withheld(item["withheld"])
                return
            den = exact.whole_of(item["den"])
            self.parts = [Part(patches, Fraction(exact.whole_of(weight), den * self.total)) for patches, weight in item["parts"]]
            self.rational = "weights" not in item
            self.share = sum((part.share for part in self.parts), Fraction(0))
            if not self.rational:
                self.weights = [Fraction(exact.whole_of(weight), den) for weight in item["weights"]]

    @property
    def patches(self) -> list[Patch] | None:
        """The patches of the types in `parts`, in their order; None if the verdict is undetermined."""
        if self.parts is None:
            return None
        found: dict[tuple[int, int], Fraction] = {}
        for part in self.parts:
            for budget, number in enumerate(part.patches, 1):
                found[number, budget] = found.get((number, budget), Fraction(0)) + part.share
        return [Patch(number, budget, share) for (number, budget), share in sorted(found.items())]

    def __repr__(self) -> str:
        if self.rational is None:
            return f"random withheld: {self.reason}"
        told = f"{'random mixture' if self.rational else f'random violated share {self.share}'}{TAKEN_BY_WIDE if self.wide else ''}"
        return with_numbers(told, self.choices.budgets, self.choices.choices)


class Checked:
    """The result of the program's checker. It is true if the certificate is accepted and some item proves its verdict.

    A certificate without items, or with undetermined values alone, proves nothing. If the certificate is rejected, `item`, `reason` and
    `place` say what fails first. `wide` says whether `rp` itself rejects the data. The reason `Steps` means that there are more types than
    steps.

    `says` has a line for each item of an accepted certificate: its verdict, with the index, and whether it is proved. If the
    certificate is rejected, it says what the first item that fails claims, what is wrong with it, and what a rejection means.
    """

    def __init__(self, line: str, certificate: bytes, wide: bool = False, own_money: bool = False, table: bytes | None = None) -> None:
        self.line = line.strip()
        self.wide = wide
        self._own_money = own_money
        # Of a certificate on goodness of fit, which says what it says of a table.
        self._table = table
        words = line.split()
        with reading(line.encode()):
            self.accepted = words[0] == "accepted"
            if not self.accepted and words[0] != "rejected":
                raise ValueError("neither accepted nor rejected")
            self.items = int(words[2]) if self.accepted else None
            self.withheld = None if not self.accepted else 0 if table is not None else int(words[4])
            self.item = None if self.accepted else int(words[2])
            self.reason = None if self.accepted else words[3]
            self.place = None if self.accepted else int(words[5])
        self.proved = sum("withheld" not in item for item in Certificate(certificate).items) if self.accepted else 0
        self.says = self._accepted_says(certificate) if self.accepted else self._rejected_says(certificate)

    def _accepted_says(self, certificate: bytes) -> list[str]:
        """Returns what each item says. The program read the certificate and accepted it, so the values are those that it looked at."""
        own = items_told(certificate, self._own_money, self._table)
        return [f"item {number} {told}: {'nothing is said' if 'withheld' in item else 'proved'}" for number, (item, told) in enumerate(own, 1)]

    def _rejected_says(self, certificate: bytes) -> list[str]:
        """Returns what the item that fails claims, why it fails, and what that means."""
        try:
            claims = items_told(certificate, self._own_money) if self._table is None else []
        except Unreadable:
            claims = []
        item = self.item or 0
        what = f"item {item} {claims[item - 1][1]}" if 0 < item <= len(claims) else f"item {item}" if item else "the certificate"
        return [f"{what}: not proved. {sentence('reason', self.reason or '') or ''}".strip(), verifier.REJECTED]

    def __bool__(self) -> bool:
        return self.accepted and self.proved > 0

    def __repr__(self) -> str:
        return "\n".join([self.line + (": nothing is proved" if self.accepted and not self.proved else ""), *self.says])


# Items that add money of different rows, and what is said of their verdicts where the prices are intercepts exchanged.
ADD_MONEY = ("quasilinear", "pump", "steps", "quasilinear_level")
OF_PRICES = "on the exchanged intercepts as prices of one unit of money, which is not told of the data"


def items_told(certificate: bytes, own_money: bool, table: bytes | None = None) -> list[tuple[dict[str, Any], str]]:
    """Returns the items of a certificate, each with its verdict in words; of one on goodness of fit with what they say of a table."""
    own = Certificate(certificate)
    with reading(certificate):
        if table is not None:
            told = list(zip(own.items, verifier.fit_told(table, certificate)))
        else:
            levels = json.loads(certificate).get("levels", ())
            told = [(item, verifier.words.verdict_of(item, levels)) for item in own.items]
    return [(item, f"{said} {OF_PRICES}" if own_money and item["item"] in ADD_MONEY else said) for item, said in told]
