"""The answers that stand in a report's text alone: money pump, production, power, trial, menus; by the labels of the data and in
their own units. Each keeps its `report`, which `verify` looks at where it has evidence.
"""

from __future__ import annotations

from fractions import Fraction
from typing import Any, Sequence

from . import exact
from .answers import BY_WIDE, WORDS, by_label, hinted, is_wide, money_scale, reading, walk_of, with_numbers, withheld
from .tables import MenuChoices, Sheet, Table, Technology
from .verifier import reports


class MoneyPump:
    """The maximum money pump index of a table: the maximum share of expenditure that a trader could extract along a cycle.

    `ratio` is a Fraction, 0 exactly if GARP holds. `pump` is the nearest float, and is 0 only if `ratio` is 0. `cycle` is a cycle with this
    index, by the labels of the rows. `values` show that no cycle has more, in money.
    """

    def __init__(self, table: Table, report: bytes) -> None:
        self.table = table
        self.report = report
        with reading(report):
            told = reports.read_pump(report)
            self.ratio: Fraction = told["ratio"]
            self.cycle: list[Any] = walk_of(table)(told["cycle"])
            scale = self.ratio.denominator * money_scale(table)
            self.values: dict[Any, Fraction] = by_label(table, [Fraction(value, scale) for value in told["values"]])

    @property
    def garp(self) -> bool:
        return self.ratio == 0

    @property
    def pump(self) -> float:
        return exact.nearest_double(self.ratio)

    def __float__(self) -> float:
        return self.pump

    def __repr__(self) -> str:
        return with_numbers(f"pump {self.ratio}\ncycle {' '.join(map(str, self.cycle))}", self.table)


class Power:
    """`violations` counts the random behaviours that violate GARP, among `draws` behaviours on the budgets of a table.

    `share` is the share of the draws, a Fraction, and `power` the same as a float. It is a count for one `seed`, without evidence.
    """

    def __init__(self, table: Table, report: bytes, seed: int, draws: int) -> None:
        self.table = table
        self.report = report
        with reading(report):
            told = reports.read_power(report)
            self.seed, self.draws, self.violations = told["seed"], told["draws"], told["violations"]
            if (self.seed, self.draws) != (seed, draws) or self.violations > draws:
                raise ValueError("another seed or number of draws")

    @property
    def share(self) -> Fraction:
        return Fraction(self.violations, self.draws)

    @property
    def power(self) -> float:
        return self.violations / self.draws

    def __float__(self) -> float:
        return self.power

    def __repr__(self) -> str:
        return with_numbers(f"power {self.seed} draws {self.draws} violations {self.violations}", self.table)


class Trial:
    """The verdicts on a table of pseudorandom numbers, without evidence.

    An undetermined verdict is None. `wide` has `homothetic` if `rp` itself leaves it undetermined.
    """

    def __init__(self, report: bytes, stated: bytes | None = None) -> None:
        self.report = report
        words = {"holds": True, "violated": False, "withheld": None}
        self.wide: list[str] = []
        with reading(report):
            told = reports.read_trial(report)
            self.seed, self.rows, self.goods = told["seed"], told["rows"], told["goods"]
            self.garp, self.homothetic, self.quasilinear = (words[told[name]] for name in ("garp", "homothetic", "quasilinear"))
            self.efficiency: Fraction = told["efficiency"]
            self.attained: bool = told["attained"]
            if stated is not None and self.homothetic is not None and reports.read_trial(stated)["homothetic"] == "withheld":
                self.wide.append("homothetic")

    @property
    def ccei(self) -> float:
        return exact.nearest_double(self.efficiency)

    def __repr__(self) -> str:
        lines = self.report.decode().rstrip("\n").split("\n")
        return "\n".join(line + BY_WIDE if line.split(" ")[0] in self.wide else line for line in lines)


class CostBound:
    """Bounds on what an output costs at new input prices, in money.

    `upper` is what the inputs of the row `at` cost, which made as much; None if no row made as much. `lower` is None if undetermined, and
    `reason` says why. `wide` says whether `rp` itself leaves it undetermined. If WACM is violated, `given` is False and both are None.
    """

    def __init__(self, label: Any, prices: dict[str, Fraction], output: Fraction) -> None:
        self.label, self.prices, self.output = label, prices, output
        self.given = self.wide = False
        self.lower: Fraction | None = None
        self.upper: Fraction | None = None
        self.at: Any = None
        self.reason: str | None = None

    def __repr__(self) -> str:
        return f"<cost of {self.output} at {self.label!r}: {f'{self.lower} to {self.upper}' if self.given else 'none, the cost axiom fails'}>"


class CostMinimisation:
    """Whether a firm minimizes cost, and whether it maximizes profit.

    `cost` and `profit` are True or False. `profit` is None if the output has no price. `cost_pair` and `profit_pair` are the labels of the
    first two rows that violate the axiom. With the inputs of the second row, the first would have paid less, or made more profit. `bounds`
    has the bounds on each output.
    """

    def __init__(self, technology: Technology, asked: Sheet, report: bytes, is_asked: bool = True, stated: bytes | None = None, hint: str = "") -> None:
        self.technology = technology
        self.asked = asked
        self.report = report
        walk = walk_of(technology)
        with reading(report):
            told = reports.read_cost(report)
            self.cost = told["cost"] == ()
            self.profit = None if told["profit"] is None else told["profit"] == ()
            self.cost_pair: tuple[Any, ...] | None = tuple(walk(told["cost"])) or None
            self.profit_pair: tuple[Any, ...] | None = tuple(walk(told["profit"] or ())) or None
            if len(told["bounds"]) != len(asked.rows) or (told["profit"] is None) == technology.priced:
                raise ValueError("there are not the answers that were asked for")
            own = told["bounds"] if stated is None else reports.read_cost(stated)["bounds"]
            each = list(zip(asked.labels, told["bounds"], own)) if is_asked else []
            self.bounds = [_cost_bound(technology, asked, label, it, of_rp, hint) for label, it, of_rp in each]

    def __repr__(self) -> str:
        lines = [f"cost {WORDS[self.cost]}", *([] if self.profit is None else [f"profit {WORDS[self.profit]}"])]
        return with_numbers("\n".join([*lines, *map(repr, self.bounds)]), self.technology, self.asked)


def _cost_bound(technology: Technology, asked: Sheet, label: Any, told: dict[str, Any], stated: dict[str, Any], hint: str) -> CostBound:
    price, quantity = asked.scale("w_"), technology.quantity_scale
    prices = {name: Fraction(value, price) for name, value in zip(technology.inputs, told["prices"])}
    found = CostBound(label, prices, Fraction(told["output"], quantity))
    if "lower" in told:
        money = price * quantity
        found.given = True
        if "withheld" in told["lower"]:
            found.reason = hinted(withheld(told["lower"]["withheld"]), hint)
        else:
            found.lower = told["lower"]["value"] / money
            found.wide = is_wide(told["lower"], stated["lower"])
        if told["upper"] is not None:
            found.upper, (found.at,) = Fraction(told["upper"]["cost"], money), walk_of(technology)([told["upper"]["at"]])
    return found


class OrderPart:
    """A strict order of the letters, the best first, and its share of the population."""

    def __init__(self, order: Sequence[str], share: Fraction) -> None:
        self.order = "".join(order)
        self.share = share

    def __repr__(self) -> str:
        return f"<{' '.join(self.order)}: {self.share}>"


class MenuVerdict:
    """Whether people with strict preference orders could have made the choices from menus.

    `rational` is True or False; None if undetermined, and `reason` says why. `share` is the maximum share of the choices that such people
    could have made, and `parts` are the orders that make it. If `rational` is False, `weights` has the weight of each cell, which shows
    that a higher share is impossible. `orders` counts the orders that pick a cell from every menu.

    If something was chosen from every menu, `least_sum` is the minimum Block-Marschak sum as a share of the population. `sum_letter` and
    `sum_menu` say where it is.
    """

    def __init__(self, choices: MenuChoices, report: bytes) -> None:
        self.choices = choices
        self.report = report
        self.rational: bool | None = None
        self.reason: str | None = None
        self.share: Fraction | None = None
        self.parts: list[OrderPart] | None = None
        self.weights: list[Fraction] | None = None
        self.least_sum: Fraction | None = None
        self.sum_letter: str | None = None
        self.sum_menu: str | None = None
        with reading(report):
            told = reports.read_menus(report)
            self.total, self.orders = told["total"], told["orders"]
            if told["per"] != choices.per:
                raise ValueError("another number of units")
            if told["sums"] is not None:
                self.least_sum = Fraction(told["sums"]["least"], self.total)
                self.sum_letter, self.sum_menu = told["sums"]["letter"], told["sums"]["menu"]
            self._evidence(told["item"])

    def _evidence(self, item: dict[str, Any]) -> None:
        if "withheld" in item:
            self.reason = withheld(item["withheld"])
            return
        den = item["den"]
        self.parts = [OrderPart(order, Fraction(weight, den * self.total)) for order, weight in item["parts"]]
        self.rational = "weights" not in item
        self.share = sum((part.share for part in self.parts), Fraction(0))
        if not self.rational:
            self.weights = [Fraction(weight, den) for weight in item["weights"]]
            if self.share != item["share"]:
                raise ValueError("the share is not that of the parts")

    def __repr__(self) -> str:
        if self.rational is None:
            return f"menus withheld: {self.reason}"
        return "menus mixture" if self.rational else f"menus violated share {self.share}"
