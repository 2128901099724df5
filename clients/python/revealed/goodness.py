"""How far choices are from rational: the indices of goodness of fit of a table, by the labels of its rows.

Each number is one of the report of `rp-wide fit`. The certificate is of a second call, which is made when it is used.
"""

from __future__ import annotations

from fractions import Fraction
from html import escape
from math import ceil, floor
from typing import Any, Iterator, NamedTuple, Sequence

from . import exact, program
from .answers import Certificate, by_label, money_scale, reading, walk_of, with_numbers
from .faults import BadData, Unreadable
from .fit_reports import AXIOMS, MEASURES, read_fit
from .program import Explains
from .tables import OWN_MONEY, Table
from .worker import Running

TABLE = "table.csv"
# The bounds on the homothetic level meet where they differ by no more.
NEAR = Fraction(1, 2**40)
LEFT_OUT = "rp-wide found no evidence of it, and prints none"
DIGITS = 6


class Index(NamedTuple):
    """An index under the name that papers give it: what it is, its two bounds, and whether they meet. A bound that is not there is None."""

    name: str
    what: str
    low: Fraction | None
    high: Fraction | None
    is_exact: bool | None
    reason: str | None = None


class Fit:
    """The indices of goodness of fit of a table. Fractions are exact; a name that ends in `_low` or `_high` is a bound.

    `garp_pairs`, `wgarp_pairs`, `warp_pairs` and `sarp_pairs` count the ordered pairs that violate an axiom, of `pairs` pairs. `shares` has
    their shares. `violating_observations` counts the observations in a pair that violates GARP. `efficiency` is the CCEI, `ccei` the
    nearest float, and `attained` says whether GARP holds at the CCEI itself.

    Houtman and Maks: the largest consistent set has from `kept` to `kept_most` observations. `kept_rows` are the labels of such a set with
    `kept` observations, and `dropped` the other labels. `hm_low` and `hm_high` are the shares of the table.

    Varian: `levels_low` and `levels_high` bound the mean of 1 - e, and `squares_low` and `squares_high` the mean of its square. `levels` and
    `squares_levels` have the levels of the upper bounds, by label. No root is taken.

    Minimum cost index: `steps_low` and `steps_high`, as shares of all expenditure. `removed_steps` are the strict preferences that are
    dropped, as pairs of labels.

    `pump` is the maximum money pump index, and `pump_cycle` a cycle that has it. `quasilinear_level`, `homothetic_low` and
    `homothetic_high` say at which level the two tests hold.

    `kept_exact`, `levels_exact`, `squares_exact`, `steps_exact` and `homothetic_exact` say whether the bounds meet. Bounds on levels meet to
    2^-40 for each observation. What is not available is None, and `reasons` says why. `evidence` has the rest of the report, by label.
    """

    def __init__(self, table: Table, report: bytes, exe: Any = None) -> None:
        self.table = table
        self.report = report
        self.exe = exe
        self.reasons: dict[str, str] = {}
        self.evidence: dict[str, dict[str, Any]] = {}
        self._certificate: Certificate | None = None
        with reading(report):
            told = read_fit(report)
            self._read_counts(told["head"], told["violations"], told["efficiency"])
            self._read_kept(told["kept"])
            self._read_levels(*(told[measure] for measure in MEASURES))
            self._read_steps(told["steps"])
            self._read_walks(told["pump"], told["quasilinear_level"], told["homothetic_level"])

    def _read_counts(self, head: Sequence[int], counts: dict[str, int], index: dict[str, Any]) -> None:
        self.observations, self.goods = head[:2]
        size = len(self.table)
        if (self.observations, self.goods, counts["count"], counts["pairs"]) != (size, len(self.table.goods), size, size * (size - 1)):
            raise ValueError("the indices are of a table of another size")
        self.pairs: int = counts["pairs"]
        self.garp_pairs, self.wgarp_pairs, self.warp_pairs, self.sarp_pairs = (counts[axiom] for axiom in AXIOMS)
        self.violating_observations: int = counts["observations"]
        self.efficiency: Fraction = index["level"]
        self.attained: bool = index["attained"]
        walk = walk_of(self.table)
        at: dict[str, Any] = {"at_ranks": by_label(self.table, index["at_ranks"])} if self.attained else {"at_cycle": walk(index["at_cycle"])}
        self.evidence["efficiency"] = {"below": by_label(self.table, index["below"]), "above": walk(index["above"]), **at}

    def _read_kept(self, told: dict[str, Any]) -> None:
        walk = walk_of(self.table)
        self.kept, self.kept_most = told["least"], told["most"]
        self.kept_exact = self.kept == self.kept_most
        self.kept_rows: list[Any] = walk(told["observations"])
        if told["count"] != self.observations or len(set(told["observations"])) != self.kept or len(told["ranks"]) != self.kept or self.kept > self.kept_most:
            raise ValueError("the kept observations are not as many as they are said to be")
        places = set(told["observations"])
        self.dropped: list[Any] = [label for place, label in enumerate(self.table.labels, 1) if place not in places]
        groups = [(kind, walk(members), Fraction(weight, told["den"])) for kind, members, weight in told["groups"]]
        self.evidence["kept"] = {"ranks": dict(zip(self.kept_rows, told["ranks"])), "groups": groups}

    def _read_levels(self, mean: dict[str, Any], squares: dict[str, Any]) -> None:
        self.levels_low, self.levels_high, self.levels_exact = _bounds(mean)
        self.squares_low, self.squares_high, self.squares_exact = _bounds(squares)
        self.levels: dict[Any, Fraction] = by_label(self.table, mean["at"])
        self.squares_levels: dict[Any, Fraction] = by_label(self.table, squares["at"])
        self.evidence.update(levels=self._shown(mean), squares=self._shown(squares))

    def _read_steps(self, told: dict[str, Any]) -> None:
        self.steps_low: Fraction | None
        self.steps_high: Fraction | None
        self.steps_exact: bool | None
        self.steps_low, self.steps_high, self.steps_exact = _bounds(told)
        walk = walk_of(self.table)
        self.removed_steps: list[tuple[Any, ...]] | None = [tuple(walk(pair)) for pair in told["removed"]]
        self.evidence["steps"] = self._shown(told)
        if self.table.own_money:
            self.steps_low = self.steps_high = self.steps_exact = self.removed_steps = None
            self.evidence["steps"] = {}
            self.reasons["steps"] = OWN_MONEY

    def _read_walks(self, pump: dict[str, Any], quasilinear: dict[str, Any] | None, homothetic: dict[str, Any] | None) -> None:
        walk = walk_of(self.table)
        self.pump: Fraction | None = None
        self.pump_cycle: list[Any] | None = None
        self.quasilinear_level: Fraction | None = None
        self.homothetic_low: Fraction | None = None
        self.homothetic_high: Fraction | None = None
        self.homothetic_exact: bool | None = None
        if self.table.own_money:
            self.reasons.update(pump=OWN_MONEY, quasilinear_level=OWN_MONEY)
        else:
            self.pump, self.pump_cycle = pump["ratio"], walk(pump["cycle"])
            self.evidence["pump"] = self._valued(pump)
            if quasilinear is None:
                self.reasons["quasilinear_level"] = LEFT_OUT
            else:
                self.quasilinear_level = quasilinear["ratio"]
                self.evidence["quasilinear_level"] = self._valued(quasilinear)
        if homothetic is None:
            self.reasons["homothetic_level"] = LEFT_OUT
        else:
            self.homothetic_low, self.homothetic_high = homothetic["low"], homothetic["high"]
            self.homothetic_exact = homothetic["high"] - homothetic["low"] <= NEAR
            self.evidence["homothetic_level"] = {"cycle": walk(homothetic["cycle"]), "values": by_label(self.table, homothetic["values"])}

    def _shown(self, told: dict[str, Any]) -> dict[str, Any]:
        walk = walk_of(self.table)
        cycles = [(walk(cycle), Fraction(weight, told["den"])) for _, cycle, weight in told["cycles"]]
        return {"ranks": by_label(self.table, told["ranks"]), "cycles": cycles}

    def _valued(self, told: dict[str, Any]) -> dict[str, Any]:
        scale = told["ratio"].denominator * money_scale(self.table)
        return {"cycle": walk_of(self.table)(told["cycle"]), "values": by_label(self.table, [Fraction(value, scale) for value in told["values"]])}

    @property
    def certificate(self) -> Certificate:
        """The certificate of the indices, by a second call when it is first used."""
        if self._certificate is None:
            out = asked(["fit", TABLE, "--json"], self.table, self.exe)
            found = Certificate(out)
            with reading(out):
                if not self._agrees({item.get("measure", item["item"]): item for item in found.items}):
                    raise Unreadable(out.decode("utf-8", "replace"), "its certificate is of other indices than its report")
            self._certificate = found
        return self._certificate

    def _agrees(self, items: dict[str, dict[str, Any]]) -> bool:
        """Whether the items of a certificate have the numbers of the report."""
        counts, kept = items["violations"], items["kept"]
        own = {**{axiom: getattr(self, f"{axiom}_pairs") for axiom in AXIOMS}, "observations": self.violating_observations}
        levels = [(items[name]["at"], found) for name, found in (("mean", self.levels), ("squares", self.squares_levels))]
        return (
            all(int(counts[name]) == count for name, count in own.items())
            and exact.fraction_read(items["efficiency"]["level"]) == self.efficiency
            and (walk_of(self.table)(kept["kept"]), int(kept["most"])) == (self.kept_rows, self.kept_most)
            and all([it == 0 for it in at] == [level == 1 for level in found.values()] for at, found in levels)
        )

    @property
    def ccei(self) -> float:
        return exact.nearest_double(self.efficiency)

    @property
    def shares(self) -> dict[str, Fraction | None]:
        """The shares of the pairs that violate each axiom, and of the observations in a pair that violates GARP."""
        found = {axiom: self._share(getattr(self, f"{axiom}_pairs"), self.pairs) for axiom in AXIOMS}
        return {**found, "observations": self._share(self.violating_observations, self.observations)}

    @staticmethod
    def _share(part: int, whole: int) -> Fraction | None:
        return Fraction(part, whole) if whole else None

    @property
    def hm_low(self) -> Fraction:
        return Fraction(self.kept, self.observations)

    @property
    def hm_high(self) -> Fraction:
        return Fraction(self.kept_most, self.observations)

    def indices(self) -> list[Index]:
        """Returns each index under the name that papers give it, with its two bounds."""
        reason = self.reasons.get
        return [
            Index("CCEI", "critical cost efficiency index", self.efficiency, self.efficiency, True),
            Index("HM", "share of kept observations", self.hm_low, self.hm_high, self.kept_exact),
            Index("AVI", "mean of 1 - e", self.levels_low, self.levels_high, self.levels_exact),
            Index("AVI, squares", "mean of (1 - e)^2, no root taken", self.squares_low, self.squares_high, self.squares_exact),
            Index("MCI", "minimum cost index", self.steps_low, self.steps_high, self.steps_exact, reason("steps")),
            Index("MPI, maximum", "maximum money pump index", self.pump, self.pump, None if self.pump is None else True, reason("pump")),
            Index("quasilinear level", "level of cyclical monotonicity", *self._quasilinear(), reason("quasilinear_level")),
            Index("homothetic level", "level of HARP", self.homothetic_low, self.homothetic_high, self.homothetic_exact, reason("homothetic_level")),
        ]

    def _quasilinear(self) -> tuple[Fraction | None, Fraction | None, bool | None]:
        level = self.quasilinear_level
        return level, level, None if level is None else True

    def records(self) -> list[dict[str, Any]]:
        """Returns a dictionary for each index.

        `low` and `high` are floats, rounded down and up, and `low_exact` and `high_exact` the Fractions. `exact` says whether the bounds meet,
        and `reason` why an index is missing.
        """
        return [
            {
                "index": it.name,
                "what": it.what,
                "low": None if it.low is None else exact.double_below(it.low),
                "high": None if it.high is None else exact.double_above(it.high),
                "low_exact": it.low,
                "high_exact": it.high,
                "exact": it.is_exact,
                "reason": it.reason,
            }
            for it in self.indices()
        ]

    def frame(self) -> Any:
        """Returns the indices as a pandas frame; exact numbers are texts. It needs pandas."""
        try:
            import pandas
        except ImportError as wrong:
            raise BadData("a frame needs the package pandas, which is not here: pip install pandas; .records() has the same without it") from wrong
        rows = self.records()
        made = pandas.DataFrame({name: [exact.written(it) if isinstance(it := row[name], Fraction) else it for row in rows] for name in rows[0]})
        return made.astype({"low": "float64", "high": "float64", "exact": "boolean"})

    def as_dict(self) -> dict[str, Any]:
        """Returns the indices by name."""
        return {name: getattr(self, name) for name in NAMES}

    def said(self) -> Iterator[str]:
        """Yields the lines of what is shown."""
        counts = ", ".join(f"{axiom} {getattr(self, f'{axiom}_pairs')}" for axiom in AXIOMS)
        yield f"violations {counts} of {self.pairs} pairs, {self.violating_observations} of {self.observations} observations"
        for it in self.indices():
            told = f"{it.name} {between(it.low, it.high, DIGITS)}"
            if it.name == "HM":
                kept = f"{self.kept}" if self.kept_exact else f"{self.kept} to {self.kept_most}"
                without = f", without {' '.join(map(str, self.dropped))}" if self.dropped else ""
                told += f" (kept {kept} of {self.observations}{without})"
            yield told + (f": {it.reason}" if it.reason else "")

    def __repr__(self) -> str:
        return with_numbers("\n".join(self.said()), self.table)

    def _repr_html_(self) -> str:
        """Returns what a notebook shows: the counts, and the indices as a table."""
        counts, *_ = self.said()
        rows = []
        for it in self.indices():
            met = "" if it.is_exact is None else "yes" if it.is_exact else "no"
            cells = [it.name, it.what, between(it.low, it.high, DIGITS), met, it.reason or ""]
            rows.append("<tr>" + "".join(f"<td>{escape(cell)}</td>" for cell in cells) + "</tr>")
        heads = "".join(f"<th>{head}</th>" for head in ("index", "what", "value", "exact", "reason"))
        dropped = f"<p>without {escape(' '.join(map(str, self.dropped)))}</p>" if self.dropped else ""
        return f"<p>{escape(counts)}</p><table><thead><tr>{heads}</tr></thead><tbody>{''.join(rows)}</tbody></table>{dropped}"


# What `as_dict` has, and a record of a panel.
COUNTS = ["observations", "goods", "garp_pairs", "wgarp_pairs", "warp_pairs", "sarp_pairs", "violating_observations", "kept", "kept_most"]
EXACT = ["efficiency", "levels_low", "levels_high", "squares_low", "squares_high", "steps_low", "steps_high", "pump"]
EXACT += ["quasilinear_level", "homothetic_low", "homothetic_high"]
FLAGS = ["kept_exact", "levels_exact", "squares_exact", "steps_exact", "homothetic_exact"]
NAMES = [*COUNTS, *EXACT, *FLAGS, "dropped"]


def _bounds(told: dict[str, Any]) -> tuple[Fraction, Fraction, bool]:
    if told["low"] > told["high"]:
        raise ValueError("a lower bound is above its upper bound")
    return told["low"], told["high"], told["exact"]


def between(low: Fraction | None, high: Fraction | None, digits: int) -> str:
    """Returns two bounds to so many decimal places: one number where both are nearest to it, else the lower one rounded down and the
    upper one rounded up. As one number only 0 reads 0, and only 1 reads 1."""
    from .papers import shown

    if low is None or high is None:
        return "none"
    if shown(low, digits) == shown(high, digits):
        return shown(low, digits)
    down, up = (Fraction(rounds(it * 10**digits), 10**digits) for rounds, it in ((floor, low), (ceil, high)))
    return f"{shown(down, digits)} to {shown(up, digits)}"


def asked(words: Sequence[str], table: Table, exe: Any, explain: Explains | None = None, running: Running | None = None) -> bytes:
    """Returns the answer of `fit` on a table."""
    ran = program.call_fit(words, {TABLE: table.csv()}, exe, len(table), running)
    return program.output(ran, explain).encode()


def fit_of(table: Table, exe: Any, explain: Explains, running: Running | None = None) -> Fit:
    """Returns the indices of a table."""
    return Fit(table, asked(["fit", TABLE], table, exe, explain, running), exe)
