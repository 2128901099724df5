"""The results of a panel: the row of each unit, and what is said of all of them together."""

from __future__ import annotations

import os
from collections import Counter
from csv import writer
from fractions import Fraction
from functools import cached_property
from html import escape
from statistics import fmean
from typing import TYPE_CHECKING, Any, Callable, Iterable, Sequence

from . import exact
from .answers import Verdict
from .catalogue import units_by
from .commands import analyse, explains
from .faults import BadData
from .goodness import Fit, fit_of
from .long_call import BLANKS, COLUMNS, OF_ID, OFFERED, line_of
from .offered import Offered
from .program import switch
from .tables import OWN_MONEY, Table
from .worker import Running

if TYPE_CHECKING:
    from .fit_panels import FitPanel
    from .panels import Household

# So many rows are shown of a panel.
SHOWN = 6
TRUTH = {"holds": True, "violated": False, "yes": True, "no": False}


def units_of(by: Sequence[Any]) -> str:
    """Returns what units are called, by the name of a column that tells them apart, as `subjects` for `subject`; else `units`."""
    return next(filter(None, map(units_by, by)), "units")


def of_words(units: Any, by: Sequence[Any]) -> str:
    """Returns what units are called: as the argument `units` says, else by the name of their column."""
    if units is None:
        return units_of(by)
    if not isinstance(units, str) or not units.strip():
        raise BadData(f"units is what units are called, such as 'subjects', and not {exact.shown(units, repr)}")
    return units


def id_text(key: Any) -> str:
    """Returns the text of a key: a number that is whole has that of the whole number."""
    if isinstance(key, float) and key.is_integer():
        key = int(key)
    return str(key)


class Row:
    """The row of a unit of a panel. `key` is its id.

    `garp`, `homothetic`, `quasilinear` and `attained` are True or False; None if undetermined or not available. `efficiency`, `pump` and
    `power` are Fractions. Names that end in `_floor` have six decimal places, rounded down.

    If the prices are intercepts, `offered_least` is the minimum share of the offered budget that a choice spent, with six decimal places,
    rounded down. `below_line` and `over_line` count the choices that cost less and more than was offered by more than rounding explains.
    Rounding is to the decimal places of all intercepts and of all quantities of the frame.

    `fault` is None, or the error, with the `record`, from 1, and the `column` of the frame. `refusal` is the error in words. `verdict` is
    the Verdict with its certificate, and `fit` the Fit; each is computed when you use it.
    """

    def __init__(self, key: Any, texts: Sequence[str], own: Household, refusal: Callable[[], Exception] | None = None) -> None:
        self.key = key
        self.texts = dict(zip(own.panel.asked.columns, texts))
        self._refusal = refusal
        self._own = own
        self._verdict: Verdict | None = None
        self._fit: Fit | None = None
        it = self.texts
        if self.own_money:
            # The call was given prices, and says what is so of these. Of the data this test is not told: see `message`.
            it["quasilinear"] = ""
        self.observations, self.goods, self.record, self.column = (_whole(it[name]) for name in ("observations", "goods", "record", "column"))
        self.garp, self.attained, self.homothetic, self.quasilinear = (TRUTH.get(it[name]) for name in ("garp", "attained", "homothetic", "quasilinear"))
        self.efficiency, self.pump, self.power = (_fraction(it[name]) for name in ("efficiency", "pump", "power"))
        self.efficiency_floor, self.pump_floor = (_number(it[name]) for name in ("efficiency_floor", "pump_floor"))
        self.offered_least = _number(it.get("offered_least", ""))
        self.below_line, self.over_line = (_whole(it.get(name, "")) for name in ("below_line", "over_line"))
        self.fault: str | None = it["fault"] or None

    @cached_property
    def refusal(self) -> Exception | None:
        """The error as an exception, made when you use it; None without an error."""
        return None if self._refusal is None else self._refusal()

    @property
    def ccei(self) -> float | None:
        """The nearest double to the index, but below 1 where the index is."""
        return None if self.efficiency is None else exact.nearest_double(self.efficiency)

    @property
    def own_money(self) -> bool:
        """Whether its prices are intercepts exchanged, so that each of its rows has money of its own."""
        return self._own.panel.own_money

    @property
    def table(self) -> Table:
        """The unit's own table."""
        return self._own.table()

    @property
    def verdict(self) -> Verdict | None:
        """The Verdict with its certificate, by a call for this unit alone; None if the unit has an error."""
        if self._verdict is None and self.fault is None:
            own = self._own.panel
            self._verdict = analyse(self.table, exe=own.exe, wide=own.asked.wide)
        return self._verdict

    @property
    def fit(self) -> Fit | None:
        """The indices of goodness of fit, by a call for this unit alone; None if the unit has an error."""
        return self._fit if self._fit is not None or self.fault is not None else self.fitted()

    def fitted(self, running: Running | None = None) -> Fit:
        """Returns the indices of a unit without an error, by one call."""
        if self._fit is None:
            own = self.table
            self._fit = fit_of(own, self._own.panel.exe, explains(own), running)
        return self._fit

    @property
    def status(self) -> int:
        """The exit code of the program: 0 with verdicts, 4 with an error."""
        return 0 if self.fault is None else 4

    @property
    def message(self) -> str:
        """Why verdicts are missing, in words."""
        if self.fault is not None:
            return str(self.refusal)
        why = {"homothetic": "withheld" if self.texts["homothetic"] == "withheld" else "", "quasilinear": OWN_MONEY if self.own_money else ""}
        return "; ".join(f"{name}: {said}" for name, said in why.items() if said)

    def count_own(self) -> None:
        """Counts the row of an error among the unit's own rows."""
        if self.record is not None:
            self.record = self._own.places.index(self.record - 1) + 1
            self.texts["record"] = str(self.record)

    def values(self, names: Sequence[str] = COLUMNS[1:]) -> list[Any]:
        """Returns what the columns behind the key have, as values of Python."""
        return [getattr(self, name) for name in names]

    def __repr__(self) -> str:
        told = [f"{name} {self.texts[name]}" for name in COLUMNS[3:] if self.texts[name]]
        return f"{self.key!r}: {self.message if self.fault is not None else ' '.join(told)}"


def _whole(text: str) -> int | None:
    return int(text) if text else None


def _fraction(text: str) -> Fraction | None:
    return exact.fraction_read(text) if text else None


def _number(text: str) -> float | None:
    return float(text) if text else None


class Units(list):
    """What a call gives of the units of a panel, in the order in which their keys first come, and behind them the rows that have no
    unit. `units` is what they are called."""

    def __init__(self, by: Sequence[str], rows: Iterable[Any], units: str) -> None:
        super().__init__(rows)
        self.by = list(by)
        self.units = units

    def _unit(self, key: Any) -> Any:
        """Returns the unit of a position, or of an id: a text, or a tuple where several columns identify a unit."""
        if not isinstance(key, (str, tuple)):
            return list.__getitem__(self, key)
        for row in self:
            if row.key == key:
                return row
        raise KeyError(f"no unit of this panel has the id {exact.shown(key, repr)}: .frame() and .records() list the ids")

    def keys(self, row: Any) -> list[Any]:
        return list(row.key) if len(self.by) > 1 else [row.key]

    def unnamed(self) -> int:
        """Returns how many rows have no unit."""
        return sum(row.fault in OF_ID for row in self)

    def faults(self) -> list[dict[str, Any]]:
        """Returns the errors, the most frequent cause first: each `fault`, how many units have it, `count`, and the key and the message
        of the first."""
        first = {row.fault: row for row in reversed(self) if row.fault is not None}
        counts = Counter(row.fault for row in self if row.fault is not None)
        return [{"fault": it, "count": count, "key": first[it].key, "message": first[it].message} for it, count in counts.most_common()]

    def head(self, what: str) -> str:
        """Returns the first line that is said of a panel; `what` says what its units have."""
        return f"panel of {len(self) - self.unnamed():,} {self.units} by {', '.join(map(repr, self.by))}, {what}"

    def faults_said(self) -> list[str]:
        return [f"{it['count']:,} with an error: {it['fault']}, the first {it['key']!r}" for it in self.faults()]

    def said(self) -> list[str]:
        raise NotImplementedError

    def __repr__(self) -> str:
        more = len(self) - SHOWN
        rows = [repr(row).partition("\n")[0] for row in self[:SHOWN]]
        return "\n".join([*self.said(), *rows, *([f".. and {more:,} more: .frame() and .records() have all"] if more > 0 else [])])

    @staticmethod
    def pandas() -> Any:
        """Returns pandas, which has to be there; BadData says what to install where it is not."""
        try:
            import pandas
        except ImportError as wrong:
            raise BadData(NO_PANDAS) from wrong
        return pandas


class Panel(Units):
    """The Rows of a panel, in the order in which their keys first appear. Rows of the frame without a unit come last.

    `asked` names what was computed beside the tests. `units` is what the units are called.
    """

    def __init__(self, by: Sequence[str], rows: Iterable[Row], asked: Sequence[str] = (), units: str | None = None) -> None:
        super().__init__(by, rows, of_words(units, by))
        self.asked = list(asked)
        self.numbers: str | None = None
        self.offered: Offered | None = None

    def __getitem__(self, at: Any) -> Any:
        """Returns the row of a position or of an id that is a text, or of a slice a panel of these rows."""
        found = self._unit(at)
        if not isinstance(at, slice):
            return found
        part = Panel(self.by, found, self.asked, self.units)
        part.numbers, part.offered = self.numbers, self.offered
        return part

    def fits(self, workers: Any = None, *, progress: bool = True) -> FitPanel:
        """Returns the indices of goodness of fit of each unit, as `panel_fit` does. They are computed once."""
        from .fit_panels import fits_of

        return fits_of(self, workers, progress)

    def said(self) -> list[str]:
        """Returns what is said of the panel as a whole, in a few lines."""
        own = [row for row in self if row.fault is None]
        lines = [self.head(f"{len(own):,} with verdicts")]
        if own:
            index = [row.efficiency_floor for row in own if row.efficiency_floor is not None]
            holds = sum(row.garp is True for row in own)
            lines.append(f"garp holds {holds:,}, violated {len(own) - holds:,}; efficiency (CCEI) mean {fmean(index):.4f}, minimum {min(index):.6f}")
        return [*lines, *self.faults_said(), *([str(self.offered)] if self.offered else []), *([f"numbers: {self.numbers}"] if self.numbers else [])]

    def _repr_html_(self) -> str:
        """Returns what a notebook shows: what is said of the panel, and its first rows as a table."""
        names = [*self.by, *(name for name in self.columns if any(row.texts[name] for row in self[:SHOWN]))]
        heads = "".join(f"<th>{escape(str(name))}</th>" for name in names)
        rows = []
        for row in self[:SHOWN]:
            cells = [*map(str, self.keys(row)), *(row.texts[name] for name in names[len(self.by) :])]
            rows.append("<tr>" + "".join(f"<td>{escape(cell)}</td>" for cell in cells) + "</tr>")
        more = f"<p>.. and {len(self) - SHOWN:,} more</p>" if len(self) > SHOWN else ""
        said = "<br>".join(map(escape, self.said()))
        return f"<p>{said}</p><table><thead><tr>{heads}</tr></thead><tbody>{''.join(rows)}</tbody></table>{more}"

    @property
    def columns(self) -> list[str]:
        """The names of the columns behind the key: those of each panel and, if prices are intercepts, those of offered budgets."""
        return [*COLUMNS[1:], *(OFFERED if "intercepts" in self.asked else [])]

    def names(self) -> list[str]:
        """Returns the names of the columns: those that identify the units, and those behind them."""
        return [*self.by, *self.columns]

    def records(self) -> list[dict[str, Any]]:
        """Returns a dictionary for each row: its key, and the values that a Row has under the names of the columns."""
        return [dict(zip(self.names(), [*self.keys(row), *row.values(self.columns)])) for row in self]

    def csv(self) -> bytes:
        """Returns the table as a CSV file, as `rp-panel` writes it, with the id columns in place of `household`."""
        lines = [line_of(list(map(str, self.names())))]
        for row in self:
            keys = ["" if exact.is_missing(key) else id_text(key).strip(BLANKS) for key in self.keys(row)]
            lines.append(line_of([*keys, *(row.texts[name] for name in self.columns)]))
        return "".join(lines).encode("utf-8", "surrogateescape")

    def save_certificates(self, folder: Any) -> None:
        """Writes the table and the certificate of each unit with verdicts to a folder, for the replication archive of a paper.

        The files are `unit_1.csv`, `unit_1.json` and so on; `units.csv` lists the units.
        """
        os.makedirs(folder, exist_ok=True)
        own = [row for row in self if row.fault is None]
        for number, row in enumerate(own, 1):
            verdict = row.verdict
            assert verdict is not None
            with open(os.path.join(folder, f"unit_{number}.csv"), "wb") as it:
                it.write(row.table.csv())
            verdict.certificate.save(os.path.join(folder, f"unit_{number}.json"))
        with open(os.path.join(folder, "units.csv"), "w", encoding="utf-8", newline="") as it:
            writer(it, lineterminator="\n").writerows([[*self.by, "file"], *([*self.keys(row), f"unit_{at}"] for at, row in enumerate(own, 1))])

    def frame(self) -> Any:
        """Returns the rows as a pandas frame. It needs pandas; without it, BadData says what to install.

        Verdicts have the type `boolean`, and an undetermined verdict is missing. `ccei` and names that end in `_floor` have the type `Float64`.
        `ccei` is the nearest float, and is 1 only if the CCEI is 1. Fractions and errors are texts.
        """
        pandas = self.pandas()
        columns = {name: [self.keys(row)[at] for row in self] for at, name in enumerate(self.by)}
        made = {name: pandas.Series(values, dtype=None if values else object) for name, values in columns.items()}
        for name in self.columns:
            kind = KINDS[name]
            values = [row.texts[name] or None if kind == "string" else getattr(row, name) for row in self]
            made[name] = pandas.array(values, dtype=kind)
            if name == "efficiency":
                # The index as a number, under the name that it has in R.
                made["ccei"] = pandas.array([row.ccei for row in self], dtype="Float64")
        return pandas.DataFrame(made)

    def to_stata(self, path: Any) -> None:
        """Writes the frame as a file of Stata: verdicts as 0, 1 and missing, for every version of pandas."""
        frame = self.frame()
        for name, kind in frame.dtypes.items():
            if str(kind) in ("boolean", "Float64", "Int64"):
                frame[name] = frame[name].astype("Float64").to_numpy(dtype="float64", na_value=float("nan"))
            elif str(kind) in ("string", "object"):
                frame[name] = frame[name].fillna("").astype(str)
        frame.to_stata(path, write_index=False)

    def plot(self, ax: Any = None, *, fit: Any = False, **more: Any) -> Any:
        """Draws the distribution of the CCEI, beside that of random behaviour on the same budgets; returns the axes.

        `fit=True` draws the distributions of HM, AVI and MCI too, of the units alone, and returns four axes. If bounds do not meet, both are
        drawn. `ax` then has four axes.
        """
        from . import pictures

        return pictures.of_panel(self, ax, **more) if fit is False else pictures.of_fits(self._fitted(fit), ax, **more)

    def _fitted(self, fit: Any) -> FitPanel | None:
        """Returns the indices that the argument `fit` asks for."""
        if not isinstance(fit, list):
            return self.fits() if switch(fit, "fit") else None
        return fit  # type: ignore[return-value]

    def text(self, *, fit: Any = False, **more: Any) -> str:
        """Returns a table of the panel for a paper, as plain text: N, mean, SD and quartiles of the CCEI, and the shares at `thresholds`.

        `thresholds` are texts such as ("0.95", "0.90"). `units="subjects"` says what the units are called. Numbers are rounded to `digits`
        decimal places, 3 by default, half to even. Only an index of 1 prints as 1, and only 0 prints as 0.

        `fit=True` adds indices of goodness of fit: HM (Houtman and Maks), AVI (Varian, the mean of 1 - e), MCI (minimum cost index) and MPI.
        MPI is the maximum money pump index. If bounds do not meet at these decimal places, both are printed.
        """
        from . import papers

        return papers.text(self, fits=self._fitted(fit), **more)

    def latex(self, *, fit: Any = False, **more: Any) -> str:
        """Returns the table of `text` as LaTeX (with booktabs)."""
        from . import papers

        return papers.latex(self, fits=self._fitted(fit), **more)


NO_PANDAS = "a frame needs the package pandas, which is not here: pip install pandas; .records() has the same without it, and .text() and .latex() too"
KINDS = {
    **dict.fromkeys(("garp", "attained", "homothetic", "quasilinear"), "boolean"),
    **dict.fromkeys(("efficiency_floor", "pump_floor", "offered_least"), "Float64"),
    **dict.fromkeys(("efficiency", "pump", "power", "fault"), "string"),
    **dict.fromkeys(("observations", "goods", "record", "column", "below_line", "over_line"), "Int64"),
}
