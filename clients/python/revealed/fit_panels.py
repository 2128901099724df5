"""The indices of goodness of fit of each unit of a panel: one call for each unit, on all processors."""

from __future__ import annotations

import os
from csv import writer
from fractions import Fraction
from html import escape
from typing import Any, Iterable, Iterator

from . import exact, program
from .faults import Refused
from .goodness import COUNTS, DIGITS, EXACT, FLAGS, Fit, between
from .long_call import in_turn, line_of
from .panel_results import Panel, Row, Units, id_text
from .panels import answers, bar_of_units, processors, stop_where_all_are_refused
from .tables import takes_places
from .worker import Running

__all__ = ["COLUMNS", "FitPanel", "UnitFit", "fits_of", "panel_fit"]
# The bounds that a frame has as numbers, rounded down or up, and exactly as texts.
NUMBERS = [name for name in EXACT if name != "efficiency"]
COLUMNS = [*COUNTS, "dropped", "ccei", "efficiency"]
COLUMNS += [column for name in NUMBERS for column in (name, f"{name}_exact")]
COLUMNS += [*FLAGS, "fault", "record", "column"]
KINDS = {
    **dict.fromkeys([*COUNTS, "record", "column"], "Int64"),
    **dict.fromkeys(["ccei", *NUMBERS], "Float64"),
    **dict.fromkeys(["dropped", "efficiency", "fault", *(f"{name}_exact" for name in NUMBERS)], "string"),
    **dict.fromkeys(FLAGS, "boolean"),
}


class UnitFit:
    """The indices of a unit. `key` is its id, `fit` its Fit, and `row` the row of the panel; `fit` is None if the unit has an error.

    `fault` is None, or the error, with the `record`, from 1, and the `column` of the frame. `refusal` is the error as an exception, and
    `message` the error in words.
    """

    def __init__(self, row: Row, found: Fit | Exception | None) -> None:
        self.row, self.key = row, row.key
        self.fit = found if isinstance(found, Fit) else None
        self.refusal: Exception | None = found if isinstance(found, Exception) else row.refusal
        self.fault: str | None = found.fault if isinstance(found, Refused) else row.fault
        self.record, self.column = row.record, row.column

    @property
    def message(self) -> str:
        """Why indices are missing, in words."""
        return str(self.refusal) if self.fault is not None else ""

    def record_of(self) -> dict[str, Any]:
        """Returns the values of the unit's row, by the names of the columns."""
        own: dict[str, Any] = {} if self.fit is None else {**self.fit.as_dict(), "ccei": self.fit.ccei}
        found = {name: own.get(name) for name in [*COUNTS, "dropped", "ccei", "efficiency"]}
        for name in NUMBERS:
            found[name], found[f"{name}_exact"] = number_of(name, own.get(name)), own.get(name)
        return {**found, **{name: own.get(name) for name in FLAGS}, "fault": self.fault, "record": self.record, "column": self.column}

    def __repr__(self) -> str:
        if self.fit is None:
            return f"{self.key!r}: {self.message}"
        told = (f"{it.name} {between(it.low, it.high, DIGITS)}" for it in self.fit.indices()[:6] if it.low is not None)
        return f"{self.key!r}: {', '.join(told)}"


def number_of(name: str, value: Fraction | None) -> float | None:
    """Returns a bound as a float: a lower one rounded down, an upper one up, and another index to the nearest."""
    if value is None:
        return None
    rounds = exact.double_below if name.endswith("_low") else exact.double_above if name.endswith("_high") else exact.nearest_double
    return rounds(value)


class FitPanel(Units):
    """The UnitFits of a panel, in the order in which the keys first appear. `panel` is the Panel of their verdicts."""

    def __init__(self, panel: Panel, rows: Iterable[UnitFit]) -> None:
        super().__init__(panel.by, rows, panel.units)
        self.panel = panel

    def __getitem__(self, at: Any) -> Any:
        """Returns the indices of the unit of a position or of an id that is a text, or of a slice a panel of these units."""
        found = self._unit(at)
        return FitPanel(self.panel[at], found) if isinstance(at, slice) else found

    def names(self) -> list[str]:
        """Returns the names of the columns."""
        return [*self.by, *COLUMNS]

    def records(self) -> list[dict[str, Any]]:
        """Returns a dictionary for each unit, with its key and the names that a Fit has.

        A bound is a float: lower bounds are rounded down, and upper bounds up. The Fraction has the same name with `_exact` behind it.
        `dropped` is the list of observations that are not kept. `kept` and `kept_most` are numbers of observations.
        """
        return [{**dict(zip(self.by, self.keys(own))), **own.record_of()} for own in self]

    def frame(self) -> Any:
        """Returns the indices as a pandas frame; exact numbers and dropped observations are texts. It needs pandas."""
        pandas = self.pandas()
        columns = {name: [self.keys(own)[at] for own in self] for at, name in enumerate(self.by)}
        made = {name: pandas.Series(values, dtype=None if values else object) for name, values in columns.items()}
        rows = [own.record_of() for own in self]
        for name in COLUMNS:
            values = [text_of(row[name]) if KINDS[name] == "string" else row[name] for row in rows]
            made[name] = pandas.array(values, dtype=KINDS[name])
        return pandas.DataFrame(made)

    def csv(self) -> bytes:
        """Returns the indices as a CSV file."""
        lines = [line_of(list(map(str, self.names())))]
        for own in self:
            keys = ["" if exact.is_missing(key) else id_text(key) for key in self.keys(own)]
            lines.append(line_of([*keys, *(text_of(value) or "" for value in own.record_of().values())]))
        return "".join(lines).encode("utf-8", "surrogateescape")

    def said(self) -> list[str]:
        """Returns what is said of the panel as a whole."""
        own = [it.fit for it in self if it.fit is not None]
        lines = [self.head(f"{len(own):,} with indices of goodness of fit")]
        if own:
            lines += [f"all observations kept {sum(it.kept == it.observations for it in own):,}; bounds of HM meet {sum(it.kept_exact for it in own):,}"]
        return [*lines, *self.faults_said()]

    def _repr_html_(self) -> str:
        """Returns what a notebook shows: what is said of the panel, and its first units."""
        return "<br>".join(map(escape, repr(self).split("\n")))

    def save_certificates(self, folder: Any) -> None:
        """Writes the table and the certificate of each unit with indices to a folder, for the replication archive of a paper.

        The files are `unit_1.csv`, `unit_1_fit.json` and so on; `units.csv` lists the units. They have the numbers of
        `Panel.save_certificates`, so both can write to one folder.
        """
        os.makedirs(folder, exist_ok=True)
        own = [it for it in self if it.fit is not None]
        for number, it in enumerate(own, 1):
            with open(os.path.join(folder, f"unit_{number}.csv"), "wb") as out:
                out.write(it.row.table.csv())
            it.fit.certificate.save(os.path.join(folder, f"unit_{number}_fit.json"))
        with open(os.path.join(folder, "units.csv"), "w", encoding="utf-8", newline="") as out:
            writer(out, lineterminator="\n").writerows([[*self.by, "file"], *([*self.keys(it), f"unit_{at}"] for at, it in enumerate(own, 1))])

    def text(self, **more: Any) -> str:
        """Returns the table of `Panel.text` with the indices HM, AVI, MCI and MPI."""
        return self.panel.text(fit=self, **more)

    def latex(self, **more: Any) -> str:
        """Returns the table of `text` as LaTeX (with booktabs)."""
        return self.panel.latex(fit=self, **more)

    def plot(self, ax: Any = None, **more: Any) -> Any:
        """Draws the distributions of the CCEI, HM, AVI and MCI; returns four axes. See `Panel.plot`."""
        return self.panel.plot(ax, fit=self, **more)


def text_of(value: Any) -> str | None:
    """Returns a value as the text of a field; None where it is missing."""
    if value is None:
        return None
    if isinstance(value, list):
        return " ".join(map(str, value))
    return exact.written(value) if isinstance(value, (Fraction, int)) and not isinstance(value, bool) else str(value)


@takes_places
def panel_fit(
    d: Any,
    by: Any,
    workers: Any = None,
    *,
    decimals: Any = None,
    numbers: Any = "shortest",
    units: str | None = None,
    exe: Any = None,
    progress: bool = True,
    certificates: Any = None,
) -> FitPanel:
    """Computes the indices of goodness of fit of each unit of a long frame. Returns a FitPanel.

    The arguments are those of `panel`. Levels are rejected, as by `fit`. A unit with an error has the error in its row, and the others go on.
    If all units have the same error, it is raised (AllRefused).

    Each unit is a call of `rp-wide` of its own, on all processors or on `workers` of them. A subject with 25 rounds takes a few
    milliseconds of its processor, and one with 512 can take two minutes. Ctrl-C ends all calls without a result.

    `certificates` is the name of a folder for the replication archive: see `FitPanel.save_certificates`.

    References:
        Dean, M. and Martin, D. (2016). Measuring Rationality with the Minimum Cost of Revealed Preference Violations. Review of Economics
        and Statistics 98, 524-534.
        Houtman, M. and Maks, J. A. H. (1985). Determining All Maximal Data Subsets Consistent with Revealed Preference. Kwantitatieve
        Methoden 19, 89-104.
        Varian, H. R. (1990). Goodness-of-Fit in Optimizing Models. Journal of Econometrics 46, 125-140.
    """
    names = [by] if not isinstance(by, (list, tuple)) else list(by)
    if workers is not None:
        workers = program.whole(workers, "workers", 1, 1024)
    rows = answers(d, names, workers, False, decimals=decimals, numbers=numbers, units=units, exe=exe)
    stop_where_all_are_refused(rows)
    found = fits_of(rows, workers, progress)
    stop_where_all_are_refused(found)
    if certificates is not None:
        found.save_certificates(certificates)
    return found


def fits_of(panel: Panel, workers: Any = None, progress: bool = True) -> FitPanel:
    """Returns the indices of the units of a panel."""
    own = list(panel)
    return FitPanel(panel, bar_of_units(_units(own, workers or processors(), panel.units), len(own), progress))


def _units(rows: list[Row], workers: int, units: str) -> Iterator[UnitFit]:
    """Yields the indices of each row. If this is interrupted, the calls that work are ended, and that is said."""
    running, done = Running(), 0
    try:
        for row, found in in_turn(rows, lambda it: _unit(it, running), min(workers, len(rows)) or 1, running.end):
            yield UnitFit(row, found)
            done += 1
    except KeyboardInterrupt:
        raise KeyboardInterrupt(f"fit was ended after {done:,} of {len(rows):,} {units}, and there is no result") from None


def _unit(row: Row, running: Running) -> Fit | Exception | None:
    """Returns the indices of a row, or its error."""
    if row.fault is not None:
        return None
    try:
        return row.fitted(running)
    except Refused as wrong:
        return wrong
