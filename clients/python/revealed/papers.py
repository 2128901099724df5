"""A table of a panel for a paper, as plain text and as LaTeX: how many meet each test, and how the indices are distributed."""

from __future__ import annotations

from fractions import Fraction
from math import ceil, floor, sqrt
from statistics import stdev
from typing import Any, Callable, Iterable, Sequence

from . import exact
from .catalogue import THRESHOLDS
from .faults import BadData
from .goodness import between
from .long_call import OF_ID
from .program import whole
from .tables import OWN_MONEY


def share(part: int, whole: int) -> str:
    return f"{part} of {whole} ({100 * part / whole:.1f}%)" if whole else "none"


def share_told(verdicts: Sequence[bool | None]) -> str:
    """Returns how many of some verdicts hold; one that is withheld may hold or not, so it stands between the two."""
    holds, withheld, whole = verdicts.count(True), verdicts.count(None), len(verdicts)
    if not withheld:
        return share(holds, whole)
    most = holds + withheld
    return f"between {holds} and {most} of {whole} ({100 * holds / whole:.1f}% to {100 * most / whole:.1f}%), {withheld} withheld"


def quantile(values: Sequence[Fraction], part: Fraction) -> Fraction:
    """Returns a quantile, between the two values next to it in proportion."""
    ordered = sorted(values)
    place = part * (len(ordered) - 1)
    low = floor(place)
    high = min(low + 1, len(ordered) - 1)
    return ordered[low] + (place - low) * (ordered[high] - ordered[low])


def shown(value: Fraction, digits: int) -> str:
    """Returns a number of 0 or more to so many decimal places: the nearest, of two the even one; but only 1 reads 1, and only 0 reads 0."""
    whole = round(value * 10**digits)
    if whole == 10**digits and value != 1:
        whole += 1 if value > 1 else -1
    if whole == 0 and value > 0:
        return f"<{exact.decimal_text(Fraction(1, 10**digits))}"
    text = str(whole).rjust(digits + 1, "0")
    return f"{text[:-digits]}.{text[-digits:]}"


def mean(values: Sequence[Fraction], digits: int) -> str:
    """Returns the mean; it reads 1 only where all are 1."""
    return shown(sum(values, Fraction(0)) / len(values), digits)


def deviation(values: Sequence[Fraction], digits: int) -> str:
    """Returns the standard deviation of a sample."""
    return f"{stdev(map(float, values)):.{digits}f}" if len(values) > 1 else "none"


def distribution(name: str, values: Sequence[Fraction], digits: int) -> list[tuple[str, str]]:
    """Returns the lines on an index."""
    if not values:
        return [(name, "none")]
    parts = [("minimum", 0), ("first quartile", 1), ("median", 2), ("third quartile", 3), ("maximum", 4)]
    quantiles = [(f"{name}, {what}", shown(quantile(values, Fraction(part, 4)), digits)) for what, part in parts]
    return [(f"{name}, mean", mean(values, digits)), (f"{name}, standard deviation", deviation(values, digits)), *quantiles]


def threshold(level: Any) -> tuple[str, Fraction]:
    """Returns a threshold as it is told, and as the number that it is; 0.95 is 95 hundredths."""
    text = exact.text_of(level) if not isinstance(level, str) else level.strip()
    number = exact.fraction_of(text)
    if number is None or not 0 <= number <= 1:
        raise BadData(f"thresholds are numbers from 0 to 1, as ('0.95', '0.90'), and not {exact.shown(level)}")
    return text, number


def distribution_of_bounds(name: str, lows: Sequence[Fraction], highs: Sequence[Fraction], digits: int) -> list[tuple[str, str]]:
    """Returns the lines on an index of which each unit has two bounds. Where they differ as they are told, both are told."""
    if not lows:
        return [(name, "none")]
    told = lambda low, high: between(low, high, digits)
    parts = [("minimum", 0), ("first quartile", 1), ("median", 2), ("third quartile", 3), ("maximum", 4)]
    quantiles = [(f"{name}, {what}", told(*(quantile(it, Fraction(part, 4)) for it in (lows, highs)))) for what, part in parts]
    means = told(*(sum(it, Fraction(0)) / len(it) for it in (lows, highs)))
    return [(f"{name}, mean", means), (f"{name}, standard deviation", deviation_of_bounds(lows, highs, digits)), *quantiles]


def deviation_of_bounds(lows: Sequence[Fraction], highs: Sequence[Fraction], digits: int) -> str:
    """Returns the standard deviation of a sample that lies between two others. It differs from that of the lower one by at most the norm of
    the differences, over the root of one less than their number."""
    if len(lows) < 2:
        return "none"
    own = stdev(map(float, lows))
    apart = sqrt(sum(float(high - low) ** 2 for low, high in zip(lows, highs)) / (len(lows) - 1))
    least, most = max(own - apart, 0), own + apart
    if f"{least:.{digits}f}" == f"{most:.{digits}f}":
        return f"{own:.{digits}f}"
    scale = 10**digits
    return f"{floor(least * scale) / scale:.{digits}f} to {ceil(most * scale) / scale:.{digits}f}"


# The indices of goodness of fit of a table, under the names that papers give them: what of a Fit are the bounds.
OF_FIT = [
    ("HM (Houtman-Maks), share kept", "hm_low", "hm_high"),
    ("AVI (Varian), mean of 1 - e", "levels_low", "levels_high"),
    ("MCI (minimum cost index)", "steps_low", "steps_high"),
    ("MPI (money pump), maximum", "pump", "pump"),
]


def lines_of_fits(fits: Any, digits: int) -> list[tuple[str, str]]:
    """Returns the lines on the indices of goodness of fit. One that a unit has not, as where each row has money of its own, is absent."""
    own = [it.fit for it in fits if it.fit is not None]
    lines = [("all observations kept", share(sum(it.kept == it.observations for it in own), len(own)))]
    for name, low, high in OF_FIT:
        pairs = [(getattr(it, low), getattr(it, high)) for it in own]
        if all(it[0] is not None for it in pairs):
            lines += distribution_of_bounds(name, [it[0] for it in pairs], [it[1] for it in pairs], digits)
    for name, flag in (("HM", "kept_exact"), ("AVI", "levels_exact"), ("MCI", "steps_exact")):
        met = [getattr(it, flag) for it in own if getattr(it, flag) is not None]
        lines += [(f"{name}, bounds meet", share(sum(met), len(met)))] if not all(met) else []
    return lines


def lines_of(panel: Any, units: str | None = None, thresholds: Iterable[Any] = THRESHOLDS, digits: Any = 3, fits: Any = None) -> list[tuple[str, str]]:
    """Returns the lines of the table: what is told, and its value. Units without verdicts are counted and left out of the rest; what is
    withheld counts, as what may hold or not."""
    digits = whole(digits, "digits", 1, 9)
    rows = [row for row in panel if row.fault is None]
    unnamed = sum(row.fault in OF_ID for row in panel)
    lines = [(units or panel.units, str(len(panel) - unnamed)), ("with a verdict (N)", str(len(rows)))]
    lines += [("rows without an id", str(unnamed))] if unnamed else []
    counts = sorted({row.observations for row in rows})
    lines += [("observations of each", f"{counts[0]}" if len(counts) == 1 else f"{counts[0]} to {counts[-1]}")] if counts else []
    asked = [("garp", "GARP holds"), ("homothetic", "homothetic"), ("quasilinear", "quasilinear")]
    own_money = any(row.own_money for row in rows)
    for name, title in asked[:2] if own_money else asked:
        lines.append((title, share_told([getattr(row, name) for row in rows])))
    index = [row.efficiency for row in rows]
    lines += distribution("CCEI", index, digits)
    for text, level in map(threshold, thresholds):
        lines.append((f"CCEI of at least {text}", share(sum(value >= level for value in index), len(index))))
    if fits is not None:
        lines += lines_of_fits(fits, digits)
    elif "pump" in panel.asked:
        lines += distribution("maximum money pump", [row.pump for row in rows], digits)
    if "power" in panel.asked:
        lines += distribution("power", [row.power for row in rows], digits)
    return lines


def notes_of(panel: Any, fits: Any = None) -> list[str]:
    """Returns what stands below the table: why something has no line there, and how numbers were taken."""
    own_money = any(row.own_money for row in panel if row.fault is None)
    absent = ABSENT if fits is None else ABSENT.replace(" and money pump", ", MPI and MCI")
    return [*([absent] if own_money else []), *([str(panel.offered)] if panel.offered else []), *([f"numbers: {panel.numbers}"] if panel.numbers else [])]


ABSENT = f"quasilinear and money pump are absent: {OWN_MONEY}"


def text(panel: Any, units: str | None = None, thresholds: Iterable[Any] = THRESHOLDS, digits: Any = 3, fits: Any = None) -> str:
    lines = lines_of(panel, units, thresholds, digits, fits)
    width = max(len(name) for name, _ in lines)
    return "\n".join([*(f"{name.ljust(width)}  {value}" for name, value in lines), *notes_of(panel, fits)]) + "\n"


def latex(panel: Any, units: str | None = None, thresholds: Iterable[Any] = THRESHOLDS, digits: Any = 3, fits: Any = None) -> str:
    told = [f"{escaped(name)} & {escaped(value)} \\\\" for name, value in lines_of(panel, units, thresholds, digits, fits)]
    notes = [f"\\multicolumn{{2}}{{l}}{{\\footnotesize {escaped(it)}}} \\\\" for it in notes_of(panel, fits)]
    ruled = ["\\midrule", *notes] if notes else []
    return "\n".join(["\\begin{tabular}{lr}", "\\toprule", *told[:2], "\\midrule", *told[2:], *ruled, "\\bottomrule", "\\end{tabular}"]) + "\n"


def escaped(text: str) -> str:
    """Returns a text as LaTeX shows it."""
    special: dict[str, str] = {"\\": "\\textbackslash{}", "~": "\\textasciitilde{}", "^": "\\textasciicircum{}"}
    special.update((it, "\\" + it) for it in "&%$#_{}")
    change: Callable[[str], str] = lambda it: special.get(it, it)
    return "".join(map(change, text))
