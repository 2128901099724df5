"""Pictures for a paper, with matplotlib, which is asked for when one is drawn and never before.

Two of them: the budget lines and choices of a table of two goods, with the cycle that violates the axiom; and the distribution
of the efficiency index over a panel, beside that of behaviour drawn uniformly on the same budgets (after Choi, Fisman, Gale and
Kariv 2007, "Consistency and Heterogeneity of Individual Behavior under Uncertainty", American Economic Review).
"""

from __future__ import annotations

from fractions import Fraction
from typing import Any, Sequence

from . import draws, papers
from .answers import Verdict
from .faults import BadData
from .goodness import NEAR

PLAIN, LIGHT, STRONG = "#3b6ea5", "#b9c4d0", "#c0392b"
# What is behind a label, so that no budget line crosses it; points and arrows are drawn over it.
HALO = {"boxstyle": "round,pad=0.1", "facecolor": "white", "edgecolor": "none", "alpha": 0.8}
# How many bins the bar of an index of 1 stands behind the others.
SPIKE = 2


def axes_of(ax: Any) -> Any:
    """Returns the axes, or new ones."""
    if ax is not None:
        return ax
    try:
        from matplotlib import pyplot
    except ImportError as wrong:
        raise BadData("a picture needs the package matplotlib: pip install matplotlib") from wrong
    return pyplot.subplots()[1]


def of_verdict(verdict: Verdict, ax: Any = None, *, labels: bool = True) -> Any:
    """Draws the budget lines of a table of two goods, the choices on them, and the cycle that violates the axiom."""
    table = verdict.table
    if len(table.goods) != 2:
        raise BadData(f"a picture of budget lines has two goods, and this table {len(table.goods)}")
    ax = axes_of(ax)
    prices, bundles = sides(table)
    cycle = verdict.cycle or []
    place = {label: at for at, label in enumerate(table.labels)}
    marked = {place[label] for label in cycle}
    for at, (p, q) in enumerate(zip(prices, bundles)):
        spent = p[0] * q[0] + p[1] * q[1]
        # The line that was offered, where intercepts tell it: they are the prices exchanged.
        across, up = (p[1], p[0]) if table.offered is not None else (spent / p[0], spent / p[1])
        strong = at in marked
        ax.plot([0, across], [up, 0], color=STRONG if strong else LIGHT, linewidth=1.4 if strong else 0.8, zorder=2 if strong else 1)
    rest = [q for at, q in enumerate(bundles) if at not in marked]
    if rest:
        ax.scatter(*zip(*rest), s=18, color=PLAIN, zorder=3, label="choices")
    if marked:
        ax.scatter(*zip(*(bundles[at] for at in sorted(marked))), s=30, color=STRONG, zorder=4, label="choices of the cycle")
    arrows(ax, [bundles[place[label]] for label in cycle])
    if labels and (marked or len(bundles) <= 12):
        label_points(ax, {str(table.labels[at]): bundles[at] for at in (sorted(marked) if marked else range(len(bundles)))})
    ax.set_xlabel(table.goods[0])
    ax.set_ylabel(table.goods[1])
    ax.set_xlim(left=0)
    ax.set_ylim(bottom=0)
    index = f"efficiency index {papers.shown(verdict.efficiency, 4)}{'' if verdict.attained else ', not attained'}"
    ax.set_title(f"GARP {'holds' if verdict.garp else 'is violated'}; {index}", fontsize=10)
    if marked:
        ax.legend(frameon=False, fontsize=8)
    return ax


def label_points(ax: Any, bundles: dict[str, Sequence[float]]) -> None:
    """Writes the label of each bundle on the side away from the others, where no arrow of the cycle ends."""
    center = [sum(it[axis] for it in bundles.values()) / len(bundles) for axis in (0, 1)]
    for label, at in bundles.items():
        across, up = (1 if own >= middle else -1 for own, middle in zip(at, center))
        how = {"ha": "left" if across > 0 else "right", "va": "bottom" if up > 0 else "top", "fontsize": 8, "bbox": HALO}
        ax.annotate(label, at, textcoords="offset points", xytext=(5 * across, 3 * up), zorder=2.5, **how)


def arrows(ax: Any, walk: Sequence[Any]) -> None:
    """Draws the steps of a walk: from each bundle to one that it is revealed preferred to."""
    for start, end in zip(walk, walk[1:]):
        how = {"arrowstyle": "-|>", "color": STRONG, "linewidth": 1.2, "connectionstyle": "arc3,rad=0.15", "shrinkA": 5, "shrinkB": 5}
        ax.annotate("", xy=end, xytext=start, arrowprops=how, zorder=5)


def sides(table: Any) -> tuple[list[list[float]], list[list[float]]]:
    """Returns the prices and the quantities of a table as they went to the program, as floats."""
    count = len(table.goods)
    rows = [list(map(float, texts[: 2 * count])) for texts in table.texts]
    return [row[:count] for row in rows], [row[count:] for row in rows]


LEVELS = (Fraction(9, 10), Fraction(19, 20))


def of_panel(panel: Any, ax: Any = None, *, random: int = 1000, seed: Any = 1, bins: int = 20, exe: Any = None, workers: int | None = None) -> Any:
    """Draws how many units have which efficiency index, beside `random` behaviours on the same budgets; 0 leaves these out. An index of
    exactly 1 has a bar of its own, apart from those just below.

    A behaviour takes the budgets of one unit, in turn, and on each a bundle drawn uniformly on the budget line. Its index is
    the program's. Beside each stands the share whose index is at least 0.90, and at least 0.95.
    """
    rows = [row for row in panel if row.fault is None]
    if not rows:
        raise BadData(f"none of the {panel.units} of this panel has a verdict")
    ax = axes_of(ax)
    behaviours = draws.verdicts(rows, random, seed, exe=exe, workers=workers) if random else []
    told = [(rows, PLAIN, f"{len(rows)} {panel.units}: {shares_told(rows)}")]
    told += [(behaviours, LIGHT, f"{len(behaviours)} random behaviours: {shares_told(behaviours)}")] if behaviours else []
    low = min([0.95, *(row.ccei for own, _, _ in told for row in own)])
    width = (1 - low) / bins
    for at, (own, color, name) in enumerate(told):
        starts = [low + width * (place + 0.05 + 0.9 * at / len(told)) for place in [*range(bins), bins + SPIKE]]
        ax.bar(starts, shares_in(own, low, width, bins), width=0.9 * width / len(told), align="edge", color=color, label=name)
    # The bins end at 1, and the bar behind them is of an index of 1, so its tick is no part of the scale.
    ticks = [it for it in ax.get_xticks() if low - width <= it < 1 - width]
    ax.set_xticks([*ticks, 1, 1 + width * (SPIKE + 0.5)], [*(f"{it:.3g}" for it in ticks), "1", "exactly 1"])
    ax.set_xlabel("critical cost efficiency index")
    ax.set_ylabel("share")
    ax.legend(frameon=False, fontsize=8, loc="upper left")
    return ax


# The indices of goodness of fit that are drawn: their names, what of a Fit are the bounds, and which value is that of rational choices.
OF_FIT = [
    ("HM, share of kept observations", "hm_low", "hm_high", 1),
    ("AVI, mean of 1 - e", "levels_low", "levels_high", 0),
    ("MCI, share of expenditure", "steps_low", "steps_high", 0),
]


def of_fits(fits: Any, ax: Any = None, *, bins: int = 20, **more: Any) -> Any:
    """Draws the distribution of the CCEI as `of_panel` does, and those of HM, AVI and MCI over the units. An index of exactly 1, or of
    exactly 0, that of rational choices, has a bar of its own. If bounds do not meet, both are drawn."""
    four = list(ax.flat if hasattr(ax, "flat") else ax) if ax is not None else list(grid_of_axes().flat)
    if len(four) != 4:
        raise BadData(f"the picture with fit=True has four axes, and these are {len(four)}")
    of_panel(fits.panel, four[0], bins=bins, **more)
    own = [it.fit for it in fits if it.fit is not None]
    for axes, (name, low, high, ideal) in zip(four[1:], OF_FIT):
        pairs = [(getattr(it, low), getattr(it, high)) for it in own]
        axes.set_xlabel(name)
        axes.set_ylabel("share")
        if any(it[0] is None for it in pairs):
            axes.text(0.5, 0.5, "not defined: each row\nhas its own unit of money", ha="center", va="center", transform=axes.transAxes, fontsize=8)
            continue
        bounds_drawn(axes, pairs, ideal, bins)
    return four


def bounds_drawn(axes: Any, pairs: Sequence[Any], ideal: int, bins: int) -> None:
    """Draws how many units have which bounds."""
    meet = all(high - low <= NEAR for low, high in pairs)
    sides = [("", 0)] if meet else [("lower bound", 0), ("upper bound", 1)]
    # How far an index is from that of rational choices.
    most = max([0.05, *(float(abs(it - ideal)) for pair in pairs for it in pair)])
    width = most / bins
    for number, (name, side) in enumerate(sides):
        far = [0 if pair[side] == ideal else 1 + min(bins - 1, int(float(abs(pair[side] - ideal)) / width)) for pair in pairs]
        starts = [ideal + (1 if ideal == 0 else -1) * width * (place if place == 0 else place + SPIKE) for place in range(bins + 1)]
        shift = 0.9 * width / len(sides)
        heights = [far.count(place) / len(far) for place in range(bins + 1)]
        axes.bar([it - 0.45 * width + number * shift for it in starts], heights, width=shift, align="edge", color=(PLAIN, LIGHT)[number], label=name)
    sign = 1 if ideal == 0 else -1
    ticks = [most * part / 4 for part in range(1, 5)]
    axes.set_xticks(
        [ideal, *(ideal + sign * (it + width * (SPIKE + 0.5)) for it in ticks)], [f"exactly {ideal}", *(f"{ideal + sign * it:.2g}" for it in ticks)]
    )
    if not meet:
        axes.legend(frameon=False, fontsize=8)


def grid_of_axes() -> Any:
    """Returns four new axes, in two rows."""
    try:
        from matplotlib import pyplot
    except ImportError as wrong:
        raise BadData("a picture needs the package matplotlib: pip install matplotlib") from wrong
    return pyplot.subplots(2, 2, figsize=(11, 8), layout="constrained")[1]


def shares_in(own: Sequence[Any], low: float, width: float, bins: int) -> list[float]:
    """Returns the share of some rows whose index lies in each bin below 1, and behind them the share of those that have exactly 1."""
    found = [0] * (bins + 1)
    for row in own:
        found[bins if row.efficiency == 1 else min(bins - 1, int((row.ccei - low) / width))] += 1
    return [it / len(own) for it in found]


def shares_told(answers: Sequence[Any]) -> str:
    """Returns which share of some verdicts has an index of at least each level."""
    share = lambda level: sum(it.efficiency >= level for it in answers) / len(answers)
    return ", ".join(f"{100 * share(level):.1f}% at least {float(level):.2f}" for level in LEVELS)
