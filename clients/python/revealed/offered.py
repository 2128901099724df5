"""What choices spent of the budgets that were offered, where budget lines are given by their intercepts.

The verdicts are about the chosen bundles and what these cost: of the offered line the slope alone is used. So this is no part of a
verdict. It is a report about the user's own columns: which share of the offered budget each choice spent, x/i_x + y/i_y, and whether
rounding to the decimal places that the columns have explains that the share is not 1.
"""

from __future__ import annotations

from fractions import Fraction
from typing import Any, Iterable, NamedTuple, Sequence

from . import exact
from .faults import BadData


class Overspent(BadData):
    """A choice costs more than was offered, by more than rounding.

    `label` is the label of its row, and `share` its cost as a share of the offered budget. `count` is how many rows have such choices.
    """

    def __init__(self, label: Any, texts: Sequence[str], names: Sequence[str], share: Fraction, count: int) -> None:
        self.label, self.share, self.count = label, share, count
        more = f", and {count - 1:,} other {'choice does' if count == 2 else 'choices do'} too" if count > 1 else ""
        line = ", ".join(f"{name} {text}" for name, text in zip(names, texts))
        super().__init__(
            f"row {exact.shown(label, repr)} ({line}): the choice costs {told(share, up=True)} of the offered budget, more than rounding explains{more}."
            " Correct the row. If no line was offered, give prices in columns p_NAME."
        )


class Offered(NamedTuple):
    """What choices spent of the offered budgets.

    `rows` counts the choices. `below` are those that spent less than was offered, by more than rounding explains. `least` is the minimum
    share, of the row `at`.
    """

    rows: int
    below: list[Any]
    least: Fraction
    at: Any

    def __str__(self) -> str:
        off = f"all {self.rows:,} choices lie on their lines, within rounding"
        if self.below:
            off = f"{len(self.below):,} of {self.rows:,} choices spent less than was offered by more than rounding"
        return f"offered budgets: {off}; minimum share {told(self.least)}, row {str(self.at)[:120]}"


def told(share: Fraction, up: bool = False) -> str:
    """Returns a share to four places, rounded down, or up: only the whole reads 1.0000."""
    units = -(-share * 10**4 // 1) if up else share * 10**4 // 1
    return f"{int(units) // 10**4}.{int(units) % 10**4:04d}"


def spent(lines: Sequence[Sequence[str]], bundles: Sequence[Sequence[str]], labels: Sequence[Any], names: Sequence[str]) -> Offered | None:
    """Returns what is said of choices, whose texts are `bundles`, on lines whose intercepts have the texts `lines`, both as they are taken;
    nothing where a text is no number or an intercept is 0, which the program refuses. Raises Overspent."""
    flat = [text for row in (*lines, *bundles) for text in row]
    if not flat or not all(map(exact.is_plain, flat)) or not all(text.strip("0.") for row in lines for text in row):
        return None
    line_places, bundle_places = (places_given(text for row in side for text in row) for side in (lines, bundles))
    # In halves of the last decimal place, so that what is rounded lies one unit to either side.
    own = [[units(text, line_places) for text in row] for row in lines]
    chosen = [[units(text, bundle_places) for text in row] for row in bundles]
    scale = Fraction(10**line_places, 10**bundle_places)
    below, over, least = [], [], None
    for at, ((a, b), (x, y)) in enumerate(zip(own, chosen)):
        share = (x * b + y * a, a * b)
        if least is None or share[0] * least[0][1] < least[0][0] * share[1]:
            least = share, at
        # The most and the least that the share may have been before rounding.
        if a > 1 and b > 1 and ((x + 1) * (b - 1) + (y + 1) * (a - 1)) * scale < (a - 1) * (b - 1):
            below.append(labels[at])
        if (max(x - 1, 0) * (b + 1) + max(y - 1, 0) * (a + 1)) * scale > (a + 1) * (b + 1):
            over.append(at)
    assert least is not None
    if over:
        (a, b), (x, y) = own[over[0]], chosen[over[0]]
        raise Overspent(labels[over[0]], [*lines[over[0]], *bundles[over[0]]], names, Fraction(x * b + y * a, a * b) * scale, len(over))
    return Offered(len(own), below, Fraction(*least[0]) * scale, labels[least[1]])


def places_given(texts: Iterable[str]) -> int:
    """Returns the most decimal places of the texts that are numbers which the program takes; zeros at the end count."""
    return max((min(len(text.partition(".")[2]), exact.MOST_PLACES) for text in texts if exact.is_plain(text)), default=0)


def units(text: str, places: int) -> int:
    """Returns a number in halves of its last decimal place."""
    whole, _, part = text.partition(".")
    return 2 * int(whole + part.ljust(places, "0"))
