"""What a report of `rp-wide fit` says (docs/reference/rp-fit.md).

It is read strictly: each line in its place, each number as it is written, and nothing else. Observations count from 1, as there.
"""

from __future__ import annotations

from typing import Any

from .exact import fraction_read
from .verifier import reports
from .verifier.reports import FRACTION, LIST, SIGNED_LIST, WHOLE, Lines, wholes

AXIOMS = ("garp", "wgarp", "warp", "sarp")
MEASURES = ("mean", "squares")
FRACTIONS = f"{FRACTION}(?: {FRACTION})*"
CYCLE, VALUES = f"cycle ({LIST})", f"values ({SIGNED_LIST})"


def read_fit(text: bytes | str) -> dict[str, Any]:
    """Returns what a report says: the head, and what each item says under its name."""
    lines = Lines(text)
    found: dict[str, Any] = {"head": reports.head(lines)}
    found["violations"] = violations(lines)
    found["efficiency"] = efficiency(lines)
    found["kept"] = kept(lines)
    for measure in MEASURES:
        found[measure] = levels(lines, measure)
    found["steps"] = steps(lines)
    found["pump"] = ratio(lines, "pump", True)
    found["quasilinear_level"] = ratio(lines, "quasilinear level", False)
    found["homothetic_level"] = homothetic(lines)
    lines.end()
    return found


def violations(lines: Any) -> dict[str, int]:
    counts = " ".join(f"{axiom} ({WHOLE})" for axiom in AXIOMS)
    match = lines.need(f"violations {counts} of ({WHOLE})", "the numbers of violations")
    found = dict(zip((*AXIOMS, "pairs"), map(int, match.groups())))
    match = lines.need(f"violating observations ({WHOLE}) of ({WHOLE})", "the number of violating observations")
    return {**found, "observations": int(match[1]), "count": int(match[2])}


def efficiency(lines: Any) -> dict[str, Any]:
    match = lines.need(f"efficiency ({FRACTION}) attained (yes|no)", "the efficiency index")
    found = {"level": fraction_read(match[1]), "attained": match[2] == "yes"}
    found["below"] = wholes(lines.need(f"below ({LIST})", "the ranks below the index")[1])
    # There is no cycle above an index of 1.
    above = lines.need(f"above ({LIST})", "the cycle above the index") if found["level"] < 1 else None
    found["above"] = [] if above is None else wholes(above[1])
    at = "ranks" if found["attained"] else "cycle"
    return {**found, f"at_{at}": wholes(lines.need(f"at {at} ({LIST})", "the evidence at the index")[1])}


def kept(lines: Any) -> dict[str, Any]:
    match = lines.need(f"kept ({WHOLE})(?: to ({WHOLE}))? of ({WHOLE})", "the kept observations")
    found: dict[str, Any] = {"least": int(match[1]), "most": int(match[2] or match[1]), "count": int(match[3])}
    found["observations"] = wholes(lines.need(f"observations ({LIST})", "the list of kept observations")[1])
    found["ranks"] = wholes(lines.need(f"ranks ({LIST})", "their ranks")[1])
    found["den"] = int(lines.need(f"groups over ({WHOLE})", "the denominator of the groups")[1])
    found["groups"] = weighted(lines, "pairs|cycle")
    return found


def levels(lines: Any, measure: str) -> dict[str, Any]:
    match = lines.need(f"levels {measure} ({FRACTION}) to ({FRACTION})( exact)?", f"the levels, {measure}")
    found: dict[str, Any] = {"low": reports.fraction(match[1]), "high": reports.fraction(match[2]), "exact": bool(match[3])}
    found["at"] = list(map(fraction_read, lines.need(f"at ({FRACTIONS})", "the levels")[1].split(" ")))
    return {**found, **shown(lines)}


def steps(lines: Any) -> dict[str, Any]:
    match = lines.need(f"steps ({FRACTION}) to ({FRACTION})( exact)?", "the minimum cost of steps")
    found: dict[str, Any] = {"low": reports.fraction(match[1]), "high": reports.fraction(match[2]), "exact": bool(match[3]), "removed": []}
    while (match := lines.take(f"removed ({WHOLE}) to ({LIST})")) is not None:
        found["removed"] += [(int(match[1]), to) for to in wholes(match[2])]
    return {**found, **shown(lines)}


def shown(lines: Any) -> dict[str, Any]:
    """Returns the evidence of two bounds: ranks for the upper one, weighted cycles for the lower one."""
    ranks = wholes(lines.need(f"ranks ({LIST})", "the ranks")[1])
    den = int(lines.need(f"cycles over ({WHOLE})", "the denominator of the cycles")[1])
    return {"ranks": ranks, "den": den, "cycles": weighted(lines, "cycle")}


def weighted(lines: Any, kinds: str) -> list[tuple[str, list[int], int]]:
    """Returns the kind, the observations and the weight of each group."""
    found = []
    while (match := lines.take(f"({kinds}) ({LIST}) weight ({WHOLE})")) is not None:
        found.append((match[1], wholes(match[2]), int(match[3])))
    return found


def ratio(lines: Any, name: str, is_needed: bool) -> dict[str, Any] | None:
    form = f"{name} ({FRACTION})"
    match = lines.need(form, f"the {name}") if is_needed else lines.take(form)
    if match is None:
        return None
    return {"ratio": reports.fraction(match[1]), **of_cycle(lines)}


def homothetic(lines: Any) -> dict[str, Any] | None:
    match = lines.take(f"homothetic level ({FRACTION}) to ({FRACTION})")
    if match is None:
        return None
    return {"low": reports.fraction(match[1]), "high": reports.fraction(match[2]), **of_cycle(lines)}


def of_cycle(lines: Any) -> dict[str, Any]:
    """Returns a cycle and the values that are its evidence."""
    return {"cycle": wholes(lines.need(CYCLE, "the cycle")[1]), "values": wholes(lines.need(VALUES, "the values")[1])}
