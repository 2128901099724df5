"""What the text of a report says (docs/reference/rp-pump.md, rp-menus.md and rp-cost.md): the reports of `pump`, `menus` and `cost`, which have no JSON form.

A report is read strictly: each line in its place, each number as it is written, and nothing else. What it says is given as
mappings of names to whole numbers, fractions and lists of them; observations and inputs count from 1, as there.
"""

from __future__ import annotations

import re
from fractions import Fraction
from math import gcd

from .certificate import NoCertificate, whole_number

FRACTION = "(?:0|[1-9][0-9]*)(?:/[1-9][0-9]*)?"
WHOLE = "(?:0|[1-9][0-9]*)"
SIGNED = "(?:-?[1-9][0-9]*|0)"
LIST = f"(?:none|{WHOLE}(?: {WHOLE})*)"
SIGNED_LIST = f"(?:none|{SIGNED}(?: {SIGNED})*)"
ENTRIES = f"(?:none|{WHOLE}:{WHOLE}(?: {WHOLE}:{WHOLE})*)"
PAIR = f"lower x ({LIST}) y ({ENTRIES}) over ({WHOLE})"


class NoReport(NoCertificate):
    """The text is no report of this kind."""


class Lines:
    """The lines of a report, from the first on."""

    def __init__(self, text):
        if isinstance(text, (bytes, bytearray)):
            try:
                text = bytes(text).decode("ascii")
            except UnicodeDecodeError:
                raise NoReport("no report: it has bytes that none has") from None
        if not text.endswith("\n"):
            raise NoReport("no report: its last line has no end")
        self.lines = text[:-1].split("\n")
        self.at = 0

    def take(self, pattern):
        """Returns the groups of the next line where it is of this form, and moves on; else None."""
        match = re.fullmatch(pattern, self.lines[self.at]) if self.at < len(self.lines) else None
        self.at += match is not None
        return match

    def need(self, pattern, what):
        match = self.take(pattern)
        if match is None:
            there = repr(self.lines[self.at][:60]) if self.at < len(self.lines) else "the end"
            raise NoReport(f"no report: line {self.at + 1} is {there}, where {what} is wanted")
        return match

    def end(self):
        if self.at != len(self.lines):
            raise NoReport(f"no report: line {self.at + 1} is one too many: {self.lines[self.at][:60]!r}")


def fraction(text):
    """Returns a fraction in lowest terms."""
    num, slash, den = text.partition("/")
    num, den = whole_number(num), whole_number(den) if slash else 1
    if gcd(num, den) != 1 or (slash and den == 1):
        raise NoReport(f"no report: {text[:60]} is not in lowest terms")
    return Fraction(num, den)


def wholes(text):
    return [] if text == "none" else [whole_number(it) for it in text.split(" ")]


def head(lines, first="observations", second="goods"):
    """Returns the sizes and the places of the first line."""
    form = f"{first} ({WHOLE}) {second} ({WHOLE}) places ({WHOLE}) ({WHOLE})"
    return tuple(map(whole_number, lines.need(form, "the line on the table").groups()))


def pair(match, at):
    """Returns the pair of a bound, from the groups of a line on."""
    y = [] if match[at + 1] == "none" else [tuple(map(whole_number, it.split(":"))) for it in match[at + 1].split(" ")]
    return {"x": wholes(match[at]), "y": y, "den": whole_number(match[at + 2])}


def read_pump(text):
    """Returns what a report of `pump` says: the head, the ratio, the cycle and the values."""
    lines = Lines(text)
    found = {"head": head(lines)}
    ratio = fraction(lines.need(f"pump ({FRACTION})", "the ratio")[1])
    found.update(item="pump", ratio=ratio, num=ratio.numerator, den=ratio.denominator)
    found["cycle"] = wholes(lines.need(f"cycle ({LIST})", "the cycle")[1])
    found["values"] = wholes(lines.need(f"values ({SIGNED_LIST})", "the values")[1])
    lines.end()
    return found


def read_power(text):
    """Returns what a report of `power` says: the head, the seed, how many draws, and how many of them fail."""
    lines = Lines(text)
    found = {"head": head(lines)}
    match = lines.need(f"power ({WHOLE}) draws ({WHOLE}) violations ({WHOLE})", "the count")
    found.update(zip(("seed", "draws", "violations"), map(whole_number, match.groups())))
    lines.end()
    return found


def read_trial(text):
    """Returns what a report of `trial` says."""
    lines = Lines(text)
    match = lines.need(f"trial ({WHOLE}) rows ({WHOLE}) goods ({WHOLE})", "the line on the trial")
    found = dict(zip(("seed", "rows", "goods"), map(whole_number, match.groups())))
    found["garp"] = lines.need("garp (holds|violated)", "the verdict on the axiom")[1]
    match = lines.need(f"efficiency ({FRACTION}) attained (yes|no)", "the index")
    found.update(efficiency=fraction(match[1]), attained=match[2] == "yes")
    found["homothetic"] = lines.need("homothetic (holds|violated|withheld)", "the homothetic verdict")[1]
    found["quasilinear"] = lines.need("quasilinear (holds|violated)", "the quasilinear verdict")[1]
    lines.end()
    return found


def read_pairs(text):
    """Returns the two observations that a report of `pairs` names, or None."""
    lines = Lines(text)
    match = lines.need(f"pair (?:none|({WHOLE}) ({WHOLE}))", "the pair")
    lines.end()
    return None if match[1] is None else (whole_number(match[1]), whole_number(match[2]))


def read_cost(text):
    """Returns what a report of `cost` says: the head, the verdicts on the two axioms, and each asked record with its bounds."""
    lines = Lines(text)
    found = {"head": head(lines, "technology records", "inputs"), "cost": axiom(lines, "cost")}
    found["profit"] = axiom(lines, "profit")
    if found["cost"] is None:
        lines.need("cost (holds|violated)", "the verdict on the cost axiom")
    found["bounds"] = []
    asked = f"bounds prices ({LIST}) output ({WHOLE}) (?:none|lower (?:({FRACTION})|withheld ({WHOLE})) upper (?:none|({WHOLE}) at ({WHOLE})))"
    while True:
        match = lines.take(asked)
        if match is None:
            lines.end()
            return found
        bound = {"prices": wholes(match[1]), "output": whole_number(match[2])}
        if not match[0].endswith(f"output {match[2]} none"):
            bound["upper"] = None if match[5] is None else {"cost": whole_number(match[5]), "at": whole_number(match[6])}
            if match[4] is not None:
                bound["lower"] = {"withheld": whole_number(match[4])}
            else:
                bound["lower"] = {"value": fraction(match[3]), **pair(lines.need(PAIR, "the pair of the lower bound"), 1)}
        found["bounds"].append(bound)


def axiom(lines, name):
    """Returns what stands of an axiom: the pair that breaks it, () where it holds, and None where nothing stands."""
    match = lines.take(f"{name} (holds|violated)")
    if match is None:
        return None
    if match[1] == "holds":
        return ()
    return tuple(map(whole_number, lines.need(f"pair ({WHOLE}) ({WHOLE})", "the pair").groups()))


def read_menus(text):
    """Returns what a report of `menus` says: the counts, the evidence, and the least sum where it stands there."""
    lines = Lines(text)
    match = lines.need(f"alternatives ({WHOLE}) menus ({WHOLE}) cells ({WHOLE}) orders ({WHOLE}) total ({WHOLE})", "the line on the menus")
    found = dict(zip(("alternatives", "menus", "cells", "orders", "total"), map(whole_number, match.groups())))
    match = lines.take(f"apportioned per ({WHOLE})")
    found["per"] = None if match is None else whole_number(match[1])
    found["item"] = evidence(lines)
    match = lines.take(f"sums least ({SIGNED}) at ([a-f]) in ([a-f]+)")
    found["sums"] = None if match is None else {"least": whole_number(match[1]), "letter": match[2], "menu": match[3]}
    lines.end()
    return found


def evidence(lines):
    """Returns the evidence on choices from menus, with its parts by letters."""
    match = lines.take(f"menus withheld ({WHOLE})")
    if match is not None:
        return {"item": "menus", "withheld": whole_number(match[1])}
    item = {"item": "menus"}
    match = lines.take(f"menus mixture over ({WHOLE})")
    if match is None:
        item["share"] = fraction(lines.need(f"menus violated share ({FRACTION})", "the verdict")[1])
        match = lines.need(f"weights ({LIST}) over ({WHOLE})", "the weights")
        item["weights"], item["den"] = wholes(match[1]), whole_number(match[2])
    else:
        item["den"] = whole_number(match[1])
    item["parts"] = []
    while True:
        match = lines.take(f"part ([a-f](?: [a-f])*) weight ({WHOLE})")
        if match is None:
            return item
        item["parts"].append((match[1].split(" "), whole_number(match[2])))
