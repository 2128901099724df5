#!/usr/bin/env python3
"""Altered evidence on a money pump, on choices from menus and on what outputs cost: `verify` and the program's own checks say the
same of it.

usage: altered.py                      looks at the cases of crates/tests_mixtures with `verify`; Rattle's tests look at the same
       altered.py --write PROGRAM      draws them anew by a fixed seed, with the true evidence of the program, and writes them there

A case is the number of a table, evidence and an answer: 1 where the evidence proves what it claims and has the form that the
program asks for. The crate's tests hold `check_pump`, `check_menu` and `check_cost` against the answer, and this script `verify`.
"""
from __future__ import annotations

import os
import random
import re
import subprocess
import sys
import tempfile
from fractions import Fraction

HERE = os.path.dirname(os.path.realpath(__file__))
sys.path.insert(0, os.path.dirname(HERE))
from revealed.verifier import cost, menus, pump, reports, tables  # noqa: E402

FOLDER = os.path.realpath(f"{HERE}/../../../crates/tests_mixtures/src/altered")
SEED = "altered"
TABLES, EACH = 10, 8
WIDE = {
    "pump": [2**60, 2**60 + 1, 2**58],
    "value": [2**121, 2**121 + 1, 2**120],
    "menus": [2**62, 2**63 - 1, 2**63],
    "cost": [2**62, 2**63 - 1, 2**63],
}


# ---- evidence as a list of numbers, and back


class Numbers:
    """The numbers of a text, one after another."""

    def __init__(self, text):
        self.list = list(map(int, text.split()))
        self.at = 0

    def next(self):
        self.at += 1
        return self.list[self.at - 1]

    def several(self):
        return [self.next() for _ in range(self.next())]


def pump_numbers(item):
    return [item["num"], item["den"], len(item["cycle"]), *(s - 1 for s in item["cycle"]), len(item["values"]), *item["values"]]


def pump_item(numbers):
    item = {"item": "pump", "num": numbers.next(), "den": numbers.next(), "cycle": [s + 1 for s in numbers.several()]}
    return {**item, "values": numbers.several()}


def menus_numbers(item):
    parts = [it for order, weight in item["parts"] for it in (len(order), *map("abcdefg".index, order), weight)]
    weights = [len(item["weights"]), *item["weights"]] if "weights" in item else []
    return [int("weights" in item), item["den"], len(item["parts"]), *parts, *weights]


def menus_item(numbers):
    has_weights, item = numbers.next(), {"item": "menus", "den": numbers.next()}
    item["parts"] = [(["abcdefg"[it] for it in numbers.several()], numbers.next()) for _ in range(numbers.next())]
    return {**item, "weights": numbers.several()} if has_weights else item


def cost_numbers(item):
    upper = [0] if item["upper"] is None else [1, item["upper"]["cost"], item["upper"]["at"] - 1]
    lower = item["lower"]
    entries = [it for column, value in lower["y"] for it in (column - 1, value)]
    value = lower["value"]
    return [item["asked"], *upper, value.numerator, value.denominator, lower["den"], len(lower["y"]), *entries, len(lower["x"]), *lower["x"]]


def cost_item(numbers):
    asked, has_upper = numbers.next(), numbers.next()
    upper = {"cost": numbers.next(), "at": numbers.next() + 1} if has_upper else None
    lower = {"value": Fraction(numbers.next(), numbers.next()), "den": numbers.next()}
    lower["y"] = [(numbers.next() + 1, numbers.next()) for _ in range(numbers.next())]
    lower["x"] = numbers.several()
    return {"asked": asked, "upper": upper, "lower": lower}


# ---- what `verify` finds


def pump_holds(files, item):
    table = tables.read_table(files[0])
    return pump.look(table, item) is None and not pump.remarks(table, item)


def menus_hold(files, item):
    seen = tables.read_menus(files[0])
    return menus.look(seen, item) is None and not menus.remarks(seen, item)


def cost_holds(files, item):
    firm = tables.read_technology(files[0])
    prices, output = tables.read_asked(files[1], firm)[item["asked"]]
    return cost.look(firm, prices, output, item) is None and not cost.remarks(item)


KINDS = {"pump": (pump_numbers, pump_item, pump_holds), "menus": (menus_numbers, menus_item, menus_hold), "cost": (cost_numbers, cost_item, cost_holds)}
FILES = {"pump": "altered_pumps.rt", "menus": "altered_menus.rt", "cost": "altered_costs.rt"}


# ---- drawing


def csv(rows):
    return "".join(",".join(map(str, row)) + "\n" for row in rows).encode()


def drawn_table(choice):
    goods = choice.randint(1, 3)
    rows = [[f"{side}_{good}" for side in "pq" for good in "abc"[:goods]]]
    for _ in range(choice.randint(1, 5)):
        bundle = [choice.randint(0, 5) for _ in range(goods)]
        bundle[choice.randrange(goods)] += 1
        rows.append([*(choice.randint(1, 6) for _ in range(goods)), *bundle])
    return [csv(rows)]


def drawn_menus(choice):
    letters = "abcd"[: choice.randint(2, 4)]
    rows = [["menu", "choice", "n"]]
    for _ in range(choice.randint(1, 6)):
        menu = "".join(it for it in letters if choice.random() < 0.7) or letters[-1]
        for letter in menu:
            if choice.random() < 0.8:
                rows.append([menu, letter, choice.randint(1, 3)])
    return [csv(rows)] if len(rows) > 1 else drawn_menus(choice)


def drawn_firm(choice):
    inputs = choice.randint(1, 3)
    names = "abc"[:inputs]
    rows = [[*(f"w_{it}" for it in names), *(f"x_{it}" for it in names), "y"]]
    weights = [choice.randint(1, 4) for _ in names]
    for _ in range(choice.randint(1, 4)):
        prices = [choice.randint(1, 6) for _ in names]
        made = choice.randint(0, 6)
        cheapest = min(range(inputs), key=lambda it: prices[it] / weights[it])
        rows.append([*prices, *(made // weights[it] + 1 if it == cheapest else choice.randint(0, 1) for it in range(inputs)), made])
    asked = [[*(f"w_{it}" for it in names), "y"]] + [[*(choice.randint(1, 6) for _ in names), choice.randint(0, 7)] for _ in range(3)]
    return [csv(rows), csv(asked)]


def true_items(program, kind, files):
    """Returns the evidence of the program on some files."""
    with tempfile.TemporaryDirectory() as room:
        for name, data in zip("ab", files):
            with open(f"{room}/{name}.csv", "wb") as it:
                it.write(data)
        words = {"pump": ["pump", "a.csv"], "menus": ["menus", "a.csv"], "cost": ["cost", "a.csv", "b.csv"]}[kind]
        ran = subprocess.run([program, *words], cwd=room, stdin=subprocess.DEVNULL, capture_output=True)
    if ran.returncode:
        return []
    if kind == "pump":
        return [reports.read_pump(ran.stdout)]
    if kind == "menus":
        item = reports.read_menus(ran.stdout)["item"]
        return [] if "withheld" in item else [item]
    told = reports.read_cost(ran.stdout)["bounds"]
    return [{**bound, "asked": asked} for asked, bound in enumerate(told) if "lower" in bound and "withheld" not in bound["lower"]]


def altered(choice, kind, numbers):
    """Returns the numbers of evidence altered in one way: one of them, mostly to a near one; or all by a factor, which may be true."""
    found = list(numbers)
    item = KINDS[kind][1](Numbers(" ".join(map(str, found))))
    if choice.random() < 0.4:
        item = scaled(choice, kind, item)
        return KINDS[kind][0](item)
    for _ in range(50):
        other = list(found)
        place = choice.randrange(len(other))
        wide = WIDE[kind] + (WIDE["value"] if kind == "pump" else [])
        other[place] = max(choice.choice([other[place] + 1, other[place] - 1, 0, other[place] * 2, choice.choice(wide)]), -(2**122) if kind == "pump" else 0)
        if other != found and is_well_formed(kind, other):
            return other
    return found


def scaled(choice, kind, item):
    """Returns evidence with what may be scaled, turned, put in another order or left out."""
    factor = choice.choice([2, 3, *WIDE[kind]])
    if kind == "pump":
        way = choice.choice(["scale", "shift", "turn", "repeat", "drop"])
        if way == "scale":
            return {**item, "num": item["num"] * factor, "den": item["den"] * factor, "values": [it * factor for it in item["values"]]}
        if way == "shift":
            more = choice.choice([1, -7, *WIDE["value"], *(-it for it in WIDE["value"])])
            return {**item, "values": [it + more for it in item["values"]]}
        if way == "turn":
            return {**item, "cycle": [*item["cycle"][1:], item["cycle"][1]]}
        if way == "repeat":
            return {**item, "cycle": [*item["cycle"], *item["cycle"][1:]]}
        return {**item, "values": item["values"][:-1]}
    if kind == "menus":
        way = choice.choice(["scale", "order", "zero", "drop", "swap"])
        if way == "scale":
            other = {**item, "den": item["den"] * factor, "parts": [(order, weight * factor) for order, weight in item["parts"]]}
            return {**other, "weights": [it * factor for it in item["weights"]]} if "weights" in item else other
        if way == "order":
            return {**item, "parts": item["parts"][::-1]}
        if way == "zero" and item["parts"]:
            return {**item, "parts": [*item["parts"], (item["parts"][-1][0][::-1], 0)]}
        if way == "drop" and item["parts"]:
            return {**item, "parts": item["parts"][:-1]}
        return {**item, "parts": [(choice.sample(order, len(order)), weight) for order, weight in item["parts"]]}
    lower = item["lower"]
    way = choice.choice(["scale", "order", "zero", "upper", "drop"])
    if way == "scale":
        pair = {"den": lower["den"] * factor, "y": [(column, it * factor) for column, it in lower["y"]], "x": [it * factor for it in lower["x"]]}
        return {**item, "lower": {**lower, **pair}}
    if way == "order":
        return {**item, "lower": {**lower, "y": lower["y"][::-1]}}
    if way == "zero":
        return {**item, "lower": {**lower, "y": [*lower["y"], (max([0, *(column for column, _ in lower["y"])]) + 1, 0)]}}
    if way == "upper":
        return {**item, "upper": None if item["upper"] else {"cost": 1, "at": 1}}
    return {**item, "lower": {**lower, "x": lower["x"][:-1]}}


def is_well_formed(kind, numbers):
    """Whether numbers are read as evidence to their end, and each is of the type that it has in the program."""
    try:
        reader = Numbers(" ".join(map(str, numbers)))
        item = KINDS[kind][1](reader)
        if reader.at != len(numbers) or any(it < 0 for it in numbers if kind != "pump"):
            return False
    except (IndexError, ZeroDivisionError):
        return False
    if kind == "cost":
        entries = [item["lower"]["value"].numerator, item["lower"]["value"].denominator, *(it["cost"] for it in [item["upper"] or {"cost": 0}])]
        entries += [item["lower"]["den"], *item["lower"]["x"], *(it for _, it in item["lower"]["y"])]
        small = [item["asked"], *(column for column, _ in item["lower"]["y"]), *(it["at"] for it in [item["upper"] or {"at": 0}])]
        return max(entries) < 2**64 and max(small) < 2**31 and item["asked"] < 3 and Numbers(" ".join(map(str, numbers))).list == KINDS[kind][0](item)
    if kind == "menus":
        return max([item["den"], *(weight for _, weight in item["parts"]), *item.get("weights", [])]) < 2**64 and numbers[0] in (0, 1)
    return 0 <= item["num"] < 2**64 and 0 <= item["den"] < 2**64 and all(0 < s < 2**31 for s in item["cycle"])


def cases_of(program, kind):
    """Draws tables, and cases on each."""
    choice = random.Random(f"{SEED} {kind}")
    drawn = {"pump": drawn_table, "menus": drawn_menus, "cost": drawn_firm}[kind]
    to_numbers, to_item, holds = KINDS[kind]
    all_files, cases = [], []
    while len(all_files) < TABLES:
        files = drawn(choice)
        items = true_items(program, kind, files)
        if not items:
            continue
        made = []
        for number in range(EACH):
            numbers = to_numbers(choice.choice(items))
            numbers = numbers if number < 1 else altered(choice, kind, numbers)
            if is_well_formed(kind, numbers):
                answer = holds(files, to_item(Numbers(" ".join(map(str, numbers)))))
                made.append(" ".join(map(str, [len(all_files), *numbers, int(answer)])))
        all_files.append(files)
        cases += dict.fromkeys(made)
    return all_files, cases


def source(kind, all_files, cases):
    """Returns the text of the crate's file."""
    names = {"pump": "Tables", "menus": "Choices from menus", "cost": "Technologies"}

    def listed(name, what, at):
        texts = "".join('    "%s",\n' % files[at].decode().replace("\n", "\\n") for files in all_files)
        return f"/// {what}.\npub(crate) const {name}: [&str; {len(all_files)}] = [\n{texts}];\n\n"

    text = "//! Drawn by `clients/python/tests/altered.py`, which holds the second checker against the same answers.\n\n"
    text += listed("TABLES", names[kind], 0) + (listed("ASKED", "What is asked of each", 1) if kind == "cost" else "")
    text += f"/// How many cases there are.\npub(crate) const COUNT: u32 = {len(cases)};\n\n"
    text += "/// A table's number, evidence on it, and 1 where that holds.\npub(crate) const CASES: &str = \"\\\n"
    return text + "".join(f"    {case}\\n\\\n" for case in cases) + '";\n'


def read(kind):
    """Returns the files and the cases that stand in the crate."""
    with open(f"{FOLDER}/{FILES[kind]}", encoding="utf-8") as it:
        text = it.read()
    lists = re.findall(r"const \w+: \[&str; \d+\] = \[(.*?)\];", text, re.S)
    columns = [[it.replace("\\n", "\n").encode() for it in re.findall(r'"([^"]*)"', entries)] for entries in lists]
    cases = re.findall(r"(?m)^ *([-0-9 ]+)\\n", text[text.index("CASES") :])
    return list(zip(*columns)), cases


def wrong(kind):
    """Returns the cases of which `verify` says something else, and how many there are with each answer."""
    files, cases = read(kind)
    _, to_item, holds = KINDS[kind]
    found, answers = [], [0, 0]
    for case in cases:
        numbers = Numbers(case)
        own, item = files[numbers.next()], to_item(numbers)
        answer = numbers.next()
        answers[answer] += 1
        if int(holds(own, item)) != answer or numbers.at != len(numbers.list):
            found.append(f"{kind}: {own} {item} {answer}")
    return found, answers


def main(words):
    if words and words[0] == "--write":
        for kind, name in FILES.items():
            with open(f"{FOLDER}/{name}", "w", encoding="utf-8") as it:
                it.write(source(kind, *cases_of(os.path.abspath(words[1]), kind)))
        return 0
    differ = 0
    for kind in FILES:
        found, (refused, accepted) = wrong(kind)
        differ += len(found) + (not accepted or not refused)
        for it in found[:3]:
            print(it)
        print(f"altered evidence, {kind}: {accepted} accepted, {refused} refused, {len(found)} of which verify says something else")
    return 1 if differ else 0


if __name__ == "__main__":
    sys.exit(main(sys.argv[1:]))
