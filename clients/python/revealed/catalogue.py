"""What the program has, as its proved sources tell it: `catalogue.json` is written by the repository's tools/make/catalogue, and ships
beside this file. Limits, ranges of numbers, commands and faults are taken from there and stand nowhere else in this package.
"""

from __future__ import annotations

import json
import os
import re
from typing import Any

with open(os.path.join(os.path.dirname(os.path.abspath(__file__)), "catalogue.json"), encoding="utf-8") as _file:
    FACTS: dict[str, Any] = json.load(_file)

# How a sentence names the option that is an argument here.
OPTION = re.compile(r"--per (\d+)")
COMMANDS = {form["name"]: form for form in FACTS["commands"]}
FAULTS = [fault["name"] for fault in FACTS["faults"]]
LIMITS = {limit["name"]: int(limit["most"]) for limit in FACTS["limits"]}
# What units are called, by the name of the column that tells them apart, and the levels of the index that a table of a paper has.
UNITS: dict[str, str] = FACTS["units"]
# Names of a column that tells units apart. A frame that has one, with values that come again, is a panel.
ID_COLUMNS: list[str] = FACTS["id_columns"]
THRESHOLDS: list[str] = FACTS["thresholds"]
# Of each fault, and of each reason of the checker: what is wrong, and what to do.
SENTENCES = {(it["of"], it["code"]): f"{it['wrong']} {it['do']}".strip() for it in FACTS["hints"]}


def units_by(name: Any) -> str | None:
    """Returns what units are called by the name of the column that tells them apart: `subjects` by subject, or by subject_id."""
    own = str(name).strip().lower()
    return UNITS.get(own) or UNITS.get(re.sub(r"[ _.-]?(?:id|no|nr|number)$", "", own))


def sentence(of: str, code: str) -> str | None:
    """Returns what is wrong and what to do, in the words of this language; None where the catalogue has nothing."""
    found = SENTENCES.get((of, code))
    if found is None:
        return None
    return OPTION.sub(r"per=\1", found).replace("--id NAME", "by=").replace("; without this option the name is household", "")


def span(command: str, name: str) -> tuple[int, int]:
    """Returns the least and the most that a number, or the number of an option, of a command may be."""
    form = COMMANDS[command]
    found = next(number for number in [*form["numbers"], *form["options"]] if number["name"] == name)
    return int(found["least"]), int(found["most"])


PER = span("random", "--per")
SEED = span("power", "SEED")
DRAWS = span("power", "N")
STEPS = next((int(it["least"]), int(it["most"])) for it in FACTS["wide_options"] if it["name"] == "--steps")
