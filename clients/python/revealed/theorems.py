"""A verdict as a theorem: the file of Coq that the second prover's program `rp-second` writes."""

from __future__ import annotations

import os
import shutil
import sys
from typing import Any

from . import commands, program, worker
from .commands import BUDGETS, CERTIFICATE, CHOICES, MENUS, TABLE, TECHNOLOGY
from .faults import BadData, Failed, NoProgram
from .measures import CostMinimisation, MenuVerdict, MoneyPump

RESULT = "result.txt"
# The answers that stand in a report, with the option of rp-second and the file that it takes beside the report.
REPORTS: dict[type, tuple[str, str]] = {MoneyPump: ("--pump", TABLE), MenuVerdict: ("--menus", MENUS), CostMinimisation: ("--cost", TECHNOLOGY)}
VARIABLE = "RP_SECOND"
NAME = "rp-second.exe" if sys.platform == "win32" else "rp-second"
INSTALL = (
    f"the release has it for Linux in rp-second-VERSION.tar.gz: name it by exe=, or by the variable {VARIABLE}, or put it on the path. From"
    " source, `make program` in the folder second/ builds it, with the packages coq, ocaml-findlib and libzarith-ocaml-dev of Debian 12"
)


def theorem(data: Any, certificate: Any = None, *, per: Any = None, pairs: bool = False, pump: bool = False, to: Any = None, exe: Any = None) -> str:
    """Returns a file of Coq that proves the verdicts on a table, or on choices from budgets. `to` names a file to write.

    `data` is a result of `analyse`, `demand_bounds`, `welfare_bounds` or `random_utility`, which has its own certificate. Or it is a frame,
    or prices and quantities in a tuple, which are analysed first. Or it is what `check` takes, with a certificate. The certificate of a
    table may be one on goodness of fit.

    `per` rounds the shares of choices to this number of units, as in `random_utility`. A result of `random_utility` or `menus` has its
    own.
    `pairs=True` proves which observations of a table contradict each other, and how many by each axiom. It needs no certificate.
    `pump=True` proves the maximum money pump index of a table. Results of `money_pump`, `menus` and `cost` are taken as they are.

    Coq checks the file by `coqc -Q second/theories Second Paper.v`, so you need not trust this package. Compare the text of the table in
    the file with your data.

    References:
        The Coq Development Team (2022). The Coq Proof Assistant, version 8.16.
        Varian, H. R. (1982). The Nonparametric Approach to Demand Analysis. Econometrica 50, 945-973.
    """
    path = find(exe)
    words, files = _of_pairs(data, certificate, per, pump) if pairs else _of_answer(data, certificate, per, pump)
    status, out, said = worker.run(path, ["--theorem", *words], files)
    if status == 1:
        what = "certificate" if CERTIFICATE in files else "report"
        raise BadData(f"the {what} proves nothing of these data, and there is no theorem: {out.decode().strip()}")
    if status != 0:
        raise Failed(status, said.decode(errors="replace").strip())
    text = out.decode()
    if to is not None:
        with open(to, "w", encoding="ascii", newline="\n") as it:
            it.write(text)
    return text


def _of_pairs(data: Any, certificate: Any, per: Any, pump: bool) -> tuple[list[str], dict[str, bytes]]:
    """Returns the words and the files of the theorems on the pairs of a table."""
    if certificate is not None or per is not None or pump:
        raise BadData("theorems on pairs need a table alone: leave certificate, per and pump out")
    files, _, _ = commands._files(data, None)
    return ["--pairs", TABLE], _table_alone(files)


def _of_answer(data: Any, certificate: Any, per: Any, pump: bool) -> tuple[list[str], dict[str, bytes]]:
    """Returns the words and the files of the theorems on an answer, or on data with a certificate."""
    if certificate is None and isinstance(data, tuple(REPORTS)):
        return _of_report(data, per)
    answer = data if certificate is None else certificate
    if certificate is None and not hasattr(data, "certificate"):
        asked = data if isinstance(data, tuple) else (data,)
        answer = commands.pump(*asked) if pump else commands.analyse(*asked)
    files, per, _ = commands._files(answer if certificate is None else data, per)
    if pump or isinstance(answer, MoneyPump):
        if per is not None:
            raise BadData("theorems on the money pump have no rounded shares: leave per out")
        return ["--pump", TABLE, RESULT], {**_table_alone(files), RESULT: commands.certificate_bytes(answer)}
    if TABLE not in files and BUDGETS not in files:
        raise BadData("theorems are written of tables and of choices from budgets")
    if per is not None and TABLE in files:
        raise BadData("per is for choices from budgets, and not for a table: leave per out")
    files[CERTIFICATE] = commands.certificate_bytes(answer)
    names = [TABLE] if TABLE in files else [BUDGETS, CHOICES]
    return [*names, CERTIFICATE, *commands._units(per)], files


def _of_report(answer: Any, per: Any) -> tuple[list[str], dict[str, bytes]]:
    """Returns the words and the files of the theorems on an answer that stands in a report."""
    word, name = next(it for kind, it in REPORTS.items() if isinstance(answer, kind))
    if per is not None:
        raise BadData("a result of menus has its own number of units, and the money pump and cost have no shares: leave per out")
    files, units, _ = commands._files(answer, None)
    return [word, name, RESULT, *commands._units(units)], {name: files[name], RESULT: commands.certificate_bytes(answer)}


def _table_alone(files: dict[str, bytes]) -> dict[str, bytes]:
    """Returns the file of a table, and refuses other data."""
    if TABLE not in files:
        raise BadData("theorems on pairs and on the money pump are written of a table")
    return files


def find(exe: Any = None) -> str:
    """Returns the program `rp-second`: the argument, else what the variable RP_SECOND names, else the one on the path."""
    for named, where in ((exe, "the argument exe"), (os.environ.get(VARIABLE), f"the variable {VARIABLE}")):
        if named is not None and named != "":
            return program._named(named, where)
    found = shutil.which(NAME)
    if found is None:
        raise NoProgram(f"there is no program {NAME} on the path: {INSTALL}")
    return os.path.abspath(found)
