"""The program: where it is, and one call of it, by its library where that is found, and else by a process."""

from __future__ import annotations

import os
import re
import shutil
import sys
from typing import Any, Callable, Iterable, Mapping, Sequence

from . import library, wider, worker
from .exact import shown
from .faults import BadData, Failed, NoProgram

VARIABLE = "RP_EXEC"
NAME = "rp.exe" if sys.platform == "win32" else "rp"
# The wider edition of the program: what this variable names, else what stands beside the program.
WIDE_VARIABLE = "RP_WIDE"
WIDE_NAME = "rp-wide.exe" if sys.platform == "win32" else "rp-wide"
# Where it is beside the program as `rt` builds both.
BUILT = os.path.join(os.pardir, os.pardir, "rp_wide", "out", "rp_wide")
# The program of panels: what this variable names, else what stands beside the program, or where `rt` builds it.
PANEL_VARIABLE = "RP_PANEL"
PANEL_NAME = "rp-panel.exe" if sys.platform == "win32" else "rp-panel"
PANEL_BUILT = os.path.join(os.pardir, os.pardir, "rp_panel_program", "out", "rp_panel_program")
# The status of a command that a program does not know.
UNKNOWN = 2
# A name of a file that a program is given stands in a refusal as `rp: table.csv: BadNumber record 2 column 5`.
REFUSAL = re.compile(r"rp(?:-panel)?: (?:([\w-]+)\.(?:csv|json): )?([A-Z]\w*(?: (?:record|column|budget|menu|item|name) \d+)*)")
# What a field has to be quoted for.
QUOTED = re.compile('[",\r\n]')
QUOTED_ALSO = re.compile('["\r\n]')


def find(exe: Any = None) -> str:
    """Returns the program: the argument, else what the environment variable RP_EXEC names, else what came with the package or with
    the release that it lies in, else `rp` on the path."""
    for named, where in ((exe, "the argument exe"), (os.environ.get(VARIABLE), f"the variable {VARIABLE}")):
        if named is not None and named != "":
            return _named(named, where)
    found = inside() or shutil.which(NAME)
    if found is None:
        where = f"neither a program {NAME} nor a library {library.NAME} is inside the package, and no {NAME} is on the path"
        release = "Install the package of a release, which has the library inside: pip install and the name of its wheel or of its .tar.gz"
        raise NoProgram(f"{where}. {release}. Or name a program or a library: say exe=, or set {VARIABLE} or {library.VARIABLE}.")
    return os.path.abspath(found)


def inside() -> str | None:
    """Returns the program that came with the package, or with the release that it lies in, if one did."""
    return next((it for it in library.places(NAME) if os.path.isfile(it) and os.access(it, os.X_OK)), None)


Runs = Callable[[str, Sequence[str], Mapping[str, bytes]], "tuple[int, bytes, bytes]"]


def way(exe: Any = None) -> tuple[Runs | None, str]:
    """Returns how an answer is got: by a library, or by the program of this path; raises NoProgram where neither is found."""
    found = library.find(exe)
    if found is None and (exe is None or exe == "") and not os.environ.get(VARIABLE) and inside() is None:
        found = library.of_loader()
    return (found.run, found.path) if found is not None else (None, find(exe))


def version(exe: Any = None) -> str | None:
    """Returns the version of the library that answers, by its call `rp_version`; None of a program, and of a library up to 0.17.0."""
    by_library, path = way(exe)
    return library.known(path).version if by_library is not None else None


def wide_way(exe: Any = None) -> tuple[Runs | None, str] | None:
    """Returns how the wider edition is asked, as `way` does; None where it is not there."""
    by_library, path = way(exe)
    if by_library is not None and library.known(path).wider is not None:
        return library.known(path).run_wide, path
    own = wide_beside(None if by_library is not None else path)
    return (None, own) if own is not None else None


def wide_beside(path: str | None) -> str | None:
    """Returns the wider program: what RP_WIDE names, else what stands beside the program of this path, or of what that leads to."""
    named = os.environ.get(WIDE_VARIABLE)
    if named:
        return _named(named, f"the variable {WIDE_VARIABLE}")
    return beside(path, WIDE_NAME, BUILT)


def beside(path: str | None, *names: str) -> str | None:
    """Returns the program of one of these names that stands beside a path, or beside what that leads to."""
    folders = [] if path is None else [os.path.dirname(path), os.path.dirname(os.path.realpath(path))]
    places = [os.path.join(folder, name) for folder in folders for name in names]
    return next((os.path.abspath(it) for it in places if os.path.isfile(it) and os.access(it, os.X_OK)), None)


def panel_way(exe: Any = None) -> tuple[Runs, str]:
    """Returns how the table of a panel is made: by the call of the library, or by the program `rp-panel`. Either is what the
    argument names, where that is no `rp`; else what RP_PANEL names, else what belongs to the library or the program that is found.
    """
    given = exe is not None and exe != ""
    if given and not library.is_library(exe) and os.path.basename(os.fsdecode(os.fspath(exe))) != NAME:
        return worker.run, _named(exe, "the argument exe")
    named = os.environ.get(PANEL_VARIABLE)
    if not given and named:
        return worker.run, _named(named, f"the variable {PANEL_VARIABLE}")
    try:
        by_library, path = way(exe)
    except NoProgram:
        if given:
            raise
        by_library, path = None, ""
    if by_library is not None and library.known(path).panels is not None:
        return library.known(path).run_panel, path
    inside_of = [] if given else library.places(PANEL_NAME)
    found = (
        beside(path or None, PANEL_NAME, PANEL_BUILT)
        or next((it for it in inside_of if os.path.isfile(it)), None)
        or (None if given else shutil.which(PANEL_NAME))
    )
    if found is None:
        where = f"{path} has no call of panels, and no {PANEL_NAME} stands beside it" if path else f"there is no {PANEL_NAME}"
        raise NoProgram(f"{where}: take both of one release, or name the program by {PANEL_VARIABLE}")
    return worker.run, os.path.abspath(found)


def _named(named: Any, where: str) -> str:
    try:
        path = os.fspath(named)
        found = shutil.which(path) if isinstance(path, str) else shutil.which(os.fsdecode(path))
    except (TypeError, ValueError):
        raise BadData(f"{where} is the path of the program, and not {named!r}") from None
    if found is None:
        raise NoProgram(f"{where} names {path!r}, which is no program")
    return os.path.abspath(found)


def field(text: str) -> str:
    """Returns a field of a CSV file: quoted where it has a comma, a quote or the end of a line in it."""
    return '"' + text.replace('"', '""') + '"' if QUOTED.search(text) else text


def joined(row: Sequence[str]) -> str:
    """Returns a record of a CSV file, without the end of its line."""
    line = ",".join(row)
    # Where nothing is to be quoted, there are no other commas than those between the fields.
    if line.count(",") == len(row) - 1 and line and not QUOTED_ALSO.search(line):
        return line
    return ",".join(map(field, row)) if list(row) != [""] else '""'


def csv_bytes(rows: Iterable[Sequence[str]]) -> bytes:
    """Returns rows of texts as the bytes of a CSV file. A row of one empty text is quoted, since blank lines count for nothing."""
    return bytes_of("".join(f"{joined(row)}\n" for row in rows))


def bytes_of(text: str) -> bytes:
    """Returns the bytes of a text; raises BadData where it is none."""
    try:
        return text.encode("utf-8", "surrogateescape")
    except UnicodeEncodeError as wrong:
        raise BadData(f"a name or a value is no text: {wrong}") from None


class Ran:
    """How a call ended: its status, its output, and its own words on standard error."""

    def __init__(self, status: int, out: str, said: str) -> None:
        self.status = status
        self.out = out
        self.said = said

    @property
    def refusal(self) -> tuple[str | None, str, dict[str, int]] | None:
        """Returns the file and the words of a refusal, as in `rp: table.csv: BadNumber record 2 column 5`."""
        told = REFUSAL.fullmatch(self.said)
        if self.status != 4 or told is None:
            return None
        fault, *places = told[2].split()
        return told[1], fault, {name: int(number) for name, number in zip(places[::2], places[1::2])}


def call(words: Sequence[str], files: Mapping[str, bytes], exe: Any = None) -> Ran:
    """Runs the program over files that are given by name, in a folder of their own, and returns how it ended.

    A word that is the name of a file stands for it. The folder is the program's own, so no name outside of it matters. The
    words go to the program as they are: no shell reads them.
    """
    by_library, program = way(exe)
    try:
        return ran_of(*(by_library or worker.run)(program, words, files))
    except OSError as wrong:
        raise NoProgram(f"{program} cannot be run: {wrong}") from wrong


class Given:
    """An answer of a call that may be wider: what was written, what the program itself wrote where that withholds more, and what is
    said of a value that stays withheld."""

    def __init__(self, out: str, stated: str | None, hint: str) -> None:
        self.out, self.stated, self.hint = out, stated, hint


def given(words: Sequence[str], files: Mapping[str, bytes], exe: Any = None, explain: Explains | None = None, wide: Any = True) -> Given:
    """Returns the answer of a call that ends with status 0: of the program, or where that withholds something of its wider edition,
    if that is there and `wide` is true."""
    ran = call(words, files, exe)
    out = output(ran, explain)
    if not switch(wide, "wide") or not wider.is_withheld(words[0], ended_of(ran)):
        return Given(out, None, wider.ASKED if wide else wider.UNASKED)
    more = call_wide(words, files, exe)
    return Given(out, None, wider.ABSENT) if more is None else Given(output(more, explain), out, wider.ASKED)


def of_choices(words: Sequence[str], files: Mapping[str, bytes], exe: Any = None, wide: Any = True, beside: Sequence[str] = ()) -> tuple[Ran, bool]:
    """Returns how a call over choices from budgets ended, and whether that is the end of the wider edition, which is asked where the
    program itself refuses choices that this may take, if it is there and `wide` is true. It alone is given the words `beside` these."""
    ran = call(words, files, exe)
    if not switch(wide, "wide") or not wider.is_refused(words[0], ended_of(ran)):
        return ran, False
    more = call_wide([*words, *beside], files, exe, is_long=True)
    return (ran, False) if more is None else (more, True)


def call_wide(words: Sequence[str], files: Mapping[str, bytes], exe: Any = None, is_long: bool = False) -> Ran | None:
    """Returns how a call of the wider edition ended; None where that is not there. One that may take long can be interrupted."""
    found = wide_way(exe)
    if found is None:
        return None
    run, path = found
    if run is not None and is_long:
        run = library.known(path).run_wide_apart
    try:
        return ran_of(*(run or worker.run)(path, words, files))
    except OSError as wrong:
        raise NoProgram(f"{path} cannot be run: {wrong}") from wrong


# A call of `fit` on a table of more observations has a process of its own, which can be interrupted.
SHORT = 64
NO_FIT = "has no fit: take rp-wide of a release after 0.17.0, or name one by"


def call_fit(words: Sequence[str], files: Mapping[str, bytes], exe: Any = None, count: int = 0, running: worker.Running | None = None) -> Ran:
    """Returns how `fit` or `checkfit` ended on so many observations. Only the wider edition has them; raises NoProgram where it is not there."""
    found = wide_way(exe)
    if found is None:
        raise NoProgram(f"fit is a command of rp-wide, {wider.ABSENT.partition(', ')[2]}")
    run, path = found
    if run is not None:
        status, out, told = run(path, words, files) if count <= SHORT else library.known(path).run_wide_apart(path, words, files, running)
        if status != UNKNOWN:
            return ran_of(status, out, told)
        own = wide_beside(None)
        if own is None:
            raise NoProgram(f"the library {path} {NO_FIT} {WIDE_VARIABLE}")
        path = own
    try:
        status, out, told = worker.run(path, words, files, running)
    except OSError as wrong:
        raise NoProgram(f"{path} cannot be run: {wrong}") from wrong
    if status == UNKNOWN:
        raise NoProgram(f"{path} {NO_FIT} {WIDE_VARIABLE}")
    return ran_of(status, out, told)


def ended_of(ran: Ran) -> wider.Ended:
    return ran.status, ran.out.encode(), ran.said.encode()


def hint_of(wide: bool, is_there: bool) -> str:
    """Returns what is said of a value that stays withheld."""
    return wider.UNASKED if not wide else wider.ASKED if is_there else wider.ABSENT


def switch(value: Any, name: str) -> bool:
    """Returns True or False, and refuses everything else."""
    if type(value).__name__ not in ("bool", "bool_"):
        raise BadData(f"{name} is True or False, and not {shown(value)}")
    return bool(value)


def ran_of(status: int, out: bytes, told: bytes) -> Ran:
    # What a program adds to its own line is said here in the words of this language.
    said = [line for line in _text(told).splitlines() if not line.startswith(("note: ", "hint: "))]
    return Ran(status, _text(out), "\n".join(said))


def _text(data: bytes) -> str:
    return data.decode("utf-8", "replace")


Explains = Callable[["str | None", str, "dict[str, int]"], Exception]


def answer(words: Sequence[str], files: Mapping[str, bytes], exe: Any = None, explain: Explains | None = None) -> str:
    """Returns the output of a call that ends with status 0; raises what `explain` makes of a refusal, or Failed."""
    return output(call(words, files, exe), explain)


def output(ran: Ran, explain: Explains | None = None) -> str:
    if ran.status == 0:
        return ran.out
    if ran.refusal is not None and explain is not None:
        raise explain(*ran.refusal)
    raise Failed(ran.status, ran.said)


def whole(value: Any, name: str, least: int, greatest: int) -> int:
    """Returns a whole number within its limits, before it becomes a word of the program; refuses everything else."""
    if not isinstance(value, (bool, str, bytes, float)) and hasattr(value, "__index__"):
        number = value.__index__()
        if least <= number <= greatest and type(value).__name__ not in ("bool", "bool_"):
            return int(number)
    raise BadData(f"{name} is a whole number from {least:,} to {greatest:,}, and not {shown(value)}")
