"""The call of panels over one block after the other, by the library in this process or by a process for each block; and what is kept of
each household in an archive, by calls for its own table."""

from __future__ import annotations

import hashlib
import os
import shutil
import subprocess
import threading
from typing import Any, Iterator, Mapping, NamedTuple, Optional, Sequence

from .. import library, program, wider
from ..advice import hint_of
from ..faults import Unreadable
from ..long_call import COLUMNS, FAULT, LONG, RECORD, Asked, answered, line_of, rows_of
from ..wider import Calls, Ended
from .ends import ENDS
from .files import BYTE, Block, Household, LongFile, Stopped, records_of, shown, sum_of
from .results import put

TABLE, NEW = "table.csv", "new.csv"
# The sources or the release that this file came with, and where `rt` builds the program of the commands beside that of panels.
TOP = os.path.dirname(os.path.dirname(os.path.dirname(os.path.dirname(os.path.realpath(__file__)))))
BUILT = os.path.join(os.pardir, os.pardir, "rp", "out", "rp")
NAME_BYTES = 64


class Answer(NamedTuple):
    """The answer to a block: the checksum of what was asked, its rows, and of the households at these places what is kept."""

    sum: bytes
    rows: bytes
    kept: list[tuple[int, list[tuple[str, bytes]]]]


def found(named: Optional[str]) -> str:
    """Returns the program of panels, or a library that has its call: what is named, or what stands in the release or the sources of
    this tool, or on the path."""
    variables = ("RP_PANEL", "RP_LIBRARY", "RP_EXEC")
    if named or any(os.environ.get(it) for it in variables) or library.release() is not None:
        return program.panel_way(named or None)[1]
    if os.access(f"{TOP}/prove", os.X_OK):
        if subprocess.run([f"{TOP}/prove", "--keep-new", "rp_panel_program"], stdin=subprocess.DEVNULL).returncode:
            raise Stopped(f"the program is not proved here yet: run {TOP}/prove, once, or name a program by --rp PATH")
        return f"{TOP}/crates/rp_panel_program/out/rp_panel_program"
    return program.panel_way(None)[1]


class Program:
    """What answers blocks: the program, or the library, of this path."""

    def __init__(self, named: Optional[str], asked: Asked, certificates: bool, new: Mapping[str, Optional[bytes]]) -> None:
        self.path, self.asked = found(named), asked
        self.is_of_library = library.is_library(self.path)
        self.certificates, self.new = certificates, dict(new)
        self.commands = self._commands() if certificates or any(new.values()) else None
        self.folder, self.count = "", 0
        self.running: set[subprocess.Popen[bytes]] = set()
        self.lock, self.ending = threading.Lock(), False

    def _commands(self) -> tuple[str, Optional[str]]:
        """Returns the program of the commands, or the library, and its wider edition where that is asked and a program."""
        if self.is_of_library:
            return self.path, None
        own = program.beside(self.path, program.NAME, BUILT) or program.way()[1]
        return own, program.wide_beside(own) if self.asked.wide else None

    def files(self) -> list[str]:
        """Returns the files that answer, in whose place no result may stand."""
        return [self.path, *(it for it in self.commands or () if it)]

    def head(self) -> dict[str, Any]:
        """Returns what has to be the same where a start goes on."""
        sums = [hashlib.blake2b(it or b"").hexdigest() for _, it in sorted(self.new.items())]
        asked = self.asked
        power = list(asked.power) if asked.power else None
        questions = [asked.id, list(asked.kept), asked.pump, power, asked.wide, self.certificates, *sums]
        return {"program": "".join(map(sum_of, self.files())), "questions": questions}

    def columns(self) -> list[str]:
        return [*COLUMNS, *self.asked.kept]

    def columns_in_bytes(self) -> list[str]:
        return [it.encode("utf-8", "surrogateescape").decode(BYTE) for it in self.columns()]

    # -- calls

    def begin(self, folder: str) -> None:
        """Makes the folder in which processes find their files, which the library needs not."""
        self.folder, self.ending = folder, False
        if not self.is_of_library:
            os.mkdir(folder, 0o700)

    def close(self) -> None:
        """Ends the processes, in the middle of what they do, and removes their folder."""
        with self.lock:
            self.ending = True
            for it in self.running:
                it.kill()
        if self.folder and not self.is_of_library:
            shutil.rmtree(self.folder, ignore_errors=True)

    def call(self, path: str, words: Sequence[str], files: Mapping[str, bytes]) -> Ended:
        """Runs a program over files, in a folder of its own."""
        with self.lock:
            self.count += 1
            own = os.path.join(self.folder, str(self.count))
        os.mkdir(own)
        try:
            for name, data in files.items():
                write(os.path.join(own, name), data)
            return self.run(path, words, own)
        finally:
            shutil.rmtree(own, ignore_errors=True)

    def run(self, path: str, words: Sequence[str], folder: str) -> Ended:
        """Runs a program in a folder. It has a session of its own: a signal from a terminal is for this process alone."""
        how: dict[str, Any] = {"stdin": subprocess.DEVNULL, "stdout": subprocess.PIPE, "stderr": subprocess.PIPE}
        with self.lock:
            if self.ending:
                raise Stopped("the run was ended")
            process = subprocess.Popen([path, *words], cwd=folder, start_new_session=True, **how)
            self.running.add(process)
        try:
            out, told = process.communicate()
        except BaseException:
            process.kill()
            raise
        finally:
            with self.lock:
                self.running.discard(process)
        if -process.returncode in ENDS:
            # What was stopped from outside is no answer, and no refusal.
            raise Stopped(f"{path}: the program was stopped by a signal")
        return process.returncode, out, told

    def panel(self, data: bytes) -> Ended:
        """Asks for the table of a long file."""
        if self.is_of_library:
            return library.known(self.path).run_panel(self.path, self.asked.words(), {LONG: data})
        return self.call(self.path, self.asked.words(), {LONG: data})

    def calls(self) -> Calls:
        """Returns the calls for the table of one household."""
        assert self.commands is not None
        path, wide = self.commands
        if self.is_of_library:
            own = library.known(path)
            by_call = (lambda words, files: own.run_wide(path, words, files)) if self.asked.wide and own.wider is not None else None
            return Calls(lambda words, files: own.run(path, words, files), by_call)
        by_program = (lambda words, files: self.call(wide, words, files)) if wide is not None else None
        return Calls(lambda words, files: self.call(path, words, files), by_program)

    # -- answers

    def told_of(self, long: LongFile, first: bytes) -> list[str]:
        """Asks about the names of the columns and the first record, and returns what is told of them; raises Stopped where the file
        is refused as a whole."""
        status, out, told = self.panel(first)
        ran = program.ran_of(status, b"", told)
        if ran.refusal is not None:
            raise Stopped(f"{long.file}: {self.refused(long, *ran.refusal[1:])}")
        if status:
            raise Stopped(f"{self.path} ended with status {status}: {ran.said or 'it told nothing'}")
        if rows_of(out.decode(BYTE))[:1] != [self.columns_in_bytes()]:
            raise Stopped(f"{self.path} gave no table of verdicts: is it rp-panel, of this version?")
        return [it.removeprefix("rp-panel: ") for it in ran.said.splitlines()]

    def refused(self, long: LongFile, fault: str, places: Mapping[str, int]) -> str:
        """Returns what is told of a fault of the file as a whole, and what to do."""
        names = [it.encode(BYTE).decode("utf-8", "replace") for it in long.names]
        column = places.get("column")
        at = f" record {places['record']}" if "record" in places else ""
        at += f" column {column}" + (f" ({names[column - 1]})" if column else "") if column is not None else ""
        if fault == "NoIdColumn":
            mark = next((word for sign, word in ((";", "semicolons"), ("\t", "tabs")) if len(names) == 1 and sign in names[0]), None)
            if mark is not None:
                return f"{fault}: its fields are separated by {mark}; save it with commas, and with points in numbers"
            return f"{fault}: no column {self.asked.id}; its columns are {', '.join(names)}: name that of the households by --id NAME"
        if fault == "NoKeptColumn":
            return f"{fault}: no column {self.asked.kept[places['name'] - 1]}; its columns are {', '.join(names)}"
        return f"{fault}{at}: {hint_of(fault) or 'see docs/reference/errors.md'}"

    def answer(self, block: Block, header: str, known: Optional[bytes]) -> Optional[Answer]:
        """Returns the answer to a block; None where what was asked has the checksum that is known, so that its rows stand."""
        data = block.data(header)
        numbers = block.numbers()
        summed = hashlib.blake2b(repr((block.rows, numbers)).encode() + b"\0" + data, digest_size=16).digest()
        if summed == known:
            return None
        status, out, told = self.panel(data)
        if status:
            raise Stopped(f"{named(block)}: {os.path.basename(self.path)} ended with status {status}: {told.decode('utf-8', 'replace').strip()}")
        try:
            rows = answered(out.decode(BYTE), block.ids(), block.unnamed(), self.asked)
        except Unreadable as wrong:
            raise Stopped(f"{named(block)}: {self.path} gave no table of these households: {wrong.why}") from None
        for row in rows:
            if row[RECORD]:
                row[RECORD] = str(numbers[int(row[RECORD]) - 1])
        kept = [(at, self.kept(own, header)) for at, (own, row) in enumerate(zip(block.households, rows)) if self.commands and not row[FAULT]]
        return Answer(summed, "".join(map(line_of, rows)).encode(BYTE), kept)

    def kept(self, household: Household, header: str) -> list[tuple[str, bytes]]:
        """Returns what is kept of a household that has verdicts: its table, and what else is asked."""
        table = table_of(header, household, self.asked.id)
        files = [(TABLE, table)]
        for words, more, name in self.questions():
            ended, _ = wider.told(self.calls(), words, {TABLE: table, **more})
            if ended[0]:
                raise Stopped(f"the household {shown(household.id)}: {name}: {ended[2].decode('utf-8', 'replace').strip() or f'status {ended[0]}'}")
            files.append((name, ended[1]))
        return files

    def questions(self) -> Iterator[tuple[list[str], dict[str, bytes], str]]:
        """Yields what is asked of a household's table: words, files beside it, and the name under which the answer is kept."""
        if self.certificates:
            yield ["certify", TABLE], {}, "certificate.json"
        for name, data in self.new.items():
            if data is not None:
                yield [name, TABLE, NEW, "--json"], {NEW: data}, f"{name}.json"


def write(file: str, data: bytes) -> None:
    """Writes a file; what goes wrong is told with its name."""
    it = os.open(file, os.O_WRONLY | os.O_CREAT | os.O_EXCL | getattr(os, "O_BINARY", 0), 0o600)
    try:
        put(it, data, file)
    finally:
        os.close(it)


def named(block: Block) -> str:
    """Returns where a block stands in a long file."""
    ids = block.ids()
    if not ids:
        return f"the records {block.households[0].numbers[0]} to {block.households[-1].numbers[-1]}, which have no household"
    return f"the household {shown(ids[0])}" if len(ids) == 1 else f"the households {shown(ids[0])} to {shown(ids[-1])}"


def table_of(header: str, household: Household, name: str) -> bytes:
    """Returns the table of a household: of its records the columns that a table has."""
    rows = [fields for _, fields in records_of(iter([header, *household.texts]))]
    own = name.encode("utf-8", "surrogateescape").decode(BYTE)
    names = [it.strip(" \t") for it in rows[0]]
    places = [at for at, it in enumerate(names) if it != own and is_of_table(it)]
    return "".join(line_of([row[at] for at in places]) for row in rows).encode(BYTE)


def is_of_table(name: str) -> bool:
    """Whether a table may have a column of this name."""
    is_good = name[:2] in ("p_", "q_") and 1 <= len(name) - 2 <= NAME_BYTES and min(name) >= " "
    return name in ("obs", "e") or is_good
