"""The command `rp-panel-long`: the table of households of a long file of any length, on all processors, in a file that a later start
goes on from. The program `rp-panel`, or the call `rp_panel` of the library, makes the rows of one block after the other.

usage: rp-panel-long [OPTIONS] LONG VERDICTS
       rp-panel-long --gather N VERDICTS        puts together what the N tasks of --part 1/N to N/N have made

LONG is a CSV, or Parquet where pyarrow is there. It has a column of ids, `household` or the NAME of --id, and the columns of a
table: obs, p_NAME, q_NAME, e. Other columns are left out. VERDICTS gets the rows that `rp-panel` writes of the whole file: one for
each household, in the order in which they first come, and then one for each record without a household. `python -m revealed.long`
is this command too.

  --id NAME                the column that tells households apart
  --keep NAME              a column whose text in a household's first record stands in its row; may stand several times
  --processes N            so many calls at once; as many as there are processors if it is left out
  --pump                   the greatest money pump ratio of each household
  --power DRAWS [--seed S] how many of so many random behaviours on the budgets of each household fail
  --certificates           the certificate of each household, in the archive
  --demand FILE            demand at the new prices of FILE, as JSON in the archive
  --welfare FILE           welfare bounds at the new prices of FILE, as JSON in the archive
  --archive FILE.tar       where tables and what belongs to them are kept: NUMBER/table.csv, NUMBER/certificate.json ..
  --rp PATH                the program rp-panel, or rp, beside which that stands, or the library
  --exact                  doubles of a Parquet file as binary fractions, and not as the shortest decimals that give them back
  --no-wide                what is withheld stays so, and is not sought past the numbers that rp keeps
  --part K/N               every N-th block of households from the K-th on, for a cluster
  --quiet                  no line of progress

While it runs, the results stand in VERDICTS.part; the same words go on from there after an end of any kind. The status is 0 where
each household has its row, 1 where the run has to go on, 2 where nothing was run.
"""

from __future__ import annotations

import argparse
import csv
import errno
import os
import re
import sqlite3
import sys
import time
from typing import Iterator, Optional, Sequence

from ..catalogue import DRAWS, SEED
from ..exact import SHORTENED
from ..faults import Failed, NoProgram
from ..long_call import COLUMNS, FAULT, Asked, in_turn, line_of
from .ends import Ends, Signalled
from .files import Apart, Block, Gathered, Household, LongFile, Stopped, blocks, no_room, sum_of, together
from .program import Answer, Program, named
from .results import Results, begun, copied, done_of, is_apart, part_name, through

# Another layout of the files gets another number.
LAYOUT = 3
ENDS = Ends()


def tell(line: str) -> None:
    print(f"rp-panel-long: {line}", file=sys.stderr, flush=True)


def said(wrong: BaseException) -> str:
    """Returns what is told of what went wrong, with what to do where the system says that there is no room."""
    if not isinstance(wrong, OSError):
        return str(wrong)
    full = ": make room there, and start the same again" if wrong.errno in NO_ROOM else ""
    return f"{wrong.filename or 'a result'}: {wrong.strerror}{full}"


NO_ROOM = [getattr(errno, name, -1) for name in ("ENOSPC", "EDQUOT", "EFBIG")]


def bytes_of(file: Optional[str]) -> Optional[bytes]:
    if file is None:
        return None
    with open(file, "rb") as it:
        return it.read()


# ---- words


def parser() -> argparse.ArgumentParser:
    it = argparse.ArgumentParser(prog="rp-panel-long", usage=__doc__, add_help=False, allow_abbrev=False)
    it.add_argument("files", nargs="*")
    for name in ("--demand", "--welfare", "--archive", "--rp", "--part"):
        it.add_argument(name)
    it.add_argument("--id", default="household")
    it.add_argument("--keep", action="append", default=[])
    for name in ("--processes", "--power", "--gather"):
        it.add_argument(name, type=int)
    it.add_argument("--seed", type=int, default=1)
    for name in ("--pump", "--certificates", "--exact", "--no-wide", "--quiet", "--help"):
        it.add_argument(name, action="store_true")
    return it


def part_of(word: Optional[str]) -> Optional[tuple[int, int]]:
    if word is None:
        return None
    found = re.fullmatch(r"([0-9]{1,6})/([0-9]{1,6})", word)
    if found is None or not 1 <= int(found[1]) <= int(found[2]):
        raise Stopped(f"--part {word}: K/N is a task and how many there are, as 3/20")
    return int(found[1]), int(found[2])


def refuse_words(asked: argparse.Namespace) -> None:
    """Stops where words do not fit together."""
    if asked.processes is not None and not 1 <= asked.processes <= 1024:
        raise Stopped("--processes: the number of processes is a whole number from 1 to 1024")
    if asked.power is not None and not (DRAWS[0] <= asked.power <= DRAWS[1] and SEED[0] <= asked.seed <= SEED[1]):
        raise Stopped(f"--power DRAWS is from {DRAWS[0]} to {DRAWS[1]}, and --seed S a whole number from {SEED[0]} below 2^64")
    if not asked.id:
        raise Stopped("--id: the name of the column that tells households apart is not empty")
    kept = [f"--{it}" for it in ("certificates", "demand", "welfare") if getattr(asked, it)]
    if bool(kept) != bool(asked.archive):
        raise Stopped(f"{kept[0]} needs --archive FILE.tar" if kept else "--archive needs --certificates, --demand or --welfare")
    if not os.path.isfile(asked.files[0]):
        with open(asked.files[0], "rb"):
            raise Stopped(f"{asked.files[0]}: this is no file that can be read twice: make a file of it")


def refuse_places(asked: argparse.Namespace, program: Program) -> None:
    """Stops where a result would stand in the place of something else."""
    taken = [it for it in (asked.files[0], asked.demand, asked.welfare, *program.files()) if it]
    outputs = [through(part_name(it, part_of(asked.part))) for it in (asked.files[1], asked.archive) if it]
    for output in outputs:
        if os.path.lexists(output) and not os.path.isfile(output):
            raise Stopped(f"{output}: this is no file, and nothing is put in its place")
    places = [os.path.realpath(f"{it}{end}") for it in outputs for end in ("", ".part", ".part.sums", ".part.blocks", ".json")]
    if len(set(places)) < len(places) or any(same(place, it) for place in places for it in taken):
        raise Stopped("a result would stand in the place of the data, of the program, or of another result: name another file")


def same(one: str, other: str) -> bool:
    return one == os.path.realpath(other) or (os.path.exists(one) and os.path.exists(other) and os.path.samefile(one, other))


# ---- a run


class Progress:
    """A line that tells how many rows are done, how fast, and how long the others may take."""

    def __init__(self, quiet: bool) -> None:
        self.begun = self.told = time.monotonic()
        self.terminal = sys.stderr.isatty()
        self.every = 0.2 if self.terminal else 60.0
        self.quiet = quiet

    def step(self, done: int, share: float) -> None:
        now = time.monotonic()
        if self.quiet or now - self.told < self.every:
            return
        self.told = now
        gone, share = now - self.begun, min(max(share, 1e-9), 1.0)
        left = int(gone * (1 - share) / share + 0.5)
        line = f"{done:,} households, {done / gone:,.0f} a second, about {left // 60} min {left % 60:02} s left"
        if self.terminal:
            print(f"\r\033[Krp-panel-long: {line}", end="", file=sys.stderr, flush=True)
        else:
            tell(line)

    def clear(self) -> None:
        if self.terminal and not self.quiet:
            print("\r\033[K", end="", file=sys.stderr, flush=True)


class Tally:
    """How many households have verdicts, how many a fault, how many records are of none, and the first fault."""

    def __init__(self) -> None:
        self.answered = self.refused = self.unnamed = 0
        self.first = ""

    def add(self, row: Sequence[str]) -> None:
        name, (fault, record, column) = row[0], row[FAULT : len(COLUMNS)]
        self.answered += not fault
        self.refused += bool(fault and name)
        self.unnamed += not name
        if fault and not self.first:
            at = (f" record {record}" if record else "") + (f" column {column}" if column else "")
            self.first = f"; the first: {name + ': ' if name else ''}{fault}{at}"

    def end(self) -> int:
        unnamed = f", {self.unnamed} records without a household" if self.unnamed else ""
        print(f"rp-panel-long: {self.answered} answered, {self.refused} refused{unnamed}{self.first}")
        return 0


def tally_of(file: str) -> Tally:
    tally = Tally()
    with open(file, newline="", encoding="utf-8", errors="replace") as it:
        rows = csv.reader(it)
        next(rows, None)
        for row in rows:
            tally.add(row)
    return tally


class Run:
    """A run over a long file."""

    def __init__(self, words: argparse.Namespace, program: Program, first: bytes, header: str, apart: bool) -> None:
        self.words, self.part, self.program, self.first = (words, part_of(words.part), program, first)
        self.long = LongFile(words.files[0], words.id, words.exact)
        self.target = through(part_name(words.files[1], self.part))
        self.archive = through(part_name(words.archive, self.part)) if words.archive else None
        self.head = {"layout": LAYOUT, "columns": header, "part": self.part and list(self.part), "exact": words.exact, **program.head()}
        self.apart = apart
        self.rows = self.count = 0
        self.results: Optional[Results] = None

    def finished(self) -> bool:
        """Whether this part has been made, of the same file and with the same words."""
        done = done_of(self.target) if self.part else None
        heads = done is not None and all(done.get(name) == it for name, it in self.head.items())
        return heads and done is not None and done["long"] == sum_of(self.words.files[0]) and not os.path.exists(f"{self.target}.part.sums")

    def own(self) -> Iterator[Block]:
        """Yields the blocks that are this run's, after counting those of all."""
        source: Iterator[Household]
        if self.apart:
            gathered = Gathered(self.long)
            self.count = gathered.count
            tell(f"the records are put together by household in a temporary file of {gathered.size / 1e6:,.0f} MB, and as much again for their order")
            source = gathered.households()
        else:
            source = together(self.long)
        for block in blocks(source):
            self.rows = block.rows + len(block.households)
            if self.part is None or block.number % self.part[1] == self.part[0] - 1:
                yield block

    def all(self) -> int:
        """Answers all households, and returns the status."""
        first = line_of(self.program.columns()).encode()
        results = self.results = Results(self.target, self.archive, {**self.head, "apart": self.apart}, first)
        if results.rows:
            tell(f"{results.rows:,} households stand already in {results.part}")
        progress = Progress(self.words.quiet)
        standing = results.rows
        try:
            self.program.begin(results.folder)
            self.look()
            with ENDS:
                jobs = ((block, results.known()) for block in self.own())
                for (block, known), answer in in_turn(jobs, self.answer, self.words.processes or processors()):
                    self.keep(results, block, known, answer)
                    progress.step(results.rows - standing, self.share())
        except sqlite3.Error as wrong:
            raise no_room(wrong) from None
        finally:
            progress.clear()
            self.program.close()
        if results.known() is not None:
            raise Stopped(f"{results.part}: it has more households than {self.words.files[0]}: the data were changed; remove it to begin again")
        results.finish({"long": self.long.sum, "rows": self.rows} if self.part else None)
        self.results = None
        return tally_of(self.target).end()

    def look(self) -> None:
        """Tells what the call tells of the file as a whole, once."""
        self.long.begin().close()  # type: ignore[attr-defined]
        for line in self.program.told_of(self.long, self.first):
            if not self.apart:
                tell(line)

    def answer(self, job: tuple[Block, Optional[bytes]]) -> Optional[Answer]:
        block, known = job
        return self.program.answer(block, self.long.header, known)

    def share(self) -> float:
        """Returns how much of the file has been handed on."""
        return self.rows / self.count if self.count else self.long.read()

    def drop(self) -> None:
        if self.results is not None:
            self.results.drop()

    def kept(self) -> bool:
        """Tells what an end before the end leaves, and removes it where it is nothing."""
        if self.results is None:
            return False
        if not self.results.rows:
            self.results.drop()
            return False
        tell(f"{self.results.rows:,} households are kept in {self.results.part}: the same words go on from there")
        return True

    def keep(self, results: Results, block: Block, known: Optional[bytes], answer: Optional[Answer]) -> None:
        """Writes the rows of a block."""
        if answer is None:
            return
        if known is not None:
            what = f"{results.part}: {named(block)} had other data when this was begun"
            raise Stopped(f"{what}: remove it and {results.sums} to begin again")
        results.add(block.rows, answer.sum, answer.rows, answer.kept, len(block.households))


def processors() -> int:
    if hasattr(os, "sched_getaffinity"):
        return len(os.sched_getaffinity(0))
    return os.cpu_count() or 1


def analyse(words: argparse.Namespace) -> int:
    refuse_words(words)
    power = (words.power, words.seed) if words.power else None
    asked = Asked(words.id, tuple(words.keep), words.pump, power, not words.no_wide)
    new = {name: bytes_of(getattr(words, name)) for name in ("demand", "welfare")}
    program = Program(words.rp, asked, words.certificates, new)
    refuse_places(words, program)
    with ENDS:
        long = LongFile(words.files[0], words.id, words.exact)
        first = long.first()
    apart = is_apart(through(part_name(words.files[1], part_of(words.part))))
    while True:
        run = Run(words, program, first, long.header, apart)
        with ENDS:
            if run.finished():
                tell(f"{run.target}: this part is done already")
                return tally_of(run.target).end()
        try:
            status = run.all()
            if run.long.shortened:
                tell(f"numbers: {SHORTENED}")
            return status
        except Apart as household:
            tell(f"{words.files[0]}: the records of {household.args[0]} do not stand together: it begins again, and puts them together first")
            run.drop()
            apart = True
        except (Stopped, OSError, Failed) as wrong:
            if not run.kept():
                raise
            tell(said(wrong))
            return 1
        except Signalled:
            run.kept()
            raise


# ---- gathering


def gather(count: int, target: str) -> int:
    """Puts the parts of a panel together, and returns the status."""
    target = through(target)
    names = [part_name(target, (number, count)) for number in range(1, count + 1)]
    told = [done_of(name) for name in names]
    for name, done in zip(names, told):
        left = begun(name)
        if done is None:
            state = "was not begun" if left < 0 else f"did not end: {left:,} households of it are there"
            if os.path.exists(name) and left < 0:
                state = "is not what its task wrote"
            tell(f"{name}: this part {state}; start its task again")
    whole = [it for it in told if it is not None]
    if len(whole) < count:
        return 1
    for name in ("layout", "columns", "program", "questions", "long", "rows"):
        other = next((part for part, it in zip(names, whole) if it[name] != whole[0][name]), None)
        if other is not None:
            raise Stopped(f"{other}: this part is of another {'file' if name in ('long', 'rows', 'columns') else name} than {names[0]}")
    if os.path.exists(f"{target}.part.sums"):
        raise Stopped(f"{target}.part: a run over the whole file left this: go on with it, or remove it and {target}.part.sums")
    try:
        with ENDS:
            copied(names, whole[0]["first"], [it["blocks"] for it in whole], f"{target}.part")
            tally = tally_of(f"{target}.part")
        number = tally.answered + tally.refused + tally.unnamed
        if number != whole[0]["rows"]:
            raise Stopped(f"{target}: the parts have {number} rows, and the file gives {whole[0]['rows']}")
        os.replace(f"{target}.part", target)
    finally:
        if os.path.exists(f"{target}.part"):
            os.remove(f"{target}.part")
    return tally.end()


def main(given: Optional[Sequence[str]] = None) -> int:
    ENDS.listen()
    try:
        words = parser().parse_intermixed_args(given)
        if words.gather is not None and len(words.files) == 1 and 1 <= words.gather < 1_000_000:
            return gather(words.gather, words.files[0])
        if words.help or len(words.files) != 2 or words.gather is not None:
            print(__doc__, file=sys.stdout if words.help else sys.stderr)
            return 0 if words.help else 2
        return analyse(words)
    except Signalled as signalled:
        return 128 + int(signalled.args[0])
    except (Stopped, NoProgram, OSError, Failed) as wrong:
        tell(str(wrong) if isinstance(wrong, NoProgram) else said(wrong))
        return 2
