"""A long file of many households, CSV or Parquet, read once and cut into blocks of whole records, a household in one block, with
memory that does not grow with the file. No number of it is read.

Where the records of each household stand together, a household is handed on when the next one begins. The ids that have come are
kept in a temporary database of the system's disk, so that one that comes again is seen. Then all records go through such a
database, which puts those of each household together. It has no name in any folder: nothing of it is left, however the run ends.
The records without a household come behind all others, as the call tells them.
"""

from __future__ import annotations

import csv
import hashlib
import io
import sqlite3
import tempfile
from fractions import Fraction
from itertools import chain
from math import isfinite
from typing import Any, Callable, Iterator, NamedTuple, Optional

from ..catalogue import LIMITS
from ..exact import Form, text_of
from ..long_call import BLANKS, DECIDING, ID_BYTES
from ..program import joined

# A block has so many households at most, or so many bytes of them: what is answered by one call, and what the parts of a cluster
# take in turn.
BLOCK, BYTES = 20, 1 << 21
# How a file of Parquet begins, and how many of its records are taken at once.
PARQUET = b"PAR1"
RECORDS = 20_000
# A byte is a character: what is no text stands as it is.
BYTE = "latin-1"
MARK = "\xef\xbb\xbf"
ENDS = ("\n", "\r")
csv.field_size_limit(LIMITS["long.bytes"])


class Stopped(Exception):
    """Why there is no answer, in one line."""


class Apart(Exception):
    """The records of a household do not stand together."""


class Household(NamedTuple):
    """A household, by its id: the numbers of its records, from 1, and their texts, no more than decide. Without an id it is records
    of none."""

    id: str
    numbers: list[int]
    texts: list[str]


class Block(NamedTuple):
    """Households that are answered by one call, after so many others and so many rows before."""

    number: int
    rows: int
    households: list[Household]

    def ids(self) -> list[str]:
        return [it.id for it in self.households if it.id]

    def unnamed(self) -> int:
        """Returns how many records have no household."""
        return sum(len(it.numbers) for it in self.households if not it.id)

    def numbers(self) -> list[int]:
        return [number for it in self.households for number in it.numbers[:DECIDING]]

    def data(self, header: str) -> bytes:
        return "".join(chain([header], *(it.texts for it in self.households))).encode(BYTE)


class Summed(io.RawIOBase):
    """The bytes of a file, which are counted and summed as they are read."""

    def __init__(self, raw: Any) -> None:
        super().__init__()
        self.raw, self.sum, self.taken = raw, hashlib.blake2b(digest_size=16), 0

    def readable(self) -> bool:
        return True

    def readinto(self, room: Any) -> int:
        count = self.raw.readinto(room)
        self.sum.update(memoryview(room)[:count])
        self.taken += count
        return int(count)


def sum_of(file: str) -> str:
    """Returns the checksum of a file."""
    summed = hashlib.blake2b(digest_size=16)
    with open(file, "rb") as it:
        for piece in iter(lambda: it.read(1 << 20), b""):
            summed.update(piece)
    return summed.hexdigest()


def records_of(lines: Iterator[str]) -> Iterator[tuple[str, list[str]]]:
    """Yields each record of a CSV file as it stands, to the end of its line, and its fields, as `csv` of Rust reads them."""
    for line in lines:
        if '"' not in line:
            text, fields = line, line.rstrip("\r\n").split(",")
            if fields == [""]:
                continue
        else:
            taken: list[str] = []
            fields = next(csv.reader(noted(chain([line], lines), taken)))
            text = "".join(taken)
        # The last record may end without an end of its line, and within quotes, where that end is a part of its last field.
        is_whole = text.endswith(ENDS) and not fields[-1].endswith(ENDS)
        yield text if is_whole else f"{quoted(fields)}\n", fields


def quoted(fields: list[str]) -> str:
    return ",".join('"' + it.replace('"', '""') + '"' for it in fields)


def noted(lines: Iterator[str], taken: list[str]) -> Iterator[str]:
    for line in lines:
        taken.append(line)
        yield line


class LongFile:
    """A long file, while it is read. `header` is the text of its names of columns, `place` where the ids are. Doubles of a file of
    Parquet are taken as the shortest decimals that give them back, of which `shortened` tells, or exactly, as binary fractions."""

    def __init__(self, file: str, name: str, is_exact: bool = False) -> None:
        self.file, self.name, self.form = file, name, Form(shortest=not is_exact)
        self.shortened = False
        self.header, self.names, self.place = "", [""], 0
        # What says how much of it was read; and when all was, its checksum.
        self.read: Callable[[], float] = float
        self.sum = ""

    def texts(self) -> Iterator[tuple[str, list[str]]]:
        """Yields the text and the fields of each record, that of the names of columns first."""
        with open(self.file, "rb", buffering=0) as raw:
            if raw.read(len(PARQUET)) == PARQUET:
                yield from self._of_parquet()
                return
            size = max(raw.seek(0, io.SEEK_END), 1)
            raw.seek(0)
            summed = Summed(raw)
            lines = io.TextIOWrapper(io.BufferedReader(summed, 1 << 18), BYTE, newline="")
            self.read = lambda: summed.taken / size
            first = next(lines, "")
            try:
                yield from records_of(chain([first.removeprefix(MARK)] if first else [], lines))
            except csv.Error as wrong:
                raise Stopped(f"{self.file}: a record has no end ({wrong}): is there a quote that is not closed?") from None
            self.sum = summed.sum.hexdigest()

    def begin(self) -> Iterator[tuple[str, list[str]]]:
        """Reads the names of the columns, and returns what yields the records."""
        found = self.texts()
        self.header, names = next(found, ("", [""]))
        self.names = [it.strip(BLANKS) for it in names]
        own = self.name.encode("utf-8", "surrogateescape").decode(BYTE)
        self.place = self.names.index(own) if own in self.names else -1
        return found

    def first(self) -> bytes:
        """Returns the names of the columns and the first record, by which the call tells what is wrong with the file as a whole."""
        found = self.begin()
        return (self.header + next(found, ("", []))[0]).encode(BYTE)

    def records(self) -> Iterator[tuple[int, str, str]]:
        """Yields the number of each record, the id of its household, which is empty where it has none that is taken, and its text."""
        found = self.begin()
        width, place = len(self.names), self.place
        for number, (text, fields) in enumerate(found, 1):
            if len(fields) != width:
                what = f"it has {len(fields)} fields, and there are {width} names of columns"
                raise Stopped(f"{self.file}: Ragged record {number}: {what}; nothing is completed or cut: mend the record")
            own = fields[place].strip(BLANKS)
            yield number, own if len(own) <= ID_BYTES else "", text

    def _of_parquet(self) -> Iterator[tuple[str, list[str]]]:
        """Yields the texts and fields of the records of a file of Parquet, whose numbers are not rounded."""
        try:
            from pyarrow.parquet import ParquetFile
        except ImportError:
            raise Stopped(f"{self.file}: this is Parquet, which is read where pyarrow is there: install it, or write the file as CSV") from None
        file = ParquetFile(self.file)
        names, done = list(file.schema_arrow.names), 0
        self.read = lambda: done / max(file.metadata.num_rows, 1)
        yield line(names)
        for batch in file.iter_batches(batch_size=RECORDS, columns=names):
            lists = batch.to_pydict()
            done += len(lists[names[0]])
            for values in zip(*(lists[name] for name in names)):
                yield line([self._text(value) for value in values])
        self.sum = sum_of(self.file)

    def _text(self, value: Any) -> str:
        """Returns the text of a value; that of a missing one is empty."""
        if isinstance(value, str):
            return value
        own = text_of(value, self.form)
        self.shortened = self.shortened or is_shortened(value, own)
        return own


def line(fields: list[str]) -> tuple[str, list[str]]:
    own = [it.encode("utf-8", "surrogateescape").decode(BYTE) for it in fields]
    return f"{joined(own)}\n", own


def is_shortened(value: Any, own: str) -> bool:
    """Whether the text of a double is another number than the binary fraction that it is."""
    return isinstance(value, float) and not value.is_integer() and isfinite(value) and Fraction(own) != Fraction(value)


# ---- households


def temporary() -> sqlite3.Connection:
    """Returns a database in a temporary file without a name."""
    base = sqlite3.connect("", isolation_level=None)
    for words in ("temp_store = FILE", "journal_mode = OFF", "synchronous = OFF", "cache_size = -65536"):
        base.execute(f"PRAGMA {words}")
    return base


def no_room(wrong: sqlite3.Error) -> Stopped:
    """Returns what is told where the temporary database cannot be written."""
    return Stopped(
        f"the temporary folder ({tempfile.gettempdir()}) does not take what is kept of the file there ({wrong}): make room in it, or name"
        " another one by SQLITE_TMPDIR and TMPDIR, and start again"
    )


class Unnamed:
    """The records without a household, in a temporary database until all others have come."""

    def __init__(self, base: sqlite3.Connection) -> None:
        self.base = base
        base.execute("CREATE TABLE unnamed (number INTEGER PRIMARY KEY, it TEXT)")

    def put(self, number: int, record: str) -> None:
        self.base.execute("INSERT INTO unnamed VALUES (?, ?)", (number, record))

    def households(self) -> Iterator[Household]:
        """Yields each record for itself."""
        for number, record in self.base.execute("SELECT number, it FROM unnamed ORDER BY number"):
            yield Household("", [number], [record])


def grouped(records: Iterator[tuple[int, str, str]], unnamed: Optional[Unnamed]) -> Iterator[Household]:
    """Yields the households of records that stand together. Of one with more records than a table has, no more are kept than show
    it, since nothing else of it is looked at then."""
    last: Optional[Household] = None
    for number, own, record in records:
        if not own and unnamed is not None:
            unnamed.put(number, record)
            continue
        if last is None or own != last.id:
            if last is not None:
                yield last
            last = Household(own, [], [])
        if len(last.texts) < DECIDING:
            last.numbers.append(number)
            last.texts.append(record)
    if last is not None:
        yield last


def together(long: LongFile) -> Iterator[Household]:
    """Yields the households of a file as they stand; raises Apart where one comes again."""
    base = temporary()
    base.execute("CREATE TABLE name (it TEXT PRIMARY KEY) WITHOUT ROWID")
    unnamed = Unnamed(base)
    base.execute("BEGIN")
    for household in grouped(long.records(), unnamed):
        try:
            base.execute("INSERT INTO name VALUES (?)", (household.id,))
        except sqlite3.IntegrityError:
            raise Apart(shown(household.id)) from None
        yield household
    yield from unnamed.households()


class Gathered:
    """The records of a file, put together by household in a temporary file of `size` bytes."""

    def __init__(self, long: LongFile) -> None:
        self.base = temporary()
        self.unnamed = Unnamed(self.base)
        self.base.execute("CREATE TABLE name (it TEXT PRIMARY KEY, number INTEGER) WITHOUT ROWID")
        self.base.execute("CREATE TABLE record (household INTEGER, number INTEGER, id TEXT, it TEXT)")
        self.base.execute("BEGIN")
        count, last, of = 0, "", 0
        for number, own, record in long.records():
            if not own:
                self.unnamed.put(number, record)
                continue
            if own != last:
                found = self.base.execute("SELECT number FROM name WHERE it = ?", (own,)).fetchone()
                if found is None:
                    count += 1
                    self.base.execute("INSERT INTO name VALUES (?, ?)", (own, count))
                last, of = own, found[0] if found else count
            self.base.execute("INSERT INTO record VALUES (?, ?, ?, ?)", (of, number, own, record))
        pages, page = (self.base.execute(f"PRAGMA {it}").fetchone()[0] for it in ("page_count", "page_size"))
        self.size, self.count = pages * page, count

    def households(self) -> Iterator[Household]:
        found = self.base.execute("SELECT number, id, it FROM record ORDER BY household, number")
        return chain(grouped(found, None), self.unnamed.households())


def blocks(households: Iterator[Household]) -> Iterator[Block]:
    """Yields the households in blocks."""
    number = rows = size = 0
    block: list[Household] = []
    for household in households:
        more = sum(map(len, household.texts))
        if block and (len(block) == BLOCK or size + more > BYTES):
            yield Block(number, rows, block)
            number, rows, size, block = number + 1, rows + len(block), 0, []
        block.append(household)
        size += more
    if block:
        yield Block(number, rows, block)


def shown(name: str) -> str:
    """Returns an id as it is told, whatever bytes it has."""
    return repr(name.encode(BYTE).decode("utf-8", "replace"))
