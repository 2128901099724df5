"""A panel: the row of each household, subject or region of one long frame, on all processors, or on those of a cluster.

The frame becomes long texts with a column of ids, units in blocks, and the rows are those of the call (`long_call.py`).
"""

from __future__ import annotations

import os
from functools import cached_property, partial
from typing import Any, Iterable, Iterator, NamedTuple, Sequence

from . import clusters, exact, program
from .advice import LEVELS, OF_PANEL, PRICES, QUANTITIES, Kinds
from .catalogue import DRAWS, LIMITS, SEED
from .exact import AS_THEY_ARE
from .faults import AllRefused, BadData, NoProgram, Pooled, Refused, WrongColumns, all_of
from .frames import Frame, near, own_labels, prices_of, values_of
from .offered import Offered, places_given, spent
from .long_call import BLANKS, COLUMNS, DECIDING, ID_BYTES, LONG, OFFERED, Asked, answered, in_turn
from .panel_results import KINDS, Panel, Row, Units, id_text
from .tables import OWN_MONEY, Forms, Sheet, Table, forms_of, takes_places, thousandths

__all__ = ["KINDS", "Household", "LongFrame", "Panel", "Row", "Units", "answers", "of_tables", "panel"]
# Fewer units than this are asked about by this thread alone, and no more in one call.
FEW, BLOCK = 50, 200
# The column of ids in the long text.
HOUSEHOLD = "household"
KEYS = "ids"
# Without this hint a number that no decimal is has a text that is refused as it is.
ENDLESS, TOO_LONG = "0.3333333", {"TooLarge": "9" * 30, "TooManyDecimals": "0." + "3" * 30}


@takes_places
def panel(
    d: Any,
    by: Any,
    workers: Any = None,
    *,
    levels: Any = None,
    pump: bool = False,
    power: Any = None,
    seed: Any = 1,
    decimals: Any = None,
    numbers: Any = "shortest",
    units: str | None = None,
    exe: Any = None,
    wide: bool = True,
    progress: bool = True,
    certificates: Any = None,
) -> Panel:
    """Tests each unit of a long frame, such as a subject or a household. Returns a Panel with a row for each unit.

    `by` is the name of the column, or of the columns, that identify the units. The rows of a unit may be anywhere. Blanks around an id are
    ignored. A row without an id belongs to no unit, and has a row of its own. `units` is what the units are called, such as "subjects"; by
    default the name of the column decides.

    A unit with an error has the error in its row, and the other units are tested. If all units have the same error, it is raised
    (AllRefused), with what to do.

    `decimals` and `numbers` are those of `analyse`. A float with too many decimal places or digits stops the whole panel. `levels` gives
    efficiency levels, one for each row or one for all; a column `e` does the same.

    `pump=True` adds the maximum money pump index. `power` draws this many random behaviours for each unit, by `seed`, and adds the share
    that violates GARP. With levels neither is available. `wide=False` uses `rp` alone, without `rp-wide`.

    If prices are intercepts `i_NAME`, each row has what was spent of the offered budgets: `offered_least`, `below_line`, `over_line`.

    All processors are used, or `workers` of them. If the package `tqdm` is installed, `progress` shows a bar.

    `certificates` is the name of a folder for the replication archive: see `Panel.save_certificates`.

    For a frame of Dask the result is a frame of Dask with the rows of `Panel.frame()`. Its index is the position of each unit's first row:
    `.compute().sort_index()` restores the order of the data. `exe` is a path on each worker.

    References:
        Afriat, S. N. (1973). On a System of Inequalities in Demand Analysis. International Economic Review 14, 460-472.
        Bronars, S. G. (1987). The Power of Nonparametric Tests of Preference Maximization. Econometrica 55, 693-698.
        Echenique, F., Lee, S. and Shum, M. (2011). The Money Pump as a Measure of Revealed Preference Violations. Journal of Political
        Economy 119, 1201-1223.
        Varian, H. R. (1982). The Nonparametric Approach to Demand Analysis. Econometrica 50, 945-973.
    """
    names = [by] if not isinstance(by, (list, tuple)) else list(by)
    if power is not None:
        power, seed = program.whole(power, "power", *DRAWS), program.whole(seed, "seed", *SEED)
    if workers is not None:
        workers = program.whole(workers, "workers", 1, 1024)
    more = {"levels": levels, "pump": pump, "power": power, "seed": seed, "decimals": decimals, "numbers": numbers, "exe": exe}
    more["wide"] = program.switch(wide, "wide")
    if clusters.is_dask(d) and certificates is not None:
        raise BadData("certificates of a frame of Dask are not kept: take rp-panel-long --certificates, or frames of pandas")
    if clusters.is_dask(d):
        of_dask: Panel = clusters.of_dask(d, names, more)
        return of_dask
    found = answers(d, names, workers, progress, units=units, **more)
    stop_where_all_are_refused(found)
    if certificates is not None:
        found.save_certificates(certificates)
    return found


def answers(
    d: Any,
    names: Sequence[Any],
    workers: Any,
    progress: bool,
    *,
    levels: Any = None,
    pump: bool = False,
    power: Any = None,
    seed: Any = 1,
    decimals: Any = None,
    numbers: Any = "shortest",
    units: str | None = None,
    exe: Any = None,
    wide: bool = True,
    is_part: bool = False,
) -> Panel:
    """Returns the Panel of a frame, whether or not any unit has verdicts. Of a part of a frame nobody knows the decimal places of the
    rest, so nothing is asked of offered budgets."""
    asked = Asked(HOUSEHOLD, (), bool(pump), None if power is None else (power, seed), wide)
    whole = LongFrame(Frame(d), names, levels, forms_of(decimals, numbers), asked, exe)
    whole.refuse_floats()
    offered = whole.offered()
    if whole.own_money and not is_part:
        whole.asked = asked._replace(intercepts=True)
    rows = bar_of(whole.answers(workers or processors()), whole, progress)
    beside = (("pump", pump), ("power", power is not None), ("intercepts", whole.asked.intercepts))
    found = Panel(names, rows, [it for it, is_asked in beside if is_asked], units)
    found.numbers, found.offered = whole.numbers, offered
    return found


def of_tables(tables: Sequence[Table], workers: Any = None, exe: Any = None) -> list[Row]:
    """Returns the row of each of some tables of the same goods, by the call of panels."""
    columns: dict[str, list[Any]] = {"table": [number for number, own in enumerate(tables, 1) for _ in range(len(own))]}
    goods = tables[0].goods if tables else []
    for at, good in enumerate(goods):
        columns[f"p_{good}"] = [row[at] for own in tables for row in own.prices]
        columns[f"q_{good}"] = [row[at] for own in tables for row in own.quantities]
    if not tables:
        return []
    found = answers(columns, ["table"], program.whole(workers or processors(), "workers", 1, 1024), False, exe=exe)
    for row in found:
        if row.refusal is not None:
            raise row.refusal
    return list(found)


def stop_where_all_are_refused(found: Units) -> None:
    """Raises the error of a panel whose units all have the same one."""
    if len({row.fault for row in found}) != 1 or found[0].fault is None:
        return
    first = found[0].refusal
    if isinstance(first, Refused):
        raise AllRefused(first, found[0].key, len(found), found.units)
    raise BadData(f"{all_of(len(found), found.units)}, {found[0].key!r}: {first}")


# ---- the long text


def id_of(keys: Sequence[Any]) -> str:
    """Returns the id of a row: the text of its key, or of several as a record of CSV; empty where one is missing."""
    if any(exact.is_missing(key) for key in keys):
        return ""
    texts = [id_text(key).strip(BLANKS) for key in keys]
    if len(texts) == 1:
        return texts[0]
    return ",".join(map(program.field, texts)) if all(texts) else ""


def is_id(text: str) -> bool:
    """Whether an id is one that the program takes; refuses what is no text."""
    try:
        return bool(text) and len(text.encode("utf-8", "surrogateescape")) <= ID_BYTES
    except UnicodeEncodeError as wrong:
        raise BadData(f"an id is no text: {wrong}") from None


class Household(NamedTuple):
    """A unit of a long frame: its id and its key, and its rows, from 0."""

    panel: LongFrame
    id: str
    key: Any
    places: list[int]

    def table(self) -> Table:
        return self.panel.table(self.places)


class LongFrame(Sheet):
    """A frame as a long file: a column of ids, prices, quantities, and perhaps levels. A unit in one block."""

    def __init__(self, frame: Frame, by: Sequence[Any], levels: Any, forms: Forms, asked: Asked, exe: Any) -> None:
        missing = [name for name in by if name not in frame.columns]
        if missing or not by:
            raise WrongColumns([f"{name} (by)" for name in by] or ["by: a column that tells units apart"], frame.names, "panel")
        taken = [name for name in by if name in (*COLUMNS[1:], *OFFERED)]
        if taken:
            raise BadData(f"by: a panel has a column {taken[0]!r} of its own: give the column of ids another name")
        self.frame, self.by, self.asked, self.exe = frame, list(by), asked, exe
        self.goods, price_columns = prices_of(frame, "panel")
        self.own_money = price_columns[0].startswith("i_")
        if self.own_money and asked.pump:
            raise BadData(f"the money pump: {OWN_MONEY}; leave pump=True out")
        self.levels, of_levels = self._levels(levels)
        if self.levels is not None:
            self.levels = thousandths(self.levels)
        quantities = ["q_" + good for good in self.goods]
        self.sides = [[frame.columns[name] for name in side] for side in (price_columns, quantities)]
        columns = [column for side in self.sides for column in side] + ([] if self.levels is None else [self.levels])
        self.file, self.wanted, self.labels = ("table", "p_NAME and q_NAME for each good", frame.labels)
        self.names = [HOUSEHOLD, *(f"p_{good}" for good in self.goods), *quantities, *(["e"] if of_levels else [])]
        self.told = [str(self.by[0]), *price_columns, *quantities, *of_levels]
        count = len(self.goods)
        self.kinds = [KEYS, *[PRICES] * count, *[QUANTITIES] * count, *[LEVELS] * len(of_levels)]
        self.own_forms, self.forms = forms, [AS_THEY_ARE, *[forms[0]] * count, *[forms[1]] * count, *[AS_THEY_ARE] * len(of_levels)]
        self.are_as_they_are = all(it.places is None for it in self.forms)
        # What fits is told by all units, which are rounded alike.
        self.whole = Kinds(self._taken, forms[0].shortest)
        self.own = list(zip(*columns)) if frame.length else []
        self.are_plain = self.are_as_they_are and all(exact.are_plain(column) for column in columns if column)
        self.households, self.unnamed = self._told_apart()

    def _levels(self, levels: Any) -> tuple[Any, list[str]]:
        """Returns the levels, or None, and the name of what has them."""
        own = self.frame.columns["e"] if "e" not in self.by and near(self.frame, "e", "levels") else None
        if levels is None:
            return own, ["e"] if own is not None else []
        if own is not None:
            raise BadData("levels are given twice: by the column 'e', and by the argument levels")
        return values_of(levels, self.frame.length, "levels"), ["e"]

    def _taken(self) -> dict[str, Sequence[Any]]:
        return {kind: [value for column in side for value in column] for kind, side in zip((PRICES, QUANTITIES), self.sides)}

    @property
    def numbers(self) -> str | None:
        """How numbers were taken where a float was taken for a decimal that is another number than the float; else None."""
        taken = (column for side, form in zip(self.sides, self.own_forms) if form.shortest and form.places is None for column in side)
        return exact.SHORTENED if any(exact.is_shortened(value) for column in taken for value in column) else None

    def offered(self) -> Offered | None:
        """Returns what choices spent of the offered budgets, where these are told by intercepts; raises Overspent. A row is called by its
        label, and by its household too where there are several."""
        if not self.own_money or not self.own:
            return None
        sides = self.own_texts
        several = len(self.households) > 1
        calls: list[Any] = list(self.labels)
        for own in self.households if several else []:
            for at in own.places:
                calls[at] = f"{self.labels[at]} of {own.id}"
        names = [self.told[2], self.told[1], *self.told[3:5]]
        return spent(list(zip(sides[1], sides[0])), list(zip(sides[2], sides[3])), calls, names)

    @cached_property
    def own_texts(self) -> list[list[str]]:
        """The texts of the prices and the quantities of two goods, a list for each column."""
        return [[self.number(row[at], self.forms[at + 1]) for row in self.own] for at in range(4)]

    @cached_property
    def measure(self) -> tuple[str, str]:
        """The id and the line of a unit of one choice, whose numbers have the decimal places of all prices and of all quantities of the
        frame. It stands in front of each block, since what rounding explains is told by the decimal places of a whole file.
        """
        name = "places"
        taken = {own.id for own in self.households}
        while name in taken:
            name += "'"
        price, quantity = (last_of(places_given(text for side in sides for text in side)) for sides in (self.own_texts[:2], self.own_texts[2:]))
        levels = [str(LIMITS["table.level_scale"])] if self.levels is not None else []
        return name, f"{program.joined([name, price, price, quantity, quantity, *levels])}\n"

    def refuse_floats(self) -> None:
        """Refuses the whole panel where a float needs more decimal places or digits than are taken, and nothing rounds it."""
        columns = [column for side in self.sides for column in side]
        found = []
        for at, column in enumerate(columns, 1):
            form = self.forms[at]
            if form.places is None:
                record = next((row for row, it in enumerate(column, 1) if isinstance(it, float) and exact.is_beyond(it, form.shortest)), None)
                if record is not None:
                    found.append((record, at + 1))
        if found:
            record, column = min(found)
            raise self.refused("TooManyDecimals", {"record": record, "column": column})

    def _told_apart(self) -> tuple[list[Household], list[Household]]:
        """Returns the households, and the records of none, each for itself."""
        found: dict[str, Household] = {}
        unnamed = []
        # The places of a household by its keys as they stand, so that each of them is looked at once.
        known: dict[Any, list[int]] = {}
        columns = [self.frame.columns[name] for name in self.by]
        for at, keys in enumerate(zip(*columns)):
            as_it_is = keys, tuple(map(type, keys))
            try:
                known[as_it_is].append(at)
                continue
            except (KeyError, TypeError):
                pass
            own = id_of(keys)
            key = keys if len(self.by) > 1 else keys[0]
            if not is_id(own):
                unnamed.append(Household(self, own, key, [at]))
                continue
            if own in found:
                found[own].places.append(at)
                refuse_other_kinds(found[own].key, key)
            else:
                found[own] = Household(self, own, key, [at])
            try:
                known[as_it_is] = found[own].places
            except TypeError:
                pass
        return list(found.values()), unnamed

    def table(self, places: Sequence[int]) -> Table:
        """Returns the table of these rows."""
        labels = own_labels([self.labels[at] for at in places], self.frame.label_name)
        prices, quantities = ([[column[at] for column in side] for at in places] for side in self.sides)
        levels = None if self.levels is None else [self.levels[at] for at in places]
        return Table(self.goods, prices, quantities, labels, self.own_forms, levels, self.own_money, self.whole)

    def lines(self, own: Household) -> list[str]:
        """Returns the records of a household, as lines. What has no text of its own has one that is refused for the same fault."""
        places, name = own.places[:DECIDING], program.field(own.id)
        if self.are_plain:
            return [f"{name},{','.join(map(str, self.own[at]))}\n" for at in places]
        rows = ([self.number(value, form) for value, form in zip(self.own[at], self.forms[1:])] for at in places)
        return [f"{name},{program.joined(row)}\n" for row in rows]

    def number(self, value: Any, form: exact.Form) -> str:
        try:
            return exact.text_of(value, form)
        except exact.NotFinite:
            return ENDLESS
        except exact.TooLong as wrong:
            return TOO_LONG[wrong.fault]

    # -- the call

    def answers(self, workers: int) -> Iterator[Any]:
        """Yields the rows: of the households, and then of the records of none."""
        if not self.households and not self.unnamed:
            return
        run, path = program.panel_way(self.exe)
        count = len(self.households)
        size = 1 + (count - 1) // (4 * workers) if workers > 1 and count >= FEW else BLOCK
        size = min(size, BLOCK)
        blocks = [group[at : at + size] for group in (self.households, self.unnamed) for at in range(0, len(group), size)]
        try:
            for _, found in in_turn(blocks, lambda block: self.answer(block, run, path), workers if count >= FEW else 1):
                yield from found
        except OSError as wrong:
            raise NoProgram(f"{path} cannot be run: {wrong}") from wrong

    def answer(self, block: Sequence[Household], run: program.Runs, path: str) -> list[Any]:
        """Returns the rows of a block."""
        pooled = {own.id: wrong for own in block if own.id for wrong in self.pooled(own)}
        sent = [own for own in block if own.id not in pooled]
        rows = iter(self.called(sent, run, path) if sent else [])
        found = []
        for own in block:
            if own.id in pooled:
                texts = {"household": own.id, "fault": "Pooled"}
                found.append(Row(own.key, [texts.get(name, "") for name in self.asked.columns], own, partial(taken_as_it_is, pooled[own.id])))
            else:
                found.append(next(rows))
        return found

    def pooled(self, own: Household) -> Iterator[Pooled]:
        """Yields why the rows of a household look like those of several."""
        labels = [self.labels[at] for at in own.places]
        try:
            if len(set(labels)) < len(labels):
                own_labels(labels, self.frame.label_name)
        except TypeError:
            pass
        except Pooled as wrong:
            yield wrong

    def data_of(self, sent: Sequence[Household]) -> tuple[bytes, list[int]]:
        """Returns the long text of some units, and the place in the frame of each of its records."""
        places = [at for own in sent for at in own.places[:DECIDING]]
        lines = "".join(line for own in sent for line in self.lines(own))
        return program.csv_bytes([self.names]) + program.bytes_of(lines), places

    def called(self, sent: Sequence[Household], run: program.Runs, path: str) -> list[Any]:
        """Returns the rows that the call gives of some units, or of records of none."""
        named = [own.id for own in sent if is_id(own.id)]
        data, places = self.data_of(sent)
        first = []
        if self.asked.intercepts:
            (name, line), head = self.measure, program.csv_bytes([self.names])
            first, data, places = [name], head + program.bytes_of(line) + data[len(head) :], [-1, *places]
        ran = program.ran_of(*run(path, self.asked.words(), {LONG: data}))
        out = program.output(ran, lambda _, fault, at: self.refused(fault, at))
        rows = answered(out, [*first, *named], len(sent) - len(named), self.asked)
        return [self.row(own, texts, places) for own, texts in zip(sent, rows[len(first) :])]

    def row(self, own: Household, texts: list[str], places: Sequence[int]) -> Row:
        """Returns the row of a household. A fault's record becomes that of the frame, and so does its column."""
        it = dict(zip(self.asked.columns, texts))
        if not it["fault"]:
            return Row(own.key, texts, own)
        at = {name: int(it[name]) for name in ("record", "column") if it[name]}
        if "record" in at:
            at["record"] = places[at["record"] - 1] + 1
        told = self.column_of(at["column"]) if "column" in at else None
        record = at.get("record")
        it.update(household=own.id, record="" if record is None else str(record), column="" if told is None else str(told))
        return Row(own.key, [it[name] for name in self.asked.columns], own, partial(self.refused, it["fault"], at))

    def column_of(self, column: int) -> int | None:
        """Returns the number in the frame of a column of the long text; None where the frame has not it, as of levels by argument."""
        name = self.told[column - 1]
        return self.frame.names.index(name) + 1 if name in self.frame.columns else None

    def refused(self, fault: str, places: dict[str, int]) -> Refused:
        """Returns the refusal of a record, told by the names of the frame."""
        record, column = places.get("record"), places.get("column")
        label = self.labels[record - 1] if record else None
        name = self.told[column - 1] if column else None
        value = shown = None
        if record and column:
            value = self.own[record - 1][column - 2]
            shown = "missing" if exact.is_missing(value) else exact.shown(value)
        hint = OF_PANEL.get(fault) or self._hint(fault, value, self.kinds[column - 1] if column else "")
        told = self.column_of(column) if column else column
        return Refused(fault, self.file, record, told, label=label, name=name, value=shown, hint=hint)


def last_of(places: int) -> str:
    """Returns a number near 1 with so many decimal places."""
    return f"1.{'1'.rjust(places, '0')}" if places else "1"


def taken_as_it_is(wrong: Exception) -> Exception:
    return wrong


def refuse_other_kinds(first: Any, other: Any) -> None:
    """Refuses two keys that are no texts, are not equal, and have one text."""
    pairs = zip(first, other) if isinstance(first, tuple) else [(first, other)]
    for one, two in pairs:
        if one != two and not (isinstance(one, str) and isinstance(two, str)):
            raise BadData(f"the ids {one!r} and {two!r} are not equal, and have one text: make their keys texts that differ")


def processors() -> int:
    if hasattr(os, "sched_getaffinity"):
        return len(os.sched_getaffinity(0))
    return os.cpu_count() or 1


def bar_of(rows: Iterator[Any], whole: LongFrame, progress: bool) -> Iterable[Any]:
    return bar_of_units(rows, len(whole.households) + len(whole.unnamed), progress)


def bar_of_units(rows: Iterator[Any], count: int, progress: bool) -> Iterable[Any]:
    """Returns so many rows, while a bar of the package tqdm says how far they are, where that is there and asked."""
    if not progress:
        return rows
    try:
        from tqdm import tqdm
    except ImportError:
        return rows
    bar: Iterable[Any] = tqdm(rows, total=count, unit="row")
    return bar
