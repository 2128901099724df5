"""Data as the program takes them: tables, new prices, bundles, budgets and choices, menus, technologies, each with the labels of
its rows. What is no number of the program's is refused by it, and the refusal is told by these labels.
"""

from __future__ import annotations

import functools
from typing import Any, Callable, Iterable, Iterator, Sequence, Tuple, TypeVar, cast

from . import advice, exact, program
from .advice import LEVEL_HINT, LEVELS, MONEY, PRICES, QUANTITIES, WHOLE, Kinds
from .catalogue import PER
from .exact import AS_THEY_ARE, Form
from .faults import BadData, Refused, WrongColumns
from .frames import Frame, is_frame, listed, near, need, no_panel, numbered, one_row, own_labels, pairs_of
from .frames import prices_of, rows_of, starting, values_of
from .offered import Offered, spent


class Sheet:
    """A file for the program: names of columns, rows of values, and a label for each row.

    `kinds` says of each column what scales it; `forms` how its numbers become texts; `wanted` which columns there have to be.
    `whole` has the values of all files that are asked about together, where these are more than this one.
    """

    whole: Kinds | None = None

    def __init__(
        self, file: str, names: Iterable[Any], rows: list[list[Any]], labels: list[Any], kinds: list[str], forms: Sequence[Form], wanted: str = ""
    ) -> None:
        self.file = file
        self.names = [str(name) for name in names]
        self.told = self.names
        self.rows = rows
        self.labels = labels
        self.kinds = kinds
        self.forms = forms
        self.wanted = wanted
        self.are_as_they_are = all(it.places is None for it in forms)
        self.texts = [self._texts(number, row) for number, row in enumerate(rows, 1)]

    def _texts(self, record: int, row: list[Any]) -> list[str]:
        texts = []
        if self.are_as_they_are and exact.are_plain(row):
            return list(map(str, row))
        for place, value in enumerate(row):
            try:
                texts.append(exact.text_of(value, self.forms[place] if place < len(self.forms) else AS_THEY_ARE))
            except exact.NotFinite:
                raise self.refused("TooManyDecimals", {"record": record, "column": place + 1}) from None
            except exact.TooLong as wrong:
                raise self.refused(wrong.fault, {"record": record, "column": place + 1}) from None
        return texts

    def csv(self) -> bytes:
        """Returns the bytes of the file."""
        return program.csv_bytes([self.names, *self.texts])

    def scale(self, *prefixes: str) -> int:
        """Returns the power of ten that makes the numbers whole of all columns whose names begin so."""
        own = [place for place, name in enumerate(self.names) if name.startswith(prefixes)]
        return self.power(own)

    def power(self, columns: Sequence[int]) -> int:
        """Returns the power of ten that makes the numbers of these columns whole."""
        parts = [row[place].partition(".")[2].rstrip("0") for row in self.texts for place in columns]
        return int(10 ** max(map(len, parts), default=0))

    def values(self) -> Kinds:
        """Returns the values of each kind, as they are taken."""
        if self.whole is not None:
            return self.whole
        return Kinds(self._values, all(it.shortest for it in self.forms))

    def _values(self) -> dict[str, Sequence[Any]]:
        found: dict[str, list[Any]] = {}
        for place, kind in enumerate(self.kinds):
            found.setdefault(kind, []).extend(row[place] for row in self.rows if place < len(row))
        return {**found}

    @property
    def numbers(self) -> str | None:
        """How numbers were taken where a float was taken for a decimal that is another number than the float; else None."""
        taken = (value for row in self.rows for value, form in zip(row, self.forms) if form.shortest and form.places is None)
        return exact.SHORTENED if any(map(exact.is_shortened, taken)) else None

    def refused(self, fault: str, places: dict[str, int]) -> Refused:
        """Returns the refusal of this file, with the row's label, the column's name, what stands there, and a hint."""
        record, column = places.get("record"), places.get("column")
        label = self.labels[record - 1] if record and record <= len(self.labels) else None
        name = self.told[column - 1] if column and column <= len(self.told) else None
        value = shown = None
        kind = self.kinds[column - 1] if name is not None and column else ""
        if label is not None and name is not None and record and column and column <= len(self.rows[record - 1]):
            value = self.rows[record - 1][column - 1]
            shown = "missing" if exact.is_missing(value) else exact.shown(value)
        return Refused(fault, self.file, label=label, name=name, value=shown, hint=self._hint(fault, value, kind), **places)

    def _hint(self, fault: str, value: Any, kind: str) -> str | None:
        if fault in ("BadNumber", "BadLevel") and kind == LEVELS:
            return LEVEL_HINT
        if fault == "BadNumber" and exact.is_missing(value):
            return "The value is missing. Leave the row out, or fill in the value."
        number = exact.fraction_of(value)
        if fault == "BadNumber" and number is not None and number < 0:
            return "This number is negative. A price must be above 0, and a quantity 0 or more."
        if fault == "BadNumber" and kind == WHOLE and number is not None:
            return "This is a count, so it is an integer." + (f" {FROM_SHARES}" if 0 < number < 1 else "")
        if fault == "TooManyDecimals" and number is not None:
            may_be_a_line = kind == PRICES and self.kinds.count(PRICES) == 2 and not getattr(self, "own_money", False)
            return advice.too_many_places(kind, self.values(), may_be_a_line)
        if fault == "TooLarge" and number is not None:
            return advice.too_large(kind, self.values())
        if fault in ("Unpaired", "OtherGoods", "Empty") and self.wanted:
            return f"The columns that are wanted are {self.wanted}; those that were found are {listed(self.names)}."
        return advice.hint_of(fault)


FROM_SHARES = "If you have shares, multiply them by 1000, or by another power of 10, and round them."
Forms = Tuple[Form, Form]
DEFAULT: Forms = (AS_THEY_ARE, AS_THEY_ARE)


def forms_of(decimals: Any = None, numbers: Any = "shortest") -> Forms:
    """Returns how prices and quantities become texts: `decimals` is one number for both, or one for each."""
    pair = tuple(decimals) if isinstance(decimals, (tuple, list)) else (decimals, decimals)
    if len(pair) != 2:
        raise BadData(f"decimals is a whole number from 0 to {exact.MOST_PLACES}, or two of these, those of prices and of quantities: {exact.shown(decimals)}")
    if not isinstance(numbers, str) or numbers not in ("exact", "shortest"):
        raise BadData(
            f"numbers is 'shortest', by which a float is the shortest decimal that gives it back, or 'exact', by which it is the binary"
            f" fraction that it is, and not {exact.shown(numbers)}"
        )
    prices, quantities = (None if number is None else program.whole(number, "decimals", 0, exact.MOST_PLACES) for number in pair)
    return Form(prices, numbers == "shortest"), Form(quantities, numbers == "shortest")


Call = TypeVar("Call", bound=Callable[..., Any])


def takes_places(call: Call) -> Call:
    """Lets a call take `places`, the older name of `decimals`."""

    @functools.wraps(call)
    def taken(*data: Any, **more: Any) -> Any:
        if "places" in more:
            if more.get("decimals") is not None:
                raise BadData("places is the older name of decimals: give one of the two")
            more["decimals"] = more.pop("places")
        return call(*data, **more)

    return cast(Call, taken)


# ---- tables


OWN_MONEY = "intercepts exchanged give each row money of its own, and this adds money of different rows"


class Table(Sheet):
    """Prices and quantities by observation, perhaps with efficiency levels. Make it by `table(p, q)` or `from_frame(d)`.

    It unpacks into prices and quantities. `own_money` says that the prices are exchanged intercepts, so each row has its own unit of money.
    """

    def __init__(
        self,
        goods: Iterable[Any],
        prices: list[list[Any]],
        quantities: list[list[Any]],
        labels: list[Any],
        forms: Forms = DEFAULT,
        levels: list[Any] | None = None,
        own_money: bool = False,
        whole: Kinds | None = None,
    ) -> None:
        self.goods = [str(good) for good in goods]
        self.own_money = own_money
        self.prices = prices
        self.quantities = quantities
        self.levels = levels
        self.own_forms = forms
        self.whole = whole
        count = len(self.goods)
        names = [*(f"p_{good}" for good in self.goods), *(f"q_{good}" for good in self.goods)]
        rows = [[*p, *q] for p, q in zip(prices, quantities)]
        kinds = [PRICES] * count + [QUANTITIES] * count
        asked = [forms[0]] * count + [forms[1]] * count
        if levels is not None:
            levels = self.levels = thousandths(levels)
            names, kinds, asked = [*names, "e"], [*kinds, LEVELS], [*asked, AS_THEY_ARE]
            rows = [[*row, level] for row, level in zip(rows, levels)]
        super().__init__("table", names, rows, labels, kinds, asked, "p_NAME and q_NAME for each good")
        # What choices spent of the offered budgets, where these are told by intercepts; else None.
        self.offered: Offered | None = None
        if own_money:
            self.told = [*(f"i_{good}" for good in reversed(self.goods)), *self.names[count:]]
            # The prices are the intercepts exchanged.
            lines = [[row[1], row[0]] for row in self.texts]
            names = [self.told[1], self.told[0], *self.names[count : 2 * count]]
            self.offered = spent(lines, [row[count : 2 * count] for row in self.texts], labels, names)

    def __len__(self) -> int:
        return len(self.rows)

    def __iter__(self) -> Iterator[Side]:
        return iter((Side(self, self.prices), Side(self, self.quantities)))

    def written(self, forms: Forms) -> Table:
        """Returns the same table with its numbers in these forms."""
        return self if forms == DEFAULT else Table(self.goods, self.prices, self.quantities, self.labels, forms, self.levels, self.own_money)

    def levelled(self, levels: Any) -> Table:
        """Returns the same table with these levels."""
        if levels is None:
            return self
        if self.levels is not None:
            raise BadData("levels are given twice: by the column 'e', and by the argument levels")
        own = values_of(levels, len(self), "levels")
        return Table(self.goods, self.prices, self.quantities, self.labels, self.own_forms, own, self.own_money)

    @property
    def price_scale(self) -> int:
        return self.scale("p_")

    @property
    def quantity_scale(self) -> int:
        return self.scale("q_")


def thousandths(levels: list[Any]) -> list[Any]:
    """Returns levels in thousandths of what was spent. Levels of which none is above 1, and one is between 0 and 1, are shares: 0.95 is
    950 thousandths. Others are thousandths already, and what is no whole number of them stays as it is, to be refused."""
    shares = [exact.fraction_of(exact.shortest_of(level)) for level in levels]
    if not all(it is not None and it <= 1 for it in shares) or not any(it is not None and 0 < it < 1 for it in shares):
        return levels
    return [int(it * 1000) if it is not None and (it * 1000).denominator == 1 else level for it, level in zip(shares, levels)]


class Side:
    """The prices or the quantities of a table, so that `analyse(*from_frame(d))` can be written."""

    def __init__(self, table: Table, rows: list[list[Any]]) -> None:
        self.table = table
        self.rows = rows

    def __iter__(self) -> Iterator[list[Any]]:
        return iter(self.rows)

    def __len__(self) -> int:
        return len(self.rows)


@takes_places
def from_frame(d: Any, *, decimals: Any = None, numbers: Any = "shortest", levels: Any = None) -> Table:
    """Returns the Table of a frame with columns `p_NAME` and `q_NAME` for each good, and perhaps `obs` and `e`.

    Other columns are left out. `obs` has the labels of the rows; without it the frame's index has them. `e` has an efficiency level for
    each row, in integer thousandths; the argument `levels` does the same. A repeated label is rejected, and so is a column of ids: use
    `panel` for several units.

    Budget lines of two goods may have their intercepts, in columns `i_NAME` in place of `p_NAME`. The intercepts are exchanged for prices,
    which is exact. Each row then has its own unit of money.
    """
    forms = forms_of(decimals, numbers)
    if isinstance(d, Table):
        return d.written(forms).levelled(levels)
    frame = Frame(d)
    goods, price_columns = prices_of(frame, "table")
    no_panel(frame, price_columns)
    labels = own_labels(frame.labels, frame.label_name)
    own = frame.columns["e"] if near(frame, "e", "levels") else None
    prices, quantities = frame.rows(price_columns), frame.rows(f"q_{good}" for good in goods)
    return Table(goods, prices, quantities, labels, forms, own, price_columns[0].startswith("i_")).levelled(levels)


@takes_places
def table(p: Any, q: Any = None, *, decimals: Any = None, numbers: Any = "shortest", levels: Any = None) -> Table:
    """Returns the Table of prices p and quantities q: nested lists or arrays, a row for each observation, or two frames.

    The columns of two frames are matched by name, without `p_` and `q_` in front. Their rows are matched by labels, which must be the same,
    in the same order.
    """
    forms = forms_of(decimals, numbers)
    if q is None:
        if not isinstance(p, Table) and not is_frame(p):
            rows_of(p, "prices")
            raise BadData("there are no quantities: prices p and quantities q are two lists, arrays or frames, or a frame has both")
        return from_frame(p, decimals=decimals, numbers=numbers, levels=levels)
    if isinstance(p, Side) and isinstance(q, Side) and p.table is q.table:
        return p.table.written(forms).levelled(levels)
    if is_frame(p) != is_frame(q):
        raise BadData("prices and quantities are two frames, or two lists or arrays")
    if is_frame(p):
        return _of_frames(Frame(p, "prices"), Frame(q, "quantities"), forms).levelled(levels)
    prices, quantities = rows_of(p, "prices"), rows_of(q, "quantities")
    if [len(row) for row in prices] != [len(row) for row in quantities]:
        raise BadData("prices and quantities have not the same shape")
    if len({len(row) for row in prices}) > 1:
        raise BadData("the rows of prices are not all of one length")
    goods = range(1, len(prices[0]) + 1) if prices else []
    return Table(goods, prices, quantities, list(range(1, len(prices) + 1)), forms).levelled(levels)


def _of_frames(p: Frame, q: Frame, forms: Forms) -> Table:
    price_of, quantity_of = _goods(p, "p_"), _goods(q, "q_")
    if set(price_of) != set(quantity_of):
        raise BadData(
            f"prices and quantities are not of the same goods: {sorted(set(price_of) ^ set(quantity_of))}; "
            f"the columns of prices are {listed(p.names)}, those of quantities {listed(q.names)}"
        )
    if len(p.labels) != len(q.labels) or any(a != b for a, b in zip(p.labels, q.labels)):
        raise BadData("the rows of prices and quantities have not the same labels in the same order")
    goods, labels = list(price_of), own_labels(p.labels, p.label_name)
    return Table(goods, p.rows(price_of.values()), q.rows(quantity_of[good] for good in goods), labels, forms)


def _goods(frame: Frame, prefix: str) -> dict[str, Any]:
    """Returns the name of each good's column."""
    found: dict[str, Any] = {}
    if "e" in frame.columns and any(str(name).startswith(prefix) for name in frame.names):
        raise BadData(f"a column 'e' among columns that begin with {prefix!r}: levels are given by the argument levels here")
    for name in frame.names:
        if name != "obs":
            good = str(name)[2:] if str(name).startswith(prefix) else str(name)
            if good in found:
                raise BadData(f"two columns are of the good {good!r}")
            found[good] = name
    return found


# ---- what stands beside a table


def beside(goods: Sequence[str], data: Any, prefix: str, more: str | None = None, values: Any = None, forms: Forms = DEFAULT) -> Sheet:
    """Returns new prices (`p_`) or bundles (`q_`) of a table's goods, and where `more` names one a column more.

    The data are a frame, which may have that column too, or rows, or one row; else its values are one for each row or one
    for all.
    """
    own = forms[0 if prefix == "p_" else 1]
    if is_frame(data):
        frame = Frame(one_row(data), "new")
        columns = {good: name for good, name in _goods(frame, prefix).items() if name != more}
        header, rows, labels = [prefix + good for good in columns], frame.rows(columns.values()), frame.labels
        values = frame.columns.get(more) if values is None else values
    else:
        rows = rows_of(data if _has_rows(data) else [data], "new")
        header, labels = [prefix + good for good in goods], list(range(1, len(rows) + 1))
        if any(len(row) != len(header) for row in rows):
            raise BadData(f"each row has a number for each of the {len(header)} goods")
    kinds, asked = [PRICES if prefix == "p_" else QUANTITIES] * len(header), [own] * len(header)
    wanted = ", ".join([*(prefix + good for good in goods), *([more] if more else [])])
    if more is not None and values is not None:
        values = values_of(values, len(rows), more)
        header, rows = [*header, more], [[*row, value] for row, value in zip(rows, values)]
        kinds, asked = [*kinds, MONEY], [*asked, own]
    return Sheet("new", header, rows, numbered(labels), kinds, asked, wanted)


def _has_rows(data: Any) -> bool:
    if isinstance(data, (str, bytes)) or not hasattr(data, "__iter__"):
        raise BadData(f"new: neither a row, nor rows, nor a frame: {exact.shown(data, repr)}")
    return all(hasattr(row, "__iter__") and not isinstance(row, str) for row in data)


# ---- budgets with choices

# Names by which people may mean `n`. Without `n` each row is one person's choice, so such a column must not be passed over.
COUNTS = ("n", "share", "shares", "count", "counts", "freq", "frequency", "weight", "weights")


class Choices:
    """Budgets, the choices from them, and the number of units that shares are rounded to."""

    def __init__(self, budgets: Any, choices: Any, per: int | None, forms: Forms = DEFAULT) -> None:
        prices, quantities = forms
        self.per = None if per is None else program.whole(per, "per", *PER)
        if is_frame(budgets) and is_frame(choices):
            first, second = ({str(name)[:2] for name in Frame(data, "budgets").names} & {"p_", "q_"} for data in (budgets, choices))
            if first == {"q_"} and second == {"p_"}:
                raise BadData("budgets and choices are exchanged: the budgets have columns q_NAME, and the choices p_NAME. Give the budgets first.")
        if is_frame(budgets):
            budgets = with_income(Frame(budgets, "budgets"))
        if is_frame(choices):
            choices = counted(Frame(choices, "choices"))
        self.budgets = _sheet("budgets", budgets, "p_", ["w"], {"p_": (PRICES, prices), "w": (MONEY, prices)})
        others = {"q_": (QUANTITIES, quantities), "budget": (WHOLE, AS_THEY_ARE), "n": (WHOLE, AS_THEY_ARE)}
        self.choices = _sheet("choices", choices, "q_", ["budget", "n"], others)
        if is_frame(budgets) and "obs" in budgets:
            self._number_budgets()

    def _number_budgets(self) -> None:
        """Writes the number of each budget in place of its label."""
        numbers = {label: number for number, label in enumerate(self.budgets.labels, 1)}
        place = self.choices.names.index("budget")
        for record, row in enumerate(self.choices.rows, 1):
            try:
                self.choices.texts[record - 1][place] = str(numbers[row[place]])
            except (KeyError, TypeError):
                raise self.choices.refused("UnknownBudget", {"record": record, "column": place + 1}) from None


def with_income(frame: Frame) -> dict[Any, list[Any]]:
    """Returns a frame of budgets under the names of the program's file: the income is `m`, as in every call, or `w`; what the budgets are
    called is `obs` or `budget`."""
    found = dict(frame.columns)
    for own, other, what in (("m", "w", "the income"), ("budget", "obs", "what budgets are called")):
        if own in found:
            if other in found:
                raise BadData(f"budgets: {what} is given twice, by the columns {own!r} and {other!r}")
            found[other] = found.pop(own)
    if "obs" not in found and any(isinstance(label, str) for label in frame.labels):
        found["obs"] = frame.labels
    return found


def counted(frame: Frame) -> dict[Any, list[Any]]:
    """Returns a frame of choices with `n`, how many times each was made. Without that column each row is one person's choice, and rows
    that say the same become one, which is called by the first of them."""
    found = dict(frame.columns)
    if "n" in found or "budget" not in found:
        return found
    unread = [str(name) for name in found if str(name).lower() in COUNTS]
    if unread:
        raise BadData(
            f"choices: the column {unread[0]!r} is not read. Name it 'n' if its integers say how many people chose the bundle. {FROM_SHARES}"
            " Leave the column out if each row is one person's choice."
        )
    names = [name for name in found if name == "budget" or str(name).startswith("q_")]
    first: dict[Any, list[int]] = {}
    for at, row in enumerate(frame.rows(names)):
        first.setdefault(tuple(repr(it) if type(it).__hash__ is None else it for it in row), []).append(at)
    kept = {name: [found[name][own[0]] for own in first.values()] for name in names}
    return {**kept, "n": [len(own) for own in first.values()], "obs": [frame.labels[own[0]] for own in first.values()]}


def _sheet(file: str, data: Any, prefix: str, others: list[str], kinds: dict[str, tuple[str, Form]]) -> Sheet:
    wanted = f"{prefix}NAME for each good, {', '.join('m' if name == 'w' else name for name in others)}"
    labels: list[Any]
    if is_frame(data):
        frame = Frame(data, file)
        goods = starting(frame.names, prefix)
        if not goods or any(name not in frame.columns for name in others):
            raise WrongColumns(wanted.split(", "), frame.names, file)
        names = [*goods, *others]
        header, rows = names, frame.rows(names)
        labels = own_labels(frame.labels, frame.label_name) if file == "budgets" and "obs" in frame.columns else numbered(frame.labels)
    else:
        rows = rows_of(data, file)
        numbers = range(1, (len(rows[0]) if rows else 0) - len(others) + 1)
        header = [*(f"{prefix}{good}" for good in numbers), *others]
        if others[0] == "budget":
            header = ["budget", *(f"{prefix}{good}" for good in numbers), "n"]
        labels = list(range(1, len(rows) + 1))
    of = [kinds.get(name, kinds.get(name[:2], (WHOLE, AS_THEY_ARE))) for name in map(str, header)]
    return Sheet(file, header, rows, labels, [kind for kind, _ in of], [asked for _, asked in of], wanted)


# ---- menus, and firms


class MenuChoices(Sheet):
    """Choices from menus, a frame with `menu`, `choice` and `n` or rows of these, and the number of units that shares are rounded to."""

    def __init__(self, data: Any, per: int | None) -> None:
        self.per = None if per is None else program.whole(per, "per", *PER)
        names = ["menu", "choice", "n"]
        labels: list[Any]
        if is_frame(data):
            frame = Frame(data, "menus")
            need(frame, names, names, "menus")
            rows, labels = frame.rows(names), numbered(frame.labels)
        else:
            rows = rows_of(data, "menus")
            labels = list(range(1, len(rows) + 1))
            if any(len(row) != 3 for row in rows):
                raise BadData("menus: each row is a menu, the letter that was chosen, and how many times")
        super().__init__("menus", names, rows, labels, ["letters", "letters", WHOLE], [AS_THEY_ARE] * 3, ", ".join(names))

    def _texts(self, record: int, row: list[Any]) -> list[str]:
        # a menu and a letter stand as they are, with their blanks
        return [*(it if isinstance(it, str) else exact.shown(it) for it in row[:2]), *super()._texts(record, [None, None, row[2]])[2:]]


class Technology(Sheet):
    """Observed production: for each input its price `w_NAME` and the amount used, `x_NAME`; and the output `y`.

    The price of the output, `p`, may be missing.
    """

    def __init__(self, data: Any, decimals: Any = None, numbers: Any = "shortest") -> None:
        frame = Frame(data, "technology")
        others = ["y", "p (where the output has a price)"]
        self.inputs = pairs_of(frame, "w_", "x_", "technology", others)
        wanted = [*("w_" + name for name in self.inputs), *("x_" + name for name in self.inputs), *others]
        need(frame, ["y"], wanted, "technology")
        no_panel(frame, [])
        self.priced = near(frame, "p", "prices of the output")
        names = [*("w_" + name for name in self.inputs), *(["p"] if self.priced else []), *("x_" + name for name in self.inputs), "y"]
        kinds = [PRICES if name.startswith("w_") or name == "p" else QUANTITIES for name in names]
        prices, quantities = forms_of(decimals, numbers)
        asked = [prices if kind == PRICES else quantities for kind in kinds]
        super().__init__("technology", names, frame.rows(names), own_labels(frame.labels, frame.label_name), kinds, asked, ", ".join(wanted))

    def __len__(self) -> int:
        return len(self.rows)

    @property
    def quantity_scale(self) -> int:
        return self.power([place for place, kind in enumerate(self.kinds) if kind == QUANTITIES])

    def asked(self, data: Any, decimals: Any = None, numbers: Any = "shortest") -> Sheet:
        """Returns the outputs to be costed at new input prices."""
        frame = Frame(one_row(data), "asked")
        names = [*("w_" + name for name in self.inputs), "y"]
        need(frame, names, names, "asked")
        prices, quantities = forms_of(decimals, numbers)
        kinds, own = [PRICES] * len(self.inputs) + [QUANTITIES], [prices] * len(self.inputs) + [quantities]
        return Sheet("asked", names, frame.rows(names), numbered(frame.labels), kinds, own, ", ".join(names))
