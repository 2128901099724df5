"""Frames and rows as they come: pandas' DataFrame or anything with columns by name (polars, pyarrow), a mapping of names to
columns, a list of mappings; or lists, tuples, and arrays of two dimensions. Nothing of pandas or numpy is imported.
"""

from __future__ import annotations

import re
from collections.abc import Mapping
from typing import Any, Iterable, Sequence

from . import exact
from .catalogue import ID_COLUMNS
from .faults import BadData, Pooled, Refused, WrongColumns

# What is said of other columns, where nothing tells which of them are prices.
OF_LINES = "rename them; the intercepts of budget lines of two goods stand in i_NAME, in place of p_NAME"
OTHER_NAMES = re.compile(r"([pqxw])[ ._-]?(\d+)", re.I)


def is_frame(data: Any) -> bool:
    return isinstance(data, Mapping) or hasattr(data, "columns") or is_records(data)


def is_records(data: Any) -> bool:
    return isinstance(data, (list, tuple)) and bool(data) and all(isinstance(row, Mapping) for row in data)


def is_arrow(data: Any) -> bool:
    """Whether this is a table of pyarrow, whose columns are no names."""
    return hasattr(type(data), "column_names")


class Frame:
    """Columns by name, and the labels of the rows: the column `obs` if there is one, else the frame's index, else 1, 2 .."""

    def __init__(self, data: Any, what: str = "the data") -> None:
        if not is_frame(data):
            raise BadData(f"{what}: neither a frame, nor a mapping of names to columns, nor a list of mappings, but {described(data)}")
        columns: list[list[Any]]
        if is_records(data):
            self.names = list(dict.fromkeys(name for row in data for name in row))
            columns = [[row.get(name) for row in data] for name in self.names]
        else:
            self.names = list(data if isinstance(data, Mapping) else data.column_names if is_arrow(data) else data.columns)
            if len(set(self.names)) != len(self.names):
                raise BadData(f"{what}: two columns have one name: {sorted(map(str, self.names))}")
            columns = [column_of(data, name, what) for name in self.names]
        lengths = {str(name): len(column) for name, column in zip(self.names, columns)}
        if len(set(lengths.values())) > 1:
            raise BadData(f"{what}: the columns are not all of one length: {lengths}")
        self.columns = dict(zip(self.names, columns))
        self.length = len(columns[0]) if columns else 0
        self.label_name = "the index"
        if "obs" in self.columns:
            self.labels, self.label_name = self.columns["obs"], "the column 'obs'"
        elif hasattr(data, "index") and not isinstance(data, (list, tuple, Mapping)):
            self.labels = list(data.index)
        else:
            self.labels = list(range(1, self.length + 1))

    def rows(self, names: Iterable[Any]) -> list[list[Any]]:
        """Returns the rows of these columns."""
        names = list(names)
        return [[self.columns[name][at] for name in names] for at in range(self.length)]


def column_of(data: Any, name: Any, what: str) -> list[Any]:
    """Returns a column as a list of its own values."""
    column = data[name]
    if hasattr(column, "to_pylist"):
        column = column.to_pylist()
    elif str(getattr(column, "dtype", "")) in ("float16", "float32") and hasattr(column, "to_numpy"):
        # Floats of fewer bits have shortest decimals of their own, which a float of Python has not.
        column = column.to_numpy()
    if isinstance(column, (str, bytes, Mapping)) or not hasattr(column, "__iter__"):
        raise BadData(f"{what}: the column {name!r} is {described(column)}, and no list of values")
    return list(column)


def described(value: Any) -> str:
    """Returns what kind of thing a value is, with its beginning."""
    said = exact.shown(value, repr)
    return f"{type(value).__name__} {said[:40]}{'..' if len(said) > 40 else ''}"


# ---- labels


def numbered(labels: Iterable[Any]) -> list[Any]:
    """Returns the labels, and the numbers of the rows from 1 where two rows have one label or one has none."""
    labels = list(labels)
    try:
        if len(set(labels)) == len(labels) and not any(exact.is_missing(label) for label in labels):
            return labels
    except TypeError:
        pass
    return list(range(1, len(labels) + 1))


def own_labels(labels: Iterable[Any], name: str) -> list[Any]:
    """Returns the labels of one unit, each of which stands once; numbers from 1 where a row has none.

    A label that comes again says that the rows are of several units, which are no table together.
    """
    labels = list(labels)
    try:
        seen = set()
        for label in labels:
            if not exact.is_missing(label):
                if label in seen:
                    raise Pooled(label, name)
                seen.add(label)
    except TypeError:
        pass
    return numbered(labels)


def no_panel(frame: Frame, goods: Iterable[Any]) -> None:
    """Refuses a frame with a column of ids, by its name and because its values come again."""
    for name in frame.names:
        if isinstance(name, str) and name.strip().lower() in ID_COLUMNS and name not in goods:
            values = [repr(value) for value in frame.columns[name]]
            if 1 < len(set(values)) < len(values):
                why = f"the column {name!r} has {len(set(values))} values for {len(values)} rows"
                raise Pooled(None, name, why)


# ---- columns


def starting(names: Sequence[Any], prefix: str) -> list[str]:
    """Returns the names that begin so, in their order; refuses one that is nearly so, lest a good be left out unsaid."""
    found = []
    for place, name in enumerate(names, 1):
        if isinstance(name, str) and name.startswith(prefix):
            found.append(name)
        elif isinstance(name, str) and name.strip().lower().startswith(prefix):
            raise Refused("BadHeader", column=place, name=name, hint=f"a column of this kind begins with {prefix!r}")
    return found


def pairs_of(frame: Frame, first: str, second: str, file: str, others: Sequence[str] = ()) -> list[str]:
    """Returns the names of the goods, or inputs, that have a column of each kind; refuses a frame that lacks one."""
    prices, quantities = starting(frame.names, first), starting(frame.names, second)
    if not prices and not quantities:
        kinds = [f"{first}NAME and {second}NAME for each {'input' if first == 'w_' else 'good'}", *others]
        raise WrongColumns(kinds, frame.names, file, renames(frame.names, first, second) or (OF_LINES if first == "p_" else None))
    goods = list(dict.fromkeys([*(name[2:] for name in prices), *(name[2:] for name in quantities)]))
    for own, other in [*((it, second + it[2:]) for it in prices), *((it, first + it[2:]) for it in quantities)]:
        if other not in frame.columns:
            wanted = ", ".join([*(first + good for good in goods), *(second + good for good in goods), *others])
            hint = f"there is no column {other!r}; the columns that are wanted are {wanted}; those that were found are {listed(frame.names)}"
            raise Refused("Unpaired", file, column=frame.names.index(own) + 1, name=own, hint=hint)
    return [name[2:] for name in prices]


def prices_of(frame: Frame, file: str) -> tuple[list[str], list[str]]:
    """Returns the goods, and the column that has the price of each: its own, or the intercept of the other good."""
    if starting(frame.names, "p_") or not starting(frame.names, "i_"):
        goods = pairs_of(frame, "p_", "q_", file)
        return goods, ["p_" + good for good in goods]
    goods = pairs_of(frame, "i_", "q_", file)
    if len(goods) != 2:
        raise BadData(f"{file}: a budget line has two intercepts, i_NAME of each of two goods, and here are {listed(goods)}")
    return goods, ["i_" + good for good in reversed(goods)]


def need(frame: Frame, names: Sequence[str], wanted: Sequence[str], file: str) -> None:
    """Refuses a frame that lacks one of these columns."""
    if any(name not in frame.columns for name in names):
        raise WrongColumns(wanted, frame.names, file)


def near(frame: Frame, name: str, what: str) -> bool:
    """Whether the frame has this column; refuses one that is nearly called so."""
    for place, own in enumerate(frame.names, 1):
        if isinstance(own, str) and own != name and own.strip().lower() == name:
            raise Refused("BadHeader", column=place, name=own, hint=f"{what} are in a column {name!r}; give this one another name if it has none")
    return name in frame.columns


def listed(names: Iterable[Any]) -> str:
    return ", ".join(repr(str(name)) for name in names) or "none"


def renames(names: Iterable[Any], first: str, second: str) -> str | None:
    """Returns how to rename columns such as p1, p2, x1, x2."""
    other = {"p": first, "w": first, "q": second, "x": second}
    found = {}
    for name in names:
        match = OTHER_NAMES.fullmatch(name) if isinstance(name, str) else None
        if match:
            found[name] = other[match[1].lower()] + match[2]
    return f"rename them: {found}" if found else None


# ---- rows without names


def rows_of(data: Any, what: str) -> list[list[Any]]:
    """Returns the rows of lists or of an array of two dimensions."""
    if isinstance(data, (str, bytes)) or not hasattr(data, "__iter__"):
        raise BadData(f"{what}: neither rows nor a frame, but {described(data)}")
    rows = []
    for row in data:
        if isinstance(row, (str, bytes, Mapping)) or not hasattr(row, "__iter__"):
            raise BadData(f"{what}: each row is a list with a number for each good, and one is {described(row)}")
        rows.append(list(row))
    return rows


def one_row(data: Any) -> Any:
    """Returns a mapping of names to single numbers as one of names to columns."""
    if isinstance(data, Mapping) and not any(hasattr(it, "__iter__") and not isinstance(it, str) for it in data.values()):
        return {name: [value] for name, value in data.items()}
    return data


def values_of(values: Any, count: int, name: str) -> list[Any]:
    """Returns one value for each row: those that are given, or the one for all."""
    several = hasattr(values, "__iter__") and not isinstance(values, (str, bytes, Mapping))
    found = list(values) if several else [values] * count
    if len(found) != count:
        raise BadData(f"{name}: there are {len(found)} for {count} rows")
    return found
