"""Panels on a cluster: of a frame of Dask by its partitions, and as a task that Spark, or another engine, runs on frames of pandas.

Where things run, what is done again and what is moved is the engine's own.
"""

from __future__ import annotations

from typing import Any, Callable, Sequence

from .faults import BadData

# The column that has a row's place in the whole frame, while rows are moved: its partition, and its number there.
PLACE = "row of the frame"
ROWS = 1 << 40
# The types of a panel's frame in the words of Spark.
SPARK = {"boolean": "boolean", "Float64": "double", "string": "string", "Int64": "bigint"}


def is_dask(d: Any) -> bool:
    return type(d).__module__.partition(".")[0] in ("dask", "dask_expr") and hasattr(d, "map_partitions")


def records_of(frame: Any, by: Any, more: dict[str, Any]) -> Any:
    """Returns the records of the units of a frame of pandas, as `Panel.frame()` has them, by this thread alone. Of
    a part of a frame nobody knows which rows the others have, so the record of a fault counts the unit's own rows."""
    from .panels import answers

    found = answers(frame, list(by) if isinstance(by, (list, tuple)) else [by], 1, False, is_part=True, **more)
    for row in found:
        row.count_own()
    return found.frame()


def panel_task(by: Any, *, order: Any = None, key: str = "string", **more: Any) -> Callable[[Any], Any]:
    """Returns a function for `applyInPandas` of Spark, which tests the units of a frame and returns the frame of their rows.

    `task = panel_task("household", order="obs", pump=True)`, and then `d.groupBy("household").applyInPandas(task, task.schema)`.
    The groups of Spark have no order: `order` names the column (or columns) by which the rows of a unit are sorted. `key` is the type of
    the column `by` in Spark's words. The other arguments are those of `panel`. Missing values are None or NaN, and columns have plain
    types.
    """
    if order is None:
        raise BadData("order: the column by which the rows of a unit are sorted, since groups have no order of their own")

    def task(frame: Any) -> Any:
        records = records_of(frame.sort_values(order, kind="stable"), by, more)
        for name, kind in records.dtypes.items():
            if str(kind) in ("boolean", "string", "Int64"):
                values = records[name].astype(object)
                records[name] = values.where(values.notna(), None)
            elif str(kind) == "Float64":
                records[name] = records[name].to_numpy("float64", na_value=float("nan"))
        return records

    names = list(by) if isinstance(by, (list, tuple)) else [by]
    kinds = records_of({name: [] for name in [*names, "p_a", "q_a"]}, by, more).dtypes
    task.schema = ", ".join(f"`{name}` {key if name in names else SPARK[str(kind)]}" for name, kind in kinds.items())  # type: ignore[attr-defined]
    return task


# ---- Dask


def of_dask(d: Any, names: Sequence[Any], more: dict[str, Any]) -> Any:
    """Returns the records of a frame of Dask, as one of Dask: its rows are moved so that each unit is in one partition."""
    import numpy
    import pandas

    if hasattr(more["levels"], "__iter__"):
        raise BadData("levels of a frame of Dask are one number for all, or its column 'e'")
    # What is wrong with the columns is told now, and not by each partition.
    records_of(d._meta, list(names), more)
    rows = d._meta.assign(**{PLACE: numpy.zeros(0, "int64")})
    empty = _answered(rows, list(names), more)
    empty = empty.astype({name: pandas.Series(list(d._meta_nonempty[name])).dtype for name in names})
    whole = d.map_partitions(_placed, meta=rows).shuffle(list(names))
    return whole.map_partitions(_answered, list(names), more, meta=empty)


def _placed(part: Any, partition_info: Any = None) -> Any:
    """Returns a partition with the place of each row."""
    import numpy

    number = partition_info["number"] if partition_info else 0
    return part.assign(**{PLACE: number * ROWS + numpy.arange(len(part), dtype="int64")})


def _answered(part: Any, names: list[Any], more: dict[str, Any]) -> Any:
    """Returns the records of the units of a partition, under the place of each one's first row."""
    part = part.sort_values(PLACE)
    keys = part[names].astype(object).where(part[names].notna(), None)
    if "obs" not in part.columns and keys.assign(**{PLACE: part.index.to_numpy()}).duplicated().any():
        # The indices of several partitions say the same: the rows of each unit are called by their numbers.
        part = part.set_axis(keys.groupby(names, dropna=False).cumcount() + 1)
    firsts = part[PLACE].to_numpy()[~keys.duplicated().to_numpy()]
    return records_of(part.drop(columns=PLACE), names, more).set_axis(firsts)
