"""What can go wrong."""

from __future__ import annotations

from typing import Any, Sequence

from .exact import shown


class Problem(Exception):
    """Every exception of this package."""

    def __reduce__(self) -> tuple[Any, ...]:
        # The arguments of an exception are its text, from which it is not made; what else it has is in its attributes.
        return problem_again, (type(self), self.args, dict(self.__dict__))


def problem_again(kind: type[Problem], args: Sequence[Any], own: dict[str, Any]) -> Problem:
    """Returns the exception that was pickled or copied."""
    found = kind.__new__(kind, *args)
    found.args = tuple(args)
    found.__dict__.update(own)
    return found


class BadData(Problem, ValueError):
    """The data, or an argument, do not have the right shape. The program was not run."""


class WrongColumns(BadData):
    """A column is missing: `wanted` are the columns that are needed, and `found` the columns of the data."""

    def __init__(self, wanted: Sequence[str], found: Sequence[Any], file: str = "table", hint: str | None = None) -> None:
        self.wanted, self.found, self.file = list(wanted), [str(name) for name in found], file
        there = ", ".join(map(repr, self.found)) or "none"
        said = f"{file}: the columns that are wanted are {', '.join(self.wanted)}; those that were found are {there}"
        super().__init__(said + (f": {hint}" if hint else ""))


class Pooled(BadData):
    """Two rows have one label, as if several units were in one frame: `label` is the first repeated one."""

    def __init__(self, label: Any, name: str = "obs", why: str | None = None) -> None:
        self.label, self.name = label, name
        super().__init__(
            (why or f"more than one row has the label {shown(label, repr)} of {name}")
            + f", so these look like several units, such as subjects. Use panel(d, by={'..' if label is not None else repr(name)}), which tests each unit,"
            " with the column that tells units apart. If the rows are those of one unit, give each row a label of its own."
        )


class NoProgram(Problem, FileNotFoundError):
    """Neither the program `rp` nor its library is there."""


class NoFile(Problem, FileNotFoundError):
    """A file that is named cannot be read."""


class Failed(Problem, RuntimeError):
    """The program ended without a result, and not because of the data. `status` is its exit code, and `said` its message."""

    def __init__(self, status: int, said: str) -> None:
        super().__init__(f"rp ended with status {status}" + (f": {said}" if said else ""))
        self.status = status
        self.said = said


class Unreadable(Failed):
    """The program's output could not be read. Most likely it is another program than `rp`, or another version."""

    def __init__(self, said: str, why: str) -> None:
        RuntimeError.__init__(
            self, f"rp ended as with an answer, and this is none that can be read ({why}): {said[:60]!r}; is that program rp, of this version?"
        )
        self.status = 0
        self.said = said
        self.why = why


class Refused(Problem, ValueError):
    """The data have an error.

    `fault` is the program's name for it. `record` and `column` (from 1) are the place in the file that the program was given. `file` is the
    name of this file: a `table`, `new` (prices or bundles), `budgets`, `choices`, `menus`, a `technology`, `asked` (outputs) or a
    `certificate`.

    `label` is the own label of the row, or of the budget, in the data, `name` the column's name and `value` the value there. `budget`, `menu` and `item` are set if
    the error has one. Each is None otherwise. `hint` says what to do.
    """

    status = 4

    def __init__(
        self,
        fault: str,
        file: str | None = "table",
        record: int | None = None,
        column: int | None = None,
        budget: int | None = None,
        menu: int | None = None,
        item: int | None = None,
        label: Any = None,
        name: str | None = None,
        value: str | None = None,
        hint: str | None = None,
    ) -> None:
        self.fault, self.file = fault, file
        self.record, self.column = record, column
        self.budget, self.menu, self.item = budget, menu, item
        self.label, self.name, self.value, self.hint = label, name, value, hint
        super().__init__(self._text())

    def _text(self) -> str:
        """Returns the place, what is wrong and what to do, and at the end the program's own words for it."""
        words = [self.fault]
        for name in ("budget", "menu", "item", "record", "column"):
            if getattr(self, name) is not None:
                words += [name, str(getattr(self, name))]
        told = []
        if self.file and self.file != "table":
            told.append(self.file)
        if self.label is not None:
            told.append(f"{'row' if self.budget is None else 'budget'} {shown(self.label, repr)}")
        if self.name is not None:
            told.append(f"column {self.name!r}")
        if self.value is not None:
            told.append(f"value {self.value}")
        said = [", ".join(told), self.hint or ("an error" if told else "the data have an error")]
        return f"{': '.join(filter(None, said))} [{' '.join(words)}]"


class AllRefused(Refused):
    """All units of a panel have one error: `count` is their number, `units` their name, and `key` the first of them."""

    def __init__(self, first: Refused, key: Any, count: int, units: str = "units") -> None:
        self.key, self.count, self.units = key, count, units
        places = {name: getattr(first, name) for name in ("record", "column", "budget", "menu", "item")}
        super().__init__(first.fault, first.file, label=first.label, name=first.name, value=first.value, hint=first.hint, **places)

    def _text(self) -> str:
        return f"{all_of(self.count, self.units)}, {shown(self.key, repr)}: {super()._text()}"


def all_of(count: int, units: str) -> str:
    """Returns the words before the first of some units that all have one error."""
    return f"all {count:,} {units} have one error, the first" if count > 1 else f"the panel has one unit ({units}), with an error"
