"""Equal pairs of a linear program: the greatest c·y over A y ≤ b and y ≥ 0 (Gale, Kuhn and Tucker 1951).

Prices x ≥ 0 with Aᵀx ≥ c cost b·x, which is at least c·y for every such y. So a y and an x of one value are both best.
"""

from fractions import Fraction

WIDEST = 2**63 - 1


class Program:
    """The columns of A by the number that they have, from 1, each with its entry of c; and the right side b."""

    def __init__(self, columns, worth, right):
        self.columns = columns
        self.worth = worth
        self.right = right


def prices_of(bound):
    """Returns the prices of a bound's pair, as fractions."""
    return [Fraction(entry, bound["den"]) for entry in bound["x"]]


def no_equal_pair(program, bound):
    """Returns why the pair of a bound is no equal pair of the program, and None where it is one."""
    if bound["den"] < 1:
        return "the denominator is 0"
    rows = range(len(program.right))
    if len(bound["x"]) != len(rows):
        return "x has not one entry for each row"
    columns = [column for column, _ in bound["y"]]
    if len(set(columns)) != len(columns) or not all(1 <= column <= len(program.columns) for column in columns):
        return "y names a column twice, or one that there is not"
    x = prices_of(bound)
    y = {column - 1: Fraction(entry, bound["den"]) for column, entry in bound["y"]}
    for i in rows:
        if sum(program.columns[j][i] * y[j] for j in y) > program.right[i]:
            return f"row {i + 1} of A y is above b"
    for j, column in enumerate(program.columns):
        if sum(column[i] * x[i] for i in rows) < program.worth[j]:
            return f"column {j + 1} of x is below c"
    if sum(program.worth[j] * y[j] for j in y) != sum(program.right[i] * x[i] for i in rows):
        return "the two sides have not one value"
    return None


def remarks(bound):
    """Returns what the program's checker refuses besides."""
    found = []
    columns = [column for column, _ in bound.get("y", ())]
    if columns != sorted(columns):
        found.append("the columns of y do not rise")
    if any(entry == 0 for _, entry in bound.get("y", ())):
        found.append("an entry of y is 0")
    entries = [bound.get("den", 1), *bound.get("x", ()), *(entry for _, entry in bound.get("y", ()))]
    if max(entries) > WIDEST:
        found.append("a number of a pair is above 2^63 - 1")
    return found
