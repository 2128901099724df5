"""What a CSV file says: a table, budgets with choices, menus, a technology and what is asked of it (docs/reference/files.md).

Numbers are made whole as the format says: prices by one power of ten, quantities by another. After that all is exact.
"""

from __future__ import annotations

import re
from fractions import Fraction
from math import lcm

MOST_PLACES = 6
LARGEST = 9_999_999
LARGEST_LEVEL = 1000
LARGEST_INCOME = 1_600_000_000_000_000
LARGEST_TOTAL = 1_000_000_000
LONGEST = 4_194_304
QUOTED = re.compile('"([^"]*(?:""[^"]*)*)"?([^,\r\n]*)')
PLAIN = re.compile("[^,\r\n]*")


class NoTable(ValueError):
    """The file is none of the format; the text says why."""


class Table:
    """Observations of prices and quantities, as whole numbers; and the level of each in thousandths, where the table has levels."""

    def __init__(self, goods, prices, quantities, levels=(), places=(0, 0)):
        self.goods = goods
        self.prices = prices
        self.quantities = quantities
        self.levels = list(levels)
        self.places = places
        self.observations = range(len(prices))
        self.known = {}  # what was worked out of the table before

    def spending(self, prices, quantities):
        """What a bundle costs at some prices."""
        return sum(price * quantity for price, quantity in zip(prices, quantities))

    def cost(self, s, t):
        """What the bundle of observation t costs at the prices of observation s; both from 0."""
        if (s, t) not in self.known:
            self.known[s, t] = self.spending(self.prices[s], self.quantities[t])
        return self.known[s, t]

    @property
    def scale(self):
        """What costs are multiplied by, so that what counts as spent is whole: 1, or 1000 where the table has levels."""
        return LARGEST_LEVEL if self.levels else 1

    def own(self, s):
        """What counts as spent at an observation, times the scale: the whole, or so many thousandths of it as its level says."""
        return (self.levels[s] if self.levels else 1) * self.cost(s, s)

    def gap(self, s, t):
        """How much more than what counts as spent at s the bundle of t costs there, times the scale."""
        return self.scale * self.cost(s, t) - self.own(s)


class Choices:
    """Budgets (prices and an income each), and the choices from them (budget, bundle, how many times)."""

    def __init__(self, budgets, choices, per=None):
        self.budgets = budgets
        self.choices = choices
        self.per = per


class Menus:
    """Choices from menus: the letters, the menus by their first choice, and the cells (menu, letter) with how often each was chosen.

    The cells of the first menu come first. Letters are texts; a menu is a text of letters that rise.
    """

    def __init__(self, letters, menus, counts, per=None):
        self.letters = letters
        self.menus = menus
        self.cells = list(counts)
        self.counts = list(counts.values())
        self.per = per
        self.made = [sum(count for (menu, _), count in counts.items() if menu == own) for own in range(len(menus))]
        self.total = lcm(*self.made) if per is None else per


class Technology:
    """What a firm was seen to do: a table of input prices and inputs, its outputs, and their prices where these are known."""

    def __init__(self, table, outputs, prices):
        self.table = table
        self.outputs = outputs
        self.prices = prices


def read_table(data):
    """Returns the table that these bytes are."""
    header, records = _records(data)
    goods = _goods(header, "p_", others={"obs", "e"}, with_quantities="q_")
    _count(records, 512, "observations")
    names, others = ["p_" + good for good in goods], ["q_" + good for good in goods]
    prices, price_places = _scaled(_numbers(header, records, names), LARGEST)
    quantities, quantity_places = _scaled(_numbers(header, records, others), LARGEST)
    for number, (row, bundle) in enumerate(zip(prices, quantities), 1):
        if not all(row):
            raise NoTable(f"record {number} has a price of 0")
        if not any(bundle):
            raise NoTable(f"in record {number} nothing was bought")
    levels = [level for (level,) in _numbers(header, records, ["e"])] if "e" in header else []
    if not all(level.denominator == 1 and 1 <= level <= LARGEST_LEVEL for level in levels):
        raise NoTable(f"a level is no whole number from 1 to {LARGEST_LEVEL}")
    return Table(goods, prices, quantities, map(int, levels), (price_places, quantity_places))


def read_choices(budgets, choices, per=None):
    """Returns the choices that the bytes of two files are, on `per` units of each budget."""
    header, records = _records(budgets)
    goods = _goods(header, "p_", others={"obs", "w"})
    if "w" not in header or not 1 <= len(records) <= 48:
        raise NoTable("budgets have a column w, and 1 to 48 records")
    prices, _ = _scaled(_numbers(header, records, ["p_" + good for good in goods]), LARGEST)
    incomes, _ = _scaled(_numbers(header, records, ["w"]), LARGEST_INCOME)
    if not all(map(all, prices)) or not all(map(all, incomes)):
        raise NoTable("a price or an income is 0")

    header, records = _records(choices)
    if set(header) - {"obs"} != {"budget", "n", *("q_" + good for good in goods)}:
        raise NoTable("choices have the columns budget and n, and a q_ column for each good of the budgets")
    _count(records, 4096, "records of choices")
    bundles, _ = _scaled(_numbers(header, records, ["q_" + good for good in goods]), LARGEST)
    counts = _numbers(header, records, ["budget", "n"])
    made = []
    for number, (bundle, (budget, times)) in enumerate(zip(bundles, counts), 1):
        if budget.denominator != 1 or times.denominator != 1 or times > LARGEST:
            raise NoTable(f"record {number} of the choices: budget and n are whole")
        if not 1 <= budget <= len(prices) or not any(bundle):
            raise NoTable(f"record {number} of the choices has no budget, or nothing was chosen")
        made.append((int(budget) - 1, bundle, int(times)))
    for j in range(len(prices)):
        if not any(times for budget, _, times in made if budget == j):
            raise NoTable(f"nothing was chosen on budget {j + 1}")
    return Choices([(row, income) for row, (income,) in zip(prices, incomes)], made, per)


def read_menus(data, per=None):
    """Returns the choices from menus that these bytes are, on `per` units of each menu."""
    header, records = _records(data, as_they_stand=("menu", "choice"))
    if set(header) - {"obs"} != {"menu", "choice", "n"}:
        raise NoTable("choices from menus have the columns menu, choice and n")
    _count(records, 4096, "records of choices")
    counts = {}
    letters = 0
    for number, record in enumerate(records, 1):
        menu, choice = record[header.index("menu")], record[header.index("choice")]
        ((times,),) = _numbers(header, [record], ["n"])
        if not re.fullmatch("a?b?c?d?e?f?", menu) or not menu:
            raise NoTable(f"record {number}: {menu!r} is no menu")
        if len(choice) != 1 or choice not in menu:
            raise NoTable(f"record {number}: {choice!r} is no letter of the menu {menu}")
        if times.denominator != 1 or times > LARGEST:
            raise NoTable(f"record {number}: n is whole, and at most {LARGEST}")
        letters = max(letters, "abcdef".index(menu[-1]) + 1)
        if times:
            counts[menu, choice] = counts.get((menu, choice), 0) + int(times)
    menus = list(dict.fromkeys(menu for menu, _ in counts))
    if not menus:
        raise NoTable("nothing was chosen")
    if len(counts) > 64:
        raise NoTable("there are more than 64 cells")
    cells = {(own, choice): times for own, name in enumerate(menus) for (menu, choice), times in counts.items() if menu == name}
    found = Menus("abcdef"[:letters], menus, cells, per)
    if found.total > LARGEST_TOTAL:
        raise NoTable(f"the menus have no number of units in common up to {LARGEST_TOTAL}")
    return found


def read_technology(data):
    """Returns the technology that these bytes are."""
    header, records = _records(data)
    inputs = _goods(header, "w_", others={"obs", "y", "p"}, with_quantities="x_")
    if "y" not in header:
        raise NoTable("a technology has a column y")
    _count(records, 512, "observations")
    priced = ["p"] if "p" in header else []
    prices, price_places = _scaled(_numbers(header, records, [*("w_" + name for name in inputs), *priced]), LARGEST)
    amounts, places = _scaled(_numbers(header, records, [*("x_" + name for name in inputs), "y"]), LARGEST)
    for number, (row, bundle) in enumerate(zip(prices, amounts), 1):
        if not all(row):
            raise NoTable(f"record {number} has a price of 0")
        if not any(bundle[:-1]):
            raise NoTable(f"in record {number} no input was used")
    used = [row[: len(inputs)] for row in prices], [row[:-1] for row in amounts]
    table = Table(inputs, *used, (), (price_places, places))
    return Technology(table, [row[-1] for row in amounts], [row[-1] for row in prices] if priced else None)


def read_asked(data, technology):
    """Returns what is asked of a technology: new prices, in its order of the inputs, and an output each."""
    header, records = _records(data)
    inputs = technology.table.goods
    if set(header) - {"obs"} != {"y", *("w_" + name for name in inputs)}:
        raise NoTable("asked outputs have the column y, and a w_ column for each input of the technology")
    _count(records, 16, "asked outputs")
    prices, _ = _scaled(_numbers(header, records, ["w_" + name for name in inputs]), LARGEST)
    scale = 10 ** technology.table.places[1]
    outputs = [output * scale for (output,) in _numbers(header, records, ["y"])]
    if not all(map(all, prices)):
        raise NoTable("a price is 0")
    if any(output.denominator != 1 or output > LARGEST for output in outputs):
        raise NoTable("an asked output has more places than the technology's, or is too large")
    return [(row, int(output)) for row, output in zip(prices, outputs)]


def _count(records, most, what):
    if not 1 <= len(records) <= most:
        raise NoTable(f"there are 1 to {most} {what}")


def _records(data, as_they_stand=()):
    """Returns the names of the columns, and the records; blanks round a field are cut but under the names that are given."""
    if len(data) > LONGEST:
        raise NoTable(f"a file has at most {LONGEST} bytes")
    if data.startswith(b"\xef\xbb\xbf"):
        data = data[3:]
    rows = _rows(data.decode("utf-8", "surrogateescape"))
    if not rows:
        raise NoTable("there is no line")
    header = [name.strip(" \t") for name in rows[0]]
    if len(set(header)) != len(header):
        raise NoTable("two columns have one name")
    whole = {place for place, name in enumerate(header) if name in as_they_stand}
    records = [[it if place in whole else it.strip(" \t") for place, it in enumerate(row)] for row in rows[1:]]
    for number, record in enumerate(records, 1):
        if len(record) != len(header):
            raise NoTable(f"record {number} has {len(record)} fields for {len(header)} names")
    return header, records


def _rows(text):
    """Returns the fields of each line that is not blank (RFC 4180): a quoted field ends at a single quote, and what follows it
    up to the next comma belongs to it. A carriage return, a line feed, or the one before the other ends a line."""
    if '"' not in text:
        return [line.split(",") for line in re.split("\r\n|\r|\n", text) if line]
    rows, row, at = [], [], 0
    while at < len(text):
        if not row and text[at] in "\r\n":
            at += 1
            continue
        quoted = QUOTED.match(text, at) if text[at] == '"' else None
        row.append(quoted[1].replace('""', '"') + quoted[2] if quoted else PLAIN.match(text, at)[0])
        at = quoted.end() if quoted else PLAIN.match(text, at).end()
        if at < len(text) and text[at] == ",":
            at += 1
            if at == len(text):
                row.append("")
                rows.append(row)
                row = []
            continue
        rows.append(row)
        row = []
    return rows


def _goods(header, prefix, others, with_quantities=None):
    """Returns the goods, by the order of their prices."""
    goods = [name[2:] for name in header if name.startswith(prefix)]
    wanted = {prefix + good for good in goods}
    if with_quantities:
        wanted |= {with_quantities + good for good in goods}
    wrong = (wanted - set(header)) | (set(header) - wanted - others)
    if wrong:
        names = ", ".join(repr(name[:40]) for name in sorted(wrong)[:8])
        raise NoTable(f"{len(wrong)} columns are missing or too many: {names}{' and others' if len(wrong) > 8 else ''}")
    if not 1 <= len(goods) <= 16:
        raise NoTable("there are 1 to 16 goods")
    for good in goods:
        name = good.encode("utf-8", "surrogateescape")
        if not 1 <= len(name) <= 64 or min(name) < 0x20:
            raise NoTable(f"{good[:40]!r} is no name of a good: it has 1 to 64 bytes, none of them a control character")
    return goods


def _numbers(header, records, names):
    """Returns the numbers of these columns, record by record."""
    places = [header.index(name) for name in names]
    return [[_number(record[place], number) for place in places] for number, record in enumerate(records, 1)]


def _number(text, record):
    if not re.fullmatch(r"[0-9]+(\.[0-9]+)?", text):
        raise NoTable(f"record {record}: {text[:40]!r} is no number")
    whole, _, part = text.partition(".")
    whole, part = whole.lstrip("0") or "0", part.rstrip("0")
    if len(part) > MOST_PLACES:
        raise NoTable(f"record {record}: {text[:40]!r} has more than {MOST_PLACES} places")
    if len(whole) > 20:
        raise NoTable(f"record {record}: {text[:40]!r} is too large")
    return Fraction(f"{whole}.{part}" if part else whole)


def _scaled(rows, largest):
    """Returns the numbers as whole ones, by the least power of ten that makes all of them whole, and how many places it has."""
    places = 0
    while any((number * 10**places).denominator != 1 for row in rows for number in row):
        places += 1
    whole = [[int(number * 10**places) for number in row] for row in rows]
    if any(number > largest for row in whole for number in row):
        raise NoTable(f"a number is above {largest} when all are made whole")
    return whole, places
