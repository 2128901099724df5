"""What a text says as a certificate (docs/reference/certificate.md).

Each kind of item has its shapes below: the names of an object's members, and what stands under each. A number is a whole
one (an observation, a patch, a rank) or a text; the types that the program gives its numbers are only remarked upon.
"""

import json
import re
from fractions import Fraction
from math import gcd, isinf

from .tables import LARGEST_LEVEL


class NoCertificate(ValueError):
    """The text is no certificate of this kind; `item` is the number of the first item that is none, 0 for the whole."""

    def __init__(self, why, item=0):
        super().__init__(why)
        self.item = item


class _Wrong(Exception):
    """A value has not this shape."""


class _Reader:
    """Reads the values of one item, and remarks on numbers that are out of their types."""

    def __init__(self):
        self.remarks = []

    def fit(self, number, largest, name):
        if abs(number) > largest:
            self.remarks.append(f"a number is above {name} in size, past its type in the program")
        return number

    def count(self, value):
        if type(value) is not int or value < 0:
            raise _Wrong
        return self.fit(value, 2**32 - 1, "2^32 - 1")

    def place(self, value):
        if self.count(value) < 1:
            raise _Wrong
        return value

    def whole(self, value):
        return self.fit(_digits(value), 2**64 - 1, "2^64 - 1")

    def small(self, value):
        return self.fit(_digits(value), 2**32 - 1, "2^32 - 1")

    def wide(self, value):
        return self.fit(_digits(value), 2**128 - 1, "2^128 - 1")

    def signed(self, value):
        text = _text(value)
        number = -_digits(text[1:]) if text.startswith("-") else _digits(text)
        if text == "-0":
            raise _Wrong
        return self.fit(number, 2**127 - 1, "2^127 - 1")

    def fraction(self, value):
        return self.reduced(value, 2**127 - 1, "2^127 - 1")

    def level(self, value):
        return self.reduced(value, 2**64 - 1, "2^64 - 1")

    def reduced(self, value, largest, name):
        num, slash, den = _text(value).partition("/")
        num, den = _digits(num), _digits(den) if slash else 1
        if den == 0 or gcd(num, den) != 1 or (slash and den == 1):
            raise _Wrong
        self.fit(max(num, den), largest, name)
        return Fraction(num, den)

    def listed(self, shape):
        def read(value):
            if not isinstance(value, list):
                raise _Wrong
            return [shape(entry) for entry in value]

        return read

    def tuple_of(self, *shapes):
        def read(value):
            if not isinstance(value, list) or len(value) != len(shapes):
                raise _Wrong
            return tuple(shape(entry) for shape, entry in zip(shapes, value))

        return read

    def object_of(self, **members):
        def read(value):
            if not isinstance(value, dict) or set(value) != set(members):
                raise _Wrong
            return {name: shape(value[name]) for name, shape in members.items()}

        return read

    def one_of(self, *shapes):
        """The shapes have members of other names, so that one at most can be the value's."""

        def read(value):
            for shape in shapes:
                seen = len(self.remarks)
                try:
                    return shape(value)
                except _Wrong:
                    del self.remarks[seen:]
            raise _Wrong

        return read

    def named(self, name):
        def read(value):
            if value != name:
                raise _Wrong
            return value

        return read

    def item(self, kind):
        """The items of a kind of certificate."""
        if kind == "random":
            item, parts = self.named("random"), self.listed(self.tuple_of(self.listed(self.place), self.whole))
            return self.one_of(
                self.object_of(den=self.whole, item=item, parts=parts, total=self.whole),
                self.object_of(den=self.whole, item=item, parts=parts, total=self.whole, weights=self.listed(self.whole)),
                self.object_of(item=item, total=self.whole, withheld=self.whole),
            )
        if kind == "fit":
            return self.fit_item()
        walk, ranks, wholes, prices = (self.listed(it) for it in (self.place, self.count, self.whole, self.small))
        bound = self.one_of(
            self.object_of(den=self.whole, value=self.fraction, x=wholes, y=self.listed(self.tuple_of(self.place, self.whole))),
            self.object_of(withheld=self.whole),
        )
        demand = {"expenditure": self.whole, "item": self.named("demand"), "prices": prices}
        welfare = {"item": self.named("welfare"), "observation": self.place, "prices": prices}
        return self.one_of(
            self.object_of(item=self.named("garp"), ranks=ranks),
            self.object_of(item=self.named("garp"), cycle=walk),
            self.object_of(item=self.named("afriat"), utility=self.listed(self.signed), **{"lambda": wholes}),
            self.object_of(item=self.named("afriat"), cycle=walk),
            self.object_of(item=self.named("afriat"), withheld=self.place),
            self.efficiency_item(),
            self.object_of(item=self.named("homothetic"), values=self.listed(self.fraction)),
            self.object_of(item=self.named("homothetic"), cycle=walk, start=self.fraction),
            self.object_of(item=self.named("homothetic"), withheld=self.tuple_of(self.count, self.place, self.place)),
            self.object_of(item=self.named("quasilinear"), values=self.listed(self.signed)),
            self.object_of(item=self.named("quasilinear"), cycle=walk),
            self.object_of(
                below=walk,
                goods=self.listed(self.object_of(lower=bound, upper=bound)),
                inner=self.object_of(den=self.whole, num=wholes),
                strict=walk,
                **demand,
            ),
            self.object_of(cycle=walk, **demand),
            self.object_of(at=self.place, lower=bound, upper=self.whole, **welfare),
            self.object_of(cycle=walk, **welfare),
        )

    def efficiency_item(self):
        """The critical cost efficiency index."""
        walk, ranks = self.listed(self.place), self.listed(self.count)
        index = {"above": walk, "below": ranks, "item": self.named("efficiency"), "level": self.level}
        return self.one_of(self.object_of(at_ranks=ranks, **index), self.object_of(at_cycle=walk, **index))

    def levels_at(self, value):
        """For each observation 0, for the level 1, or another observation: its own number stands for nothing."""
        places = self.listed(self.count)(value)
        if any(at == s for s, at in enumerate(places, 1)):
            raise _Wrong
        return places

    def fit_item(self):
        """The items of a certificate on goodness of fit."""
        walk, ranks, values = self.listed(self.place), self.listed(self.count), self.listed(self.signed)
        cycles = self.listed(self.object_of(cycle=walk, weight=self.whole))
        group = self.one_of(self.object_of(pairs=walk, weight=self.small), self.object_of(cycle=walk, weight=self.small))
        pairs = {name: self.small for name in ("garp", "wgarp", "warp", "sarp", "observations")}
        measure = self.one_of(self.named("mean"), self.named("squares"))
        bounded = {"den": self.whole, "ranks": ranks, "cycles": cycles}
        ratio = {"num": self.whole, "den": self.whole, "cycle": walk, "values": values}
        return self.one_of(
            self.object_of(item=self.named("violations"), **pairs),
            self.efficiency_item(),
            self.object_of(item=self.named("kept"), kept=walk, ranks=ranks, den=self.small, groups=self.listed(group), most=self.small),
            self.object_of(item=self.named("levels"), measure=measure, at=self.levels_at, **bounded),
            self.object_of(item=self.named("steps"), taken=self.listed(walk), cost=self.wide, **bounded),
            self.object_of(item=self.named("pump"), **ratio),
            self.object_of(item=self.named("quasilinear_level"), **ratio),
            self.object_of(item=self.named("homothetic_level"), low=self.whole, high=self.whole, cycle=walk, values=self.listed(self.whole)),
        )


def _text(value):
    if not isinstance(value, str):
        raise _Wrong
    return value


def _digits(value):
    if not re.fullmatch("0|[1-9][0-9]*", _text(value)):
        raise _Wrong
    return whole_number(value)


def whole_number(text):
    """Returns the whole number that digits spell, however many there are: Python reads 4,300 of them at once."""
    if text.startswith("-"):
        return -whole_number(text[1:])
    if len(text) <= 4000:
        return int(text)
    half = len(text) // 2
    return whole_number(text[:-half]) * 10**half + whole_number(text[-half:])


def read(data, kind):
    """Returns the levels of a certificate of a kind (none in version 1), and its items, each with the remarks on its numbers.

    In a certificate on goodness of fit a number past its type is refused."""
    top = _value(data)
    if not isinstance(top, dict) or top.get("kind") != kind:
        raise NoCertificate(f"no object, or its kind is not {kind!r}")
    if not _is_whole(top.get("version"), 0, 2**64 - 1) or not isinstance(top.get("items"), list):
        raise NoCertificate("the version is no whole number, or the items are no list")
    levels = _levels(top, kind)
    items = []
    for number, value in enumerate(top["items"], 1):
        reader = _Reader()
        try:
            items.append((reader.item(kind)(value), reader.remarks))
            if kind == "fit" and reader.remarks:
                raise _Wrong
        except _Wrong:
            raise NoCertificate(f"item {number} is none of its kind", number) from None
    return levels, items


def kind_of(data):
    """Returns the kind that a certificate says it is of, or None."""
    try:
        top = _value(data)
    except NoCertificate:
        return None
    return top.get("kind") if isinstance(top, dict) else None


def _levels(top, kind):
    """Returns the levels of a certificate; refuses a version that is not known, and members that are not those of the version."""
    if top["version"] not in ((1,) if kind == "fit" else (1, 2)):
        raise NoCertificate("the version is not 1" if kind == "fit" else "the version is neither 1 nor 2")
    members = {"items", "kind", "version"} | ({"levels"} if top["version"] == 2 else set())
    if set(top) != members:
        raise NoCertificate(f"a certificate of version {top['version']} has the members {', '.join(sorted(members))}")
    if top["version"] == 1:
        return []
    levels = top["levels"]
    if not isinstance(levels, list) or not levels or not all(_is_whole(level, 1, LARGEST_LEVEL) for level in levels):
        raise NoCertificate(f"the levels are no list of whole numbers from 1 to {LARGEST_LEVEL}, or there is none")
    if kind == "random":
        raise NoCertificate("choices from budgets have no levels")
    return levels


def _is_whole(value, least, greatest):
    return type(value) is int and least <= value <= greatest


class _Members(dict):
    """An object. Of a name that stands twice the last value counts; the others are `hidden`, and are JSON all the same."""

    def __init__(self, pairs):
        super().__init__(pairs)
        last = {name: at for at, (name, _) in enumerate(pairs)}
        self.hidden = [value for at, (name, value) in enumerate(pairs) if last[name] != at]


class _NoWhole(float):
    """A number that is not written as a whole one."""


def _value(data):
    """Returns the JSON value that these bytes spell."""
    try:
        value = json.loads(data.decode("utf-8"), parse_int=_whole, parse_float=_float, parse_constant=_no_number, object_pairs_hook=_Members)
    except (ValueError, RecursionError) as wrong:
        raise NoCertificate(f"no JSON: {wrong}") from None
    _look_at_texts(value, 128)
    return value


def _whole(text):
    own = _float(text)
    return own if text == "-0" else int(text)


def _float(text):
    """Returns a number that is not written as a whole one. Past the greatest float a text spells no number, whole or not."""
    if isinf(float(text)):
        raise ValueError("a number is past the greatest float")
    return _NoWhole(text)


def _no_number(text):
    raise ValueError(f"{text} is no number")


def _look_at_texts(value, levels):
    """Refuses lone surrogates, which are no text, and what is nested deeper than 127 levels."""
    if isinstance(value, (list, dict)):
        if levels == 1:
            raise NoCertificate("no JSON: nested too deep")
        for entry in value if isinstance(value, list) else [*value, *value.values(), *value.hidden]:
            _look_at_texts(entry, levels - 1)
    elif isinstance(value, str):
        try:
            value.encode("utf-8")
        except UnicodeEncodeError:
            raise NoCertificate("no JSON: a lone surrogate") from None
