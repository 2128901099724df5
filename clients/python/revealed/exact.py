"""Numbers as text.

An int, a Decimal, a Fraction with a finite decimal and a text are each written as the number that they are. A float is a binary
fraction: the one that is read from 3.18 is 3.18000000000000015987... It is written as the shortest decimal that gives it back, 3.18,
and the result says so. `numbers="exact"` takes the binary fraction itself, and `decimals` asks for rounding.
"""

from __future__ import annotations

import math
import re
from decimal import ROUND_HALF_EVEN, Decimal
from fractions import Fraction
from math import isfinite
from typing import Any, Callable, NamedTuple

from .catalogue import LIMITS

MISSING = ""
MOST_PLACES = LIMITS["table.places"]
MOST_FIGURES = len(str(LIMITS["table.largest"]))
_PLAIN = re.compile(r"[0-9]+(\.[0-9]+)?")
_NUMBER = re.compile(r"[+-]?([0-9]+\.?[0-9]*|\.[0-9]+)([eE][+-]?[0-9]{1,3})?")
# A number of more digits before its point, or more places behind it, is refused before it is made a whole number or a text. No
# float has so many, and what the program takes has few.
MOST_DIGITS = 2000
_MOST_BITS = int(MOST_DIGITS * math.log2(10))


class NotFinite(ValueError):
    """A fraction such as 1/3, which no decimal is."""


class TooLong(ValueError):
    """A number past MOST_DIGITS: `fault` is what the program calls one that is too large, or that has too many places."""

    def __init__(self, fault: str) -> None:
        super().__init__(fault)
        self.fault = fault


class Form(NamedTuple):
    """How numbers become texts: rounded to so many `places`, or not where that is None; a float by `shortest` as the shortest decimal
    that gives it back, else as the binary fraction that it is."""

    places: int | None = None
    shortest: bool = True


AS_THEY_ARE = Form()
# What a result says where a float was taken for a decimal that is not the binary fraction itself.
SHORTENED = "shortest decimals of doubles"
# A binary fraction of at most six decimal places is a whole number of 64ths.
PARTS = 2**MOST_PLACES


def text_of(value: Any, form: Form = AS_THEY_ARE) -> str:
    """Returns the text of a number, and the text of what is no number as it stands, for the program to refuse; raises TooLong."""
    places = form.places
    if form.shortest:
        if isinstance(value, float) and abs(value) < 2**53:
            text = str(int(value)) if value.is_integer() else float.__repr__(value)
            if places is not None and not value.is_integer():
                text = _without_zeros(format(Decimal(text).quantize(_STEPS[places], ROUND_HALF_EVEN), "f"))
            if _PLAIN.fullmatch(text):
                return text
        value = shortest_of(value)
    if isinstance(value, str):
        cell = value.strip(" \t")
        if places is None and _PLAIN.fullmatch(cell):
            return cell
        if not _NUMBER.fullmatch(cell):
            return value
        number: Fraction | None = Fraction(_short(cell))
    else:
        _short(value)
        if type(value) is int and (places is None or value >= 0):
            return str(value)
        if isinstance(value, float) and isfinite(value):
            if value.is_integer():
                return str(int(value))
            if places is not None:
                # The nearest decimal to the float itself, half to even: `format` rounds no other number before.
                return unsigned_zero(format(value, f".{places}f"))
        number = fraction_of(value)
    if number is None:
        return MISSING if is_missing(value) else str(value)
    if places is not None:
        number = rounded(number, places)
    return decimal_text(_short(number))


# The last decimal place of a number that is rounded.
_STEPS = [Decimal(1).scaleb(-places) for places in range(MOST_PLACES + 1)]


def _without_zeros(text: str) -> str:
    """Returns a decimal without the zeros at its end, and zero without a sign."""
    return unsigned_zero(text.rstrip("0").rstrip(".") if "." in text else text)


def shortest_of(value: Any) -> Any:
    """Returns the text of the shortest decimal that gives a float back, and every other value as it is.

    A float of numpy with other bits than Python's says the shortest decimal of its own kind.
    """
    if isinstance(value, float):
        return float.__repr__(value) if isfinite(value) else value
    if type(value).__module__ == "numpy" and type(value).__name__ in ("float16", "float32", "longdouble", "float128"):
        text = str(value)
        return text if _NUMBER.fullmatch(text) and type(value)(text) == value else value
    return value


def is_shortened(value: Any) -> bool:
    """Whether a value is a float whose shortest decimal is another number than the float."""
    if isinstance(value, float):
        return isfinite(value) and not (value * PARTS).is_integer()
    short = shortest_of(value)
    return short is not value and fraction_of(short) != fraction_of(value)


def is_beyond(value: float, shortest: bool = True) -> bool:
    """Whether a float needs more than 6 decimal places or 7 digits: the shortest decimal that gives it back, or the float itself."""
    if value.is_integer() or not isfinite(value):
        return False
    # A point and a digit before it leave at most six places, and seven digits.
    text = float.__repr__(value)
    if shortest and len(text) <= MOST_FIGURES + 1 and "e" not in text:
        return False
    if not shortest and not (value * PARTS).is_integer():
        return True
    return float(f"{value:.{MOST_PLACES}f}") != value or float(f"{value:.{MOST_FIGURES}g}") != value


def fault_of_length(value: Any) -> str | None:
    """Returns the fault of a number that is too long to be written, and None of every other value; takes no time over it."""
    if isinstance(value, str):
        whole, _, part = value.partition(".")
        return "TooLarge" if len(whole) > MOST_DIGITS else "TooManyDecimals" if len(part) > MOST_DIGITS else None
    if isinstance(value, (int, Fraction)):
        if value.numerator.bit_length() - value.denominator.bit_length() > _MOST_BITS:
            return "TooLarge"
        return "TooManyDecimals" if value.denominator.bit_length() > _MOST_BITS else None
    if isinstance(value, Decimal) and value.is_finite() and value:
        places = -int(value.as_tuple().exponent)
        return "TooLarge" if value.adjusted() > MOST_DIGITS else "TooManyDecimals" if places > MOST_DIGITS else None
    return None


def _short(value: Any) -> Any:
    """Returns a value that is no number past MOST_DIGITS."""
    fault = fault_of_length(value)
    if fault:
        raise TooLong(fault)
    return value


def are_plain(row: list[Any]) -> bool:
    """Whether values are whole numbers, or texts of digits and perhaps a point, which are the texts of numbers as they stand."""
    kinds = set(map(type, row))
    if kinds == {int}:
        return max(it.bit_length() for it in row) <= _MOST_BITS
    return kinds == {str} and all(map(_PLAIN.fullmatch, row))


def is_plain(text: str) -> bool:
    """Whether a text is a number of digits and perhaps a point, as the program takes it."""
    return _PLAIN.fullmatch(text) is not None


def shown(value: Any, how: Callable[[Any], str] = str, most: int = 120) -> str:
    """Returns a value as it is told in a message: its beginning where it is long, and of a whole number that is long its size."""
    if isinstance(value, (int, Fraction)) and fault_of_length(value):
        bits = max(value.numerator.bit_length(), value.denominator.bit_length())
        return f"a number of some {int(bits * math.log10(2)):,} digits"
    said = repr(value) if isinstance(value, str) else how(value)
    return said if len(said) <= most else f"{said[:most]}.."


def unsigned_zero(text: str) -> str:
    """Returns the text of a number, without the sign of a zero."""
    return text if text.strip("-0.") else text.lstrip("-")


def fraction_of(value: Any) -> Fraction | None:
    """Returns the number that a value is, exactly, and None where it is none or is past MOST_DIGITS."""
    if type(value).__name__ in ("bool", "bool_") or fault_of_length(value):
        return None
    if isinstance(value, Fraction):
        return value
    if isinstance(value, str):
        return Fraction(value.strip(" \t")) if _NUMBER.fullmatch(value.strip(" \t")) else None
    try:
        if isinstance(value, (int, float, Decimal)):
            return Fraction(value)
        if hasattr(value, "as_integer_ratio"):
            return Fraction(*map(int, value.as_integer_ratio()))
        if hasattr(value, "__index__"):
            return Fraction(value.__index__())
    except (ValueError, OverflowError, TypeError):
        return None
    return None


def is_missing(value: Any) -> bool:
    """Whether this is how data say that there is no value: None, NaN, pandas' NA and NaT, or an empty text."""
    if value is None or (isinstance(value, str) and not value.strip()):
        return True
    if type(value).__name__ in ("NAType", "NaTType"):
        return True
    try:
        return bool(value != value)
    except (TypeError, ValueError):
        return False


def rounded(number: Fraction, places: int) -> Fraction:
    """Returns the nearest number of so many places; of two, the even one."""
    return Fraction(round(number * 10**places), 10**places)


def places_of(number: Fraction) -> int:
    """Returns how many decimal places a fraction has; raises NotFinite where no number of places is enough."""
    den, twos, fives = number.denominator, 0, 0
    while den % 2 == 0:
        den, twos = den // 2, twos + 1
    while den % 5 == 0:
        den, fives = den // 5, fives + 1
    if den != 1:
        raise NotFinite(f"{number} is no finite decimal")
    return max(twos, fives)


def decimal_text(number: Fraction) -> str:
    """Returns a fraction as a plain decimal."""
    places = places_of(number)
    digits = written(abs(number.numerator) * 10**places // number.denominator).rjust(places + 1, "0")
    whole, part = (digits[:-places], digits[-places:]) if places else (digits, "")
    return ("-" if number < 0 else "") + whole + ("." + part if part else "")


def nearest_double(number: Fraction | None) -> float:
    """Returns the double nearest to a number of 0 or more, and NaN where there is none; but only 1 reads 1, and only 0 reads 0."""
    if number is None:
        return math.nan
    near = number.numerator / number.denominator
    if near == 1 and number < 1:
        return math.nextafter(1, 0)
    return near if near or not number else math.nextafter(0, 1)


def double_below(number: Fraction) -> float:
    """Returns the greatest double that is no greater than a number."""
    near = number.numerator / number.denominator
    return math.nextafter(near, -math.inf) if Fraction(near) > number else near


def double_above(number: Fraction) -> float:
    """Returns the least double that is no less than a number."""
    return -double_below(-number)


def whole_of(text: str) -> int:
    """Returns the whole number that digits spell, however many there are: Python reads 4,300 of them at once."""
    if len(text) <= 4000:
        return int(text)
    if text.startswith("-"):
        return -whole_of(text[1:])
    half = len(text) // 2
    return whole_of(text[:-half]) * 10**half + whole_of(text[-half:])


def fraction_read(text: str) -> Fraction:
    """Returns the fraction of a text such as 4/5."""
    num, slash, den = text.partition("/")
    return Fraction(whole_of(num), whole_of(den) if slash else 1)


def written(number: Fraction | int) -> str:
    """Returns a whole number or a fraction as a text, however long."""
    if isinstance(number, Fraction):
        return written(number.numerator) + ("" if number.denominator == 1 else "/" + written(number.denominator))
    if number < 0:
        return "-" + written(-number)
    if number < 10**4000:
        return str(number)
    places = int(number.bit_length() * 0.30103) // 2
    left, right = divmod(number, 10**places)
    return written(left) + written(right).rjust(places, "0")
