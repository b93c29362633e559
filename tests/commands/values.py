"""Values of the four kinds, and what functions and operators make of them, as docs/PROFILE.md says.

A number is a whole number with decimals, worth m / 10 ** d, or the asterisk value; a text is a str of at most 254
characters; a date is a day's number, as Python counts them, or blank."""

import datetime
import re
from fractions import Fraction
from typing import NamedTuple, Optional


class Num(NamedTuple):
    m: Optional[int]
    d: int


class Day(NamedTuple):
    n: Optional[int]


ASTERISK = Num(None, 0)
BLANK = Day(None)
LAST_DAY = datetime.date.max.toordinal()
MOST_TEXT = 254


def number(m, d):
    return Num(m, d) if abs(m) < 10**19 else ASTERISK


def whole(count):
    return number(count, 0)


def nearest(p, q):
    """The whole number nearest to p / q, halves away from zero."""
    sign = -1 if (p < 0) != (q < 0) else 1
    p, q = abs(p), abs(q)
    return sign * ((2 * p + q) // (2 * q))


def value_of(a):
    return Fraction(a.m, 10**a.d)


def whole_part(a):
    """Cut toward zero; 0 of the asterisk value."""
    if a.m is None:
        return 0
    cut = abs(a.m) // 10**a.d
    return -cut if a.m < 0 else cut


def of_numbers(f):
    """A function of numbers that gives the asterisk value where one is given."""
    return lambda *given: ASTERISK if any(a.m is None for a in given) else f(*given)


def scaled(a, d):
    return a.m * 10 ** (d - a.d)


@of_numbers
def add(a, b):
    d = max(a.d, b.d)
    return number(scaled(a, d) + scaled(b, d), d)


@of_numbers
def sub(a, b):
    d = max(a.d, b.d)
    return number(scaled(a, d) - scaled(b, d), d)


@of_numbers
def mul(a, b):
    d = a.d + b.d
    return number(a.m * b.m, d) if d <= 15 else number(nearest(a.m * b.m, 10 ** (d - 15)), 15)


@of_numbers
def div(a, b):
    d = max(a.d, b.d, 2)
    return number(nearest(a.m * 10 ** (d + b.d), b.m * 10**a.d), d) if b.m else ASTERISK


@of_numbers
def mod(a, b):
    d = max(a.d, b.d)
    return number(scaled(a, d) % scaled(b, d), d) if b.m else ASTERISK


@of_numbers
def neg(a):
    return number(-a.m, a.d)


@of_numbers
def absolute(a):
    return number(abs(a.m), a.d)


@of_numbers
def cut(a):
    return whole(whole_part(a))


def rounded(a, places):
    """To so many decimals, 0 to 15."""
    if a.m is None:
        return ASTERISK
    m = scaled(a, places) if a.d <= places else nearest(a.m, 10 ** (a.d - places))
    return number(m, places)


def rank(a):
    """Numbers in order; the asterisk value is above them all."""
    return (1, 0) if a.m is None else (0, value_of(a))


def greatest(a, b):
    return b if rank(a) < rank(b) else a


def least(a, b):
    return b if rank(b) < rank(a) else a


def written(a):
    """A number's text."""
    if a.m is None:
        return "*" * 10
    digits = str(abs(a.m)).rjust(a.d + 1, "0")
    sign = "-" if a.m < 0 else ""
    return sign + (digits if a.d == 0 else f"{digits[:-a.d]}.{digits[-a.d:]}")


def parsed(text):
    """The number that a whole text tells; 0 of blanks, and of any other text the asterisk value."""
    text = text.strip(" ")
    if not text:
        return whole(0)
    found = re.fullmatch(r"([+-]?)([0-9]*)(?:\.([0-9]*))?", text)
    digits = found and (found[2] + (found[3] or ""))
    if not digits:
        return ASTERISK
    return decimal(-int(digits) if found[1] == "-" else int(digits), len(found[3] or ""))


def decimal(m, d):
    """With 15 decimals where there are more."""
    return number(nearest(m, 10 ** (d - 15)), 15) if d > 15 else number(m, d)


def leading(text):
    """VAL: behind blanks the longest beginning that is a number."""
    found = re.match(r"([+-]?)([0-9]+(?:\.[0-9]*)?|\.[0-9]+)", text.lstrip(" "))
    if not found:
        return whole(0)
    front, _, behind = found[2].partition(".")
    digits = int(front + behind)
    return decimal(-digits if found[1] == "-" else digits, len(behind))


# ---- dates

def day(year, month, number):
    try:
        return Day(datetime.date(year, month, number).toordinal())
    except ValueError:
        return BLANK


def read_day(text):
    """CTOD: month, day and year between strokes, the year of two digits or four."""
    found = re.fullmatch(r"([0-9]{1,2})/([0-9]{1,2})/([0-9]{2}|[0-9]{4})", text.strip(" "))
    if not found:
        return BLANK
    year = int(found[3]) + (1900 if len(found[3]) == 2 else 0)
    return day(year, int(found[1]), int(found[2]))


def date_of(a):
    return datetime.date.fromordinal(a.n)


def shown_day(a, century):
    if a.n is None:
        return "  /  /    " if century else "  /  /  "
    it = date_of(a)
    year = f"{it.year:04}" if century else f"{it.year % 100:02}"
    return f"{it.month:02}/{it.day:02}/{year}"


def days_on(a, days):
    """The day so many days on, blank where there is none in the years 1 to 9999, or of the asterisk value."""
    if a.n is None or days.m is None:
        return BLANK
    n = a.n + whole_part(days)
    return Day(n) if 1 <= n <= LAST_DAY else BLANK


def days_between(a, b):
    return ASTERISK if a.n is None or b.n is None else whole(a.n - b.n)


def part_of_day(word, a):
    if a.n is None:
        return whole(0)
    it = date_of(a)
    return whole({"DAY": it.day, "MONTH": it.month, "YEAR": it.year, "DOW": it.isoweekday() % 7 + 1}[word])


def name_of_day(word, a):
    return "" if a.n is None else date_of(a).strftime("%A" if word == "CDOW" else "%B")


# ---- texts

def short(text):
    return text[:MOST_TEXT]


def part(text, start, count):
    start, count = whole_part(start), whole_part(count)
    return text[start - 1:start - 1 + count] if 1 <= start <= len(text) and count >= 1 else ""


def front(text, count):
    return text[:max(whole_part(count), 0)]


def end(text, count):
    count = whole_part(count)
    return text[-count:] if count >= 1 else ""


def stuffed(text, start, count, other):
    start = min(max(whole_part(start), 1), len(text) + 1)
    count = max(whole_part(count), 0)
    return short(text[:start - 1] + other + text[start - 1 + count:])


def spelled(a, width, decimals):
    """STR."""
    width, decimals = min(max(whole_part(width), 0), MOST_TEXT), min(max(whole_part(decimals), 0), 15)
    a = rounded(a, decimals)
    text = written(a)
    return "*" * width if a.m is None or len(text) > width else text.rjust(width)


def joined(a, b):
    return short(a + b)


def joined_behind(a, b):
    """`-`: the blanks at the first text's end go to the end."""
    bare = a.rstrip(" ")
    return short(bare + b + " " * (len(a) - len(bare)))


def is_below(a, b):
    wide = max(len(a), len(b))
    return a.ljust(wide) < b.ljust(wide)


def are_equal(a, b, exact):
    return a.rstrip(" ") == b.rstrip(" ") if exact else a.startswith(b)


def changed(text, to_capitals):
    first, last, step = ("a", "z", -32) if to_capitals else ("A", "Z", 32)
    return "".join(chr(ord(c) + step) if first <= c <= last else c for c in text)


def place(a, b):
    """AT."""
    return whole(b.find(a) + 1)


def shown(value, century):
    """A value as `?` prints it."""
    if isinstance(value, Day):
        return shown_day(value, century)
    if isinstance(value, bool):
        return ".T." if value else ".F."
    if isinstance(value, Num):
        return written(value).rjust(10)
    return value
