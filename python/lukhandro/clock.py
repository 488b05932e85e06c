"""Whole numbers and clock times: how a planner writes a value, and how it is shown."""
from __future__ import annotations

import re

LOWEST, HIGHEST = -2147483647, 2147483647

_VALUE = re.compile(r"([+-]?)([0-9]+)(?::([0-9]{2})(?::([0-9]{2}))?)?")


class NoValue(ValueError):
    """What was written is no value; the message says why."""


def seconds(text: str) -> int:
    """The number that a text stands for: a whole number, or a clock time in seconds.

    >>> seconds("7:00:00"), seconds("25:10"), seconds("-0:05:00"), seconds("600")
    (25200, 90600, -300, 600)
    >>> seconds("7:60:00")
    Traceback (most recent call last):
    lukhandro.clock.NoValue: 7:60:00 is no clock time: minutes and seconds are 00 to 59
    """
    found = _VALUE.fullmatch(text)
    if not found:
        raise NoValue(f"{text or 'nothing'} is no value: write a whole number or a clock time, as 600 or 7:00:00")
    sign, first, minute, second = found.groups()
    if len(first) > 12:
        raise NoValue(f"{text[:20]}.. lies outside the value range, {LOWEST} to {HIGHEST}")
    if minute is None:
        number = int(first)
    else:
        if int(minute) > 59 or int(second or 0) > 59:
            raise NoValue(f"{text} is no clock time: minutes and seconds are 00 to 59")
        number = int(first) * 3600 + int(minute) * 60 + int(second or 0)
    number = -number if sign == "-" else number
    if not LOWEST <= number <= HIGHEST:
        raise NoValue(f"{text} lies outside the value range, {LOWEST} to {HIGHEST}")
    return number


def clock(number: int) -> str:
    """A number of seconds as a clock time.

    >>> clock(25200), clock(90600), clock(-300)
    ('7:00:00', '25:10:00', '-0:05:00')
    """
    sign, number = ("-", -number) if number < 0 else ("", number)
    return f"{sign}{number // 3600}:{number // 60 % 60:02}:{number % 60:02}"


def shown(number: int | None, is_clock: bool) -> str:
    """A value as the sheet has it; a blank is `-`.

    >>> shown(25200, True), shown(25200, False), shown(None, True)
    ('7:00:00', '25200', '-')
    """
    return "-" if number is None else clock(number) if is_clock else str(number)


def like(number: int, before: str) -> str:
    """A number in the way in which another one was written.

    >>> like(25500, "7:00:00"), like(25500, "7:00"), like(25501, "7:00"), like(300, "600")
    ('7:05:00', '7:05', '7:05:01', '300')
    """
    colons = before.count(":")
    if colons == 0:
        return str(number)
    text = clock(number)
    return text[:-3] if colons == 1 and number % 60 == 0 else text
