"""The year, the month and the day that a text names, if it is a civil date or a civil date with a time."""

import re

FRACTION = r"(?:[.,][0-9]{1,9})?"
MINUTE = r"[0-5][0-9]"
# A second may be 60, and is read as 59; no second is asked for here.
SECOND = rf"(?:{MINUTE}|60){FRACTION}"
HOUR = r"(?:[01][0-9]|2[0-3])"
# Colons are between all parts or between none, and each part may be the last.
TIME = rf"{HOUR}(?::{MINUTE}(?::{SECOND})?|{MINUTE}(?:{SECOND})?)?"
OFFSET_HOUR = r"(?:[01][0-9]|2[0-5])"
OFFSET_SECOND = rf"{MINUTE}{FRACTION}"
OFFSET = rf"[+-]{OFFSET_HOUR}(?::{MINUTE}(?::{OFFSET_SECOND})?|{MINUTE}(?:{OFFSET_SECOND})?)?"
ZONE_PART = r"[_.A-Za-z][_.A-Za-z0-9+-]*"
ZONE = rf"\[!?(?:[+-]{OFFSET_HOUR}(?::?{MINUTE})?|{ZONE_PART}(?:/{ZONE_PART})*)\]"
# Of what is no zone, a critical annotation is refused, since none is known.
ANNOTATION = r"\[[_a-z][_a-z0-9-]*=[A-Za-z0-9]+(?:-[A-Za-z0-9]+)*\]"
YEAR = r"(?P<year>[0-9]{4}|(?!-000000)[+-]00[0-9]{4})"
MONTH, DAY = r"(?:0[1-9]|1[0-2])", r"(?:0[1-9]|[12][0-9]|3[01])"
DASHED = rf"-(?P<month>{MONTH})-(?P<day>{DAY})"
PLAIN = rf"(?P<plain_month>{MONTH})(?P<plain_day>{DAY})"
WHOLE = re.compile(rf"{YEAR}(?:{DASHED}|{PLAIN})(?:[ Tt]{TIME}(?:{OFFSET})?)?(?:{ZONE})?(?:{ANNOTATION})*")


def is_leap(year: int) -> bool:
    return year % 4 == 0 and (year % 100 != 0 or year % 400 == 0)


def days_of(year: int, month: int) -> int:
    if month == 2:
        return 29 if is_leap(year) else 28
    return 30 if month in (4, 6, 9, 11) else 31


def date_of(text: str) -> tuple[int, int, int] | None:
    """The year, the month and the day, or None. One last `Z` is taken off; an offset and annotations do not matter."""
    found = WHOLE.fullmatch(text.removesuffix("Z"))
    if not found:
        return None
    year = int(found["year"])
    month = int(found["month"] or found["plain_month"])
    day = int(found["day"] or found["plain_day"])
    return (year, month, day) if day <= days_of(year, month) else None
