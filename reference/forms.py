"""Names, numbers, days and times as they are spelled in a case. Each form gives the value that a text spells, or None."""
import datetime
import re

EPOCH = datetime.date(1970, 1, 1).toordinal()
FIRST_DAY, LAST_DAY = 10957, 47481
"""2000-01-01 and 2099-12-31."""


class Refused(Exception):
    """FORMATS, 'Refusals': a case is refused with the number of a line and a reason."""

    def __init__(self, line, reason):
        super().__init__(line, reason)
        self.line, self.reason = line, reason


def number(low, high):
    """FORMATS, 'The form of a case': numbers are decimal digits without sign or leading zero; here one between two limits."""

    def form(text):
        if len(text) > 20 or not re.fullmatch("0|[1-9][0-9]*", text) or not low <= int(text) <= high:
            return None
        return int(text)

    return form


def pattern(expression):
    """A text that matches, as it is."""
    compiled = re.compile(expression)

    def form(text):
        return text if compiled.fullmatch(text) else None

    return form


place = pattern("[A-Z]{3}")
"""FORMATS, 'The form of a case': a code of three capital letters."""

carrier = pattern("[A-Z0-9]{2}")
"""FORMATS, 'The form of a case': two capital letters or digits."""

basis = pattern("[A-Z0-9]{1,8}")
"""FORMATS, 'Filings': one to eight capital letters or digits."""

flight_number = number(1, 9999)
"""FORMATS, 'The form of a case': 1 to 9999."""


def day(text):
    """FORMATS, 'The form of a case': `YYYY-MM-DD`, 2000 to 2099; LAW, 'Days and flights': a day is a number of days since 1970-01-01."""
    if not re.fullmatch("20[0-9]{2}-[0-9]{2}-[0-9]{2}", text):
        return None
    try:
        return datetime.date.fromisoformat(text).toordinal() - EPOCH
    except ValueError:
        return None


def day_text(number_of_day):
    """The date of a day."""
    return datetime.date.fromordinal(number_of_day + EPOCH).isoformat()


def minute(text):
    """FORMATS, 'The form of a case': `HH:MM`, as the minute of the day."""
    if not re.fullmatch("([01][0-9]|2[0-3]):[0-5][0-9]", text):
        return None
    return int(text[:2]) * 60 + int(text[3:])


def offset(text):
    """FORMATS, 'The form of a case': an offset from UTC, `+HH:MM` or `-HH:MM`, at most 14 hours; in minutes."""
    if not re.fullmatch("[+-][0-9]{2}:[0-5][0-9]", text):
        return None
    minutes = int(text[1:3]) * 60 + int(text[4:])
    if minutes > 14 * 60:
        return None
    return -minutes if text[0] == "-" else minutes


def shift(text):
    """FORMATS, 'The form of a case': the day shift of the arrival, -1, 0, 1 or 2."""
    return int(text) if text in ("-1", "0", "1", "2") else None


def weekdays(text):
    """FORMATS, 'The form of a case': the weekdays as digits from 1 for Monday, ascending, at least one."""
    return text if re.fullmatch("[1-7]+", text) and list(text) == sorted(set(text)) else None


def seats(text):
    """FORMATS, 'The form of a case': pairs of a class letter and a digit, such as `Y9M4`, no letter twice, at least one."""
    if not re.fullmatch("([A-Z][0-9])+", text) or len(set(text[::2])) != len(text) // 2:
        return None
    return {text[at]: int(text[at + 1]) for at in range(0, len(text), 2)}


def seat_day(text):
    """FORMATS, 'The form of a case': a date, or `*` for all days."""
    return "*" if text == "*" else day(text)


def weekday(number_of_day):
    """LAW, 'Days and flights': 1 for Monday to 7 for Sunday; day 0 is a Thursday."""
    return (number_of_day + 3) % 7 + 1


def first_sunday_after(number_of_day):
    """LAW, 'Days and flights': the Sunday strictly after a day."""
    later = number_of_day + 1
    while weekday(later) != 7:
        later += 1
    return later


def instant(number_of_day, minute_of_day, minutes_of_offset):
    """LAW, 'Days and flights': day times 1440, plus the local minute, less the offset."""
    return number_of_day * 1440 + minute_of_day - minutes_of_offset
