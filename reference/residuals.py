"""Residuals: positions, open units, ticket parts, their order and their text. docs/RESIDUALS.md."""
import collections

import reference.forms as forms
import reference.journey as journey

Position = collections.namedtuple("Position", "slice leg place via lo hi")
OpenUnit = collections.namedtuple("OpenUnit", "origin end count first least greatest by kinds partner carrier rule")
Part = collections.namedtuple("Part", "units ends carrier")
Residual = collections.namedtuple("Residual", "at units part")
"""RESIDUALS, 'Positions and paths', 'Open units and roles' and 'Ticket part, residuals, moves, runs'. What is absent is None. A carrier or a
rule that is mixed is `*`; a ticket part's carrier is None where there is none yet."""

MIXED = "*"
LAST_LEG = 2


def position(number_of_slice, leg, place, via, numbers):
    """RESIDUALS, `start_of_range`, `end_of_range`: of the flights that fit the least number, and the greatest plus 1; both 0 where none
    fits."""
    return Position(number_of_slice, leg, place, via, min(numbers, default=0), max(numbers, default=-1) + 1)


def position_before(timetable, slices, number_of_slice, arrival):
    """RESIDUALS, `position_before`, `fits_before`: a flight fits before a slice from its origin, in its window of days, and at least the least
    connect time of the origin after the last arrival, if there was one."""
    one = slices[number_of_slice]
    fitting = [
        number
        for number in timetable.departures[one.origin]
        if journey.in_window(one, timetable.flights[number]) and journey.late_enough(timetable, one, arrival, timetable.flights[number])
    ]
    return position(number_of_slice, 0, one.origin, None, fitting)


def position_inside(timetable, at, flight):
    """RESIDUALS, `position_inside`, `fits_inside`: a flight fits inside a slice from the place, from the least connect time to 1,440 minutes
    after the arrival. The place first called at after the origin stands there where two flights were taken."""
    fitting = [number for number in timetable.departures[flight.to] if journey.joins(timetable, flight, timetable.flights[number])]
    return position(at.slice, at.leg + 1, flight.to, at.place if at.leg == 1 else None, fitting)


def takes(timetable, slices, at):
    """RESIDUALS, `Takes`: the numbers of the flights that may be taken, read from the position alone."""
    if at.slice >= len(slices) or at.leg > LAST_LEG:
        return []
    one = slices[at.slice]
    return [
        number
        for number in timetable.departures.get(at.place, [])
        if at.lo <= number < at.hi
        and (at.leg > 0 or journey.in_window(one, timetable.flights[number]))
        and timetable.flights[number].to not in (one.origin, at.place, at.via)
    ]


DONE = "done"


def leads_to(timetable, slices, at, flight):
    """RESIDUALS, `LeadsTo`: at the slice's destination to the position before the next slice, and to the end of the journey after the last
    one; elsewhere, after the first or second flight of the slice, to a position inside it. None where it leads nowhere."""
    if flight.to == slices[at.slice].to:
        if at.slice + 1 == len(slices):
            return DONE
        return position_before(timetable, slices, at.slice + 1, flight.arr)
    return position_inside(timetable, at, flight) if at.leg < LAST_LEG else None


def fits(request, timetable, at):
    """RESIDUALS, `Fits`: the slice is one of the request's, the leg is at most 2, there is a via exactly at leg 2, and the range lies in the
    timetable."""
    return (
        at.slice < len(request.slices)
        and at.leg <= LAST_LEG
        and (at.via is not None) == (at.leg == LAST_LEG)
        and at.lo <= at.hi <= len(timetable.flights)
    )


def root(book, request):
    """RESIDUALS, `RunFromRoot`: the position before the first slice, with no unit open and nothing asked."""
    return Residual(position_before(book.timetable, request.slices, 0, None), (), Part(0, 0, None))


def present(value):
    """RESIDUALS, `StateBefore`: absent comes before present."""
    return (value is not None, value or 0)


def mark(value):
    """RESIDUALS, `StateBefore`: none yet comes before one, and one before mixed."""
    return (value is not None, value == MIXED, 0 if value in (None, MIXED) else value)


def order(residual):
    """RESIDUALS, `StateBefore`: slice, leg, place, via, lo, hi, open units, ticket part, each field by field; a prefix of a list before the
    list."""
    at, part = residual.at, residual.part
    units = tuple(
        (*unit[:4], present(unit.least), present(unit.greatest), present(unit.by), unit.kinds, unit.partner, mark(unit.carrier), mark(unit.rule))
        for unit in residual.units
    )
    return (at.slice, at.leg, at.place, (at.via is not None, at.via or ""), at.lo, at.hi, units, (part.units, part.ends, mark(part.carrier)))


def dashed(value):
    """RESIDUALS, 'The text of a residual': `-` for what is absent."""
    return "-" if value is None else str(value)


def text(residual):
    """RESIDUALS, 'The text of a residual'."""
    units = "/".join(f"{unit.origin}>{unit.end}:" + ":".join(dashed(field) for field in unit[2:]) for unit in residual.units)
    at, part = residual.at, residual.part
    words = [at.slice, at.leg, at.place, dashed(at.via), at.lo, at.hi, units or "-", ":".join(dashed(field) for field in part)]
    return " ".join(str(word) for word in words)


def absent_or(form, sign="-", meaning=None):
    """A form, or the sign that stands for what is absent or mixed."""
    return lambda spelled: [meaning] if spelled == sign else form(spelled)


def read_fields(spelled, fields):
    """The fields of a text that are parted by colons, or None. A field that may be absent gives a list of its meaning."""
    words = spelled.split(":")
    if len(words) != len(fields):
        return None
    values = [form(word) for form, word in zip(fields, words)]
    return None if None in values else [value[0] if isinstance(value, list) else value for value in values]


RULE = absent_or(forms.number(0, 65535), MIXED, MIXED)
DAY = absent_or(forms.number(0, 100000))
UNIT_FIELDS = [
    forms.number(1, 3), forms.number(0, 99000), DAY, DAY, DAY, forms.number(0, 15), forms.number(0, 2),
    absent_or(forms.carrier, MIXED, MIXED), RULE,
]
PART_FIELDS = [forms.number(0, 2), forms.number(0, 3), absent_or(absent_or(forms.carrier, MIXED, MIXED))]
"""RESIDUALS, `IsResidual`: what the type of residuals keeps."""


def read_unit(spelled):
    """RESIDUALS, 'The text of a residual': an open unit, or None. The rule is mixed where the carrier is."""
    ends, _, rest = spelled.partition(":")
    origin, arrow, end = ends.partition(">")
    values = read_fields(rest, UNIT_FIELDS)
    if not arrow or values is None or not forms.place(origin) or not forms.place(end):
        return None
    unit = OpenUnit(origin, end, *values)
    return None if unit.carrier == MIXED and unit.rule != MIXED else unit


def read(words):
    """RESIDUALS, 'The text of a residual': the residual that eight words spell, or None."""
    if len(words) != 8:
        return None
    small, large = forms.number(0, 255), forms.number(0, 2**32 - 1)
    columns = [small, small, forms.place, absent_or(forms.place), large, large]
    at = [form(word) for form, word in zip(columns, words)]
    units = [] if words[6] == "-" else [read_unit(unit) for unit in words[6].split("/")]
    part = read_fields(words[7], PART_FIELDS)
    if None in at or None in units or len(units) > 2 or part is None:
        return None
    at[3] = None if isinstance(at[3], list) else at[3]
    return Residual(Position(*at), tuple(units), Part(*part))
