"""Places and dated flights: docs/LAW.md, 'Days and flights', and docs/FORMATS.md, 'Refusals'."""
import collections

import reference.forms as forms
from reference.forms import Refused

PLACE_ROW = [forms.place, forms.number(0, 1440)]
FLIGHT_ROW = [
    forms.carrier, forms.flight_number, forms.place, forms.place, forms.minute, forms.offset,
    forms.minute, forms.offset, forms.shift, forms.day, forms.day, forms.weekdays,
]
"""FORMATS, 'The form of a case': the columns of a place row and of a flight row."""

MOST_FLIGHTS = 200000

Flight = collections.namedtuple("Flight", "dep carrier number origin day to minute arr")
"""LAW, 'Days and flights': a dated flight. The fields stand so that flights compare by departure, carrier, number, origin and day."""

FlightRow = collections.namedtuple("FlightRow", "carrier number origin to dep dep_offset arr arr_offset shift first last days")


class Timetable:
    """The least connect time of each place, and the dated flights in order, numbered from 0."""

    def __init__(self, connect, flights):
        self.connect, self.flights = connect, flights
        self.departures = collections.defaultdict(list)
        """For each place the numbers of the flights that depart there, ascending."""
        for at, flight in enumerate(flights):
            self.departures[flight.origin].append(at)
        self.numbers = {(flight.carrier, flight.number, flight.day, flight.origin): at for at, flight in enumerate(flights)}


def timetable(place_rows, flight_rows):
    """FORMATS, 'Refusals': the stage of places and flights; LAW, 'Days and flights': the flights by departure, carrier, number, origin and day."""
    connect = {}
    for line, (code, minutes) in place_rows:
        if code in connect:
            raise Refused(line, "PlaceTwice")
        connect[code] = minutes
    keys, flights = set(), []
    for line, fields in flight_rows:
        row = FlightRow(*fields)
        reason = row_fault(row, connect)
        if reason:
            raise Refused(line, reason)
        dated = dated_flights(row)
        new = {(flight.carrier, flight.number, flight.origin, flight.day) for flight in dated}
        if new & keys:
            raise Refused(line, "Twice")
        keys |= new
        flights += dated
        if len(flights) > MOST_FLIGHTS:
            raise Refused(line, "TooMany")
    return Timetable(connect, sorted(flights))


def row_fault(row, connect):
    """FORMATS, 'Refusals': what may be wrong with a flight row, whether its period names a date or not; the first of these."""
    if row.origin not in connect or row.to not in connect:
        return "UnknownPlace"
    if row.origin == row.to:
        return "SamePlace"
    if not row.first <= row.last <= row.first + 365:
        return "BadPeriod"
    if forms.instant(row.shift, row.arr, row.arr_offset) <= forms.instant(0, row.dep, row.dep_offset):
        return "ArrivesBefore"
    return None


def dated_flights(row):
    """LAW, 'Days and flights': one flight on each day from the first to the last whose weekday is named. Days are local at the origin;
    the arrival's day is shifted."""
    return [
        Flight(
            dep=forms.instant(day, row.dep, row.dep_offset), carrier=row.carrier, number=row.number, origin=row.origin, day=day,
            to=row.to, minute=row.dep, arr=forms.instant(day + row.shift, row.arr, row.arr_offset),
        )
        for day in range(row.first, row.last + 1)
        if str(forms.weekday(day)) in row.days
    ]
