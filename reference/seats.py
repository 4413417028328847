"""Seats by flight and class: docs/LAW.md, 'The book'."""
import reference.forms as forms
from reference.forms import Refused

SEAT_ROW = [forms.carrier, forms.flight_number, forms.place, forms.seat_day, forms.seats]
"""FORMATS, 'The form of a case': the columns of a seat row."""


def seat_rows(rows):
    """FORMATS, 'Refusals': the stage of seats; a seat row of this name and date stands at most once. The seats of each key."""
    found = {}
    for line, (carrier, number, origin, day, seats) in rows:
        if (carrier, number, origin, day) in found:
            raise Refused(line, "Twice")
        found[carrier, number, origin, day] = seats
    return found


def seats_of(rows, flight, letter):
    """LAW, 'The book', `seats`: those of the live row for the flight's own day, else of the live row for all days, else 0. A class that
    the row doesn't name has 0."""
    key = (flight.carrier, flight.number, flight.origin)
    row = rows.get((*key, flight.day), rows.get((*key, "*"), {}))
    return row.get(letter, 0)
