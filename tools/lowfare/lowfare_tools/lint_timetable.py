"""What lint finds in places, flights and seats."""
from collections import defaultdict


from lowfare_tools.case_text import offset_text
from lowfare_tools.findings import Finding
from lowfare_tools.zones import KNOWN, offset_at, zone_named

LONGEST_FLIGHT = 20 * 60


def called(row):
    return f"{row.carrier} {row.number} {row.origin} {row.destination}"


def by_row(flights):
    """The dated flights of each row."""
    rows = defaultdict(list)
    for flight in flights:
        rows[flight.row].append(flight)
    return rows


def without_seats(case, book, flights):
    for row, dated in by_row(flights).items():
        bare = [flight for flight in dated if not book.seat_row(row.carrier, row.number, row.origin, flight.day)]
        if bare:
            when = "any day" if len(bare) == len(dated) else f"{len(bare)} of its {len(dated)} days, first {min(f.day for f in bare)}"
            yield Finding(row.line, "no-seats", f"{called(row)} has no seats on {when}, so nothing can be sold on it")


def seats_of_no_flight(case, book, flights):
    days = {(flight.carrier, flight.number, flight.origin, flight.day) for flight in flights}
    always = {key[:3] for key in days}
    for row in book.seats.values():
        if row.key not in days and not (row.day is None and row.key[:3] in always):
            when = f"on {row.day}" if row.day else "on any day"
            yield Finding(row.line, "seats-of-no-flight", f"seats of {row.carrier} {row.number} from {row.origin}: no such flight {when}")


def odd_rows(case, book, flights):
    rows = by_row(flights)
    for row in case.flights:
        dated = rows.get(row)
        if not dated:
            yield Finding(row.line, "never-flies", f"{called(row)}: no day from {row.first} to {row.last} is a weekday of it")
        elif dated[0].lands - dated[0].leaves > LONGEST_FLIGHT:
            hours, minutes = divmod(dated[0].lands - dated[0].leaves, 60)
            text = f"{called(row)} takes {hours} hours {minutes}: are the offsets and the day shift {row.shift} right?"
            yield Finding(row.line, "long-flight", text)


def short_stops(case, book, flights):
    connect = {place.code: place.connect for place in case.places}
    leaving = {(flight.carrier, flight.number, flight.origin, flight.day): flight for flight in flights}
    told = set()
    for flight in flights:
        onward = leaving.get((flight.carrier, flight.number, flight.destination, flight.arrival_day))
        least = connect.get(flight.destination, 0)
        if onward and flight.row not in told and 0 <= onward.leaves - flight.lands < least:
            told.add(flight.row)
            gap = f"{onward.leaves - flight.lands} minutes after it lands, and a connection takes {least}"
            text = f"{called(flight.row)} goes on from {flight.destination} {gap}: no ticket can stay on board"
            yield Finding(flight.row.line, "short-stop", text)


def ends(flight):
    """Place, day, time and offset of the departure and of the arrival."""
    row = flight.row
    yield row.origin, flight.day, row.departs, row.departs_offset
    yield row.destination, flight.arrival_day, row.arrives, row.arrives_offset


def zone_of(place, zones):
    return zone_named(zones[place]) if place in zones else None


def clocks_of_row(row, dated, zones):
    """What is wrong with the offsets of a row, by the zones of its places."""
    for at in (0, 1):
        points = [list(ends(flight))[at] for flight in dated]
        place, _, _, said = points[0]
        zone = zone_of(place, zones)
        wrong = [(day, offset_at(zone, day, minute)) for _, day, minute, _ in points if zone] if zone else []
        wrong = [(day, true) for day, true in wrong if true != said]
        if not wrong:
            continue
        day, true = min(wrong)
        clocks = f"clocks at {place} are at {offset_text(true)} on {day}, and the row says {offset_text(said)}"
        if len(wrong) == len(points):
            yield Finding(row.line, "wrong-offset", f"{called(row)}: {clocks}")
        else:
            text = f"{called(row)}: {clocks}; so it is on {len(wrong)} of its {len(points)} days: split the period where clocks change"
            yield Finding(row.line, "clock-change", text)


def clocks(case, book, flights, zones):
    for row, dated in by_row(flights).items():
        yield from clocks_of_row(row, dated, zones)


def two_offsets(case, book, flights, zones):
    """Rows that disagree on a place whose zone isn't known: one finding for each place."""
    said, told = {}, set()
    for flight in flights:
        for place, day, _, offset in ends(flight):
            line, other = said.setdefault((place, day), (flight.row.line, offset))
            if other != offset and place not in told and not zone_of(place, zones):
                told.add(place)
                text = f"clocks at {place} on {day}: line {line} has {offset_text(other)}, this line {offset_text(offset)}"
                yield Finding(flight.row.line, "two-offsets", text + ": does a clock change stand inside a period?")


def findings(case, book, flights, zones):
    for check in (without_seats, seats_of_no_flight, odd_rows, short_stops):
        yield from check(case, book, flights)
    for check in (clocks, two_offsets):
        yield from check(case, book, flights, {**KNOWN, **zones})
