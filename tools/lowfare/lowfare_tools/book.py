"""What is live after the filings of a case: fares, rules and seats. Tolerant, as case.py is: an action that is not of its form
or that a book would refuse is kept as a Fault and passed over.
"""
from lowfare_tools.case import (
    MOST_AMOUNT,
    NO_RULE,
    BadField,
    Fare,
    Fault,
    Rule,
    SeatRow,
    carrier_of,
    date_of,
    match,
    place_of,
    seats_of,
    whole,
)

CATEGORIES = ("cat2", "cat3", "cat4", "cat5", "cat6", "cat7", "cat8", "cat9", "cat10", "cat12", "cat14")


class Book:
    """The book of a case after its first `version` filings, or after all. `fares` has live fares by carrier, origin,
    destination and basis; `rules` live rules by carrier and number; `seats` live seat rows by carrier, number, origin and day,
    the day None for all days. `faults` has what was passed over."""

    def __init__(self, case, version=None):
        self.fares = {}
        self.rules = {}
        self.seats = {row.key: row for row in reversed(case.seats)}
        self.faults = []
        for filing in case.filings[:version]:
            for action in filing:
                self.take(action)

    def take(self, action):
        """Takes one action, or keeps a fault."""
        try:
            ACTIONS[action.name](self, action)
        except BadField as bad:
            self.faults.append(Fault(action.line, f"action {action.at}: {bad.reason}"))
        except (KeyError, TypeError, ValueError):
            self.faults.append(Fault(action.line, f"action {action.at}: not of the form that FORMATS names"))

    def rule_of(self, fare):
        """The live rule of a fare; rule 0 restricts nothing. None where the carrier has no such rule."""
        return NO_RULE if fare.rule == 0 else self.rules.get((fare.carrier, fare.rule))

    def seat_row(self, carrier, number, origin, day):
        """The seat row that counts on a day: that of the day, else that of all days, else None."""
        return self.seats.get((carrier, number, origin, day)) or self.seats.get((carrier, number, origin, None))

    def seats_left(self, flight, booking_class):
        """The seats of a dated flight in a class."""
        row = self.seat_row(flight.carrier, flight.number, flight.origin, flight.day)
        return row.seats.get(booking_class, 0) if row else 0


def fare_of(action):
    at = action.members
    return Fare(
        carrier_of(0, at["carrier"]),
        place_of(0, at["from"]),
        place_of(0, at["to"]),
        match(0, r"[A-Z0-9]{1,8}", at["basis"], "a basis, one to eight capital letters or digits")[0],
        match(0, r"[A-Z]", at["class"], "a class, a capital letter")[0],
        match(0, r"[ORS]", at["kind"], "a kind: O, R or S")[0],
        whole(at["amount"], 0, MOST_AMOUNT),
        whole(at["rule"], 0, 9999),
        action.line,
        action.at,
    )


def put_fare(book, action):
    fare = fare_of(action)
    if book.rule_of(fare) is None:
        book.faults.append(Fault(action.line, f"action {action.at}: {fare.carrier} has no rule {fare.rule}"))
    book.fares[fare.key] = fare


def drop(live, key, what):
    if live.pop(key, None) is None:
        raise BadField(0, f"it drops {what} that isn't there")


def drop_fare(book, action):
    at = action.members
    drop(book.fares, (at["carrier"], at["from"], at["to"], at["basis"]), "a fare")


def put_rule(book, action):
    at = action.members
    carrier, number = carrier_of(0, at["carrier"]), whole(at["rule"], 1, 9999)
    categories = {name: at[name] for name in CATEGORIES if name in at}
    book.rules[carrier, number] = Rule(carrier, number, categories, action.line, action.at)


def drop_rule(book, action):
    at = action.members
    drop(book.rules, (at["carrier"], at["rule"]), "a rule")


def seat_key(at):
    day = None if at["date"] == "*" else date_of(0, at["date"])
    return carrier_of(0, at["carrier"]), whole(at["number"], 1, 9999), place_of(0, at["from"]), day


def put_seats(book, action):
    key = seat_key(action.members)
    book.seats[key] = SeatRow(*key, seats_of(0, action.members["seats"]), action.line)


def drop_seats(book, action):
    drop(book.seats, seat_key(action.members), "seats")


ACTIONS = {
    "put_fare": put_fare,
    "drop_fare": drop_fare,
    "put_rule": put_rule,
    "drop_rule": drop_rule,
    "put_seats": put_seats,
    "drop_seats": drop_seats,
}
