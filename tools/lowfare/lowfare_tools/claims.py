"""The answers of a certificate as tickets: what it claims, read with a case.

A move names its flights by their numbers in the timetable, its fare by carrier and basis, and its place in its unit by a role
and a slot. Which tickets are meant follows from these; the rules are those of docs/LAW.md and docs/RESIDUALS.md. Whether a
ticket is lawful isn't judged here.
"""
from lowfare_tools import pricing
from lowfare_tools.answer import Component, FlightOf, Ticket

ALONE, OPENS, GOES_ON, CLOSES = range(4)


class Unclear(Exception):
    """A move doesn't fit the case: it names a flight, a fare or a unit that isn't there."""


def labels_of(moves):
    """The label of the unit of each move: units are numbered as they begin, and a slot counts those that are open."""
    labels, is_open, begun = [], [], 0
    for at, move in enumerate(moves, 1):
        if move.role in (ALONE, OPENS):
            begun += 1
            labels.append(begun)
            if move.role == OPENS:
                is_open.append(begun)
        elif move.slot < len(is_open):
            labels.append(is_open[move.slot])
            if move.role == CLOSES:
                del is_open[move.slot]
        else:
            raise Unclear(f"move {at} is in slot {move.slot}, where no unit is open")
    if is_open:
        raise Unclear(f"unit {is_open[0]} is never closed")
    return labels


def kind_of(roles, ends):
    """The kind of a unit from its components' roles and ends."""
    if len(roles) == 1:
        return "one_way"
    if len(roles) > 2:
        return "circle"
    (begin, turn), (again, end) = ends
    return "round_trip" if turn == again and end == begin else "open_jaw"


def flights_of(move, timetable):
    """The dated flights of a move."""
    count = len(timetable.flights)
    for number in move.flights:
        if number >= count:
            raise Unclear(f"flight number {number} isn't one of the {count} of the timetable")
    return [timetable.flights[number] for number in move.flights]


def fare_of(move, flights, book):
    """The fare of a move on its flights: from their beginning to their end, or, where it closes a unit, the other way."""
    ends = flights[0].origin, flights[-1].destination
    market = ends[::-1] if move.role == CLOSES else ends
    fare = book.fares.get((move.carrier, *market, move.basis))
    if fare is None or book.rule_of(fare) is None:
        raise Unclear(f"the fare {move.carrier} {move.basis} from {market[0]} to {market[1]} isn't in the book")
    return fare


def ticket_of(certified, book, timetable):
    """The ticket that an answer of a certificate claims. Its components have the prices that the case's fares give."""
    labels = labels_of(certified.moves)
    flights = [flights_of(move, timetable) for move in certified.moves]
    fares = [fare_of(move, legs, book) for move, legs in zip(certified.moves, flights)]
    components = []
    for at, label in enumerate(labels):
        own = [place for place, other in enumerate(labels) if other == label]
        ends = [(flights[place][0].origin, flights[place][-1].destination) for place in own]
        kind = kind_of([certified.moves[place].role for place in own], ends)
        fare = fares[at]
        price = pricing.price_of(pricing.parts_of(fare, book.rule_of(fare), flights[at]))
        named = tuple(FlightOf(leg.carrier, leg.number, leg.day, leg.origin, leg.destination) for leg in flights[at])
        reverse = certified.moves[at].role == CLOSES
        components.append(Component(label, kind, reverse, *fare.key, price, named))
    return Ticket(certified.price, tuple(components))
