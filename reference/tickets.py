"""Lawful tickets, their prices, their order, and the list of all of them: docs/LAW.md, 'The ticket' and 'Price, code, order, best'."""
import collections
import itertools

import reference.components as components
import reference.journey as journey
import reference.rules as rules
import reference.units as units

MOST_OPEN = 2
ALONE, OPENS, GOES_ON, CLOSES = range(4)

Move = collections.namedtuple("Move", "flights carrier basis role slot")
Ticket = collections.namedtuple("Ticket", "pieces labels")
Priced = collections.namedtuple("Priced", "price code moves ticket")


def units_of(ticket):
    """LAW, 'The unit', `unit_of`: the unit of a label is its components in order."""
    found = {}
    for piece, label in zip(ticket.pieces, ticket.labels):
        found.setdefault(label, []).append(piece)
    return found


def is_numbered(labels):
    """LAW, 'The ticket', `Numbered`: labels are numbered from 1 by first appearance."""
    return all(1 <= label <= max(labels[:at], default=0) + 1 for at, label in enumerate(labels))


def ends_hold(ticket):
    """LAW, 'The ticket', `EndOnEndHolds`: where a fare's category 10 asks it, every fare of the ticket is of this carrier, or the ticket has
    one unit."""
    carriers = {piece.fare.carrier for piece in ticket.pieces}
    asked = {rules.combinations(piece.rule)[2] for piece in ticket.pieces}
    return ("same_carrier" not in asked or len(carriers) == 1) and ("never" not in asked or len(set(ticket.labels)) == 1)


def at_most_two_straddle(labels):
    """LAW, 'The ticket', `AtMostTwoStraddle`: at no boundary between two components do three units have components on both sides."""
    return all(len(set(labels[:at]) & set(labels[at:])) <= MOST_OPEN for at in range(1, len(labels)))


def lawful(book, request, ticket):
    """LAW, 'The ticket', `Lawful`, of components that stand for parts: their fares are live and filed between their ends."""
    flights = [flight for piece in ticket.pieces for flight in piece.flights]
    return (
        bool(ticket.pieces)
        and journey.is_itinerary(book.timetable, request.slices, flights)
        and all(
            components.has_shape(piece.flights) and components.component_lawful(book, request, piece.fare, piece.rule, piece.flights)
            for piece in ticket.pieces
        )
        and of_units_and_whole(request, ticket)
    )


def of_units_and_whole(request, ticket):
    """LAW, 'The ticket': what is asked of labels, of units and of the whole ticket."""
    return (
        is_numbered(ticket.labels)
        and at_most_two_straddle(ticket.labels)
        and ends_hold(ticket)
        and all(units.unit_lawful(pieces, request) for pieces in units_of(ticket).values())
    )


def price(ticket):
    """LAW, 'Price, code, order, best', `Costs`: a ticket costs the sum."""
    return sum(piece.price for piece in ticket.pieces)


def role_of(labels, at):
    """LAW, 'Price, code, order, best', `role_of`: alone, opens, goes on or closes, by whether its label stands before it and after it."""
    before, after = labels[at] in labels[:at], labels[at] in labels[at + 1 :]
    return [[ALONE, OPENS], [CLOSES, GOES_ON]][before][after]


def slot_number(labels, at):
    """LAW, 'Price, code, order, best', `slot_number`: the number of units with a smaller label that have a component before and one after,
    and 0 for one that is alone or opens."""
    if role_of(labels, at) in (ALONE, OPENS):
        return 0
    both = set(labels[:at]) & set(labels[at + 1 :])
    return sum(label < labels[at] for label in both)


def moves_of(ticket):
    """LAW, 'Price, code, order, best', `moves_of`: for each component its flights, the fare's carrier and basis, the role and the slot."""
    return [
        Move(piece.numbers, piece.fare.carrier, piece.fare.basis, role_of(ticket.labels, at), slot_number(ticket.labels, at))
        for at, piece in enumerate(ticket.pieces)
    ]


def character_value(character):
    """LAW, 'Price, code, order, best', `character_value`: a digit has the value 1 to 10, a letter 11 to 36."""
    return int(character, 36) + 1


def in_places(text, places):
    """LAW, 'Price, code, order, best', `in_places`: a number in base 37 over so many places."""
    return sum(character_value(character) * 37 ** (places - 1 - at) for at, character in enumerate(text))


def code(moves):
    """LAW, 'Price, code, order, best', `run_code`: for each move the count of its flights, their numbers, the carrier's number over two
    places, the basis's over eight, the role and the slot."""
    return tuple(
        number
        for move in moves
        for number in (len(move.flights), *move.flights, in_places(move.carrier, 2), in_places(move.basis, 8), move.role, move.slot)
    )


def priced(ticket):
    """LAW, 'Price, code, order, best': a ticket with its price, its code and its moves; these compare as tickets do."""
    moves = moves_of(ticket)
    return Priced(price(ticket), code(moves), moves, ticket)


def ticket_of(book, moves):
    """LAW, 'Price, code, order, best': the ticket that has these moves, or None. Each fare is filed from the component's beginning to its
    end, and of the last component of a unit of several the other way. Units that are open stand in the order of opening, which is that of
    their labels, so a slot is the place of a unit among them."""
    pieces, labels, open_labels = [], [], []
    for move in moves:
        piece = piece_of(book, move)
        begins = move.role in (ALONE, OPENS)
        if piece is None or move.slot >= (1 if begins else len(open_labels)):
            return None
        labels.append(max(labels, default=0) + 1 if begins else open_labels[move.slot])
        pieces.append(piece)
        if move.role == OPENS:
            open_labels.append(labels[-1])
        elif move.role == CLOSES:
            del open_labels[move.slot]
    ticket = Ticket(pieces, labels)
    return ticket if moves_of(ticket) == list(moves) else None


def piece_of(book, move):
    """What a move's flights and its fare stand for, or None where a flight isn't known or the fare isn't live."""
    if any(number >= len(book.timetable.flights) for number in move.flights):
        return None
    flights = [book.timetable.flights[number] for number in move.flights]
    ends = (flights[0].origin, flights[-1].to)
    fare = book.fares.get((move.carrier, *(reversed(ends) if move.role == CLOSES else ends), move.basis))
    return None if fare is None or ends[0] == ends[1] else components.Piece(move.flights, flights, fare, book.rule_of(fare))


class TooMany(Exception):
    """There are more tickets to look at than may be listed."""


def all_lawful(book, request, most):
    """LAW, 'The ticket': all lawful tickets, by looking at each journey, each cut of it into components, each offer for each component and
    each way to label them. TooMany where more than `most` cuts and tickets would be looked at."""
    found, left = [], most
    for numbers in itineraries_of(book, request, most):
        for cuts in compositions(len(numbers)):
            parts = parts_of(book, request, numbers, cuts)
            left -= 1
            ways = 1
            for offered in parts:
                ways *= len(offered)
            left -= ways * label_counts(len(cuts)) if ways else 0
            if left < 0:
                raise TooMany
            found += [ticket for ticket in tickets_of(parts) if of_units_and_whole(request, ticket)]
    return sorted(priced(ticket) for ticket in found)


def itineraries_of(book, request, most):
    """The journeys; TooMany where there are more than `most`."""
    for at, numbers in enumerate(journey.itineraries(book.timetable, request.slices)):
        if at == most:
            raise TooMany
        yield numbers


def compositions(count):
    """All ways to cut so many flights into components of one to four."""
    if count == 0:
        yield []
    for first in range(1, min(count, components.MOST_FLIGHTS) + 1):
        for rest in compositions(count - first):
            yield [first, *rest]


def parts_of(book, request, numbers, cuts):
    """The offers for each component of a cut; none where a component isn't of the shape."""
    parts, at = [], 0
    for length in cuts:
        part = tuple(numbers[at : at + length])
        at += length
        has_shape = components.has_shape([book.timetable.flights[number] for number in part])
        parts.append(components.offers(book, request, part) if has_shape else [])
    return parts


def tickets_of(parts):
    """Each choice of offers with each way to label them."""
    if all(parts):
        for labels in labelings(len(parts)):
            for pieces in itertools.product(*parts):
                yield Ticket(list(pieces), labels)


def labelings(count):
    """LAW, 'The ticket', `Numbered`: all lists of so many labels that are numbered from 1 by first appearance."""
    if count == 0:
        yield []
        return
    for before in labelings(count - 1):
        for label in range(1, max(before, default=0) + 2):
            yield [*before, label]


def label_counts(count):
    """How many lists `labelings` gives: Bell's numbers, by their triangle."""
    row = [1]
    for _ in range(count - 1):
        row = list(itertools.accumulate([row[-1], *row]))
    return row[-1]
