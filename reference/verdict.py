"""The verdict on a ticket: docs/VERDICT.md, 'The rules', and docs/LAW.md, 'Breaches'."""
import collections

import reference.components as components
import reference.forms as forms
import reference.journey as journey
import reference.rules as rules
import reference.tickets as tickets
import reference.units as units
from reference.forms import Refused

MOST_COMPONENTS, MOST_FLIGHTS = 18, 4

Line = collections.namedtuple("Line", "label key flights")
"""A component of a ticket that is judged: its label, its fare's key, and the names of its flights."""

COMPONENT = [forms.number(0, 255), forms.carrier, forms.place, forms.place, forms.basis]
FLIGHT = [forms.carrier, forms.flight_number, forms.day, forms.place]


def read_ticket(lines):
    """FORMATS, 'The ticket of a verdict': `component U CARRIER FROM TO BASIS`, of which there are at most 18, and `flight CARRIER NUMBER DATE
    FROM`, a flight of the component before, of which it has at most four."""
    found = []
    for number, line in lines:
        word, *words = line.split(" ")
        columns = {"component": COMPONENT, "flight": FLIGHT}.get(word, [])
        values = [form(text) for form, text in zip(columns, words)]
        if not columns or len(words) != len(columns) or None in values:
            raise Refused(number, "Ticket")
        if word == "component":
            found.append(Line(values[0], tuple(values[1:]), []))
        elif found:
            found[-1].flights.append(tuple(values))
        if not found or len(found) > MOST_COMPONENTS or len(found[-1].flights) > MOST_FLIGHTS:
            raise Refused(number, "Ticket")
    return found


def verdict_text(book, request, ticket):
    """FORMATS, 'The verdict': the price, or all breaches by rule, component and category."""
    judge = Judge(book, request, ticket)
    found = sorted(judge.findings())
    if not found:
        return [f"lawful price {tickets.price(judge.whole())}"]
    breaches = [f"breach {rule} component {component} unit {judge.unit(component)} category {category}" for rule, component, category in found]
    return [f"breaches {len(found)}", *breaches]


class Judge:
    """A ticket with the book and the request by which it is judged. A finding is a rule, a component, counted from 1, or 0 for the whole
    ticket, and a category, or 0."""

    def __init__(self, book, request, ticket):
        self.book, self.request, self.ticket = book, request, ticket
        numbers = book.timetable.numbers
        self.numbers = [[numbers.get(flight) for flight in line.flights] for line in ticket]
        self.labels = [line.label for line in ticket]

    def unit(self, component):
        """FORMATS, 'The verdict': the component's label; 0 for the whole ticket."""
        return self.labels[component - 1] if component else 0

    def findings(self):
        """VERDICT, 'The rules': where 1, 2 or 3 is found, nothing else is tested; 14 to 26 aren't tested where 4, 5, 11, 12 or 13 is found."""
        found = list(self.of_what_is_there())
        if not found:
            found = [*self.of_components(), *self.of_journey()]
            if not {4, 5, 11, 12, 13} & {rule for rule, _, _ in found}:
                found += [*self.of_pieces(), *self.of_units(), *self.of_whole()]
        return found

    def of_what_is_there(self):
        """VERDICT, 'The rules', 1 to 3: there are components; the timetable has each flight; a component has a flight."""
        if not self.ticket:
            yield 1, 0, 0
        for at, numbers in enumerate(self.numbers, 1):
            if None in numbers:
                yield 2, at, 0
            if not numbers:
                yield 3, at, 0

    def flights(self, at):
        """The flights of a component, which are known."""
        return [self.book.timetable.flights[number] for number in self.numbers[at]]

    def of_components(self):
        """VERDICT, 'The rules', 4, 5, 11, 12 and 13: gaps, places twice, the fare and its ends, and the first wrong label."""
        for at, line in enumerate(self.ticket):
            flights, fare = self.flights(at), self.book.fares.get(line.key)
            if not components.has_no_gap(flights):
                yield 4, at + 1, 0
            if not components.calls_once(flights):
                yield 5, at + 1, 0
            if fare is None:
                yield 11, at + 1, 0
            elif not components.is_filed(fare, flights[0].origin, flights[-1].to):
                yield 12, at + 1, 0
        wrong = [at for at in range(len(self.labels)) if not tickets.is_numbered(self.labels[: at + 1])]
        if wrong:
            yield 13, wrong[0] + 1, 0

    def of_journey(self):
        """VERDICT, 'The rules', 6 to 10, of which 7 to 10 are tested where 6 isn't found."""
        table, slices = self.book.timetable, self.request.slices
        pieces = journey.cut(slices, [flight for at in range(len(self.ticket)) for flight in self.flights(at)])
        if pieces is None or not journey.begins_and_joins(table, slices, pieces):
            yield 6, 0, 0
            return
        for rule, holds in {7: journey.short, 8: journey.once, 9: journey.in_time, 10: journey.in_windows}.items():
            if not holds(table, slices, pieces):
                yield rule, 0, 0

    def whole(self):
        """The ticket for which the components stand, whose flights and fares are known."""
        fares = [self.book.fares[line.key] for line in self.ticket]
        pieces = [components.Piece(tuple(self.numbers[at]), self.flights(at), fare, self.book.rule_of(fare)) for at, fare in enumerate(fares)]
        return tickets.Ticket(pieces, self.labels)

    def of_pieces(self):
        """VERDICT, 'The rules', 14 to 18: seats, and categories 2, 4, 8 and 9."""
        for at, piece in enumerate(self.whole().pieces, 1):
            rule, flights = piece.rule, piece.flights
            if not components.is_seated(self.book, self.request, piece.fare, flights):
                yield 14, at, 0
            if not rules.day_time_holds(rule, flights):
                yield 15, at, 2
            if not rules.flights_hold(rule, flights):
                yield 16, at, 4
            if not rules.stopovers_hold(rule, flights):
                yield 17, at, 8
            if not rules.transfers_hold(rule, piece.fare.carrier, flights):
                yield 18, at, 9

    def of_units(self):
        """VERDICT, 'The rules', 19 to 24: the unit's kind, at its first component; where it has one, each fare's kind and categories 3, 5, 14,
        6, 7 and 10."""
        whole = self.whole()
        tests = {
            (21, 3): units.season, (21, 5): units.advance, (22, 14): units.travel,
            (23, 6): units.minimum_stay, (23, 7): units.maximum_stay, (24, 10): units.combination,
        }
        for label, pieces in tickets.units_of(whole).items():
            places = [at for at, other in enumerate(self.labels, 1) if other == label]
            kind = units.kind_of(pieces)
            if kind is None:
                yield 19, places[0], 0
                continue
            for at, piece in zip(places, pieces):
                if not units.may_stand(kind, piece.fare):
                    yield 20, at, 0
                yield from ((rule, at, category) for (rule, category), holds in tests.items() if not holds(pieces, piece, self.request))

    def of_whole(self):
        """VERDICT, 'The rules', 25 and 26: end on end, and units that are open at once."""
        if not tickets.ends_hold(self.whole()):
            yield 25, 0, 10
        if not tickets.at_most_two_straddle(self.labels):
            yield 26, 0, 0
