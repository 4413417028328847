"""The tickets of an answer, joined with their case: flights with times, waits between them, fares with rules and parts of
their prices. Both the plain view and the page are made of these records.
"""
from dataclasses import dataclass

from lowfare_tools import case, pricing
from lowfare_tools.answer import Component, Ticket
from lowfare_tools.command import Trouble

OTHER_CASE = "is the answer of another case? see docs/AUDIT.md#what-can-differ"


@dataclass(frozen=True)
class Wait:
    """What lies between two flights: a connection, a stopover within a fare or a stay, its place and its minutes. Between slices
    the next flight may leave from another place."""

    kind: str
    place: str
    minutes: int


@dataclass(frozen=True)
class Leg:
    """A flight of a ticket with the wait after it."""

    flight: case.Flight
    wait: Wait | None


@dataclass(frozen=True)
class Paid:
    """A component: what the answer says of it, its fare, the parts of its price, and its legs."""

    component: Component
    fare: case.Fare
    parts: tuple[pricing.Part, ...]
    legs: tuple[Leg, ...]

    @property
    def agrees(self):
        """Whether the case's fares give the printed price."""
        return pricing.price_of(self.parts) == self.component.price


@dataclass(frozen=True)
class Shown:
    """A ticket: the flights of each slice, and what is paid for."""

    ticket: Ticket
    slices: tuple[tuple[case.Flight, ...], ...]
    paid: tuple[Paid, ...]

    def units(self):
        """Of each unit its label, kind, and the numbers of its components."""
        labels = dict.fromkeys(part.component.unit for part in self.paid)
        for label in labels:
            numbers = [at for at, part in enumerate(self.paid, 1) if part.component.unit == label]
            yield label, self.paid[numbers[0] - 1].component.kind, numbers


@dataclass(frozen=True)
class Timetable:
    """The dated flights of a case, in the order of their numbers in a certificate."""

    flights: tuple[case.Flight, ...]
    by_key: dict

    @staticmethod
    def of(given):
        flights = tuple(case.expand(given.flights))
        keys = {(flight.carrier, flight.number, flight.day, flight.origin): flight for flight in flights}
        return Timetable(flights, keys)

    def find(self, named):
        """The flight that an answer names."""
        found = self.by_key.get(named.key)
        if found is None or found.destination != named.destination:
            name = f"{named.carrier} {named.number} of {named.day} from {named.origin} to {named.destination}"
            raise Trouble(f"the case has no flight {name}: {OTHER_CASE}")
        return found


def cut(flights, request):
    """The flights of each slice: a slice ends with the first arrival at its destination. Flights left over are the last part,
    and slices without a flight are left out, which a lawful ticket doesn't have."""
    slices, rest = [], list(flights)
    for part in request.slices:
        ends = [at for at, flight in enumerate(rest, 1) if flight.destination == part.destination]
        count = ends[0] if ends else len(rest)
        slices.append(tuple(rest[:count]))
        rest = rest[count:]
    return tuple(part for part in (*slices, tuple(rest)) if part)


def wait_between(before, after, within_fare, within_slice):
    minutes = after.leaves - before.lands
    if within_fare and minutes > case.ONE_DAY:
        kind = "stopover"
    else:
        kind = "connection" if within_slice else "stay"
    surface = before.destination != after.origin
    return Wait(kind, f"{before.destination}, on from {after.origin}" if surface else before.destination, minutes)


def join(ticket, given, book, timetable):
    """A ticket with what its case says of it."""
    flights = [timetable.find(named) for named in ticket.flights]
    slices = cut(flights, given.request)
    slice_of = [at for at, part in enumerate(slices) for _ in part]
    fare_of = [at for at, component in enumerate(ticket.components) for _ in component.flights]
    legs = []
    for at, flight in enumerate(flights):
        wait = None
        if at + 1 < len(flights):
            same_fare, same_slice = fare_of[at] == fare_of[at + 1], slice_of[at] == slice_of[at + 1]
            wait = wait_between(flight, flights[at + 1], same_fare, same_slice)
        legs.append(Leg(flight, wait))
    paid = []
    for at, component in enumerate(ticket.components):
        own = tuple(leg for leg, part in zip(legs, fare_of) if part == at)
        fare = book.fares.get(component.fare_key)
        rule = fare and book.rule_of(fare)
        if rule is None:
            raise Trouble(f"the case has no fare {' '.join(component.fare_key)} with a rule: {OTHER_CASE}")
        parts = pricing.parts_of(fare, rule, [leg.flight for leg in own])
        paid.append(Paid(component, fare, tuple(parts), own))
    return Shown(ticket, slices, tuple(paid))


@dataclass(frozen=True)
class Folded:
    """Tickets at one price that differ in one flight: their numbers, the first of them, and the place of that flight among all
    flights of the ticket with the whole ticket of each of the others."""

    numbers: tuple[int, ...]
    first: Shown
    at: int | None = None
    others: tuple[Shown, ...] = ()


def forms_of(ticket):
    """For each place of a flight: all of the ticket but that flight."""
    parts = [(part.unit, part.kind, part.reverse, part.fare_key, part.price, len(part.flights)) for part in ticket.components]
    for at in range(len(ticket.flights)):
        yield at, (ticket.price, *parts, at, *ticket.flights[:at], *ticket.flights[at + 1 :])


def fold(shown):
    """The tickets in order, each that differs from the first of a fold in the one flight of that fold put to it."""
    folds, by_form = [], {}
    for number, one in enumerate(shown, 1):
        for at, form in forms_of(one.ticket):
            place = by_form.get(form)
            if place is not None and folds[place].at in (None, at):
                found = folds[place]
                folds[place] = Folded((*found.numbers, number), found.first, at, (*found.others, one))
                break
        else:
            by_form.update((form, len(folds)) for _, form in forms_of(one.ticket))
            folds.append(Folded((number,), one))
    return folds
