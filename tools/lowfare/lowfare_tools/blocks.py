"""What is said of a ticket, in words and rows, before it is set as plain text or as a page. Tickets that were folded are one
block: each row of a flight has all flights that may stand there.
"""
from dataclasses import dataclass

from lowfare_tools import journey
from lowfare_tools.case import Flight
from lowfare_tools.wording import length_text, slice_text, units_text, wait_text


@dataclass(frozen=True)
class FlightRow:
    """The flights of which one is taken here, in the order of their tickets, and what is said of the wait after it."""

    flights: tuple[Flight, ...]
    wait: str


@dataclass(frozen=True)
class PaidRows:
    """A component with its rows."""

    paid: journey.Paid
    rows: tuple[FlightRow, ...]


@dataclass(frozen=True)
class Block:
    """A ticket or a fold of tickets: their numbers, the price of each for a traveller, the ways that each slice may go, the
    units, and the components."""

    numbers: tuple[int, ...]
    price: int
    slices: tuple[tuple[str, ...], ...]
    units: tuple[str, ...]
    components: tuple[PaidRows, ...]


def waits_text(waits):
    """The waits of the tickets of a fold at one place, said once where they are the same."""
    if waits[0] is None:
        return ""
    if len(set(waits)) == 1:
        return wait_text(waits[0])
    same_kind = len({(wait.kind, wait.place) for wait in waits}) == 1
    rest = [length_text(wait.minutes) if same_kind else wait_text(wait) for wait in waits[1:]]
    return " or ".join([wait_text(waits[0]), *rest])


def block_of(folded):
    """The block of a fold."""
    tickets = (folded.first, *folded.others)
    components = []
    for at, paid in enumerate(folded.first.paid):
        rows = []
        for place in range(len(paid.legs)):
            legs = [ticket.paid[at].legs[place] for ticket in tickets]
            flights = tuple(dict.fromkeys(leg.flight for leg in legs))
            rows.append(FlightRow(flights, waits_text([leg.wait for leg in legs])))
        components.append(PaidRows(paid, tuple(rows)))
    counts = range(len(folded.first.slices))
    slices = tuple(tuple(dict.fromkeys(slice_text(ticket.slices[at]) for ticket in tickets)) for at in counts)
    price = folded.first.ticket.price
    return Block(folded.numbers, price, slices, tuple(units_text(folded.first)), tuple(components))


def blocks_of(tickets, given, book):
    """The blocks of the tickets of an answer to a case."""
    timetable = journey.Timetable.of(given)
    shown = [journey.join(ticket, given, book, timetable) for ticket in tickets]
    return [block_of(folded) for folded in journey.fold(shown)]
