"""Tickets as plain text, in colour where that is asked."""
from lowfare_tools.case_text import time_text
from lowfare_tools.wording import (
    arrival_text,
    counted,
    day_text,
    fare_text,
    length_text,
    name_of,
    numbers_text,
    parts_text,
    prices_text,
)

BOLD, DIM, GREEN, PLAIN = "\x1b[1m", "\x1b[2m", "\x1b[32m", "\x1b[0m"


class Pen:
    """Puts marks of colour round a text, or none."""

    def __init__(self, colour):
        self.colour = colour

    def __call__(self, mark, text):
        return f"{mark}{text}{PLAIN}" if self.colour else text


def flight_cells(flight):
    """A flight as columns: its name, its day, departure, arrival, and how long it takes."""
    leaves = f"{flight.origin} {time_text(flight.departs)}"
    lands = f"{flight.destination} {arrival_text(flight)}"
    return [name_of(flight), day_text(flight.day), leaves, lands, length_text(flight.lands - flight.leaves)]


def widths_of(blocks):
    """The widths of the columns of all flights."""
    parts = [row for block in blocks for component in block.components for row in component.rows]
    cells = [flight_cells(flight) for row in parts for flight in row.flights]
    return [max(map(len, column)) for column in zip(*cells)]


def row_lines(row, widths, pen):
    for at, flight in enumerate(row.flights):
        texts = [text.ljust(width) for text, width in zip(flight_cells(flight), widths)]
        yield f"  {'or' if at else '  '}  " + "  ".join(texts).rstrip()
    if row.wait:
        yield pen(DIM, f"        {row.wait}")


def component_lines(number, component, widths, pen):
    paid = component.paid
    price = pen(BOLD, str(paid.component.price))
    parts = parts_text(paid)
    yield f"  component {number}: {fare_text(paid)}: {price}" + (f" ({parts})" if parts else "")
    for row in component.rows:
        yield from row_lines(row, widths, pen)


def block_lines(block, party, widths, pen):
    many = len(block.numbers) > 1
    title = f"Ticket{'s' if many else ''} {numbers_text(block.numbers)}"
    each = "each " if many else ""
    yield pen(BOLD, title) + f": {each}{pen(GREEN, prices_text(block.price, party))}"
    for ways in block.slices:
        yield from (f"  {'or ' if at else ''}{way}" for at, way in enumerate(ways))
    yield from (f"  {unit}" for unit in block.units)
    for number, component in enumerate(block.components, 1):
        yield from component_lines(number, component, widths, pen)


def tickets_text(blocks, request, version, colour=False):
    """All tickets of an answer."""
    pen = Pen(colour)
    count = sum(len(block.numbers) for block in blocks)
    sold = f"sold on {day_text(request.sale)} to {counted(request.party, 'traveller')}, version {version} of the book"
    lines = [f"{counted(count, 'ticket') if count else 'No lawful ticket'}, {sold}"]
    widths = widths_of(blocks)
    for block in blocks:
        lines += ["", *block_lines(block, request.party, widths, pen)]
    return "\n".join(lines) + "\n"
