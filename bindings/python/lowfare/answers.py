"""What a book answers, read from the library's texts."""

from __future__ import annotations

import datetime
from dataclasses import dataclass
from typing import Optional


@dataclass(frozen=True)
class Flight:
    """A dated flight of a component."""

    carrier: str
    number: int
    date: datetime.date
    origin: str
    destination: str


@dataclass(frozen=True)
class Component:
    """Flights that one fare pays for. `unit` is the number of its pricing unit in the ticket, `kind` that unit's kind
    (`one_way`, `round_trip`, `open_jaw`, `circle`), and `direction` is `forward` or `reverse`; the places are the
    fare's."""

    unit: int
    kind: str
    direction: str
    carrier: str
    origin: str
    destination: str
    basis: str
    price: int
    flights: tuple[Flight, ...]


@dataclass(frozen=True)
class Ticket:
    """A lawful ticket, with its price for one passenger."""

    price: int
    components: tuple[Component, ...]

    def to_text(self) -> bytes:
        """The lines that `Book.verdict` takes."""
        lines = []
        for part in self.components:
            lines.append(f"component {part.unit} {part.carrier} {part.origin} {part.destination} {part.basis}")
            lines += [f"flight {leg.carrier} {leg.number} {leg.date} {leg.origin}" for leg in part.flights]
        return "".join(line + "\n" for line in lines).encode()


@dataclass(frozen=True)
class Answer:
    """The best tickets of a request, ascending by price, in one version of a book, with the certificate by which
    whoever has the book can check that they are the best. `text` is the whole text, as the program prints it."""

    version: int
    tickets: tuple[Ticket, ...]
    certificate: bytes
    text: bytes


@dataclass(frozen=True)
class Check:
    """What a check of a certificate says: that it holds, or the first check that fails, by its number, and where."""

    holds: bool
    check: Optional[int] = None
    place: Optional[int] = None


@dataclass(frozen=True)
class Cell:
    """A pair of days of a calendar: the least price, or None where there is no ticket or the search is too large."""

    out: datetime.date
    back: datetime.date
    price: Optional[int]
    is_too_large: bool


@dataclass(frozen=True)
class Breach:
    """A rule that a ticket breaks: the rule's number, and the component, unit and category that it is broken at, 0 where
    there is none."""

    rule: int
    component: int
    unit: int
    category: int


@dataclass(frozen=True)
class Verdict:
    """Whether a ticket is lawful: its price, or all its breaches."""

    price: Optional[int]
    breaches: tuple[Breach, ...]

    @property
    def is_lawful(self) -> bool:
        """Whether the ticket is lawful."""
        return self.price is not None


def _day(text: str) -> datetime.date:
    return datetime.date.fromisoformat(text)


def _tickets(lines: list[str]) -> tuple[Ticket, ...]:
    """The tickets of the lines `ticket`, `component` and `flight`."""
    prices: list[int] = []
    parts: list[list[tuple[list[str], list[Flight]]]] = []
    for line in lines:
        words = line.split(" ")
        if words[0] == "ticket":
            prices.append(int(words[3]))
            parts.append([])
        elif words[0] == "component":
            parts[-1].append((words, []))
        else:
            _, carrier, number, date, origin, destination = words
            parts[-1][-1][1].append(Flight(carrier, int(number), _day(date), origin, destination))
    return tuple(
        Ticket(price, tuple(_component(words, legs) for words, legs in found)) for price, found in zip(prices, parts)
    )


def _component(words: list[str], legs: list[Flight]) -> Component:
    _, _, _, unit, kind, direction, carrier, origin, destination, basis, price = words
    return Component(
        int(unit), kind, direction, carrier, origin, destination, basis, int(price), tuple(legs)
    )


def answer_of(text: bytes) -> Answer:
    """The answer of a text of `search`."""
    at = text.index(b"certificate 1\n")
    version, _, *lines = text[:at].decode("ascii").splitlines()
    return Answer(int(version.split(" ")[1]), _tickets(lines), text[at:], text)


def check_of(text: bytes) -> Check:
    """The check of a text of `check`: `yes`, or `no Cn place`."""
    if text == b"yes\n":
        return Check(True)
    _, check, place = text.decode("ascii").split()
    return Check(False, int(check[1:]), int(place))


def cells_of(text: bytes) -> list[Cell]:
    """The cells of a text of `calendar`."""
    cells = []
    for line in text.decode("ascii").splitlines()[2:]:
        _, out, back, price = line.split(" ", 3)
        known = int(price) if price.isdigit() else None
        cells.append(Cell(_day(out), _day(back), known, price == "too large"))
    return cells


def verdict_of(text: bytes) -> Verdict:
    """The verdict of a text of `verdict`."""
    first, *lines = text.decode("ascii").splitlines()
    if first.startswith("lawful "):
        return Verdict(int(first.split(" ")[2]), ())
    numbers = [line.split(" ") for line in lines]
    return Verdict(
        None, tuple(Breach(int(words[1]), int(words[3]), int(words[5]), int(words[7])) for words in numbers)
    )
