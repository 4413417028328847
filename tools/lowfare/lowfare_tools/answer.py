"""What the program prints, as data: the answer and certificate of `search`, a calendar, a verdict, what `check` says, and a
refusal. The forms are those of docs/FORMATS.md.

Reading is strict: a text that isn't one of these raises `NotAnAnswer` with the first line at fault.
"""
import re
from dataclasses import dataclass
from datetime import date

KINDS = ("one_way", "round_trip", "open_jaw", "circle")
ROLES = ("alone", "opens", "goes on", "closes")


class NotAnAnswer(Exception):
    """The text isn't of the form that is due at this line, counted from 1."""

    def __init__(self, line, due):
        super().__init__(f"line {line} isn't {due}")
        self.line = line
        self.due = due


@dataclass(frozen=True)
class FlightOf:
    """A flight as an answer names it: its day is local at its origin."""

    carrier: str
    number: int
    day: date
    origin: str
    destination: str

    @property
    def key(self):
        return (self.carrier, self.number, self.day, self.origin)


@dataclass(frozen=True)
class Component:
    """Flights in a row on one fare. `origin` and `destination` are the fare's, which pays for the way back where `reverse`."""

    unit: int
    kind: str
    reverse: bool
    carrier: str
    origin: str
    destination: str
    basis: str
    price: int
    flights: tuple[FlightOf, ...]

    @property
    def fare_key(self):
        return (self.carrier, self.origin, self.destination, self.basis)


@dataclass(frozen=True)
class Ticket:
    """A ticket and its price for one traveller."""

    price: int
    components: tuple[Component, ...]

    @property
    def flights(self):
        return tuple(flight for component in self.components for flight in component.flights)


@dataclass(frozen=True)
class Move:
    """One choice: the numbers of its flights in the timetable, the fare's carrier and basis, the role of the component in its
    unit (a place in `ROLES`) and the slot of that unit among those that are open."""

    flights: tuple[int, ...]
    carrier: str
    basis: str
    role: int
    slot: int


@dataclass(frozen=True)
class Certified:
    """An answer of a certificate: the price of a ticket and its moves."""

    price: int
    moves: tuple[Move, ...]


@dataclass(frozen=True)
class Row:
    """A row of a certificate: the text of a residual, and the least price from there or None."""

    residual: str
    bound: int | None


@dataclass(frozen=True)
class Certificate:
    """`request` is the text of the request, and `lines` are all lines of the certificate."""

    version: int
    request: str
    answers: tuple[Certified, ...]
    rows: tuple[Row, ...]
    lines: tuple[str, ...]


@dataclass(frozen=True)
class Answer:
    """What `search` prints. A text that begins at `certificate 1` has no tickets: then `tickets` is None."""

    version: int
    tickets: tuple[Ticket, ...] | None
    certificate: Certificate | None


@dataclass(frozen=True)
class Cell:
    """The least price of a day out and a day back, or the word `none` or `too large`."""

    out: date
    back: date
    price: int | str


@dataclass(frozen=True)
class Calendar:
    version: int
    cells: tuple[Cell, ...]


@dataclass(frozen=True)
class Breach:
    """A rule that is broken. Component, unit and category are 0 where there is none."""

    rule: int
    component: int
    unit: int
    category: int


@dataclass(frozen=True)
class Verdict:
    """Of a ticket: its price for one traveller where it is lawful, else None and all breaches."""

    price: int | None
    breaches: tuple[Breach, ...]


@dataclass(frozen=True)
class Checked:
    """What `check` says: `rule` is 0 for yes, else the number of the first check that fails, with its place."""

    rule: int
    place: int


@dataclass(frozen=True)
class Refused:
    line: int
    reason: str


@dataclass(frozen=True)
class TooLarge:
    """The search reaches more residuals than its budget."""


NUMBER = r"0|[1-9][0-9]{0,18}"
CARRIER = r"[A-Z0-9]{2}"
PLACE = r"[A-Z]{3}"
BASIS = r"[A-Z0-9]{1,8}"
DAY = r"20[0-9]{2}-[0-9]{2}-[0-9]{2}"


def form(text):
    """A pattern from a text in which N, C, P, B, D stand for a number, carrier, place, basis and day, each a group."""
    parts = {"N": NUMBER, "C": CARRIER, "P": PLACE, "B": BASIS, "D": DAY}
    return re.compile(" ".join(f"({parts[word]})" if word in parts else word for word in text.split(" ")))


TICKET = form("ticket N price N")
COMPONENT = form(f"component N unit N ({'|'.join(KINDS)}) (forward|reverse) C P P B N")
FLIGHT = form("flight C N D P P")
CELL = re.compile(rf"cell ({DAY}) ({DAY}) (none|too large|{NUMBER})")
BREACH = form("breach N component N unit N category N")
RESIDUAL = re.compile(rf"row ([0-9]+ [012] [A-Z]{{3}} [^ ]+ [0-9]+ [0-9]+ [^ ]+ [^ ]+) (-|{NUMBER})")


class Lines:
    """The lines of a text, read one after another."""

    def __init__(self, text):
        self.lines = text.removesuffix("\n").split("\n") if text else []
        self.lines = [line.removesuffix("\r") for line in self.lines]
        self.at = 0

    def peek(self):
        return self.lines[self.at] if self.at < len(self.lines) else ""

    def begins(self, word):
        return self.peek().startswith(word + " ")

    def fault(self, due):
        return NotAnAnswer(self.at + 1, due)

    def fault_before(self, due):
        """The fault of the line that was taken last."""
        return NotAnAnswer(self.at, due)

    def take(self, pattern, due):
        """The groups of the next line, which has to match whole."""
        found = re.fullmatch(pattern, self.peek())
        if not found or self.at >= len(self.lines):
            raise self.fault(due)
        self.at += 1
        return found.groups()

    def number_after(self, word):
        (text,) = self.take(rf"{word} ({NUMBER})", f"`{word}` and a number")
        return int(text)

    def end(self):
        if self.at < len(self.lines):
            raise self.fault("the end of the text")


def day_of(lines, text):
    try:
        return date.fromisoformat(text)
    except ValueError:
        raise lines.fault_before("a line with a day of the calendar") from None


def read_flight(lines):
    carrier, number, day, origin, destination = lines.take(FLIGHT, "a flight")
    return FlightOf(carrier, int(number), day_of(lines, day), origin, destination)


def read_component(lines, number):
    at, unit, kind, direction, *fare, price = lines.take(COMPONENT, f"component {number}")
    if int(at) != number:
        raise lines.fault_before(f"component {number}")
    flights = [read_flight(lines)]
    while lines.begins("flight"):
        flights.append(read_flight(lines))
    return Component(int(unit), kind, direction == "reverse", *fare, int(price), tuple(flights))


def read_ticket(lines, number):
    at, price = lines.take(TICKET, f"ticket {number} with its price")
    if int(at) != number:
        raise lines.fault_before(f"ticket {number} with its price")
    components = [read_component(lines, 1)]
    while lines.begins("component"):
        components.append(read_component(lines, len(components) + 1))
    return Ticket(int(price), tuple(components))


def read_tickets(lines):
    count = lines.number_after("tickets")
    return tuple(read_ticket(lines, number) for number in range(1, count + 1))


def read_move(lines, words):
    """A move from the words of its line, taken from the front."""
    try:
        count = int(words[0])
        flights = tuple(int(word) for word in words[1 : count + 1])
        carrier, basis, role, slot = words[count + 1 : count + 5]
        move = Move(flights, carrier, basis, int(role), int(slot))
        right = 1 <= count <= 4 and len(flights) == count and move.role <= 3
    except (ValueError, IndexError):
        right = False
    if not right:
        raise lines.fault_before("an answer's price and moves")
    del words[: count + 5]
    return move


def read_certified(lines):
    price, rest = lines.take(rf"answer ({NUMBER})((?: [0-9A-Z]+)*)", "an answer's price and moves")
    words, moves = rest.split(), []
    while words:
        moves.append(read_move(lines, words))
    return Certified(int(price), tuple(moves))


def read_row(lines):
    residual, bound = lines.take(RESIDUAL, "a row: a residual and its bound")
    return Row(residual, None if bound == "-" else int(bound))


def read_certificate(lines):
    first = lines.at
    lines.take("certificate 1", "`certificate 1`")
    version = lines.number_after("version")
    (request,) = lines.take(r"request (\{.*\})", "`request` and the request's text")
    answers = tuple(read_certified(lines) for _ in range(lines.number_after("answers")))
    rows = tuple(read_row(lines) for _ in range(lines.number_after("rows")))
    lines.take("end", "`end`")
    return Certificate(version, request, answers, rows, tuple(lines.lines[first : lines.at]))


def read_search(lines):
    if lines.peek() == "certificate 1":
        certificate = read_certificate(lines)
        lines.end()
        return Answer(certificate.version, None, certificate)
    version = lines.number_after("version")
    if lines.begins("calendar"):
        return read_cells(lines, version)
    tickets = read_tickets(lines)
    certificate = read_certificate(lines) if lines.peek() else None
    lines.end()
    return Answer(version, tickets, certificate)


def read_cells(lines, version):
    due = "`calendar` and the numbers of days, 1 to 31 each"
    outs, backs = map(int, lines.take(form("calendar N N"), due))
    if not (1 <= outs <= 31 and 1 <= backs <= 31):
        raise lines.fault_before(due)
    cells = []
    for at in range(outs * backs):
        due = "a cell: a day out, a day back and the least price, each day out with each day back in order"
        out, back, price = lines.take(CELL, due)
        cell = Cell(day_of(lines, out), day_of(lines, back), int(price) if price.isdecimal() else price)
        cells.append(cell)
        if cell.out != cells[at - at % backs].out or cell.back != cells[at % backs].back:
            raise lines.fault_before(due)
    lines.end()
    return Calendar(version, tuple(cells))


def read_verdict(lines):
    if lines.begins("lawful"):
        price = lines.number_after("lawful price")
        lines.end()
        return Verdict(price, ())
    count = lines.number_after("breaches")
    breaches = [Breach(*map(int, lines.take(BREACH, "a breach"))) for _ in range(count)]
    lines.end()
    return Verdict(None, tuple(breaches))


def read_check(lines):
    if lines.peek() == "yes":
        lines.at += 1
        lines.end()
        return Checked(0, 0)
    rule, place = lines.take(rf"no C([1-5]) ({NUMBER})", "what a check says")
    lines.end()
    return Checked(int(rule), int(place))


def read(text):
    """What the text is: an Answer, Calendar, Verdict, Checked, Refused or TooLarge."""
    lines = Lines(text)
    if lines.begins("refused"):
        line, reason = lines.take(rf"refused ({NUMBER}) (.+)", "a refusal: its line and its reason")
        return Refused(int(line), reason)
    if lines.peek() == "too large":
        return TooLarge()
    if lines.begins("lawful") or lines.begins("breaches"):
        return read_verdict(lines)
    if lines.peek() == "yes" or lines.begins("no"):
        return read_check(lines)
    return read_search(lines)


