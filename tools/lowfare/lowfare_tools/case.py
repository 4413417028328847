"""A case as data. Reading is tolerant: a line that is not of its form is kept as a Fault with its number, and reading goes on.

The forms are those of docs/FORMATS.md. Whether a case is one is for the program to say, not for this module. A day is a
`datetime.date`, a time of day the minutes since midnight, an instant the minutes since 1970-01-01 00:00 UTC, an offset the
minutes by which clocks are ahead of UTC.
"""
import json
import re
from dataclasses import dataclass, field
from datetime import date, timedelta

HEADERS = ("places", "flights", "seats", "filings", "later", "request", "script", "ticket", "certificate", "end")
ONE_DAY = 1440
MOST_AMOUNT = 1_000_000_000
EPOCH = date(1970, 1, 1).toordinal()
BOM = b"\xef\xbb\xbf"


class BadField(ValueError):
    """A field is not of its form. `column` counts from 1; 0 is the row as a whole."""

    def __init__(self, column, reason):
        super().__init__(reason)
        self.column = column
        self.reason = reason


@dataclass(frozen=True)
class Fault:
    """A line that could not be read, and why."""

    line: int
    reason: str


@dataclass(frozen=True)
class Place:
    code: str
    connect: int
    line: int = 0


@dataclass(frozen=True)
class FlightRow:
    """A row of #flights: one flight on each day of the period whose weekday (1 for Monday) is among `weekdays`."""

    carrier: str
    number: int
    origin: str
    destination: str
    departs: int
    departs_offset: int
    arrives: int
    arrives_offset: int
    shift: int
    first: date
    last: date
    weekdays: tuple[int, ...]
    line: int = 0

    def days(self):
        """The days, local at the origin, on which it flies."""
        day = self.first
        while day <= self.last:
            if day.isoweekday() in self.weekdays:
                yield day
            day += timedelta(days=1)


@dataclass(frozen=True)
class Flight:
    """A dated flight: a row on one of its days. `index` is its number in certificates, from 0."""

    index: int
    row: FlightRow
    day: date

    @property
    def carrier(self):
        return self.row.carrier

    @property
    def number(self):
        return self.row.number

    @property
    def origin(self):
        return self.row.origin

    @property
    def destination(self):
        return self.row.destination

    @property
    def departs(self):
        """The local time of day of its departure."""
        return self.row.departs

    @property
    def arrives(self):
        """The local time of day of its arrival."""
        return self.row.arrives

    @property
    def arrival_day(self):
        """The local day of its arrival."""
        return self.day + timedelta(days=self.row.shift)

    @property
    def leaves(self):
        """The instant of its departure."""
        return instant(self.day, self.row.departs, self.row.departs_offset)

    @property
    def lands(self):
        """The instant of its arrival."""
        return instant(self.arrival_day, self.row.arrives, self.row.arrives_offset)


@dataclass(frozen=True)
class SeatRow:
    """Seats by class letter of one flight, on one day or, where `day` is None, on all days."""

    carrier: str
    number: int
    origin: str
    day: date | None
    seats: dict[str, int]
    line: int = 0

    @property
    def key(self):
        return (self.carrier, self.number, self.origin, self.day)


@dataclass(frozen=True)
class Action:
    """One action of a filing: its name, such as put_fare, and its members as they stand. `at` counts from 1."""

    name: str
    members: dict
    line: int = 0
    at: int = 0


@dataclass(frozen=True)
class Fare:
    carrier: str
    origin: str
    destination: str
    basis: str
    booking_class: str
    kind: str
    amount: int
    rule: int
    line: int = 0
    action: int = 0

    @property
    def key(self):
        return (self.carrier, self.origin, self.destination, self.basis)


@dataclass(frozen=True)
class Rule:
    """A rule's categories as the filing has them: `cat2` to `cat14` by name, absent ones left out."""

    carrier: str
    number: int
    categories: dict
    line: int = 0
    action: int = 0


NO_RULE = Rule("", 0, {})


@dataclass(frozen=True)
class Slice:
    origin: str
    destination: str
    first: date
    days: int

    @property
    def last(self):
        """The last day of its window."""
        return self.first + timedelta(days=self.days - 1)


@dataclass(frozen=True)
class Request:
    sale: date
    party: int
    slices: tuple[Slice, ...]
    best: int = 10
    line: int = 0


@dataclass
class Case:
    """What was read of a case. Lines of #certificate, #ticket and #script are pairs of line number and text."""

    places: list[Place] = field(default_factory=list)
    flights: list[FlightRow] = field(default_factory=list)
    seats: list[SeatRow] = field(default_factory=list)
    filings: list[list[Action]] = field(default_factory=list)
    later: list[list[Action]] = field(default_factory=list)
    requests: list[Request] = field(default_factory=list)
    certificate: list[tuple[int, str]] = field(default_factory=list)
    ticket: list[tuple[int, str]] = field(default_factory=list)
    script: list[tuple[int, str]] = field(default_factory=list)
    faults: list[Fault] = field(default_factory=list)
    headers: dict[str, int] = field(default_factory=dict)
    lines: list[str] = field(default_factory=list)
    bom: bool = False
    last_feed: bool = True

    @property
    def request(self):
        """The request of a search, check or verdict case; None where none could be read."""
        return self.requests[0] if self.requests else None


def instant(day, minute, offset):
    return (day.toordinal() - EPOCH) * ONE_DAY + minute - offset


def match(column, pattern, text, what):
    found = re.fullmatch(pattern, text)
    if not found:
        raise BadField(column, f"{text!r} is not {what}")
    return found


def number_of(column, text, low, high, what="a whole number"):
    match(column, r"0|[1-9][0-9]{0,10}", text, f"{what} from {low} to {high}")
    if not low <= int(text) <= high:
        raise BadField(column, f"{text} is not {what} from {low} to {high}")
    return int(text)


def carrier_of(column, text):
    match(column, r"[A-Z0-9]{2}", text, "a carrier, two capital letters or digits")
    return text


def place_of(column, text):
    match(column, r"[A-Z]{3}", text, "a place, three capital letters")
    return text


def date_of(column, text):
    """A day from 2000 to 2099, written YYYY-MM-DD."""
    match(column, r"20[0-9]{2}-[0-9]{2}-[0-9]{2}", text, "a date YYYY-MM-DD from 2000 to 2099")
    try:
        return date.fromisoformat(text)
    except ValueError:
        raise BadField(column, f"{text} is not a day of the calendar") from None


def minute_of(column, text):
    found = match(column, r"([01][0-9]|2[0-3]):([0-5][0-9])", text, "a time HH:MM")
    return int(found[1]) * 60 + int(found[2])


def offset_of(column, text):
    found = match(column, r"([+-])([0-9]{2}):([0-5][0-9])", text, "an offset from UTC, +HH:MM or -HH:MM")
    minutes = int(found[2]) * 60 + int(found[3])
    if minutes > 14 * 60:
        raise BadField(column, f"{text} is more than 14 hours")
    return -minutes if found[1] == "-" else minutes


def weekdays_of(column, text):
    match(column, r"(?=.)1?2?3?4?5?6?7?", text, "weekdays, digits from 1 for Monday to 7, ascending")
    return tuple(int(digit) for digit in text)


def seats_of(column, text):
    match(column, r"([A-Z][0-9])+", text, "pairs of a class letter and a digit, such as Y9M4")
    letters = text[::2]
    if len(set(letters)) != len(letters):
        raise BadField(column, f"{text} names a class twice")
    return dict(zip(letters, (int(digit) for digit in text[1::2])))


def columns_of(text, count):
    if not text.isascii() or '"' in text or "\r" in text:
        raise BadField(0, "a quote, a CR or a byte that is not ASCII")
    columns = text.split(",")
    if len(columns) != count:
        raise BadField(0, f"{len(columns)} columns, not {count}")
    return columns


def place_row_of(text, line=0):
    code, connect = columns_of(text, 2)
    return Place(place_of(1, code), number_of(2, connect, 0, ONE_DAY), line)


def flight_row_of(text, line=0):
    row = columns_of(text, 12)
    return FlightRow(
        carrier_of(1, row[0]),
        number_of(2, row[1], 1, 9999),
        place_of(3, row[2]),
        place_of(4, row[3]),
        minute_of(5, row[4]),
        offset_of(6, row[5]),
        minute_of(7, row[6]),
        offset_of(8, row[7]),
        int(match(9, r"-1|0|1|2", row[8], "a day shift: -1, 0, 1 or 2")[0]),
        date_of(10, row[9]),
        date_of(11, row[10]),
        weekdays_of(12, row[11]),
        line,
    )


def seat_row_of(text, line=0):
    carrier, number, origin, day, seats = columns_of(text, 5)
    return SeatRow(
        carrier_of(1, carrier),
        number_of(2, number, 1, 9999),
        place_of(3, origin),
        None if day == "*" else date_of(4, day),
        seats_of(5, seats),
        line,
    )


def whole(value, low, high):
    """The value where it is a whole number of JSON in this range."""
    if isinstance(value, bool) or not isinstance(value, int) or not low <= value <= high:
        raise BadField(0, f"{value!r} is not a whole number from {low} to {high}")
    return value


def slice_of(part):
    ends = place_of(0, part["from"]), place_of(0, part["to"])
    return Slice(*ends, date_of(0, part["first"]), whole(part["days"], 1, 7))


def request_of(text, line=0):
    value = json.loads(text)
    slices = tuple(slice_of(part) for part in value["slices"])
    party, best = whole(value["party"], 1, 9), whole(value.get("best", 10), 1, 1000)
    return Request(date_of(0, value["sale"]), party, slices, best, line)


def filing_of(text, line=0):
    """The actions of a filing. One that is no object of one member is a fault of the whole line."""
    actions = []
    for at, action in enumerate(json.loads(text)["actions"], 1):
        ((name, members),) = action.items()
        actions.append(Action(name, dict(members), line, at))
    return actions


READERS = {
    "places": (place_row_of, "places"),
    "flights": (flight_row_of, "flights"),
    "seats": (seat_row_of, "seats"),
    "filings": (filing_of, "filings"),
    "later": (filing_of, "later"),
    "request": (request_of, "requests"),
}


def take_line(case, section, number, text):
    if section in ("certificate", "ticket", "script"):
        getattr(case, section).append((number, text))
        return
    read, name = READERS[section]
    try:
        getattr(case, name).append(read(text, number))
    except BadField as bad:
        where = f"column {bad.column}: " if bad.column else ""
        case.faults.append(Fault(number, where + bad.reason))
    except (ValueError, KeyError, TypeError, AttributeError, RecursionError) as bad:
        why = str(bad) if isinstance(bad, json.JSONDecodeError) else "not an object of the members that FORMATS names"
        case.faults.append(Fault(number, why))


def text_lines(data):
    """The lines of the bytes, each without its LF and one CR before that."""
    parts = data.split(b"\n")
    if not parts[-1]:
        parts.pop()
    return [part.removesuffix(b"\r").decode("utf-8", "backslashreplace") for part in parts]


def read_case(data):
    """Reads a case of any kind from bytes. It never fails: what could not be read stands in `faults`."""
    case = Case(bom=data.startswith(BOM), last_feed=not data or data.endswith(b"\n"))
    case.lines = text_lines(data.removeprefix(BOM))
    section = None
    for number, text in enumerate(case.lines, 1):
        header = text[1:] if text.startswith("#") and (section != "certificate" or text == "#end") else None
        if not text or section == "end":
            if text:
                case.faults.append(Fault(number, "a line after #end"))
        elif header is not None:
            if header not in HEADERS or header in case.headers:
                case.faults.append(Fault(number, f"the header {text} has no place here"))
            section = header if header in HEADERS else None
            case.headers.setdefault(header, number)
        elif section:
            take_line(case, section, number, text)
        else:
            case.faults.append(Fault(number, "a line under no header that a case has"))
    return case


def expand(rows):
    """The dated flights of the rows, by departure, carrier, number, origin and day, each with its number."""
    dated = [Flight(0, row, day) for row in rows for day in row.days()]
    dated.sort(key=lambda flight: (flight.leaves, flight.carrier, flight.number, flight.origin, flight.day))
    return [Flight(index, flight.row, flight.day) for index, flight in enumerate(dated)]
