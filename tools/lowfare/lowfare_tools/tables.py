"""Reads the CSV files: flights, seats, fares and places. rules.py reads rules.

Each file begins with a row of column names, in any order. Columns are parted by commas, or by semicolons or tabs where the first
row has more of these; quotes may stand round a field, and a record is one line. Blank lines are skipped. A file whose first
row isn't right is bad as a whole.
"""
import csv
from collections.abc import Callable
from dataclasses import dataclass
from decimal import Decimal

from lowfare_tools.case import (
    MOST_AMOUNT,
    ONE_DAY,
    BadField,
    Fare,
    FlightRow,
    Place,
    SeatRow,
    carrier_of,
    date_of,
    instant,
    match,
    minute_of,
    number_of,
    offset_of,
    place_of,
    seats_of,
    weekdays_of,
)

KINDS = {"O": "O", "R": "R", "S": "S", "1": "O", "2": "R", "3": "S"}


class Source:
    """What a reader of rows is given beside the row: how amounts are multiplied and how stations are renamed."""

    def __init__(self, factor=1, stations=None):
        self.factor = factor
        self.stations = stations or {}

    def place(self, column, text):
        """A place; a station is read as the place that it belongs to."""
        return self.stations.get(place_of(column, text), text)

    def amount(self, column, text, most=MOST_AMOUNT):
        """An amount times the factor, which has to come out whole."""
        match(column, r"[0-9]{1,12}(\.[0-9]{1,6})?", text, "an amount, such as 420 or 420.50")
        value = Decimal(text) * self.factor
        if value != int(value):
            raise BadField(column, f"{text} times {self.factor} is not whole: give a greater --factor")
        if value > most:
            raise BadField(column, f"{text} times {self.factor} is over {most}")
        return int(value)


def lines_of(data):
    """The lines that aren't blank, with their numbers."""
    text = data.decode("utf-8-sig", "backslashreplace")
    for line, part in enumerate(text.split("\n"), 1):
        if part.strip():
            yield line, part.removesuffix("\r")


def fields_of(text, delimiter):
    try:
        ((*fields,),) = csv.reader([text], delimiter=delimiter, strict=True)
    except (csv.Error, ValueError):
        raise BadField(0, "a quote that is not closed") from None
    return [field.strip() for field in fields]


def names_of(text, needed, optional):
    """The column names of the first row, and the character that parts columns."""
    delimiter = max(",;\t", key=text.count)
    names = [name.lower().replace(" ", "_") for name in fields_of(text, delimiter)]
    known = ", ".join([*needed, *optional])
    for name in names:
        if name not in needed and name not in optional:
            raise BadField(0, f"no column has the name {name!r}; the names are {known}")
        if names.count(name) > 1:
            raise BadField(0, f"two columns have the name {name}")
    for name in needed:
        if name not in names:
            raise BadField(0, f"there is no column {name}; the names are {known}")
    return names, delimiter


class Row(dict):
    """The fields of a row by column name; one that isn't there is empty."""

    def __missing__(self, name):
        return ""


@dataclass(frozen=True)
class Form:
    """How a file's rows are read: columns that it needs, others that it may have, what makes a thing of a row and its line, and
    the key of such a thing, which may stand once."""

    needed: tuple
    optional: tuple
    take: Callable
    key: Callable | None = None


def read_table(name, data, report, form):
    """The things of all rows that aren't bad."""
    lines = lines_of(data)
    line, first = next(lines, (1, ""))
    try:
        names, delimiter = names_of(first, form.needed, form.optional)
    except BadField as bad:
        report.read(name)
        report.bad(name, line, bad.reason)
        return []
    taken, seen = [], {}
    for line, text in lines:
        report.read(name)
        try:
            fields = fields_of(text, delimiter)
            if len(fields) != len(names):
                raise BadField(0, f"{len(fields)} columns, not {len(names)}")
            made = form.take(Row(zip(names, fields)), line)
            if form.key and seen.setdefault(form.key(made), line) != line:
                raise BadField(0, f"the same stands in line {seen[form.key(made)]}")
        except BadField as bad:
            report.bad(name, line, f"{bad.column}: {bad.reason}" if bad.column else bad.reason)
            continue
        report.took(name)
        taken.append(made)
    return taken


def read_flights(name, data, report, source):
    """Flight rows: the twelve columns of a case's flight row by name."""

    def take(row, line):
        made = FlightRow(
            carrier_of("carrier", row["carrier"]),
            number_of("number", row["number"], 1, 9999),
            place_of("from", row["from"]),
            place_of("to", row["to"]),
            minute_of("departs", row["departs"]),
            offset_of("departs_utc", row["departs_utc"]),
            minute_of("arrives", row["arrives"]),
            offset_of("arrives_utc", row["arrives_utc"]),
            int(match("day_shift", r"-1|0|1|2|", row["day_shift"], "a day shift: -1, 0, 1 or 2")[0] or "0"),
            date_of("first", row["first"]),
            date_of("last", row["last"]),
            weekdays_of("weekdays", row["weekdays"]),
            line,
        )
        judge_flight(made)
        return made

    needed = ("carrier", "number", "from", "to", "departs", "departs_utc", "arrives", "arrives_utc", "first", "last", "weekdays")
    return read_table(name, data, report, Form(needed, ("day_shift",), take))


def judge_flight(row):
    """A row that a case would refuse by itself is bad. A period over 365 days isn't: it is split afterwards."""
    if row.origin == row.destination:
        raise BadField("to", "it arrives where it departs")
    if row.last < row.first:
        raise BadField("last", f"the period ends on {row.last}, before it begins on {row.first}")
    if next(row.days(), None) is None:
        raise BadField("weekdays", "no day of its period is one of them")
    leaves = instant(row.first, row.departs, row.departs_offset)
    if instant(row.first, row.arrives, row.arrives_offset) + row.shift * ONE_DAY <= leaves:
        raise BadField("arrives", "it arrives no later than it departs, by its times, offsets and day_shift")


def read_seats(name, data, report, source):
    """Seat rows. Seats are as a display has them, `J4 Y9 B4 M0`, with or without blanks."""

    def take(row, line):
        return SeatRow(
            carrier_of("carrier", row["carrier"]),
            number_of("number", row["number"], 1, 9999),
            source.place("from", row["from"]),
            None if row["date"] in ("*", "") else date_of("date", row["date"]),
            seats_of("seats", row["seats"].replace(" ", "")),
            line,
        )

    return read_table(name, data, report, Form(("carrier", "number", "from", "seats"), ("date",), take, lambda row: row.key))


def read_fares(name, data, report, source):
    """Fares, one a line. No rule is rule 0."""

    def take(row, line):
        kind = KINDS[match("kind", "[ORS123]", row["kind"], "a kind: O, R, S, or 1, 2, 3")[0]]
        made = Fare(
            carrier_of("carrier", row["carrier"]),
            source.place("from", row["from"]),
            source.place("to", row["to"]),
            match("basis", "[A-Z0-9]{1,8}", row["basis"], "a basis, one to eight capital letters or digits")[0],
            match("class", "[A-Z]", row["class"], "a class, a capital letter")[0],
            kind,
            source.amount("amount", row["amount"]),
            number_of("rule", row["rule"] or "0", 0, 9999),
            line,
        )
        if made.origin == made.destination:
            raise BadField("to", "a fare to where it begins")
        if kind == "R" and made.amount % 2:
            raise BadField("amount", f"{made.amount} is odd, and half of a fare of kind R is charged for each component")
        return made

    needed = ("carrier", "from", "to", "basis", "class", "kind", "amount")
    return read_table(name, data, report, Form(needed, ("rule",), take, lambda fare: fare.key))


def read_places(name, data, report, source):
    """Places with their least connect times in minutes."""

    def take(row, line):
        return Place(place_of("place", row["place"]), number_of("connect", row["connect"], 0, ONE_DAY), line)

    return read_table(name, data, report, Form(("place", "connect"), (), take, lambda place: place.code))
