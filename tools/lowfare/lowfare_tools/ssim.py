"""Reads flights from SSIM chapter 7, the trade's timetable format: records of 200 bytes, one a line (or one after another without
line ends). Columns count from 1, as in the standard. What is read, and why:

Type 1, the header, and lines of 200 zeros: nothing.
Type 2, a carrier: its time mode (column 2, L for local times or U for UTC), since all times, periods and days of its legs are
in that; the carrier (3 to 5); its validity (15 to 28), whose last day ends a leg's period that is open.
Type 3, a flight leg:

    2         operational suffix: noted, since a case has none
    3 to 5    carrier; a case has carriers of two characters
    6 to 9    flight number
    10 to 13  itinerary variation and leg sequence: they tie type 4 records to their leg, and name the record in messages
    14        service type: passenger flights are taken, others passed over
    15 to 28  period, DDMMMYY twice; the year is of 2000 to 2099; 00XXX00 is an open end
    29 to 35  days of operation, 1 for Monday to 7
    36        frequency rate: blank for every week, 2 for every second week, counted from the first day of the period
    37 to 39  departure station; 40 to 43 its time for passengers, or, where that is blank, 44 to 47 for the aircraft;
              48 to 52 by how much local time is ahead of UTC there
    55 to 57  arrival station; 62 to 65 its time for passengers, or 58 to 61 for the aircraft; 66 to 70 local time against UTC
    73 to 75  aircraft type: surface vehicles (bus, train, boat ..) are passed over
    149       operating airline disclosure: L and Z mark a codeshare, whose seats are another flight's: passed over; S and X mark a
              wet lease, taken with a note
    150 to 160  traffic restrictions: noted, since a case has none
    193, 194  days of departure and arrival after the day on which the flight leaves its first station: blank or 0 to 7, and A or
              J for the day before

Period and days are those of the flight's first station, so a leg that leaves a day later has its period and weekdays shifted.

Type 4, data on a leg: an element 050 (31 to 33) says that the leg is a duplicate of another carrier's: passed over as a codeshare.
Type 5, a carrier's trailer: that it is there, since a file without it may have been cut short.

What a booking class has in seats doesn't stand in these files: column 76 and on says which classes a leg has, not how many seats.
"""
from dataclasses import dataclass, field, replace
from datetime import date, timedelta

from lowfare_tools.case import ONE_DAY, BadField, FlightRow, carrier_of, match, place_of

LENGTH = 200
MONTHS = {name: at for at, name in enumerate("JAN FEB MAR APR MAY JUN JUL AUG SEP OCT NOV DEC".split(), 1)}
LONGEST = 365
PASSENGERS = "JSQGBR"
OTHER_SERVICES = {
    "U": "surface transport",
    "V": "surface transport",
    "F": "cargo",
    "M": "mail",
    "A": "cargo",
    "H": "cargo",
    "C": "a charter",
    "O": "a charter",
    "L": "a charter",
    "P": "no passengers: positioning",
    "T": "no passengers: a technical test",
    "K": "no passengers: training",
    "X": "no passengers: a technical stop",
    "D": "general aviation",
    "N": "business aviation",
    "E": "a special flight",
    "I": "a state flight",
    "W": "a military flight",
}
VEHICLES = ("BUS", "TRN", "TRS", "LCH", "LMO", "HOV", "RFS")


@dataclass
class Leg:
    """A type 3 record with its line and what type 4 records say of it."""

    line: int
    text: str
    mode: str
    valid_to: date | None
    elements: dict = field(default_factory=dict)

    def at(self, first, last=None):
        """The columns from first to last, without blanks around."""
        return self.text[first - 1 : last or first].strip()

    @property
    def name(self):
        return f"{self.at(3, 5)} {self.at(6, 9).lstrip('0')} {self.at(37, 39)} {self.at(55, 57)}"

    @property
    def key(self):
        """What a type 4 record repeats of its leg: suffix, carrier, number, variation, sequence, service type."""
        return self.text[1:14]


def records(data):
    """The records with their line numbers; in a file without line ends, their place in it."""
    text = data.decode("latin-1")
    if "\n" not in text and len(text) > LENGTH:
        parts = [text[at : at + LENGTH] for at in range(0, len(text), LENGTH)]
    else:
        parts = [part.removesuffix("\r") for part in text.split("\n")]
    for line, part in enumerate(parts, 1):
        if part.strip("\x1a \r"):
            yield line, part


def day_of(column, text, otherwise=None):
    """A day written DDMMMYY; 00XXX00 is the other day, where there is one."""
    if text == "00XXX00":
        if otherwise is None:
            raise BadField(column, "the period has no end, and the carrier's record none either")
        return otherwise
    found = match(column, r"([0-9]{2})([A-Z]{3})([0-9]{2})", text, "a day such as 03MAR31")
    if found[2] not in MONTHS:
        raise BadField(column, f"{text!r} has no month")
    try:
        return date(2000 + int(found[3]), MONTHS[found[2]], int(found[1]))
    except ValueError:
        raise BadField(column, f"{text} is not a day of the calendar") from None


def clock_of(column, text):
    """Minutes since midnight of HHMM; 2400 is the next midnight."""
    found = match(column, r"([01][0-9]|2[0-3])([0-5][0-9])|2400", text, "a time HHMM")
    return int(found[1]) * 60 + int(found[2]) if found[1] else ONE_DAY


def variation_of(column, text):
    found = match(column, r"([+-])([0-9]{2})([0-5][0-9])", text, "a variation from UTC, such as +0100")
    minutes = int(found[2]) * 60 + int(found[3])
    if minutes > 14 * 60:
        raise BadField(column, f"the variation {text} is more than 14 hours")
    return -minutes if found[1] == "-" else minutes


def day_change_of(column, text):
    match(column, r"[0-7AJ]?", text, "a date variation: 0 to 7, or A or J for the day before")
    return -1 if text in ("A", "J") else int(text or "0")


def weekdays_of(column, text):
    """Days of operation, each digit in its own column, the others blank."""
    days = tuple(at for at, letter in enumerate(text, 1) if letter == str(at))
    if len(text) != 7 or any(letter not in (" ", str(at)) for at, letter in enumerate(text, 1)):
        raise BadField(column, f"{text!r} is not days of operation, each of 1 to 7 in its own column")
    if not days:
        raise BadField(column, "no day of operation")
    return days


def later(weekday, days):
    return (weekday - 1 + days) % 7 + 1


def time_at(leg, passengers, aircraft):
    return clock_of(passengers[0], leg.at(*passengers) or leg.at(*aircraft))


def row_of(leg):
    """The leg as one flight row, which may be of more than a year."""
    number = match(6, r"0{0,3}[1-9][0-9]{0,3}", leg.at(6, 9), "a flight number from 1 to 9999")[0]
    departs_offset, arrives_offset = variation_of(48, leg.at(48, 52)), variation_of(66, leg.at(66, 70))
    departs, arrives = time_at(leg, (40, 43), (44, 47)), time_at(leg, (62, 65), (58, 61))
    if leg.mode == "U":
        departs, arrives = departs + departs_offset, arrives + arrives_offset
    out, departs = divmod(departs, ONE_DAY)
    back, arrives = divmod(arrives, ONE_DAY)
    out, back = out + day_change_of(193, leg.at(193)), back + day_change_of(194, leg.at(194))
    first, last = day_of(15, leg.at(15, 21)), day_of(22, leg.at(22, 28), leg.valid_to)
    if last < first:
        raise BadField(22, f"the period ends on {last}, before it begins on {first}")
    weekdays = weekdays_of(29, leg.text[28:35])
    return FlightRow(
        carrier_of(3, leg.at(3, 5)),
        int(number),
        place_of(37, leg.at(37, 39)),
        place_of(55, leg.at(55, 57)),
        departs,
        departs_offset,
        arrives,
        arrives_offset,
        back - out,
        first + timedelta(days=out),
        last + timedelta(days=out),
        tuple(sorted(later(day, out) for day in weekdays)),
        leg.line,
    )


def periods(row, rate):
    """The row cut into periods that a case takes: of at most 365 days, or for every second week one period for each."""
    step, length = (14, 6) if rate == "2" else (LONGEST + 1, LONGEST)
    first = row.first
    while first <= row.last:
        last = min(first + timedelta(days=length), row.last)
        part = replace(row, first=first, last=last)
        if next(part.days(), None):
            yield part
        first += timedelta(days=step)


def rows_of(leg):
    """The leg's rows. The row is judged first as the law of a case would judge it."""
    rate = leg.at(36)
    match(36, r"[12]?", rate, "a frequency rate: blank or 1 for every week, 2 for every second one")
    row = row_of(leg)
    if row.origin == row.destination:
        raise BadField(55, "it arrives where it departs")
    if not -1 <= row.shift <= 2:
        raise BadField(194, f"it arrives {row.shift} days after it departs; a case has -1 to 2")
    flown = row.shift * ONE_DAY + row.arrives - row.arrives_offset - row.departs + row.departs_offset
    if flown <= 0:
        raise BadField(62, "it arrives no later than it departs, by its times, variations and date variation")
    if not (2000 <= row.first.year and row.last.year <= 2099):
        raise BadField(15, "the period leaves the years 2000 to 2099")
    rows = list(periods(row, rate))
    if not rows:
        raise BadField(29, "no day of its period is a day of operation")
    return rows


def reason_to_pass(leg):
    """Why the leg is passed over; None where it is taken."""
    service = leg.at(14)
    if leg.at(73, 75) in VEHICLES:
        return f"surface transport (aircraft type {leg.at(73, 75)})"
    if service in OTHER_SERVICES:
        return f"{OTHER_SERVICES[service]} (service type {service})"
    if "050" in leg.elements:
        return f"a codeshare of {leg.elements['050'] or 'another flight'} (element 050)"
    if leg.at(149) in ("L", "Z"):
        return f"a codeshare (operating airline disclosure {leg.at(149)})"
    return None


class Reader:
    """Reads the records one after another and keeps the legs."""

    def __init__(self, name, report):
        self.name = name
        self.report = report
        self.legs = []
        self.modes = {}
        self.open = {}

    def take(self, line, text):
        self.report.read(self.name)
        try:
            if len(text) != LENGTH:
                raise BadField(0, f"a record of {len(text)} bytes, not {LENGTH}")
            kind = text[0]
            if kind not in "012345":
                raise BadField(1, f"{kind!r} is not a record type, 1 to 5")
            TAKES[kind](self, line, text)
        except BadField as bad:
            self.report.bad(self.name, line, said(bad))

    def ignore(self, line, text):
        self.report.took(self.name)

    def carrier(self, line, text):
        mode, carrier = text[1], text[2:5].strip()
        if mode not in "LU":
            raise BadField(2, f"{mode!r} is not a time mode, L or U")
        ends = text[21:28]
        self.modes[carrier] = mode, None if ends in ("00XXX00", " " * 7) else day_of(22, ends)
        self.open[carrier] = line
        self.report.took(self.name)

    def leg(self, line, text):
        carrier = text[2:5].strip()
        if carrier not in self.modes:
            self.report.note(self.name, line, f"no type 2 record of {carrier} before it: its times are taken as local ones")
            self.modes[carrier] = "L", None
        self.legs.append(Leg(line, text, *self.modes[carrier]))

    def element(self, line, text):
        if not self.legs or self.legs[-1].key != text[1:14]:
            raise BadField(6, "it belongs to no leg before it")
        self.legs[-1].elements[text[30:33]] = " ".join(text[39:194].split())
        self.report.took(self.name)

    def trailer(self, line, text):
        self.open.pop(text[2:5].strip(), None)
        self.report.took(self.name)

    def rows(self):
        """The flight rows of all legs, each with the line of its record."""
        for carrier, line in self.open.items():
            self.report.note(self.name, line, f"no type 5 record of {carrier} follows: was the file cut short?")
        for leg in self.legs:
            reason = reason_to_pass(leg)
            if reason:
                self.report.passed(self.name, leg.line, f"{leg.name}: {reason}")
                continue
            try:
                match(14, f"[{PASSENGERS}]", leg.at(14), "a service type that SSIM has")
                rows = rows_of(leg)
            except BadField as bad:
                self.report.bad(self.name, leg.line, f"{leg.name}: {said(bad)}")
                continue
            self.tell(leg, rows)
            self.report.took(self.name)
            yield from rows

    def tell(self, leg, rows):
        """Notes what a reader of the case would not see."""
        if leg.at(2):
            self.report.note(self.name, leg.line, f"{leg.name}: its operational suffix {leg.at(2)} is left out")
        if leg.at(149) in ("S", "X"):
            self.report.note(self.name, leg.line, f"{leg.name}: flown by another (operating airline disclosure {leg.at(149)})")
        if leg.at(150, 160):
            self.report.note(self.name, leg.line, f"{leg.name}: its traffic restriction {leg.at(150, 160)} is left out")
        if len(rows) > 1:
            self.report.note(self.name, leg.line, f"{leg.name}: cut into {len(rows)} periods")


TAKES = {
    "0": Reader.ignore,
    "1": Reader.ignore,
    "2": Reader.carrier,
    "3": Reader.leg,
    "4": Reader.element,
    "5": Reader.trailer,
}


def said(bad):
    return f"column {bad.column}: {bad.reason}" if bad.column else bad.reason


def read_ssim(name, data, report):
    """The flight rows of an SSIM file; each row's line is that of its record."""
    reader = Reader(name, report)
    for line, text in records(data):
        reader.take(line, text)
    return list(reader.rows())
