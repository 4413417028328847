"""lowfare-case: makes a search case of a timetable, seats, fares and rules in files of their own."""
import argparse
import sys
from dataclasses import replace

from lowfare_tools import ssim
from lowfare_tools.case import ONE_DAY, BadField, Case, Place, Request, Slice, date_of, match, number_of
from lowfare_tools.case_text import case_text, put_fare, put_rule
from lowfare_tools.command import out, read_bytes
from lowfare_tools.report import Report
from lowfare_tools.rules import read_rules
from lowfare_tools.tables import Source, read_fares, read_flights, read_places, read_seats

MOST_ACTIONS = 5_000
MOST = {
    "places": 1_000,
    "flight rows": 5_000,
    "dated flights": 200_000,
    "seat rows": 200_000,
    "fares": 20_000,
    "rules": 2_000,
    "filings": 1_000,
    "bytes": 67_108_864,
}
USUAL_CONNECT = 60
SHOWN = 20
ABOUT = """Makes a case for lowfare search. Messages name each line that can't be taken (bad) or isn't wanted (passed over), and the
counts at the end say what became of all; both go to standard error. Where a line is bad no case is written and the status is 1."""


def slice_of(text):
    """A slice written LON-NYC 2031-03-03 or LON-NYC 2031-03-03..2031-03-05."""
    found = match(0, r"([A-Z]{3})-([A-Z]{3}) +([0-9-]{10})(?:\.\.([0-9-]{10}))?", text, "a slice such as LON-NYC 2031-03-03")
    first = date_of(0, found[3])
    days = (date_of(0, found[4] or found[3]) - first).days + 1
    if not 1 <= days <= 7:
        raise BadField(0, f"{text!r}: a window has one to seven days")
    if found[1] == found[2]:
        raise BadField(0, f"{text!r} ends where it begins")
    return Slice(found[1], found[2], first, days)


def slices_of(text):
    slices = tuple(slice_of(part.strip()) for part in text.split(","))
    if len(slices) > 6:
        raise BadField(0, f"{len(slices)} slices, not one to six")
    return slices


def stations_of(text):
    """Places by station of `LHR=LON,JFK=NYC`."""
    pairs = [match(0, r"([A-Z]{3})=([A-Z]{3})", part.strip(), "a station and its place, such as LHR=LON") for part in text.split(",")]
    return {pair[1]: pair[2] for pair in pairs}


def days_of(text):
    found = match(0, r"([0-9-]{10})\.\.([0-9-]{10})", text, "days FIRST..LAST")
    first, last = date_of(0, found[1]), date_of(0, found[2])
    if last < first:
        raise BadField(0, f"{text!r} ends before it begins")
    return first, last


def option(read):
    """A reader of an option's value, whose fault argparse shows."""

    def value(text):
        try:
            return read(text)
        except BadField as bad:
            raise argparse.ArgumentTypeError(bad.reason) from None

    return value


def counted(low, high):
    return option(lambda text: number_of(0, text, low, high))


def options():
    parser = argparse.ArgumentParser(prog="lowfare-case", description=ABOUT, allow_abbrev=False)
    parser.add_argument("--ssim", action="append", default=[], metavar="FILE", help="timetable in SSIM chapter 7; may be repeated")
    parser.add_argument("--flights", action="append", default=[], metavar="FILE", help="timetable as CSV; may be repeated")
    parser.add_argument("--seats", required=True, metavar="FILE", help="seats by class, CSV")
    parser.add_argument("--fares", required=True, metavar="FILE", help="fares, CSV")
    parser.add_argument("--rules", metavar="FILE", help="rules, CSV")
    parser.add_argument("--places", metavar="FILE", help="least connect times, CSV")
    parser.add_argument("--connect", type=counted(0, ONE_DAY), default=USUAL_CONNECT, metavar="MINUTES",
                        help=f"least connect time of places that --places doesn't name (default {USUAL_CONNECT})")
    parser.add_argument("--stations", type=option(stations_of), default={}, metavar="LHR=LON,..",
                        help="read these stations as these places, which fares are filed between")
    parser.add_argument("--factor", type=counted(1, 1_000_000), default=1, metavar="N",
                        help="multiply amounts by this, such as 100 for amounts with two decimals")
    parser.add_argument("--within", type=option(days_of), metavar="FIRST..LAST", help="keep only flights of these days")
    parser.add_argument("--request", type=option(slices_of), required=True, metavar="SLICES",
                        help="'LON-NYC 2031-03-03, NYC-LON 2031-03-12..2031-03-14'")
    parser.add_argument("--sale", type=option(lambda text: date_of(0, text)), required=True, metavar="DATE", help="day of sale")
    parser.add_argument("--party", type=counted(1, 9), default=1, metavar="N", help="travellers (default 1)")
    parser.add_argument("--best", type=counted(1, 1000), default=10, metavar="N", help="tickets asked for (default 10)")
    parser.add_argument("--skip-bad", action="store_true", help="write the case without the lines that are bad, with status 0")
    return parser


def flight_rows(asked, report):
    """The flight rows of all timetables, each with the name of its file."""
    readers = [(name, ssim.read_ssim) for name in asked.ssim]
    readers += [(name, lambda *given: read_flights(*given, None)) for name in asked.flights]
    for name, read in readers:
        for row in read(name, read_bytes(name), report):
            for part in ssim.periods(row, ""):
                yield name, part


def clipped(row, days):
    """The row within the days; None where it doesn't fly in them."""
    if days:
        row = replace(row, first=max(row.first, days[0]), last=min(row.last, days[1]))
    return row if row.first <= row.last and next(row.days(), None) else None


def untaken(report, name, line, reason, bad=True):
    """Counts a record that was taken as one that isn't after all."""
    report.of(name).taken -= 1
    (report.bad if bad else report.passed)(name, line, reason)


class Timetable:
    """Gathers the flight rows that a case takes."""

    def __init__(self, asked, report):
        self.asked = asked
        self.report = report
        self.rows = []
        self.dated = {}
        self.kept = set()
        self.missed = {}

    def take(self, name, row):
        """Takes a row, or keeps why its record isn't taken."""
        stations = self.asked.stations
        ends = [stations.get(place, place) for place in (row.origin, row.destination)]
        part = clipped(replace(row, origin=ends[0], destination=ends[1]), self.asked.within)
        what = f"{row.carrier} {row.number} {row.origin} {row.destination}"
        if ends[0] == ends[1]:
            self.missed[name, row.line] = f"{what}: between two stations of {ends[0]}", False
        elif part is None:
            self.missed.setdefault((name, row.line), (f"{what}: no flight of it is within the days kept", False))
        else:
            self.add(name, part, what)

    def add(self, name, row, what):
        keys = [(row.carrier, row.number, row.origin, day) for day in row.days()]
        for key in keys:
            if key in self.dated:
                other, line = self.dated[key]
                self.missed[name, row.line] = f"{what}: on {key[3]} it stands in {other}:{line} already", True
                return
        self.dated.update(dict.fromkeys(keys, (name, row.line)))
        self.kept.add((name, row.line))
        self.rows.append((name, row))

    def done(self):
        """The rows of all records that are taken. The others are reported: one with a bad period, and one without any period."""
        for (name, line), (reason, bad) in self.missed.items():
            if bad or (name, line) not in self.kept:
                untaken(self.report, name, line, reason, bad)
        bad = {key for key, (_, bad) in self.missed.items() if bad}
        return [row for name, row in self.rows if (name, row.line) not in bad]


def read_timetable(asked, report):
    gathered = Timetable(asked, report)
    for name, row in flight_rows(asked, report):
        gathered.take(name, row)
    return gathered.done()


def fares_on_rules(asked, fares, rules, report):
    """The fares whose rule stands; the others are bad."""
    known = {(rule.carrier, rule.number) for rule in rules}
    for fare in fares:
        if fare.rule == 0 or (fare.carrier, fare.rule) in known:
            yield fare
        else:
            untaken(report, asked.fares, fare.line, f"rule: {fare.carrier} has no rule {fare.rule} in {asked.rules or 'no --rules'}")


def all_places(asked, rows, given, report):
    """A row for each place that flights or the request name."""
    known = {place.code for place in given}
    needed = {place: None for row in rows for place in (row.origin, row.destination)}
    needed |= {place: None for part in asked.request for place in (part.origin, part.destination)}
    others = [code for code in needed if code not in known]
    if others:
        named = " ".join(others[:SHOWN]) + (f" and {len(others) - SHOWN} others" if len(others) > SHOWN else "")
        report.note("places", 0, f"{named}: a connection takes at least {asked.connect} minutes (--connect), since no file says")
    return [*given, *(Place(code, asked.connect) for code in others)]


def filings_of(rules, fares):
    actions = [*map(put_rule, rules), *map(put_fare, fares)]
    return [actions[at : at + MOST_ACTIONS] for at in range(0, len(actions), MOST_ACTIONS)]


def gather(asked, report):
    """The case of all files, without the lines that are bad."""
    source = Source(asked.factor, asked.stations)

    def table(read, name):
        return read(name, read_bytes(name), report, source) if name else []

    rows = read_timetable(asked, report)
    seats = table(read_seats, asked.seats)
    fares, rules = table(read_fares, asked.fares), table(read_rules, asked.rules)
    fares = list(fares_on_rules(asked, fares, rules, report))
    places = all_places(asked, rows, table(read_places, asked.places), report)
    request = Request(asked.sale, asked.party, asked.request, asked.best)
    case = Case(places=places, flights=rows, seats=seats, filings=filings_of(rules, fares), requests=[request])
    return case, {"fares": len(fares), "rules": len(rules)}


def over_limits(counts):
    for what, count in counts.items():
        if count > MOST[what]:
            advice = ": narrow it by --within" if what in ("flight rows", "dated flights") else ""
            yield f"lowfare-case: {count} {what}, and a case has at most {MOST[what]}{advice}"


def work(words):
    """Runs the command and gives its status."""
    parser = options()
    asked = parser.parse_args(words)
    if not asked.ssim and not asked.flights:
        parser.error("a timetable is needed: --ssim FILE or --flights FILE")
    report = Report()
    case, filed = gather(asked, report)
    text = case_text(case)
    dated = sum(1 for row in case.flights for _ in row.days())
    counts = {"places": len(case.places), "flight rows": len(case.flights), "dated flights": dated, "seat rows": len(case.seats)}
    counts |= {**filed, "filings": len(case.filings), "bytes": len(text)}
    print(*report.messages, *report.sums(), sep="\n", file=sys.stderr)
    print("case:", ", ".join(f"{count} {what}" for what, count in counts.items()), file=sys.stderr)
    over = list(over_limits(counts))
    if over or (report.any_bad and not asked.skip_bad):
        print(*over, "lowfare-case: no case is written" + ("" if over else "; --skip-bad writes it without the bad lines"),
              sep="\n", file=sys.stderr)
        return 1
    out(text)
    return 0
