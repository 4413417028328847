"""lowfare-lint: names what is lawful in a case and surely not meant, and explains a refusal."""
import argparse
import sys

from lowfare_tools import lint_filings, lint_timetable
from lowfare_tools.book import Book
from lowfare_tools.case import expand, read_case
from lowfare_tools.command import out, read_bytes
from lowfare_tools.findings import NAMES, Finding
from lowfare_tools.refusals import explained
from lowfare_tools.report import printable

SECTIONS = ("places", "flights", "seats", "filings", "request", "end")
ABOUT = """Names what is lawful in a case and surely not meant, one finding a line: FILE:LINE: NAME: what it is. The status is 0 where
there is none, else 1. The names stay as they are; --list shows them."""


def of_form(case, data):
    if case.bom:
        yield Finding(1, "bom", "the file begins with a byte order mark: the program refuses line 1 as no header")
    if not case.last_feed:
        yield Finding(len(case.lines), "no-last-feed", "the last line has no line feed: was the file cut?")
    for fault in case.faults:
        yield Finding(fault.line, "unreadable", fault.reason)
    for header in SECTIONS:
        if header not in case.headers:
            yield Finding(len(case.lines) + 1, "unreadable", f"the case ends without #{header}")


def of_request(case, request, flights):
    days = {}
    for flight in flights:
        days.setdefault(flight.origin, set()).add(flight.day)
    arrivals = {row.destination for row in case.flights}
    for at, part in enumerate(request.slices, 1):
        what = f"slice {at}, {part.origin} to {part.destination}"
        if part.origin not in days or part.destination not in arrivals:
            away = f"leaves {part.origin}" if part.origin not in days else f"arrives at {part.destination}"
            yield Finding(request.line, "unserved-place", f"{what}: no flight {away}")
        elif not any(part.first <= day <= part.last for day in days[part.origin]):
            first, last = min(days[part.origin]), max(days[part.origin])
            when = f"from {part.first} to {part.last}" if part.days > 1 else f"on {part.first}"
            text = f"{what}: no flight leaves {part.origin} {when}; the timetable's go from {first} to {last}"
            yield Finding(request.line, "request-outside", text)
    for at, (before, part) in enumerate(zip(request.slices, request.slices[1:]), 2):
        if part.last < before.first:
            text = f"slice {at} leaves by {part.last}, before slice {at - 1} can, on {before.first}: no ticket can be found"
            yield Finding(request.line, "slices-backwards", text)
    if request.slices and request.sale > request.slices[0].last:
        text = f"sold on {request.sale}, after the first slice has left on {request.slices[0].last}"
        yield Finding(request.line, "sold-late", text)


def findings(data, zones):
    """All findings of a case, by line."""
    case = read_case(data)
    book = Book(case)
    flights = expand(case.flights)
    found = list(of_form(case, data))
    found += [Finding(fault.line, "unreadable", fault.reason) for fault in book.faults]
    found += lint_timetable.findings(case, book, flights, zones)
    found += lint_filings.findings(case, book, flights)
    for request in case.requests:
        found += of_request(case, request, flights)
    return sorted(found)


def zone_of(text):
    place, _, zone = text.partition("=")
    if not (place and zone):
        raise argparse.ArgumentTypeError(f"{text!r} is not PLACE=ZONE, such as LON=Europe/London")
    return place, zone


def options():
    parser = argparse.ArgumentParser(prog="lowfare-lint", description=ABOUT, allow_abbrev=False)
    parser.add_argument("case", nargs="?", metavar="CASE", help="the case; - is standard input")
    parser.add_argument("--allow", action="append", default=[], choices=NAMES, metavar="NAME", help="leave out findings of this name")
    parser.add_argument("--zone", action="append", default=[], type=zone_of, metavar="PLACE=ZONE",
                        help="a place's time zone, such as LON=Europe/London; great cities' are known")
    parser.add_argument("--refusal", metavar="LINE", help="explain a line `refused ..` that the program printed; - reads it from standard input")
    parser.add_argument("--list", action="store_true", help="list the names and what they mean")
    return parser


def work(words):
    """Runs the command and gives its status."""
    parser = options()
    asked = parser.parse_args(words)
    if asked.list:
        out("".join(f"{name}: {text}\n" for name, text in NAMES.items()))
        return 0
    if asked.case is None:
        parser.error("a case is needed")
    if asked.refusal is not None:
        line = sys.stdin.readline() if asked.refusal == "-" else asked.refusal
        out(printable(explained(line, read_case(read_bytes(asked.case)))))
        return 0
    found = [one for one in findings(read_bytes(asked.case), dict(asked.zone)) if one.name not in asked.allow]
    out(printable("".join(f"{asked.case}:{one.line}: {one.name}: {one.text}\n" for one in found)))
    return 1 if found else 0
