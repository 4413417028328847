"""Reading a case: its lines, its sections, and the stages in which it is judged. docs/FORMATS.md, 'The form of a case' and 'Refusals'."""
import collections

import reference.certificate as certificate
import reference.filings as filings
import reference.requests as requests
import reference.script as script
import reference.seats as seats
import reference.timetable as timetable
import reference.verdict as verdict
from reference.forms import LAST_DAY, Refused
from reference.json_text import Syntax

SEARCH = ["#places", "#flights", "#seats", "#filings", "#request"]
SECTIONS = {
    "search": SEARCH, "calendar": SEARCH, "check": [*SEARCH, "#certificate"], "verdict": [*SEARCH, "#ticket"],
    "serve": ["#places", "#flights", "#seats", "#filings", "#later", "#request", "#script"],
}
"""FORMATS, 'The form of a case': the sections of each kind of case."""

HEADERS = {"#end"}.union(*SECTIONS.values())
ROWS = {"#places": timetable.PLACE_ROW, "#flights": timetable.FLIGHT_ROW, "#seats": seats.SEAT_ROW}
MOST_LINES = {"#places": 1000, "#flights": 5000, "#seats": 200000, "#filings": 1000, "#later": 1000, "#request": 1, "#script": 1000}
MOST_SERVE_REQUESTS = 100

Case = collections.namedtuple("Case", "books later request requests ticket script certificate")
"""What a lawful case has: its book at each version, the later filings with their lines, and what the command reads besides."""


def text_lines(given):
    """FORMATS, 'The form of a case': a line ends with LF; one CR directly before it is dropped; bytes after the last LF are a line, of which
    no CR is dropped. A character stands for a byte."""
    *ended, rest = given.decode("latin-1").split("\n")
    lines = [line.removesuffix("\r") for line in ended]
    return lines + [rest] if rest else lines


class Sections:
    """FORMATS, 'The form of a case': the lines of each section, each with its number, and what a line's form may be refused for."""

    def __init__(self, command):
        self.command, self.due = command, [*SECTIONS[command], "#end"]
        self.now, self.found = None, {name: [] for name in SECTIONS[command]}
        self.end = None

    def take(self, number, line):
        """FORMATS, 'Refusals': the stage of the form. A line after the end has no other fault."""
        if self.end is not None:
            raise Refused(number, "AfterEnd")
        if line.startswith("#") and (self.now != "#certificate" or line == "#end"):
            self.begin(number, line)
        elif self.now is None:
            raise Refused(number, "Order")
        else:
            value = self.row(number, line) if self.now in ROWS else line
            if len(self.found[self.now]) == self.most():
                raise Refused(number, "TooMany")
            self.found[self.now].append((number, value))

    def begin(self, number, header):
        """FORMATS, 'Refusals': a header that no case has, that isn't the next one due, or before which the request is missing."""
        if header not in HEADERS:
            raise Refused(number, "UnknownSection")
        is_missing = self.now == "#request" and self.command != "serve" and not self.found["#request"]
        if header != self.due[0] or is_missing:
            raise Refused(number, "Order")
        self.now = self.due.pop(0)
        if header == "#end":
            self.end = number

    def most(self):
        """FORMATS, 'The form of a case': the most lines of a section; a certificate and a ticket have no such limit."""
        if self.command == "serve" and self.now == "#request":
            return MOST_SERVE_REQUESTS
        return MOST_LINES.get(self.now)

    def row(self, number, line):
        """FORMATS, 'The form of a case': rows are ASCII without quotes, cut at their commas. Of several bad columns the first is named, and
        column 0 comes before all others."""
        fields, columns = line.split(","), ROWS[self.now]
        if len(fields) != len(columns) or '"' in line or "\r" in line or not line.isascii():
            raise Refused(number, "BadRow column 0")
        values = [form(field) for form, field in zip(columns, fields)]
        if None in values:
            raise Refused(number, f"BadRow column {values.index(None) + 1}")
        return values


def sections(given, command):
    """FORMATS, 'The form of a case': empty lines are skipped. A case without `#end` is refused at the line after the last."""
    lines, found = text_lines(given), Sections(command)
    for number, line in enumerate(lines, 1):
        if line:
            found.take(number, line)
    if found.end is None:
        raise Refused(len(lines) + 1, "NoEnd")
    return found


def read_case(given, command, values):
    """FORMATS, 'Refusals': the stages, of which the first with a fault decides, and in it the first line."""
    found = sections(given, command)
    lines = found.found
    table = timetable.timetable(lines["#places"], lines["#flights"])
    books = [filings.Book(table, {}, {}, seats.seat_rows(lines["#seats"]), 0)]
    for number, line in lines["#filings"]:
        books.append(judged(number, lambda line=line: books[-1].with_filing(filings.read_filing(line))))
    later = [judged(number, lambda line=line: filings.read_filing(line)) for number, line in lines.get("#later", [])]
    asked = [judged(number, lambda line=line: read_request(line, table, command, values)) for number, line in lines["#request"]]
    ticket = verdict.read_ticket(lines.get("#ticket", []))
    scripted = script.read_script(lines["#script"], len(later), len(asked)) if command == "serve" else None
    told = certificate.read_certificate(lines["#certificate"], found.end) if command == "check" else None
    if values.get("at", 0) > len(lines["#filings"]):
        raise Refused(0, "NoVersion")
    if "best" in values:
        asked = [request._replace(best=values["best"]) for request in asked]
    return Case(books, later, asked[0] if asked else None, asked, ticket, scripted, told)


def judged(number, read):
    """FORMATS, 'Refusals': a line whose text is refused, with its number."""
    try:
        return read()
    except Syntax:
        raise Refused(number, "Syntax") from None
    except filings.BadAction as fault:
        raise Refused(number, fault.text) from None
    except requests.BadRequest as fault:
        raise Refused(number, str(fault)) from None


def read_request(line, table, command, values):
    """FORMATS, 'Refusals': the stage of the requests, and what a calendar asks of one."""
    request = requests.read_request(line)
    requests.judge(request, table.connect)
    if command == "calendar":
        if len(request.slices) != 2:
            raise requests.BadRequest("NotTwo")
        if any(one.first + values[days] - 1 > LAST_DAY for one, days in zip(request.slices, ("outs", "backs"))):
            raise requests.BadRequest("Span")
    return request
