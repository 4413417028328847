"""Questions to the proved program about a case and something beside it: a certificate to check, a ticket to judge.

The texts are put together from the case's own lines, so that what is asked is what its owner wrote.
"""
from lowfare_tools import answer
from lowfare_tools.command import REFUSALS, Trouble
from lowfare_tools.program import REFUSED, TOO_LARGE, USAGE, CannotRun


class Asker:
    """The program, a case that it is asked about, and the version that is asked for, None for the last."""

    def __init__(self, program, name, data, given, version=None):
        for kind in ("later", "script"):
            if kind in given.headers:
                raise Trouble(f"{name} is the case of a serving run, not of a search; see docs/FORMATS.md#the-form-of-a-case")
        self.program = program
        self.name = name
        self.given = given
        self.version = len(given.filings) if version is None else version
        self.at = [] if version is None else ["--at", str(version)]
        last = min(given.headers[header] for header in ("certificate", "ticket", "end") if header in given.headers)
        self.lines = data.split(b"\n")[: last - 1]

    def text(self, section=(), request=None):
        """The case with this section before its end, and with this request in place of its own."""
        lines = list(self.lines)
        if request is not None:
            lines[self.given.request.line - 1] = request.encode()
        return b"\n".join([*lines, *(line.encode() for line in section), b"#end", b""])

    def ask(self, words, text):
        """What the program says. That it refuses the case is trouble."""
        result = self.program.run([*words, *self.at], text)
        if result.status == USAGE:
            raise CannotRun(f"the program doesn't know the words {' '.join(words)}; see docs/FORMATS.md#the-words")
        if result.status == TOO_LARGE:
            return answer.TooLarge()
        try:
            found = answer.read(result.text)
        except answer.NotAnAnswer as bad:
            raise CannotRun(f"the program answered what isn't an answer, {bad}; see docs/FORMATS.md#statuses") from None
        if result.status == REFUSED:
            raise self.refused(found)
        return found

    def refused(self, found):
        beyond = found.line - len(self.lines) - 1
        own = f"{self.name} is refused at line {found.line}"
        where = own if beyond < 1 else f"line {beyond} of what is asked about is refused"
        return Trouble(f"{where}: {found.reason}; see {REFUSALS}")

    def check(self, certificate, best=None):
        """What `check` says of a certificate."""
        words = ["check"] if best is None else ["check", "--best", str(best)]
        return self.ask(words, self.text(("#certificate", *certificate.lines)))

    def search(self):
        """What `search` answers."""
        return self.ask(["search"], self.text())

    def verdict(self, ticket, request=None):
        """What `verdict` says of a ticket."""
        return self.ask(["verdict"], self.text(("#ticket", *ticket_lines(ticket)), request))


def ticket_lines(ticket):
    """A ticket as the lines of a section `#ticket`."""
    for component in ticket.components:
        yield f"component {component.unit} {' '.join(component.fare_key)}"
        for flight in component.flights:
            yield f"flight {flight.carrier} {flight.number} {flight.day} {flight.origin}"
