"""`lowfare-why CASE BASIS`: what forbids a fare, on each pair of flights of its market, as the proved program judges it."""
import argparse
from collections import Counter

from lowfare_tools import answer, causes, command, journey, program, trials
from lowfare_tools.asking import Asker
from lowfare_tools.case_text import request_text
from lowfare_tools.ways import Ways
from lowfare_tools.wording import counted, day_text, name_of, numbers_text

NAME = "lowfare-why"
MOST = 50
PAGE = "docs/VIEWS.md#why-isnt-this-fare-among-the-answers"
KINDS = {"O": "alone or in a unit", "R": "half of it for each component of a unit", "S": "alone only"}


def words_of(words):
    about = "Says what forbids a fare on the flights of its market. The breaches are the proved program's, all else isn't proved."
    parser = argparse.ArgumentParser(prog=NAME, description=about)
    parser.add_argument("case", metavar="CASE", help="a search case")
    parser.add_argument("basis", metavar="BASIS", help="the basis of the fare, such as QRT")
    parser.add_argument("--carrier", metavar="C", help="the fares of this carrier alone")
    parser.add_argument("--from", dest="origin", metavar="PLACE", help="the fares filed from this place alone")
    parser.add_argument("--to", dest="destination", metavar="PLACE", help="the fares filed to this place alone")
    parser.add_argument("--at", type=command.VERSION, metavar="N", help="ask about the version that the first N filings leave")
    pairs = f"try at most so many ways and pairs of a fare, {MOST} where it isn't given"
    parser.add_argument("--most", type=command.number(1, 100_000), metavar="N", default=MOST, help=pairs)
    return parser.parse_args(words)


def fares_of(asked, book):
    """The live fares that are asked about, in the order of their keys."""
    wanted = (asked.carrier, asked.origin, asked.destination, asked.basis)
    found = [fare for key, fare in sorted(book.fares.items()) if all(want in (None, part) for want, part in zip(wanted, key))]
    if not found:
        raise command.Trouble(f"{asked.case} has no live fare {' '.join(filter(None, wanted))}; see {PAGE}")
    return found


class Telling:
    """What is told of the trials of a fare: flights by name, and by day where one name flies on several of them."""

    def __init__(self, fare, all_trials):
        self.fare = fare
        flights = {leg for trial in all_trials for way in trial.ways for leg in way}
        self.counts = Counter(name_of(leg) for leg in flights)

    def flight(self, leg):
        return name_of(leg) if self.counts[name_of(leg)] == 1 else f"{name_of(leg)} of {day_text(leg.day, with_year=False)}"

    def line(self, trial, told):
        ways = ", ".join(" + ".join(self.flight(leg) for leg in way) for way in trial.ways)
        alone = " alone" if len(trial.ways) == 1 else ""
        return f"{self.fare.carrier} {self.fare.basis} on {ways}{alone}: {told}"


class Judge:
    """Asks the proved program about the trials of a case's fares, and says what it answers."""

    def __init__(self, asker, book):
        self.asker = asker
        self.book = book
        self.request = asker.given.request
        self.timetable = journey.Timetable.of(asker.given)
        self.found = asker.search()

    @property
    def tickets(self):
        return () if isinstance(self.found, answer.TooLarge) else self.found.tickets

    def verdict_text(self, ticket, request):
        """What forbids a ticket, or its price, and whether that is more than the last answer's."""
        verdict = self.asker.verdict(ticket, request_text(request))
        if verdict.price is None:
            judged = causes.judged_of(ticket, self.book, self.timetable, request)
            return "; ".join(causes.causes(verdict.breaches, judged)), False
        last = self.tickets[-1].price if self.tickets else None
        is_dearer = request.slices == self.request.slices and last is not None and verdict.price > last
        dearer = f", more than the last answer, {last}" if is_dearer else ""
        return f"lawful, {verdict.price} a traveller{dearer}", True

    def trial_text(self, fare, trial):
        """What is said of a trial; and, where it is lawful by itself on part of the request, what is said of it beside the rest of an
        answer."""
        told, lawful = self.verdict_text(trials.ticket_of(fare, trial), trial.request)
        beside = lawful and trials.beside(fare, trial, self.request, self.tickets, self.timetable)
        if not beside:
            return told
        number, ticket = beside
        return f"{told}; with the rest of ticket {number}: {self.verdict_text(ticket, self.request)[0]}"


def among_text(fare, found):
    """Whether the fare is among the answers of the search."""
    if isinstance(found, answer.TooLarge):
        return "the search of this case is too large, so what it answers isn't known"
    if not found.tickets:
        return "this case has no lawful ticket"
    having = [at for at, ticket in enumerate(found.tickets, 1) if any(part.fare_key == fare.key for part in ticket.components)]
    if having:
        return f"it is in {'ticket' if len(having) == 1 else 'tickets'} {numbers_text(having)} of {len(found.tickets)}"
    least, greatest = found.tickets[0].price, found.tickets[-1].price
    prices = f"at {least}" if least == greatest else f"from {least} to {greatest}"
    return f"it isn't in the {counted(len(found.tickets), 'ticket')} of the answer, {prices} a traveller"


def bound_text(tried, wanted):
    """How many of the trials were tried."""
    total = len(wanted.all)
    if tried == total and not wanted.more:
        return "That is all there is to try." if total == 1 else f"These are all {total} that there are to try."
    whole = f"more than {total}" if wanted.more else str(total)
    return f"Cut: the first {tried} of {whole} were tried, those with the fewest flights first; --most {total} tries more."


def head_text(fare, found):
    kind = f"kind {fare.kind} ({KINDS[fare.kind]})"
    ends = f"{fare.origin} to {fare.destination}"
    named = f"{fare.carrier} {fare.basis}, {ends}, {fare.amount}, class {fare.booking_class}, {kind}, rule {fare.rule}"
    return f"{named}: {among_text(fare, found)}."


def no_flights_text(fare):
    way = f"no way from {fare.origin} to {fare.destination} on the days asked begins with a flight of {fare.carrier}"
    return f"There is nothing to try: {way}, as its fares want, or none with a way back."


def fare_lines(judge, fare, most):
    """All that is said of one fare."""
    yield head_text(fare, judge.found)
    ways = Ways(judge.asker.given, judge.timetable.flights)
    wanted = trials.trials_of(fare, judge.book.rule_of(fare), judge.request, ways)
    if not wanted.all:
        yield no_flights_text(fare)
        return
    telling = Telling(fare, wanted.all)
    tried = wanted.all[:most]
    for trial in tried:
        yield telling.line(trial, judge.trial_text(fare, trial))
    yield bound_text(len(tried), wanted)


def work(words):
    asked = words_of(words)
    data = command.read_bytes(asked.case)
    given = command.sound_case(asked.case, data)
    asker = Asker(program.find(), asked.case, data, given, asked.at)
    book = command.book_of(asked.case, given, asker.version)
    fares = fares_of(asked, book)
    judge = Judge(asker, book)
    for at, fare in enumerate(fares):
        if at:
            command.out("\n")
        for line in fare_lines(judge, fare, asked.most):
            command.out(line + "\n")
    return program.DONE


def main():
    command.main(NAME, work)
