"""A breach in words: what forbids a ticket, with the numbers of its rule and of the case."""
from dataclasses import dataclass
from datetime import timedelta

from lowfare_tools.book import Book
from lowfare_tools.case import Fare, Flight, Request, Rule
from lowfare_tools.wording import KIND_WORDS, WEEKDAYS, joined, name_of

SEATS, END_ON_END = 14, 25
PLAIN_WORDS = {
    1: "there are no components",
    2: "the timetable has no such flight",
    3: "a component has no flight, or more than four",
    4: "a flight doesn't leave where the one before arrived",
    5: "a component calls at a place twice",
    6: "the flights aren't those of the slices that are asked for",
    7: "a slice has more than three flights",
    8: "a slice calls at a place twice",
    9: "a connection is too short or too long, or a slice begins too early after the one before",
    10: "a slice leaves out of its window",
    11: "the fare isn't live in this version",
    12: "the fare is filed between other places",
    13: "the labels of units aren't numbered from 1",
    19: "the components make no unit",
    26: "three units are open at once",
}


@dataclass(frozen=True)
class Judged:
    """A component that was judged: its fare and rule, its flights, and those of its whole unit in order."""

    fare: Fare
    rule: Rule
    flights: tuple[Flight, ...]
    unit: tuple[Flight, ...]
    book: Book
    request: Request

    def category(self, number):
        return self.rule.categories.get(f"cat{number}")

    @property
    def first_day(self):
        return self.unit[0].day


def ranges_text(ranges):
    return joined(f"{first} to {last}" for first, last in ranges)


def seats_text(components):
    """What seats are wanting on these components: said once for each class, with each flight that hasn't enough."""
    short = {}
    for at in components:
        for flight in at.flights:
            left = at.book.seats_left(flight, at.fare.booking_class)
            if left < at.request.party:
                short.setdefault(at.fare.booking_class, []).append(f"{name_of(flight)} has {left}")
    party = components[0].request.party
    return [f"no seats in class {letter} for {party} ({joined(dict.fromkeys(told))})" for letter, told in short.items()]


def day_and_time(at):
    value = at.category(2)
    days = joined(WEEKDAYS[day - 1] for day in value["days"])
    return f"day and time: rule {at.rule.number} wants {days}, {value['from']} to {value['to']}"


def flights(at):
    value = at.category(4)
    names = joined(f"{carrier} {low}" if low == high else f"{carrier} {low} to {high}" for carrier, low, high in value["flights"])
    return f"flights: rule {at.rule.number} {'wants' if value['allow'] else 'bars'} {names}"


def stopovers(at):
    value = at.category(8)
    places = f", at {joined(value['places'])} alone" if "places" in value else ""
    return f"stopovers: rule {at.rule.number} allows {value['max']} at most{places}"


def transfers(at):
    value = at.category(9)
    if value is None:
        return f"transfers: the first flight isn't of {at.fare.carrier}"
    whose = "each flight" if value["online"] else "the first flight"
    return f"transfers: rule {at.rule.number} allows {value['max']} at most, with {whose} of {at.fare.carrier}"


def fare_kind(at):
    return "kind S stands alone only" if at.fare.kind == "S" else f"kind {at.fare.kind} may not stand alone"


def season(at):
    return f"season: rule {at.rule.number} wants a first day in {ranges_text(at.category(3))}"


def advance_purchase(at):
    days = (at.first_day - at.request.sale).days
    return f"advance purchase: rule {at.rule.number} wants {at.category(5)} days, and {days} are left"


def travel_dates(at):
    value = at.category(14)
    wanted = [f"a first day in {ranges_text(value['ranges'])}"] if "ranges" in value else []
    wanted += [f"a last day by {value['by']}"] if "by" in value else []
    return f"travel dates: rule {at.rule.number} wants {joined(wanted)}"


def least_return(stay, first_day):
    """The first day on which a minimum stay lets the way back begin."""
    least = first_day + timedelta(days=stay["days"])
    sunday = first_day + timedelta(days=7 - first_day.isoweekday() % 7)
    return max(least, sunday) if stay["sunday"] else least


def minimum_stay(at):
    least = least_return(at.category(6), at.first_day)
    return f"minimum stay: rule {at.rule.number} wants a return on {least} or later"


def maximum_stay(at):
    greatest = at.first_day + timedelta(days=at.category(7))
    return f"maximum stay: rule {at.rule.number} wants a return on {greatest} or earlier"


def combinations(at):
    value = at.category(10)
    partners = {"any": "", "same_carrier": ", all of this carrier", "same_rule": ", all of this rule"}[value["partners"]]
    kinds = " or ".join(KIND_WORDS[kind] for kind in value["kinds"])
    return f"combinations: rule {at.rule.number} wants a {kinds}{partners}"


RULE_WORDS = {
    (15, 2): day_and_time,
    (16, 4): flights,
    (17, 8): stopovers,
    (18, 9): transfers,
    (20, 0): fare_kind,
    (21, 3): season,
    (21, 5): advance_purchase,
    (22, 14): travel_dates,
    (23, 6): minimum_stay,
    (23, 7): maximum_stay,
    (24, 10): combinations,
}


def end_on_end_text(components):
    """Which rule bars which units beside its own."""
    units, carriers = {at.unit for at in components}, {at.fare.carrier for at in components}
    for at in components:
        wanted = (at.category(10) or {}).get("end_on_end", "free")
        if wanted == "never" and len(units) > 1:
            return f"combinations: rule {at.rule.number} of {at.fare.carrier} allows no other unit beside it"
        if wanted == "same_carrier" and len(carriers) > 1:
            return f"combinations: rule {at.rule.number} of {at.fare.carrier} allows no unit of another carrier beside it"
    return "combinations: a fare allows no other unit beside it, or none of another carrier"


def cause_text(breach, judged):
    """A breach in words. `judged` are the components of the ticket, in order."""
    tell = RULE_WORDS.get((breach.rule, breach.category))
    if tell and 1 <= breach.component <= len(judged):
        return tell(judged[breach.component - 1])
    if breach.rule == END_ON_END:
        return end_on_end_text(judged)
    return PLAIN_WORDS.get(breach.rule, f"rule {breach.rule} of docs/VERDICT.md, category {breach.category}")


def causes(breaches, judged):
    """All breaches in words, each said once."""
    unseated = [judged[breach.component - 1] for breach in breaches if breach.rule == SEATS]
    texts = seats_text(unseated) if unseated else []
    texts += [cause_text(breach, judged) for breach in breaches if breach.rule != SEATS]
    return list(dict.fromkeys(texts))


def judged_of(ticket, book, timetable, request):
    """The components of a ticket as they are judged. The case has to have its flights and fares."""
    found = [tuple(timetable.find(named) for named in component.flights) for component in ticket.components]
    judged = []
    for component, legs in zip(ticket.components, found):
        of_unit = [flights for other, flights in zip(ticket.components, found) if other.unit == component.unit]
        unit = tuple(flight for flights in of_unit for flight in flights)
        fare = book.fares[component.fare_key]
        judged.append(Judged(fare, book.rule_of(fare), legs, unit, book, request))
    return judged
