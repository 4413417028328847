"""Components, and which fares are lawful on their flights: docs/LAW.md, 'The component'."""
import reference.rules as rules
from reference.seats import seats_of

MOST_FLIGHTS = 4


class Piece:
    """LAW, 'The component': what a component's flights and its live fare stand for. All rules read pieces alone."""

    def __init__(self, numbers, flights, fare, rule):
        self.numbers, self.flights, self.fare, self.rule = numbers, flights, fare, rule
        self.begin, self.end = flights[0].origin, flights[-1].to
        self.first_day, self.last_day = flights[0].day, flights[-1].day
        self.is_reverse = (fare.origin, fare.to) != (self.begin, self.end)
        self.price = price(fare, rule, flights)


def price(fare, rule, flights):
    """LAW, 'Price, code, order, best': the fare's amount, half of it for kind R, and the charges, of which neither is halved."""
    return (fare.amount // 2 if fare.kind == "R" else fare.amount) + rules.charges(rule, flights)


def is_filed(fare, begin, end):
    """LAW, 'The component': the fare is filed from the beginning to the end, or, for a reverse one, from the end to the beginning."""
    return (fare.origin, fare.to) in ((begin, end), (end, begin))


def has_no_gap(flights):
    """LAW, 'The component', `Shape`: each flight departs from where the one before arrived."""
    return all(earlier.to == later.origin for earlier, later in zip(flights, flights[1:]))


def calls_once(flights):
    """LAW, 'The component', `Shape`: the beginning, the connection points and the end are all different."""
    places = [flights[0].origin, *(flight.to for flight in flights)]
    return len(set(places)) == len(places)


def has_shape(flights):
    """LAW, 'The component', `Shape`: one to four flights without a gap that call at no place twice."""
    return 1 <= len(flights) <= MOST_FLIGHTS and has_no_gap(flights) and calls_once(flights)


def is_seated(book, request, fare, flights):
    """LAW, 'The component', `Seated`: every flight has seats for the party in the fare's class."""
    return all(seats_of(book.seats, flight, fare.letter) >= request.party for flight in flights)


def component_lawful(book, request, fare, rule, flights):
    """LAW, 'The component', `ComponentLawful`, of flights that have the shape."""
    return (
        is_seated(book, request, fare, flights)
        and rules.day_time_holds(rule, flights)
        and rules.flights_hold(rule, flights)
        and rules.stopovers_hold(rule, flights)
        and rules.transfers_hold(rule, fare.carrier, flights)
    )


def offers(book, request, numbers):
    """LAW, 'The component': each live fare that is filed between the ends of these flights, in either direction, and lawful on them."""
    flights = [book.timetable.flights[number] for number in numbers]
    begin, end = flights[0].origin, flights[-1].to
    return [
        Piece(numbers, flights, fare, book.rule_of(fare))
        for fare in book.market(begin, end) + book.market(end, begin)
        if component_lawful(book, request, fare, book.rule_of(fare), flights)
    ]
