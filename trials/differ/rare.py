"""Cases that random small ones rarely are: units inside units, six slices of three flights, ties at the last place, end on end, circles."""
import datetime
import json

from filings import combine
from timetable import FIRST_DAY, date

PLACES = ["LON", "NYC", "PAR", "CHI", "BOS", "DEN", "ROM", "AMS"]


class Case:
    """Flights one after the other, with fares for chosen ends of them."""

    def __init__(self, draw):
        self.draw = draw
        self.flights, self.seats, self.actions, self.slices = [], [], [], []
        self.number = 0

    def slice_over(self, way, day):
        """A slice of one to three flights over these places, each flight three hours after the one before."""
        for at, (start, end) in enumerate(zip(way, way[1:])):
            self.fly(start, end, day, 6 + 4 * at)
        self.slices.append({"from": way[0], "to": way[-1], "first": date(day), "days": 1})

    def fly(self, start, end, day, hour, carrier="QX"):
        self.number += 1
        self.flights.append(f"{carrier},{self.number},{start},{end},{hour:02}:00,+00:00,{hour + 1:02}:00,+00:00,0,{date(day)},{date(day)},{day % 7 + 1}")
        self.seats.append(f"{carrier},{self.number},{start},*,Y9")

    def fare(self, start, end, kind, amount, basis="Y1", rule=0, carrier="QX"):
        self.actions.append({"put_fare": {"carrier": carrier, "from": start, "to": end, "basis": basis, "class": "Y", "kind": kind, "amount": amount, "rule": rule}})

    def rule(self, number, members, carrier="QX"):
        self.actions.append({"put_rule": {"carrier": carrier, "rule": number, **members}})

    def lines(self, best):
        asked = {"sale": (FIRST_DAY - datetime.timedelta(days=30)).isoformat(), "party": self.draw.choice([1, 2, 9]), "best": best, "slices": self.slices}
        filing = json.dumps({"actions": self.actions}, separators=(",", ":"))
        places = [f"{name},{self.draw.choice([0, 60, 60, 180])}" for name in PLACES]
        return ["#places", *places, "#flights", *self.flights, "#seats", *self.seats, "#filings", filing, "#request", json.dumps(asked, separators=(",", ":"))]


def nested(draw):
    """Out over two to four places and back the same way, with fares for each pair: units inside units, two or three deep."""
    case = Case(draw)
    way = draw.sample(PLACES, draw.choice([3, 4, 4, 4]))
    there = list(zip(way, way[1:]))
    for at, (start, end) in enumerate(there + [(end, start) for start, end in reversed(there)]):
        case.slice_over([start, end], 2 * at)
    for start, end in there:
        case.fare(start, end, draw.choice("RRRO"), 2 * draw.randint(1000, 3000))
        if draw.random() < 0.3:
            case.fare(end, start, "O", draw.randint(1000, 3000), "Z")
    return case.lines(draw.choice([1, 5, 1000])), nested_ticket(case, len(there), draw)


def nested_ticket(case, deep, draw):
    """A ticket of a unit in a unit in a unit, which is lawful where there are two of them."""
    labels = [*range(1, deep + 1), *reversed(range(1, deep + 1))]
    found = []
    for at, (label, flight) in enumerate(zip(labels, case.flights)):
        fields = flight.split(",")
        start, end = (fields[2], fields[3]) if at < deep else (fields[3], fields[2])
        found += [f"component {label} QX {start} {end} {draw.choice(['Y1'] * 9 + ['Z'])}", f"flight QX {fields[1]} {fields[9]} {fields[2]}"]
    return found


def eighteen(draw):
    """Six slices of three flights, and a fare for each flight, mostly for it alone: tickets of eighteen components."""
    case = Case(draw)
    alone = draw.random() < 0.7
    if alone:
        case.rule(1, {"cat8": {"max": 0, "charge": 0}, "cat9": {"max": 0, "online": False}})
    for at in range(6):
        way = draw.sample(PLACES, 4) if not at else [way[-1], *draw.sample([name for name in PLACES if name != way[-1]], 3)]
        case.slice_over(way, 2 * at)
    put = {}
    for flight in case.flights:
        fields = flight.split(",")
        put[fields[2], fields[3]] = None
    for start, end in put:
        case.fare(start, end, draw.choice("OOOOS"), draw.randint(100, 200), rule=int(alone))
    ticket = []
    for at, flight in enumerate(case.flights):
        fields = flight.split(",")
        ticket += [f"component {at + 1} QX {fields[2]} {fields[3]} Y1", f"flight QX {fields[1]} {fields[9]} {fields[2]}"]
    if draw.random() < 0.2:
        ticket += ["component 19 QX LON NYC Y1"]
    return case.lines(draw.choice([1, 2])), ticket


def ties(draw):
    """Several fares and flights of one price, and as many tickets asked for as would cut between equals."""
    case = Case(draw)
    for at in range(draw.choice([1, 2])):
        start, end = ("LON", "NYC") if not at else ("NYC", "LON")
        for again in range(draw.choice([1, 2, 3])):
            case.fly(start, end, 3 * at, 6 if draw.random() < 0.5 else 6 + again)
        case.slices.append({"from": start, "to": end, "first": date(3 * at), "days": 1})
        for basis in draw.sample(["A", "B", "C", "0", "Z9", "ZZZZZZZZ"], draw.choice([1, 2, 4])):
            case.fare(start, end, draw.choice("OOR"), draw.choice([20000, 20000, 30000]), basis)
    return case.lines(draw.choice([1, 2, 3, 4, 5, 7])), None


def end_on_end(draw):
    """Slices that are units of their own, on fares that ask for one carrier or one unit."""
    case = Case(draw)
    way = draw.sample(PLACES, draw.choice([3, 4, 5]))
    carriers = ["QX", draw.choice(["QX", "BX"])]
    for carrier in sorted(set(carriers)):
        for number in (1, 2, 3):
            case.rule(number, {"cat10": combine(draw)} if draw.random() < 0.8 else {}, carrier)
    for at, (start, end) in enumerate(zip(way, way[1:])):
        for again in range(draw.choice([1, 2])):
            case.fly(start, end, 2 * at, 8 + again, draw.choice(carriers))
        case.slices.append({"from": start, "to": end, "first": date(2 * at), "days": 1})
        for carrier in sorted(set(carriers)):
            for basis in draw.sample(["A", "B", "C"], 2):
                case.fare(start, end, draw.choice("OS"), draw.choice([10000, 20000]), basis, draw.randint(0, 3), carrier)
    return case.lines(draw.choice([1, 3, 10])), None


def circles(draw):
    """Round over three to five places, with a fare of kind R for each part and the last one filed the other way round."""
    case = Case(draw)
    way = draw.sample(PLACES, draw.choice([3, 4, 4, 5]))
    way.append(way[0])
    case.rule(1, {"cat8": {"max": 0, "charge": 0}, "cat10": {"kinds": ["round_trip", "open_jaw", "circle"], "partners": draw.choice(["any", "same_carrier", "same_rule"]), "end_on_end": "free"}})
    for at, (start, end) in enumerate(zip(way, way[1:])):
        case.slice_over([start, end], 2 * at)
        for pair in ((start, end), (end, start)) if draw.random() < 0.3 or end == way[0] else ((start, end),):
            case.fare(*pair, draw.choice("RRO"), 2 * draw.randint(1000, 9000), draw.choice(["Y1", "M"]), draw.choice([0, 1, 1, 1]))
    return case.lines(draw.choice([1, 4, 100])), None


def rare_lines(draw):
    """The lines of such a case up to its request, and those of a ticket or None."""
    return draw.choice([nested, nested, eighteen, ties, ties, end_on_end, circles])(draw)
