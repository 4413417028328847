"""Random filings: fares on the ways of the slices, rules at their limits, seats that are put and dropped."""
import json

from timetable import CLASSES, date

KINDS = ["one_way", "round_trip", "open_jaw", "circle"]


def ranges(draw):
    pairs = []
    for _ in range(draw.randint(1, 3)):
        first = draw.choice([-30, -1, 0, 1, 7])
        pairs.append([date(first), date(first + draw.choice([0, 1, 10, 60]))])
    return pairs


def numbers(draw):
    low = draw.randint(1, 50)
    return low, min(9999, low + draw.choice([0, 5, 60, 9999]))


def day_time(draw):
    low = draw.choice([0, 300, 600])
    high = draw.choice([600, 1080, 1439])
    return {"days": sorted(draw.sample(range(1, 8), draw.randint(1, 7))), "from": f"{low // 60:02}:{low % 60:02}", "to": f"{high // 60:02}:{high % 60:02}"}


def flights(draw, carriers):
    return {"allow": draw.random() < 0.5, "flights": [[draw.choice(carriers), *numbers(draw)] for _ in range(draw.randint(1, 3))]}


def stops(draw, places):
    rule = {"max": draw.choice([0, 1, 1, 3]), "charge": draw.choice([0, 1, 1500, 1000000])}
    if draw.random() < 0.3:
        rule["places"] = draw.sample(places, draw.randint(1, len(places)))
    return rule


def combine(draw):
    chosen = set(draw.sample(KINDS, draw.randint(1, 4)))
    return {
        "kinds": [kind for kind in KINDS if kind in chosen],
        "partners": draw.choice(["any", "any", "same_carrier", "same_rule"]),
        "end_on_end": draw.choice(["free", "free", "same_carrier", "never"]),
    }


def surcharges(draw, carriers):
    found = []
    for _ in range(draw.randint(1, 2)):
        low, high = numbers(draw)
        first = draw.choice([-30, 0, 1])
        found.append({"carrier": draw.choice(carriers), "low": low, "high": high, "first": date(first), "last": date(first + draw.choice([0, 7, 60])), "amount": draw.choice([0, 1, 500, 1500])})
    return found


def travel(draw):
    rule = {}
    if draw.random() < 0.6:
        rule["ranges"] = ranges(draw)
    if draw.random() < 0.6:
        rule["by"] = date(draw.choice([0, 1, 7, 14, 60]))
    return rule


def rule(draw, carriers, places):
    members = {
        "cat2": lambda: day_time(draw),
        "cat3": lambda: ranges(draw),
        "cat4": lambda: flights(draw, carriers),
        "cat5": lambda: draw.choice([0, 7, 14, 29, 30, 31, 365]),
        "cat6": lambda: {"days": draw.choice([0, 1, 3, 7]), "sunday": draw.random() < 0.4},
        "cat7": lambda: draw.choice([0, 1, 7, 14, 30, 365]),
        "cat8": lambda: stops(draw, places),
        "cat9": lambda: {"max": draw.choice([0, 1, 1, 3]), "online": draw.random() < 0.4},
        "cat10": lambda: combine(draw),
        "cat12": lambda: surcharges(draw, carriers),
        "cat14": lambda: travel(draw),
    }
    share = draw.choice([3, 10, 30]) / 100
    chosen = [name for name in members if draw.random() < share]
    found = {name: members[name]() for name in chosen}
    if draw.random() < 0.03:
        found.update(at_its_end(draw, carriers))
    return found


def at_its_end(draw, carriers):
    """A category with a number or a length at the end of its range, or one past it."""
    past = draw.choice([0, 0, 1])
    day, flight = [date(0), date(0)], [carriers[0], 1, 9999]
    surcharge = {"carrier": carriers[0], "low": 1, "high": 9999, "first": date(0), "last": date(0), "amount": 1}
    return draw.choice(
        [
            {"cat2": {"days": [1, 2, 3, 4, 5, 6, 7 + past], "from": "00:00", "to": "23:59"}},
            {"cat2": {"days": [1, 2, 3, 4, 5, 6, 7], "from": "10:00" if not past else "10:01", "to": "10:00"}},
            {"cat3": [day] * (8 + past)},
            {"cat4": {"allow": True, "flights": [flight] * (16 + past)}},
            {"cat4": {"allow": False, "flights": [[carriers[0], 1 - past, 1]]}},
            {"cat4": {"allow": True, "flights": [[carriers[0], 1, 9999 + past]]}},
            {"cat5": 365 + past},
            {"cat6": {"days": 365 + past, "sunday": False}},
            {"cat7": 365 + past},
            {"cat8": {"max": 3 + past, "charge": 1000000}},
            {"cat8": {"max": 3, "charge": 1000000 + past}},
            {"cat8": {"max": 3, "charge": 0, "places": ["LON"] * (16 + past)}},
            {"cat9": {"max": 3 + past, "online": False}},
            {"cat10": {"kinds": KINDS[past:] + KINDS[:past], "partners": "any", "end_on_end": "free"}},
            {"cat12": [surcharge] * (8 + past)},
            {"cat12": [{**surcharge, "amount": 1000000 + past}]},
            {"cat14": {"ranges": [day] * (8 + past), "by": date(0)}},
        ]
    )


class Filings:
    """Filings for a timetable and its slices."""

    def __init__(self, draw, table, slices):
        self.draw, self.table = draw, table
        self.carriers = table.carriers
        self.rules = {carrier: draw.choice([0, 1, 2, 3]) for carrier in self.carriers}
        self.ends = [(one["from"], one["to"]) for one in slices]
        self.markets = self.ends * 3 + list(zip([one["from"] for one in slices], [one["to"] for one in slices[1:]]))
        for row in table.flights:
            fields = row.split(",")
            self.markets.append((fields[2], fields[3]))
        self.markets = [market for market in self.markets if market[0] != market[1]]
        self.fares = []

    def put_rules(self):
        return [
            {"put_rule": {"carrier": carrier, "rule": number, **rule(self.draw, self.carriers, self.table.names)}}
            for carrier, count in self.rules.items()
            for number in range(1, count + 1)
        ]

    def fare(self):
        draw = self.draw
        start, end = draw.choice(self.markets)
        if draw.random() < 0.3:
            start, end = end, start
        carrier = draw.choice(self.carriers)
        key = {"carrier": carrier, "from": start, "to": end, "basis": draw.choice(["Y1", "M2", "Q", "R7", "A0", "ZZZZZZZZ"])}
        self.fares.append(key)
        amount = draw.choice([0, 2, 10000, 20000, 20000, 20000, 30000, 30002, 1000000000])
        kind = draw.choice("OOORRS")
        if draw.random() < 0.003:
            amount += 1
        return {"put_fare": {**key, "class": draw.choice(CLASSES[: draw.choice([1, 2, 4])]), "kind": kind, "amount": amount, "rule": self.rule_number(carrier)}}

    def rule_number(self, carrier):
        if self.draw.random() < 0.4:
            return 0
        return self.draw.randint(0, self.rules[carrier] + (self.draw.random() < 0.005))

    def plain(self):
        """A fare without a rule for the slices, so that many cases have a ticket."""
        return [
            {"put_fare": {"carrier": carrier, "from": start, "to": end, "basis": "W", "class": "Y", "kind": "O", "amount": 40000, "rule": 0}}
            for start, end in sorted(set(self.ends))
            for carrier in self.carriers
            if self.draw.random() < 0.6
        ]

    def change(self):
        draw = self.draw
        roll = draw.random()
        if roll < 0.5 or not self.fares:
            return self.fare()
        if roll < 0.7:
            return {"drop_fare": self.fares.pop(draw.randrange(len(self.fares)))}
        if roll < 0.72:
            return {"drop_rule": {"carrier": draw.choice(self.carriers), "rule": draw.randint(1, 3)}}
        fields = draw.choice(self.table.seats).split(",") if self.table.seats else ["QX", "1", "LON", "*", "Y9"]
        key = {"carrier": fields[0], "number": int(fields[1]), "from": fields[2], "date": draw.choice([fields[3], "*", date(0)])}
        if roll < 0.85:
            return {"drop_seats": key}
        return {"put_seats": {**key, "seats": self.table.classes()}}

    def lines(self):
        draw = self.draw
        first = self.put_rules() + self.plain() + [self.fare() for _ in range(draw.choice([1, 4, 8, 16, 24, 40]))]
        found = [first]
        for _ in range(draw.choice([0, 0, 0, 1, 2])):
            found.append([self.change() for _ in range(draw.randint(0, 3))])
        spaced = (",", ":") if draw.random() < 0.7 else (", ", ": ")
        ordered = draw.random() < 0.6
        return [json.dumps({"actions": actions}, separators=spaced, sort_keys=ordered) for actions in found]
