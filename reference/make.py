"""The made case: docs/MADE.md, 'The text'."""
import reference.json_text as json_text

HUB_FLIGHTS = [
    # First number, origin and end, where None is the hub, date, and the least minute of departure and of duration with how many are drawn.
    (1000, "AAA", None, "2031-03-03", 360, 60),
    (2000, None, "BBB", "2031-03-03", 720, 240),
    (3000, "BBB", None, "2031-03-10", 360, 60),
    (4000, None, "AAA", "2031-03-10", 720, 240),
]
RULES = [
    {"cat2": {"days": [1, 2, 3], "from": "05:00", "to": "22:00"}, "cat5": 14, "cat6": {"days": 3, "sunday": True}},
    {"cat3": [["2031-01-01", "2031-06-30"]], "cat7": 30, "cat9": {"max": 1, "online": True}},
    {
        "cat4": {"allow": False, "flights": [["MX", 4000, 4004]]},
        "cat8": {"max": 0, "charge": 0},
        "cat10": {"kinds": ["round_trip", "open_jaw"], "partners": "same_rule", "end_on_end": "free"},
    },
    {
        "cat10": {"kinds": ["one_way", "round_trip"], "partners": "any", "end_on_end": "same_carrier"},
        "cat14": {"ranges": [["2031-03-01", "2031-03-31"]], "by": "2031-03-31"},
    },
]
"""MADE, 'The text': the flights of a hub, and the rules."""


class Draws:
    """MADE, 'The text': numbers drawn from a seed."""

    def __init__(self, seed):
        self.state = seed

    def draw(self, below):
        self.state = (self.state * 6364136223846793005 + 1442695040888963407) % 2**64
        return self.state // 2**33 % below


def made_case(seed, size):
    """MADE, 'The text': a search case of a seed and a size."""
    draws = Draws(seed)
    hubs = ["H" + "".join(chr(ord("A") + part) for part in divmod(at, 26)) for at in range(size)]
    flights = flight_rows(draws, hubs)
    seats = [",".join(["MX", row[0], row[1], "*", f"Y9M{draws.draw(10)}Q{draws.draw(10)}"]) for row in flights]
    filing = json_text.compact({"actions": rule_actions() + fare_actions(draws, hubs)})
    slices = [{"from": "AAA", "to": "BBB", "first": "2031-03-03", "days": 1}, {"from": "BBB", "to": "AAA", "first": "2031-03-10", "days": 1}]
    request = json_text.compact({"best": 10, "party": 2, "sale": "2031-02-01", "slices": slices})
    return [
        "#places", *(f"{place},45" for place in ["AAA", "BBB", *hubs]),
        "#flights", *(flight_row(*row) for row in flights),
        "#seats", *seats, "#filings", filing, "#request", request, "#end",
    ]


def flight_rows(draws, hubs):
    """MADE, 'The text': two flights without a stop, and four for each hub, each of which draws its departure and then its duration."""
    rows = [("1", "AAA", "BBB", "2031-03-03", 540, 240), ("2", "BBB", "AAA", "2031-03-10", 540, 240)]
    for at, hub in enumerate(hubs):
        for number, origin, end, date, departs, takes in HUB_FLIGHTS:
            departure = departs + draws.draw(120)
            rows.append((str(number + at), origin or hub, end or hub, date, departure, takes + draws.draw(60)))
    return rows


def flight_row(number, origin, end, date, departs, takes):
    """MADE, 'The text': the row of a flight on one Monday, by clocks that show UTC."""
    return ",".join(["MX", number, origin, end, clock(departs), "+00:00", clock(departs + takes), "+00:00", "0", date, date, "1"])


def clock(minute):
    return f"{minute // 60:02}:{minute % 60:02}"


def rule_actions():
    """MADE, 'The text': four rules of MX."""
    return [{"put_rule": {"carrier": "MX", "rule": number, **members}} for number, members in enumerate(RULES, 1)]


def fare_actions(draws, hubs):
    """MADE, 'The text': twice as many drawn fares from AAA to BBB as hubs, one fare back, and two fares for each hub."""
    actions = []
    for at in range(2 * len(hubs)):
        letter, kind = "YMQ"[draws.draw(3)], "ORS"[draws.draw(3)]
        actions.append(fare("AAA", "BBB", f"B{at:03}", (letter, kind, 10000 + 2 * draws.draw(20000), draws.draw(5))))
    actions.append(fare("BBB", "AAA", "Z000", ("Y", "O", 30000, 0)))
    for hub in hubs:
        actions += [fare(*ends, "V000", ("Y", "O", 4000 + 2 * draws.draw(4000), 0)) for ends in (("AAA", hub), (hub, "BBB"))]
    return actions


def fare(origin, end, basis, told):
    """A fare of MX, with its class, kind, amount and rule."""
    letter, kind, amount, rule = told
    return {
        "put_fare": {"carrier": "MX", "from": origin, "to": end, "basis": basis, "class": letter, "kind": kind, "amount": amount, "rule": rule}
    }
