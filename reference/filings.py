"""Filings and the books that they make: docs/FORMATS.md, 'Filings', and docs/LAW.md, 'The book'."""
import collections

import reference.forms as forms
import reference.json_text as json_text
import reference.rules as rules
from reference.rules import RuleFault

MOST_ACTIONS, MOST_FARES, MOST_RULES, MOST_SEAT_ROWS = 5000, 20000, 2000, 200000

Fare = collections.namedtuple("Fare", "carrier origin to basis letter kind amount rule")
"""LAW, 'The book': a fare. Its key is its first four fields."""

Action = collections.namedtuple("Action", "name key value")
"""FORMATS, 'Filings': one of the six actions, the key that it names and what it puts there."""


class BadAction(Exception):
    """FORMATS, 'Refusals': `action n` and a reason. The book's reasons are those of LAW, 'The book', `Fault`."""

    def __init__(self, action, reason):
        super().__init__(action, reason)
        self.text = f"action {action} {reason}"


class Shape(Exception):
    """FORMATS, 'Refusals': an action isn't of its form."""


FORMS = {
    "carrier": forms.carrier, "from": forms.place, "to": forms.place, "basis": forms.basis, "class": forms.pattern("[A-Z]"),
    "kind": forms.pattern("[ORS]"), "date": forms.seat_day, "seats": forms.seats,
}
RANGES = {"amount": (0, 1000000000), "number": (1, 9999)}
"""FORMATS, 'Filings': the members of the actions, as texts and as whole numbers."""

FARE_KEY, SEAT_KEY = ["carrier", "from", "to", "basis"], ["carrier", "number", "from", "date"]
MEMBERS = {
    "put_fare": [*FARE_KEY, "class", "kind", "amount", "rule"], "drop_fare": FARE_KEY,
    "put_rule": ["carrier", "rule"], "drop_rule": ["carrier", "rule"],
    "put_seats": [*SEAT_KEY, "seats"], "drop_seats": SEAT_KEY,
}
"""FORMATS, 'Filings': the table of the actions."""


def read_filing(text):
    """FORMATS, 'Filings': each line is one JSON text `{"actions":[..]}` with up to 5,000 actions; a fault of the filing itself is one of
    action 0. The list of its actions."""
    value = json_text.read(text)
    if not isinstance(value, dict) or list(value) != ["actions"] or not isinstance(value["actions"], list):
        raise BadAction(0, "Shape")
    if len(value["actions"]) > MOST_ACTIONS:
        raise BadAction(0, "Shape")
    actions = []
    for at, action in enumerate(value["actions"], 1):
        try:
            actions.append(read_action(action))
        except Shape:
            raise BadAction(at, "Shape") from None
        except RuleFault as fault:
            raise BadAction(at, f"Rule {fault}") from None
    return actions


def read_action(value):
    """FORMATS, 'Filings': an object with one member. In a `put_rule` the carrier and the number are judged before the rule."""
    if not isinstance(value, dict) or len(value) != 1:
        raise Shape
    [(name, given)] = value.items()
    if name not in MEMBERS or not isinstance(given, dict):
        raise Shape
    needed = MEMBERS[name]
    if any(member not in given for member in needed) or name != "put_rule" and len(given) != len(needed):
        raise Shape
    # Rule 0 is of every carrier, and is neither put nor dropped.
    least_rule = 0 if name == "put_fare" else 1
    values = [read_member(member, given[member], least_rule) for member in needed]
    if name == "put_rule":
        return Action(name, tuple(values), rules.read_rule(given))
    if name == "put_fare":
        return Action(name, tuple(values[:4]), Fare(*values))
    return Action(name, tuple(values[:4]), values[4] if name == "put_seats" else None)


def read_member(member, value, least_rule):
    """FORMATS, 'Filings': the form of one member."""
    if member in FORMS:
        found = FORMS[member](value) if isinstance(value, str) else None
        if found is None:
            raise Shape
        return found
    low, high = RANGES.get(member, (least_rule, 9999))
    if not json_text.is_whole(value) or not low <= value <= high:
        raise Shape
    return value


class Book:
    """LAW, 'The book': a timetable and what is live of fares, rules and seat rows after some filings."""

    def __init__(self, timetable, fares, live_rules, seats, number):
        self.timetable, self.fares, self.rules, self.seats, self.number = timetable, fares, live_rules, seats, number

    def with_filing(self, actions):
        """LAW, 'The book': what is live is what the last action on it left; a filing with a fault leaves the book as it was."""
        book = Book(self.timetable, dict(self.fares), dict(self.rules), self.seats, self.number + 1)
        if any(action.name.endswith("_seats") for action in actions):
            book.seats = dict(self.seats)
        for at, action in enumerate(actions, 1):
            reason = book.fault(action)
            if reason:
                raise BadAction(at, reason)
            book.take(action)
        return book

    def live(self, action):
        """What is live of the sort that an action is of, and the most that may be."""
        if action.name.endswith("_fare"):
            return self.fares, MOST_FARES, "NoFare"
        if action.name.endswith("_rule"):
            return self.rules, MOST_RULES, "NoRule"
        return self.seats, MOST_SEAT_ROWS, "NoSeats"

    def fault(self, action):
        """LAW, 'The book', `Fault`, and FORMATS, 'Refusals': the first reason that an action has, in the order of the reasons there."""
        live, most, none_such = self.live(action)
        if action.name == "put_fare":
            fare = action.value
            if fare.origin == fare.to:
                return "SamePlace"
            if fare.kind == "R" and fare.amount % 2:
                return "OddRound"
            if fare.rule and (fare.carrier, fare.rule) not in self.rules:
                return "NoRule"
        if action.name.startswith("drop_") and action.key not in live:
            return none_such
        if action.name == "drop_rule" and any((fare.carrier, fare.rule) == action.key for fare in self.fares.values()):
            return "RuleInUse"
        if action.name.startswith("put_") and action.key not in live and len(live) == most:
            return "Limit"
        return None

    def take(self, action):
        """LAW, 'The book': a put of a key that is there replaces what is live, a drop takes it away."""
        live, _, _ = self.live(action)
        if action.name.startswith("drop_"):
            del live[action.key]
        else:
            live[action.key] = action.value

    def rule_of(self, fare):
        """LAW, 'The book': number 0 is the rule with no category, of every carrier."""
        return self.rules[fare.carrier, fare.rule] if fare.rule else {}

    def market(self, origin, to):
        """The live fares from one place to another, ascending by carrier and basis."""
        if not hasattr(self, "markets"):
            self.markets = collections.defaultdict(list)
            for fare in sorted(self.fares.values()):
                self.markets[fare.origin, fare.to].append(fare)
        return self.markets.get((origin, to), [])
