"""What a component costs, part by part: its fare, charges for stopovers, surcharges of flights. The rules are those of
docs/LAW.md; nothing here is proved, and the price that counts is the one that the program prints.
"""
from dataclasses import dataclass

from lowfare_tools.case import ONE_DAY
from lowfare_tools.command import REFUSALS, Trouble


@dataclass(frozen=True)
class Part:
    """A part of a price, in words."""

    what: str
    amount: int


def stopovers(flights):
    """The places between these flights at which they wait for more than a day."""
    pairs = zip(flights, flights[1:])
    return [before.destination for before, after in pairs if after.leaves - before.lands > ONE_DAY]


def fits(entry, flight):
    """Whether a surcharge is on this flight."""
    right = entry["carrier"] == flight.carrier and entry["low"] <= flight.number <= entry["high"]
    return right and entry["first"] <= flight.day.isoformat() <= entry["last"]


def parts_of(fare, rule, flights):
    """The parts of what a component costs. A rule that isn't of its form, which the program refuses, is trouble."""
    try:
        return list(parts(fare, rule, flights))
    except (KeyError, TypeError, AttributeError):
        raise Trouble(f"line {rule.line}: rule {rule.number} of {rule.carrier} isn't of its form; see {REFUSALS}") from None


def parts(fare, rule, flights):
    half = fare.kind == "R"
    yield Part(f"half of {fare.amount}" if half else "fare", fare.amount // 2 if half else fare.amount)
    charge = rule.categories.get("cat8", {}).get("charge", 0)
    if charge:
        yield from (Part(f"stopover at {place}", charge) for place in stopovers(flights))
    for flight in flights:
        for entry in rule.categories.get("cat12", ()):
            if fits(entry, flight):
                yield Part(f"surcharge on {flight.carrier} {flight.number}", entry["amount"])


def price_of(parts):
    return sum(part.amount for part in parts)
