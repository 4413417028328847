"""The rule categories: how each is filed, and what it asks. docs/FORMATS.md, 'Filings', and docs/LAW.md, 'The component' and 'The unit'.

A rule is a dictionary of its categories by name. A category that isn't there restricts nothing.
"""
import collections

import reference.forms as forms
from reference.json_text import is_whole

KINDS = ["one_way", "round_trip", "open_jaw", "circle"]
PARTNERS = ["any", "same_carrier", "same_rule"]
ENDS = ["free", "same_carrier", "never"]
"""FORMATS, 'Filings': the words of category 10."""

Surcharge = collections.namedtuple("Surcharge", "carrier low high first last amount")


class RuleFault(Exception):
    """FORMATS, 'Refusals': `Missing`, `Unknown` or `Range`."""


def ranged(holds):
    """FORMATS, 'Refusals': a member's value isn't in its range."""
    if not holds:
        raise RuleFault("Range")


def members(value, needed, optional=()):
    """FORMATS, 'Refusals': of one object first a member that no category has, then one that isn't there."""
    ranged(isinstance(value, dict))
    if any(name not in needed and name not in optional for name in value):
        raise RuleFault("Unknown")
    if any(name not in value for name in needed):
        raise RuleFault("Missing")
    return value


def whole(value, low, high):
    """FORMATS, 'Filings': a whole number between two limits."""
    ranged(is_whole(value) and low <= value <= high)
    return value


def text(value, form):
    """FORMATS, 'Filings': a text of a form."""
    found = form(value) if isinstance(value, str) else None
    ranged(found is not None)
    return found


def listed(value, most):
    """FORMATS, 'Filings': a list of one to so many; its length is judged before its items."""
    ranged(isinstance(value, list) and 1 <= len(value) <= most)
    return value


def truth(value):
    """FORMATS, 'Filings': true or false."""
    ranged(isinstance(value, bool))
    return value


def day_ranges(value):
    """FORMATS, 'Filings', season: one to eight pairs of dates, the first not after the second."""
    found = []
    for pair in listed(value, 8):
        ranged(isinstance(pair, list) and len(pair) == 2)
        first, last = text(pair[0], forms.day), text(pair[1], forms.day)
        ranged(first <= last)
        found.append((first, last))
    return found


def read_day_time(value):
    """FORMATS, 'Filings', day and time: one to seven weekdays, ascending; `from` not after `to`."""
    members(value, ["days", "from", "to"])
    days = [whole(day, 1, 7) for day in listed(value["days"], 7)]
    ranged(days == sorted(set(days)))
    first, last = text(value["from"], forms.minute), text(value["to"], forms.minute)
    ranged(first <= last)
    return days, first, last


def read_flights(value):
    """FORMATS, 'Filings', flights: one to sixteen triples of carrier, low, high."""
    members(value, ["allow", "flights"])
    allow, triples = truth(value["allow"]), []
    for triple in listed(value["flights"], 16):
        ranged(isinstance(triple, list) and len(triple) == 3)
        carrier, low, high = text(triple[0], forms.carrier), whole(triple[1], 1, 9999), whole(triple[2], 1, 9999)
        ranged(low <= high)
        triples.append((carrier, low, high))
    return allow, triples


def read_days(value):
    """FORMATS, 'Filings', advance purchase and maximum stay: 0 to 365 days."""
    return whole(value, 0, 365)


def read_minimum_stay(value):
    """FORMATS, 'Filings', minimum stay: `days` 0 to 365, and `sunday`."""
    members(value, ["days", "sunday"])
    return whole(value["days"], 0, 365), truth(value["sunday"])


def read_stopovers(value):
    """FORMATS, 'Filings', stopovers: `max` 0 to 3, `charge` 0 to 1,000,000, and one to sixteen places where there are `places`."""
    members(value, ["max", "charge"], ["places"])
    places = None
    most, charge = whole(value["max"], 0, 3), whole(value["charge"], 0, 1000000)
    if "places" in value:
        places = [text(place, forms.place) for place in listed(value["places"], 16)]
    return most, charge, places


def read_transfers(value):
    """FORMATS, 'Filings', transfers: `max` 0 to 3, and `online`."""
    members(value, ["max", "online"])
    return whole(value["max"], 0, 3), truth(value["online"])


def read_combinations(value):
    """FORMATS, 'Filings', combinations: kinds in their order, each at most once; partners; end on end."""
    members(value, ["kinds", "partners", "end_on_end"])
    kinds = listed(value["kinds"], 4)
    ranged(all(isinstance(kind, str) and kind in KINDS for kind in kinds))
    ranged(kinds == [kind for kind in KINDS if kind in kinds])
    ranged(value["partners"] in PARTNERS and value["end_on_end"] in ENDS)
    return kinds, value["partners"], value["end_on_end"]


def read_surcharges(value):
    """FORMATS, 'Filings', surcharges: one to eight objects."""
    found = []
    for item in listed(value, 8):
        members(item, Surcharge._fields)
        carrier, low, high = text(item["carrier"], forms.carrier), whole(item["low"], 1, 9999), whole(item["high"], 1, 9999)
        first, last = text(item["first"], forms.day), text(item["last"], forms.day)
        ranged(low <= high and first <= last)
        found.append(Surcharge(carrier, low, high, first, last, whole(item["amount"], 0, 1000000)))
    return found


def read_travel(value):
    """FORMATS, 'Filings', travel dates: optionally `ranges` as of a season, and `by`, a date."""
    members(value, [], ["ranges", "by"])
    ranges = day_ranges(value["ranges"]) if "ranges" in value else None
    return ranges, text(value["by"], forms.day) if "by" in value else None


READERS = {
    "cat2": read_day_time, "cat3": day_ranges, "cat4": read_flights, "cat5": read_days, "cat6": read_minimum_stay, "cat7": read_days,
    "cat8": read_stopovers, "cat9": read_transfers, "cat10": read_combinations, "cat12": read_surcharges, "cat14": read_travel,
}
"""FORMATS, 'Filings': the categories, ascending."""


def read_rule(value):
    """FORMATS, 'Filings': any of the categories; an unknown member comes before all other faults, then the categories ascending."""
    members(value, [], ["carrier", "rule", *READERS])
    return {name: read(value[name]) for name, read in READERS.items() if name in value}


# What each asks of a component. `flights` are its flights in order.


def stopovers(flights):
    """LAW, 'The component', category 8: a connection point is a stopover where the gap exceeds 1,440 minutes, else a transfer. The places
    of the stopovers."""
    return [later.origin for earlier, later in zip(flights, flights[1:]) if later.dep - earlier.arr > 1440]


def day_time_holds(rule, flights):
    """LAW, 'The component', category 2: the first departure's weekday is listed, and its local minute lies in the times."""
    if "cat2" not in rule:
        return True
    days, first, last = rule["cat2"]
    return forms.weekday(flights[0].day) in days and first <= flights[0].minute <= last


def flights_hold(rule, flights):
    """LAW, 'The component', category 4: each flight lies in a listed range, or none does."""
    if "cat4" not in rule:
        return True
    allow, triples = rule["cat4"]
    return all(allow == any(flight.carrier == carrier and low <= flight.number <= high for carrier, low, high in triples) for flight in flights)


def stopovers_hold(rule, flights):
    """LAW, 'The component', category 8: at most so many stopovers, each at a listed place where places are listed."""
    if "cat8" not in rule:
        return True
    most, _, places = rule["cat8"]
    found = stopovers(flights)
    return len(found) <= most and (places is None or all(place in places for place in found))


def transfers_hold(rule, carrier, flights):
    """LAW, 'The component', category 9: at most so many transfers; where it asks for online, every flight is the fare's carrier's; where it
    doesn't, and where the category is absent, the first flight is."""
    most, online = rule.get("cat9", (3, False))
    transfers = len(flights) - 1 - len(stopovers(flights))
    theirs = flights if online else flights[:1]
    return transfers <= most and all(flight.carrier == carrier for flight in theirs)


def charges(rule, flights):
    """LAW, 'Price, code, order, best': the charge of category 8 for each stopover, and, for each flight, the amount of each entry of
    category 12 that fits it by carrier, number and local day."""
    _, charge, _ = rule.get("cat8", (3, 0, None))
    return charge * len(stopovers(flights)) + sum(
        entry.amount
        for flight in flights
        for entry in rule.get("cat12", [])
        if flight.carrier == entry.carrier and entry.low <= flight.number <= entry.high and entry.first <= flight.day <= entry.last
    )


# What each asks of a unit, by its first day, its return day and its last day.


def in_ranges(ranges, day):
    """Whether a day lies in a listed range."""
    return any(first <= day <= last for first, last in ranges)


def season_holds(rule, first_day):
    """LAW, 'The unit', category 3: the unit's first day lies in a listed range."""
    return "cat3" not in rule or in_ranges(rule["cat3"], first_day)


def advance_holds(rule, sale, first_day):
    """LAW, 'The unit', category 5: the day of sale plus so many days is at most the first day."""
    return "cat5" not in rule or sale + rule["cat5"] <= first_day


def least_return(rule, first_day):
    """LAW, 'The unit', category 6: the first day plus so many days, with `sunday` also at least the first Sunday strictly after the first
    day; None where the category is absent."""
    if "cat6" not in rule:
        return None
    days, sunday = rule["cat6"]
    return max(first_day + days, forms.first_sunday_after(first_day)) if sunday else first_day + days


def greatest_return(rule, first_day):
    """LAW, 'The unit', category 7: the first day plus so many days; None where the category is absent."""
    return first_day + rule["cat7"] if "cat7" in rule else None


def combinations(rule):
    """LAW, 'The unit' and 'The ticket', category 10: the kinds, what is asked of the partners, and end on end."""
    return rule.get("cat10", (KINDS, "any", "free"))


def travel_holds(rule, first_day):
    """LAW, 'The unit', category 14: the unit's first day lies in a listed range."""
    ranges, _ = rule.get("cat14", (None, None))
    return ranges is None or in_ranges(ranges, first_day)


def travel_by(rule):
    """LAW, 'The unit', category 14: the last day on which the unit's last flight may depart, or None."""
    return rule.get("cat14", (None, None))[1]
