"""Reads rules from CSV: a row for each rule, columns for each category. An empty field restricts nothing.

    carrier, rule            whose rule it is, and its number, 1 to 9999, by which fares name it
    days, from_time, to_time category 2: weekdays such as 1234 (1 for Monday), and the first and last minute of departure, HH:MM
    season                   category 3: one to eight periods FIRST..LAST, parted by blanks, in which the journey begins
    flights                  category 4: `only BX11-19 EX101`, or `not BX400-499`
    advance                  category 5: days before departure
    min_stay, sunday         category 6: days, and whether a night from Saturday to Sunday has to be spent (yes, no)
    max_stay                 category 7: days
    stopovers, stopover_charge, stopover_places
                             category 8: how many, the charge for each (times the factor, as fares are), and where, parted by blanks
    transfers, online        category 9: how many, and whether all flights have to be of the fare's carrier (yes, no)
    units, partners, end_on_end
                             category 10: of one_way, round_trip, open_jaw, circle, parted by blanks (all where it is empty);
                             any, same_carrier or same_rule; free, same_carrier or never
    surcharges               category 12: `BX15 2031-03-01..2031-03-31 30.00`, one to eight, parted by ` | `
    travel, travel_by        category 14: periods as for season, and the last day on which a last flight may leave
"""
import re

from lowfare_tools.case import BadField, Rule, carrier_of, date_of, match, minute_of, number_of, weekdays_of
from lowfare_tools.case_text import time_text
from lowfare_tools.tables import Form, read_table

UNITS = ("one_way", "round_trip", "open_jaw", "circle")
MOST_CHARGE = 1_000_000


def some(column, parts, most):
    """One to so many parts."""
    if not 1 <= len(parts) <= most:
        raise BadField(column, f"{len(parts)} of them, not 1 to {most}")
    return parts


def one_of(column, text, words, otherwise):
    if text and text not in words:
        raise BadField(column, f"{text!r} is none of {', '.join(words)}")
    return text or otherwise


def yes_of(column, text):
    return one_of(column, text.lower(), ("yes", "no"), "no") == "yes"


def goes_with(row, owner, *others):
    """Refuses a column that says nothing without another one."""
    for name in others:
        if row[name] and not row[owner]:
            raise BadField(name, f"it says nothing where {owner} is empty")


def period_of(column, text):
    first, _, last = text.partition("..")
    days = date_of(column, first), date_of(column, last or first)
    if days[1] < days[0]:
        raise BadField(column, f"{text} ends before it begins")
    return [day.isoformat() for day in days]


def periods_of(column, text):
    return [period_of(column, part) for part in some(column, text.split(), 8)]


def flights_of(column, text):
    """Carrier and the least and greatest number of `BX11-19` or `BX11`."""
    found = match(column, r"([A-Z0-9]{2})([0-9]+)(?:-([0-9]+))?", text, "flights such as BX11-19 or BX11")
    low = number_of(column, found[2], 1, 9999)
    high = number_of(column, found[3] or found[2], 1, 9999)
    if high < low:
        raise BadField(column, f"{text} ends before it begins")
    return found[1], low, high


def day_time(row, source):
    if not (row["days"] or row["from_time"] or row["to_time"]):
        return None
    days = weekdays_of("days", row["days"] or "1234567")
    first = minute_of("from_time", row["from_time"] or "00:00")
    last = minute_of("to_time", row["to_time"] or "23:59")
    if last < first:
        raise BadField("to_time", f"{row['to_time']} is before from_time")
    return {"days": list(days), "from": time_text(first), "to": time_text(last)}


def season(row, source):
    return periods_of("season", row["season"]) if row["season"] else None


def flights(row, source):
    if not row["flights"]:
        return None
    word, *parts = row["flights"].split()
    match("flights", "only|not", word, "`only` or `not`, and then flights")
    return {"allow": word == "only", "flights": [list(flights_of("flights", part)) for part in some("flights", parts, 16)]}


def advance(row, source):
    return number_of("advance", row["advance"], 0, 365) if row["advance"] else None


def least_stay(row, source):
    if not (row["min_stay"] or row["sunday"]):
        return None
    return {"days": number_of("min_stay", row["min_stay"] or "0", 0, 365), "sunday": yes_of("sunday", row["sunday"])}


def longest_stay(row, source):
    return number_of("max_stay", row["max_stay"], 0, 365) if row["max_stay"] else None


def stopovers(row, source):
    goes_with(row, "stopovers", "stopover_charge", "stopover_places")
    if not row["stopovers"]:
        return None
    charge = source.amount("stopover_charge", row["stopover_charge"] or "0", MOST_CHARGE)
    made = {"max": number_of("stopovers", row["stopovers"], 0, 3), "charge": charge}
    places = [source.place("stopover_places", part) for part in row["stopover_places"].split()]
    return {**made, "places": some("stopover_places", places, 16)} if places else made


def transfers(row, source):
    goes_with(row, "transfers", "online")
    if not row["transfers"]:
        return None
    return {"max": number_of("transfers", row["transfers"], 0, 3), "online": yes_of("online", row["online"])}


def combinations(row, source):
    if not (row["units"] or row["partners"] or row["end_on_end"]):
        return None
    asked = row["units"].split() or UNITS
    for unit in asked:
        one_of("units", unit, UNITS, "")
    partners = one_of("partners", row["partners"], ("any", "same_carrier", "same_rule"), "any")
    ends = one_of("end_on_end", row["end_on_end"], ("free", "same_carrier", "never"), "free")
    return {"kinds": [unit for unit in UNITS if unit in asked], "partners": partners, "end_on_end": ends}


def surcharge(text, source):
    parts = text.split()
    if len(parts) != 3:
        raise BadField("surcharges", f"{text!r} is not flights, a period and an amount, such as BX15 2031-03-01..2031-03-31 30")
    carrier, low, high = flights_of("surcharges", parts[0])
    first, last = period_of("surcharges", parts[1])
    amount = source.amount("surcharges", parts[2], MOST_CHARGE)
    return {"carrier": carrier, "low": low, "high": high, "first": first, "last": last, "amount": amount}


def surcharges(row, source):
    if not row["surcharges"]:
        return None
    return [surcharge(part, source) for part in some("surcharges", re.split(r"\s*\|\s*", row["surcharges"]), 8)]


def travel(row, source):
    made = {}
    if row["travel"]:
        made["ranges"] = periods_of("travel", row["travel"])
    if row["travel_by"]:
        made["by"] = date_of("travel_by", row["travel_by"]).isoformat()
    return made or None


READERS = {
    "cat2": day_time,
    "cat3": season,
    "cat4": flights,
    "cat5": advance,
    "cat6": least_stay,
    "cat7": longest_stay,
    "cat8": stopovers,
    "cat9": transfers,
    "cat10": combinations,
    "cat12": surcharges,
    "cat14": travel,
}
COLUMNS = (
    *("days", "from_time", "to_time", "season", "flights", "advance", "min_stay", "sunday", "max_stay"),
    *("stopovers", "stopover_charge", "stopover_places", "transfers", "online", "units", "partners", "end_on_end"),
    *("surcharges", "travel", "travel_by"),
)


def read_rules(name, data, report, source):
    """Rules, with their categories as a filing has them."""

    def take(row, line):
        carrier, number = carrier_of("carrier", row["carrier"]), number_of("rule", row["rule"], 1, 9999)
        made = {category: read(row, source) for category, read in READERS.items()}
        return Rule(carrier, number, {category: value for category, value in made.items() if value is not None}, line)

    return read_table(name, data, report, Form(("carrier", "rule"), COLUMNS, take, lambda rule: (rule.carrier, rule.number)))
