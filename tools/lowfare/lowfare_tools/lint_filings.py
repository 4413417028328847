"""What lint finds in fares and rules."""
from collections import defaultdict

from lowfare_tools.findings import Finding

FREE = {
    "cat8": (
        "free-stopovers",
        "may pay for stopovers anywhere and of any length, and so for other slices of the journey",
        '"cat8":{"max":0,"charge":0} forbids them',
    ),
    "cat9": (
        "free-transfers",
        "may pay for up to three flights more, of any carrier",
        '"cat9":{"max":0,"online":true} forbids them',
    ),
}


def called(fare):
    return f"{fare.carrier} {fare.origin} {fare.destination} {fare.basis}"


def many(fares, one="", more=""):
    """The fares by the first of them, and what one does, or more do."""
    first = called(fares[0])
    if len(fares) == 1:
        return f"fare {first} {one}".rstrip()
    return f"{len(fares)} fares (the first {first}) {more}".rstrip()


def live_by_rule(book):
    """Live fares by their rule, which may be missing. Rule 0 is one rule for all carriers."""
    rules = defaultdict(list)
    for fare in book.fares.values():
        rules[(fare.carrier if fare.rule else "", fare.rule)].append(fare)
    return rules


def free(case, book, flights):
    for (_, number), fares in live_by_rule(book).items():
        rule = book.rule_of(fares[0])
        if rule is None:
            continue
        lacks = f"on rule {number}, which has no" if number else "on no rule, so without"
        for category, (name, text, advice) in FREE.items():
            if category not in rule.categories:
                yield Finding(fares[0].line, name, f"{many(fares)}, {lacks} {category}, {text}; {advice}")


def unused_rules(case, book, flights):
    used = {(fare.carrier, fare.rule) for fare in book.fares.values()}
    for key, rule in book.rules.items():
        if key not in used:
            yield Finding(rule.line, "unused-rule", f"action {rule.action}: no fare is on rule {rule.number} of {rule.carrier}")


def impossible_stays(case, book, flights):
    for rule in book.rules.values():
        least, longest = rule.categories.get("cat6"), rule.categories.get("cat7")
        days = least.get("days") if isinstance(least, dict) else None
        if isinstance(days, int) and isinstance(longest, int) and days > longest:
            text = f"action {rule.action}: rule {rule.number} of {rule.carrier} wants {days} days or more, and {longest} at most"
            yield Finding(rule.line, "impossible-stay", text)


def unserved(case, book, flights):
    places = {place for row in case.flights for place in (row.origin, row.destination)}
    bare = defaultdict(list)
    for fare in book.fares.values():
        for place in (fare.origin, fare.destination):
            if place not in places:
                bare[place].append(fare)
    for place, fares in bare.items():
        yield Finding(fares[0].line, "unserved-place", f"no flight calls at {place}: {many(fares, 'is', 'are')} never used")


def unsold_classes(case, book, flights):
    sold = {letter for flight in flights for letter in classes_of(book, flight)}
    bare = defaultdict(list)
    for fare in book.fares.values():
        if fare.booking_class not in sold:
            bare[fare.booking_class].append(fare)
    for letter, fares in bare.items():
        yield Finding(fares[0].line, "unsold-class", f"no flight has a seat in class {letter}: {many(fares, 'is', 'are')} never used")


def classes_of(book, flight):
    row = book.seat_row(flight.carrier, flight.number, flight.origin, flight.day)
    return [letter for letter, count in row.seats.items() if count] if row else []


def odd_fares(case, book, flights):
    for filing in case.filings:
        seen = {}
        for action in (action for action in filing if action.name in ("put_fare", "drop_fare")):
            key = tuple(str(action.members.get(name)) for name in ("carrier", "from", "to", "basis"))
            first = seen.pop(key, None)
            if action.name == "put_fare":
                seen[key] = action.at
                if first:
                    text = f"actions {first} and {action.at} both file {' '.join(key)}; the later one counts"
                    yield Finding(action.line, "fare-replaced", text)
    nothing = [fare for fare in book.fares.values() if fare.amount == 0]
    if nothing:
        yield Finding(nothing[0].line, "zero-fare", f"{many(nothing, 'costs', 'cost')} nothing")


def findings(case, book, flights):
    for check in (free, unused_rules, impossible_stays, unserved, unsold_classes, odd_fares):
        yield from check(case, book, flights)
