"""Writes a case, line by line, in the form of docs/FORMATS.md."""
import json

from lowfare_tools.case import Action


def time_text(minute):
    return f"{minute // 60:02}:{minute % 60:02}"


def offset_text(offset):
    return ("-" if offset < 0 else "+") + time_text(abs(offset))


def place_text(place):
    return f"{place.code},{place.connect}"


def flight_text(row):
    times = [time_text(row.departs), offset_text(row.departs_offset), time_text(row.arrives), offset_text(row.arrives_offset)]
    days = [row.first.isoformat(), row.last.isoformat(), "".join(map(str, row.weekdays))]
    return ",".join([row.carrier, str(row.number), row.origin, row.destination, *times, str(row.shift), *days])


def classes_text(seats):
    return "".join(f"{letter}{count}" for letter, count in seats.items())


def seat_text(row):
    day = row.day.isoformat() if row.day else "*"
    return f"{row.carrier},{row.number},{row.origin},{day},{classes_text(row.seats)}"


def compact(value):
    return json.dumps(value, separators=(",", ":"))


def filing_text(actions):
    return compact({"actions": [{action.name: action.members} for action in actions]})


def put_fare(fare):
    """The action that files a fare."""
    members = {
        "carrier": fare.carrier,
        "from": fare.origin,
        "to": fare.destination,
        "basis": fare.basis,
        "class": fare.booking_class,
        "kind": fare.kind,
        "amount": fare.amount,
        "rule": fare.rule,
    }
    return Action("put_fare", members)


def put_rule(rule):
    """The action that files a rule."""
    return Action("put_rule", {"carrier": rule.carrier, "rule": rule.number, **rule.categories})


def request_text(request):
    slices = [
        {"from": part.origin, "to": part.destination, "first": part.first.isoformat(), "days": part.days}
        for part in request.slices
    ]
    value = {"sale": request.sale.isoformat(), "party": request.party, "best": request.best, "slices": slices}
    return compact(value)


def case_text(case):
    """The text of a case: sections that a case of its kind has, in their order. Its kind is check where it has a certificate,
    verdict where it has a ticket, serve where it has a script, else search."""
    lines = ["#places", *map(place_text, case.places), "#flights", *map(flight_text, case.flights)]
    lines += ["#seats", *map(seat_text, case.seats), "#filings", *map(filing_text, case.filings)]
    if case.script:
        lines += ["#later", *map(filing_text, case.later)]
    lines += ["#request", *map(request_text, case.requests)]
    for name in ("certificate", "ticket", "script"):
        if getattr(case, name):
            lines += [f"#{name}", *(text for _, text in getattr(case, name))]
    return "\n".join([*lines, "#end", ""])
