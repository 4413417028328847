#!/usr/bin/env python3
"""Makes of a made case of standard input one for `serve`: eight desks that search by two requests, and a thousand later filings, each of
which files a fare again at another price, drops it, files a rule again or changes a row of seats.
"""
import json
import sys

DESKS, SEARCHES, LATER = 8, 240, 1000


def change(number, fares, rules, seats):
    """The action of this later filing."""
    fare = fares[number // 8 % len(fares)]
    key = {name: fare[name] for name in ("carrier", "from", "to", "basis")}
    kind = number % 8
    if kind == 2:
        return {"drop_fare": key}
    if kind == 5:
        return {"put_rule": rules[number % len(rules)]}
    if kind == 6:
        return {"put_seats": seats[number % len(seats)]}
    return {"put_fare": fare | {"amount": fare["amount"] + 2 * number}}


def seats_of(row):
    """A row of seats as an action gives it, with other seats."""
    carrier, number, start, _, _ = row.split(",")
    return {"carrier": carrier, "number": int(number), "from": start, "date": "*", "seats": "Y7M5Q3"}


def main():
    lines = sys.stdin.read().split("\n")
    request = lines.index("#request")
    actions = json.loads(lines[lines.index("#filings") + 1])["actions"]
    fares = [action["put_fare"] for action in actions if "put_fare" in action]
    rules = [action["put_rule"] for action in actions if "put_rule" in action]
    seats = [seats_of(row) for row in lines[lines.index("#seats") + 1 : lines.index("#filings")]]
    later = [json.dumps({"actions": [change(number, fares, rules, seats)]}) for number in range(LATER)]
    asked = json.loads(lines[request + 1])
    requests = [lines[request + 1], json.dumps(asked | {"party": 1})]
    script = [f"desks {DESKS}", *(f"{number % DESKS + 1} search {number // DESKS % 2 + 1}" for number in range(SEARCHES))]
    print("\n".join([*lines[:request], "#later", *later, "#request", *requests, "#script", *script, "#end"]))


main()
