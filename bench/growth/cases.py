"""Cases of any size for the measurements of growth and for the attacks: rows, fares and requests from few numbers, the same for the
same numbers. What they hold is within the limits of FORMATS.md."""
import datetime
import json
import string

FIRST_DAY = datetime.date(2031, 3, 3)
LETTERS = string.ascii_uppercase
SIGNS = LETTERS + string.digits
DAY = 1440


def date(day):
    return (FIRST_DAY + datetime.timedelta(days=day)).isoformat()


def place(number):
    """The code of a place by its number, up to 17,575."""
    return LETTERS[number // 676] + LETTERS[number // 26 % 26] + LETTERS[number % 26]


def carrier(number):
    """The code of a carrier by its number, up to 1,295."""
    return SIGNS[number // 36] + SIGNS[number % 36]


def basis(number):
    """A fare basis by its number, up to 1,679,615."""
    return "".join(SIGNS[number // 36**power % 36] for power in (3, 2, 1, 0))


def clock(minute):
    return f"{minute // 60 % 24:02}:{minute % 60:02}"


def compact(value):
    return json.dumps(value, separators=(",", ":"))


class Rows:
    """Flight rows of universal time, each with a number of its own among those of its carrier, and a seat row for each."""

    def __init__(self):
        self.flights, self.seats, self.numbers = [], [], {}

    def add(self, start, end, leaves, length, days=1, by="QX", seats="Y9"):
        """A flight that leaves at this minute after the first day began, and on each day after it, up to so many."""
        number = self.numbers[by] = self.numbers.get(by, 0) + 1
        first, minute = divmod(leaves, DAY)
        lands = minute + length
        self.flights.append(
            f"{by},{number},{start},{end},{clock(minute)},+00:00,{clock(lands)},+00:00,{lands // DAY},{date(first)},{date(first + days - 1)},1234567"
        )
        self.seats.append(f"{by},{number},{start},*,{seats}")
        return number

    def places(self):
        found = {name for row in self.flights for name in row.split(",")[2:4]}
        return sorted(found)


def fare(start, end, name, amount, rule=0, kind="O", by="QX", booked="Y"):
    return {"put_fare": {"carrier": by, "from": start, "to": end, "basis": name, "class": booked, "kind": kind, "amount": amount, "rule": rule}}


def rule(number, by="QX", **categories):
    return {"put_rule": {"carrier": by, "rule": number, **categories}}


def put_seats(by, number, start, day="*", seats="Y9"):
    return {"put_seats": {"carrier": by, "number": number, "from": start, "date": day, "seats": seats}}


def one_slice(start, end, day=0, days=1):
    return {"from": start, "to": end, "first": date(day), "days": days}


def filings_of(actions, most=5000):
    """The lines of filings that have these actions, as many as may be in each."""
    return [compact({"actions": actions[at : at + most]}) for at in range(0, len(actions), most)]


def case(rows, actions, slices, best=10, connect=30, more=(), later=None, script=None, party=1, filings=None):
    """The bytes of a case. `more` are further seat rows; with `later` and `script` it is a serve case."""
    asked = {"sale": "2031-02-01", "party": party, "best": best, "slices": slices}
    names = sorted({*rows.places(), *(one[side] for one in slices for side in ("from", "to"))})
    lines = ["#places", *(f"{name},{connect}" for name in names), "#flights", *rows.flights, "#seats", *rows.seats, *more]
    lines += ["#filings", *(filings_of(actions) if filings is None else filings)]
    if script is not None:
        lines += ["#later", *(later or [])]
    lines += ["#request", compact(asked)]
    if script is not None:
        lines += ["#script", *script]
    return ("\n".join([*lines, "#end"]) + "\n").encode()


def with_certificate(given, answer):
    """The check case of a search case and what was written for it."""
    told = answer[answer.index(b"certificate ") :]
    return given.removesuffix(b"#end\n") + b"#certificate\n" + told + b"#end\n"
