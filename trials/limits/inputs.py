"""One input at each limit and one past it, with what has to come. Each is made when it is asked for, since some are large."""
import datetime
import json

MOST_BYTES = 67108864
USAGE = "usage: lowfare search|check|make|serve|calendar|verdict"
FIRST_DAY = datetime.date(2031, 3, 3)


def date(day):
    return (FIRST_DAY + datetime.timedelta(days=day)).isoformat()


def fare(start="LON", end="NYC", basis="Y1", kind="O", amount=20000, rule=0):
    return {"put_fare": {"carrier": "QX", "from": start, "to": end, "basis": basis, "class": "Y", "kind": kind, "amount": amount, "rule": rule}}


def rule(number, **members):
    return {"put_rule": {"carrier": "QX", "rule": number, **members}}


def seats(number, day="*", text="Y9"):
    return {"put_seats": {"carrier": "ZZ", "number": number, "from": "LON", "date": day, "seats": text}}


def place(at):
    return "X" + chr(65 + at // 26 % 26) + chr(65 + at % 26) if at < 676 else "Y" + chr(65 + at // 26 % 26) + chr(65 + at % 26)


def flight(number, start, end, day=0, hour=10, period=0, carrier="QX"):
    days = "1234567" if period else str(day % 7 + 1)
    return f"{carrier},{number},{start},{end},{hour:02}:00,+00:00,{hour + 1:02}:00,+00:00,0,{date(day)},{date(day + period)},{days}"


class Case:
    """A case that is the one-way case in all that isn't named."""

    def __init__(self, **sections):
        self.places = ["LON,60", "NYC,60"]
        self.flights = [flight(101, "LON", "NYC")]
        self.seats = ["QX,101,LON,*,Y9"]
        self.filings = [[fare()]]
        self.request = {"sale": "2031-02-01", "party": 1, "best": 3, "slices": [one_slice("LON", "NYC")]}
        self.after = []
        self.later, self.script, self.requests = None, None, 1
        self.__dict__.update(sections)

    def lines(self):
        asked = json.dumps(self.request, separators=(",", ":"))
        found = ["#places", *self.places, "#flights", *self.flights, "#seats", *self.seats, "#filings"]
        found += [filing_text(actions) for actions in self.filings]
        if self.later is not None:
            found += ["#later", *(filing_text(actions) for actions in self.later)]
        found += ["#request", *[asked] * self.requests]
        if self.script is not None:
            found += ["#script", *self.script]
        return [*found, *self.after, "#end"]

    def text(self):
        return ("\n".join(self.lines()) + "\n").encode()

    def line(self, text, last=False):
        """The number of the first or the last line with this beginning."""
        lines = self.lines()
        return max(at for at, line in enumerate(lines, 1) if line.startswith(text)) if last else next(at for at, line in enumerate(lines, 1) if line.startswith(text))


def filing_text(actions):
    return actions if isinstance(actions, str) else json.dumps({"actions": actions}, separators=(",", ":"))


def one_slice(start, end, day=0, days=1):
    return {"from": start, "to": end, "first": date(day), "days": days}


def asking(**members):
    return {**Case().request, **members}


def chain(ways, fares, best=3):
    """A case with a slice for each way over places, with a flight every four hours, on fares as (from, to, kind)."""
    flights, slices = [], []
    for day, way in enumerate(ways):
        for at, (start, end) in enumerate(zip(way, way[1:])):
            flights.append(flight(len(flights) + 1, start, end, day, 1 + 4 * at))
        slices.append(one_slice(way[0], way[-1], day))
    names = sorted({name for way in ways for name in way})
    return Case(
        places=[f"{name},60" for name in names],
        flights=flights,
        seats=sorted({",".join([*row.split(",")[:3], "*", "Y9"]) for row in flights}),
        filings=[[fare(start, end, kind=kind) for start, end, kind in fares]],
        request=asking(slices=slices, best=best),
    )


def legs(ways, kind="O"):
    return sorted({(start, end, kind) for way in ways for start, end in zip(way, way[1:])})


def told_ticket(case):
    """A ticket of a component for each flight."""
    found = []
    for at, row in enumerate(case.flights, 1):
        fields = row.split(",")
        found += [f"component {at} QX {fields[2]} {fields[3]} Y1", f"flight QX {fields[1]} {fields[9]} {fields[2]}"]
    return found


def refused(case, line, reason):
    return case, (1, f"refused {line} {reason}")


def of_size(more):
    text = Case().text()
    return text + b"\n" * (MOST_BYTES + more - len(text))


def of_places(more):
    return Case(places=["LON,60", "NYC,60", *(f"{place(at)},60" for at in range(998 + more))])


def of_flight_rows(more):
    rows = [flight(1 + at, "XAA", "XAB", at % 300, carrier="ZZ") for at in range(4999 + more)]
    return Case(places=["LON,60", "NYC,60", "XAA,60", "XAB,60"], flights=[*Case().flights, *rows])


def of_dated_flights(more):
    rows = [flight(1 + at, place(at % 300), place(300 + at % 300), 0, at % 20, 39, "ZZ") for at in range(4998)]
    last = flight(4999, "XAA", "XAB", 0, 9, 78 + more, "ZZ")
    return Case(places=["LON,60", "NYC,60", *(f"{place(at)},60" for at in range(600))], flights=[*Case().flights, *rows, last])


def of_seat_rows(more, **also):
    rows = [f"ZZ,{1 + at // 100},LON,{date(at % 100)},Y9" for at in range(199999 + more)]
    return Case(seats=["QX,101,LON,*,Y9", *rows], **also)


def of_fares(more):
    fares = [fare("XAA" if at % 2 else "XAB", "XAC", f"B{at}") for at in range(19999)]
    filings = [[fare(), *fares[:4999]], *(fares[first : first + 5000] for first in range(4999, 19999, 5000))]
    return Case(filings=[*filings, *([[fare("XAA", "XAC", "ONEMORE")]] * more)])


def of_rules(more):
    return Case(filings=[[fare(), *(rule(number, cat5=1) for number in range(1, 2001))], *([[rule(2001, cat5=1)]] * more)])


def of_dated_rows(more):
    return of_seat_rows(0, filings=[[fare()], *([[seats(9999)]] * more)])


def six(more):
    ways = [["LON", "NYC"] if at % 2 == 0 else ["NYC", "LON"] for at in range(6 + more)]
    return chain(ways, legs(ways))


def longest_slice(more):
    way = ["LON", "XAA", "XAB", "XAC", "NYC"][: 3 + more] + ["NYC"]
    return chain([way], legs([way]))


def longest_component(more):
    return chain([["LON", "XAA", "XAB", "NYC"], ["NYC", "XAC", "PAR"][1 - more :] if more else ["NYC", "PAR"]], [("LON", "PAR", "O")])


def eighteen():
    """Six slices of three flights, on fares that are each for one flight alone."""
    ways = [["LON", "XAA", "XAB", "NYC"] if at % 2 == 0 else ["NYC", "XAA", "XAB", "LON"] for at in range(6)]
    case = chain(ways, [], best=1)
    alone = rule(1, cat8={"max": 0, "charge": 0}, cat9={"max": 0, "online": False})
    case.filings = [[alone, *(fare(start, end, rule=1) for start, end, _ in legs(ways))]]
    return case


def with_ticket(case, more):
    lines = told_ticket(case) + [f"component {19 + at} QX LON XAA Y1" for at in range(more)]
    return Case(**{**case.__dict__, "after": ["#ticket", *lines]})


def open_units(deep):
    there = [("LON", "NYC"), ("NYC", "CHI"), ("CHI", "DEN")][:deep]
    ways = [list(pair) for pair in there] + [[end, start] for start, end in reversed(there)]
    return chain(ways, [(start, end, "R") for start, end in there])


def labelled(label):
    return Case(after=["#ticket", f"component {label} QX LON NYC Y1", f"flight QX 101 {date(0)} LON"])


def serving(**also):
    return Case(**{"later": [], "script": ["desks 1", "1 search 1"], **also})


def brackets(count, closed=True):
    return Case(filings=["[" * count + "]" * count * closed])


def moves(count):
    """A certificate of one answer of so many moves, and no rows."""
    asked = json.dumps(Case().request, separators=(",", ":"), sort_keys=True)
    lines = ["certificate 1", "version 1", f"request {asked}", "answers 1", "answer 1" + " 1 1 QX Y1 0 0" * count, "rows 0", "end"]
    return Case(after=["#certificate", *lines])


def limits():
    """For each limit its name, and the words, the text and what has to come at it and past it: the status and one line."""
    found = (0, "tickets 1")

    def line(name, at, past, expected=found, words=("search",)):
        yield from [(name, "at", list(words), at, expected), (name, "past", list(words), *past)]

    def case(name, make, reason, where, last=True, expected=found, words=("search",)):
        """A case that is made for 0 and, past the limit, for 1, where it is refused at the line with this beginning."""
        yield name, "at", list(words), lambda: make(0).text(), expected
        yield name, "past", list(words), lambda: make(1).text(), lambda: (1, f"refused {make(1).line(where, last)} {reason}")

    def words_of(name, at, past, expected, given=Case):
        yield name, "at", at.split(), lambda: given().text(), expected
        yield name, "past", past.split(), lambda: given().text(), (2, USAGE)

    yield from line("67,108,864 bytes of a case", lambda: of_size(0), (lambda: of_size(1), (8, "too long")))
    yield from case("1,000 places", of_places, "TooMany", place(998))
    yield from case("5,000 flight rows", of_flight_rows, "TooMany", "ZZ,5000,")
    yield from case("200,000 dated flights", of_dated_flights, "TooMany", "ZZ,4999,")
    yield from case("200,000 seat rows", of_seat_rows, "TooMany", "ZZ,2000,LON," + date(99))
    yield from case("1,000 filings", lambda more: Case(filings=[[fare()], *[[]] * (999 + more)]), "TooMany", '{"actions":[]}', expected=(0, "version 1000"))
    yield from case("5,000 actions of a filing", lambda more: Case(filings=[[fare()] * (5000 + more)]), "action 0 Shape", '{"actions"')
    yield from case("20,000 live fares", of_fares, "action 1 Limit", '{"actions"')
    yield from case("2,000 live rules", of_rules, "action 1 Limit", '{"actions"')
    yield from case("200,000 live seat rows", of_dated_rows, "action 1 Limit", '{"actions"')
    yield from case("amount 1,000,000,000 of a fare", lambda more: Case(filings=[[fare(amount=10**9 + more)]]), "action 1 Shape", '{"actions"', expected=(0, "ticket 1 price 1000000000"))
    yield from case("charge 1,000,000 of a stopover", lambda more: Case(filings=[[rule(1, cat8={"max": 3, "charge": 10**6 + more}), fare(rule=1)]]), "action 1 Rule Range", '{"actions"')
    surcharge = {"carrier": "QX", "low": 101, "high": 101, "first": date(0), "last": date(0)}
    yield from case("amount 1,000,000 of a surcharge", lambda more: Case(filings=[[rule(1, cat12=[{**surcharge, "amount": 10**6 + more}]), fare(rule=1)]]), "action 1 Rule Range", '{"actions"', expected=(0, "ticket 1 price 1020000"))
    yield from case("6 slices", six, "BadRequest Slices", '{"sale"', expected=(0, "tickets 3"))
    yield from line("3 flights in a slice", lambda: longest_slice(0).text(), (lambda: longest_slice(1).text(), (0, "tickets 0")))
    yield from line("4 flights in a component", lambda: longest_component(0).text(), (lambda: longest_component(1).text(), (0, "tickets 0")))
    yield "18 components of a ticket", "at", ["search"], lambda: eighteen().text(), (0, "ticket 1 price 360000")
    yield from case("18 moves of an answer", lambda more: moves(18 + more), "Syntax", "answer 1", expected=(7, "no C1 0"), words=["check"])
    yield from case("18 components of a ticket that is judged", lambda more: with_ticket(eighteen(), more), "Ticket", "component 19 ", expected=(0, "lawful price 360000"), words=["verdict"])
    yield from line("2 units open at once", lambda: open_units(2).text(), (lambda: open_units(3).text(), (0, "tickets 0")))
    yield from case("label 255", lambda more: labelled(255 + more), "Ticket", "component", expected=(0, "breaches 1"), words=["verdict"])
    yield from words_of("--best 1000", "search --best 1000", "search --best 1001", found)
    yield from words_of("--best 1", "search --best 1", "search --best 0", found)
    yield from case("best 1,000", lambda more: Case(request=asking(best=1000 + more)), "BadRequest Best", '{"sale"')
    yield from case("best 1", lambda less: Case(request=asking(best=1 - less)), "BadRequest Best", '{"sale"')
    yield from words_of("--budget 1000000", "search --budget 1000000", "search --budget 1000001", found)
    yield from words_of("--budget 1", "search --budget 1", "search --budget 0", found)
    yield from words_of("--at 1000000", "search --at 1000000", "search --at 1000001", (1, "refused 0 NoVersion"))
    yield from words_of("--seed 4294967295", "make --size 1 --seed 4294967295", "make --size 1 --seed 4294967296", (0, "#places"))
    yield from words_of("--size 100", "make --size 100 --seed 1", "make --size 101 --seed 1", (0, "#places"))
    yield from words_of("--outs 31 --backs 31", "calendar --outs 31 --backs 31", "calendar --outs 32 --backs 31", (0, "calendar 31 31"), lambda: six(-4))
    yield from words_of("ten digits", "search --best 0000000003", "search --best 00000000003", found)
    yield from case("party 9", lambda more: Case(request=asking(party=9 + more)), "BadRequest Party", '{"sale"')
    yield from case("a window of 7 days", lambda more: Case(request=asking(slices=[one_slice("LON", "NYC", 0, 7 + more)])), "BadRequest Window", '{"sale"')
    yield from case("least connect time 1,440", lambda more: Case(places=["LON,60", f"NYC,{1440 + more}"]), "BadRow column 2", "NYC,")
    yield from case("flight number 9999", lambda more: Case(flights=[*Case().flights, flight(9999 + more, "LON", "NYC", 9)]), "BadRow column 2", "QX,10000,")
    yield from case("offset +14:00", lambda more: Case(flights=[*Case().flights, flight(1, "LON", "NYC", 9).replace("+00:00", f"+14:0{more}")]), "BadRow column 6", "QX,1,")
    yield from case("a period of 366 days", lambda more: Case(flights=[*Case().flights, flight(1, "LON", "NYC", 9, period=365 + more)]), "BadPeriod", "QX,1,")
    yield from line("lists in lists, 127 deep", lambda: brackets(127).text(), (lambda: brackets(128).text(), (1, "refused 9 Syntax")), (1, "refused 9 action 0 Shape"))
    yield from line("a line of 60 MB, a text or open brackets", lambda: Case(filings=[f'"{"a" * 60000000}"']).text(), (lambda: brackets(60000000, False).text(), (1, "refused 9 Syntax")), (1, "refused 9 action 0 Shape"))
    yield from case("1,000 later filings", lambda more: serving(later=[[]] * (1000 + more), script=["desks 1", "1 wait 1000", "1 search 1"]), "TooMany", '{"actions":[]}', expected=(0, "history 1001"), words=["serve"])
    yield from case("100 requests of serve", lambda more: serving(requests=100 + more), "TooMany", '{"sale"', expected=(0, "history 1"), words=["serve"])
    yield from case("1,000 script lines", lambda more: serving(script=["desks 1", *["1 search 1"] * (999 + more)]), "TooMany", "1 search 1", expected=(0, "reply 999 desk 1 version 1"), words=["serve"])
    yield from case("8 desks", lambda more: serving(script=[f"desks {8 + more}", "8 search 1"]), "Script", "desks", expected=(0, "reply 1 desk 8 version 1"), words=["serve"])
    yield from case("1 desk", lambda less: serving(script=[f"desks {1 - less}", "1 search 1"]), "Script", "desks", expected=(0, "reply 1 desk 1 version 1"), words=["serve"])
