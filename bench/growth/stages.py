"""The stages of the program, each with a case that shows what its time and room grow with: a case of a size, twice the size and so on, in
which the rest of the program does little. GROWTH.md tells them one by one."""
import collections
import random

from cases import case, compact, fare, filings_of, one_slice, place, rule, Rows

# What is measured of a case: the words, the bytes, and the size in the stage's own count, where it isn't the one asked for.
Asked = collections.namedtuple("Asked", "words given size")
# `said` is the exponent that GROWTH.md says.
Stage = collections.namedtuple("Stage", "name counts tiny sizes larger said make")

BUDGET = ["--budget", "1000000"]


def one_way(**more):
    rows = Rows()
    rows.add("AAA", "BBB", 600, 60)
    return {"rows": rows, "actions": [fare("AAA", "BBB", "Y1", 20000)], "slices": [one_slice("AAA", "BBB")], **more}


def reading(size):
    """Bytes: lines that are empty, which are cut and passed by."""
    given = case(**one_way())
    return Asked(["search"], given + b"\n" * (size * 1_000_000 - len(given)), size)


def seats(size):
    """Seat rows, each of a flight that isn't there."""
    classes = "A9B8C7D6E5F4G3H2J1K9L8M7N6Q5R4S3T2V1W9Y9"
    return Asked(["search"], case(**one_way(more=[f"ZZ,{at % 9999 + 1},{place(at // 9999)},*,{classes}" for at in range(size - 1)])), size)


def schedule(size):
    """Dated flights: rows of forty days."""
    rows = Rows()
    for at in range(size // 40):
        rows.add(place(at % 300), place(300 + at % 299), at * 7 % 1440, 60, days=40)
    return Asked(["search"], case(rows, [], [one_slice(place(0), place(300))]), size)


def filings(size):
    """Actions: the same 1,000 fares of one market filed again and again."""
    one = compact(fare("AAA", "BBB", "NAME", 0)).replace('"amount":0', '"amount":AMOUNT')
    actions = [one.replace("NAME", f"Y{at % 1000}").replace("AMOUNT", str(20000 + 2 * at)) for at in range(size)]
    lines = ['{"actions":[' + ",".join(actions[at : at + 5000]) + "]}" for at in range(0, size, 5000)]
    return Asked(["search", "--best", "1"], case(**one_way(filings=lines)), size)


def books(size):
    """Later filings of one fare each, upon a book of 10,000 markets."""
    actions = [fare(place(at // 100), place(200 + at % 100), "Y1", 20000) for at in range(10000)]
    rows = one_way()["rows"]
    later = filings_of([fare("AAA", "BBB", "Y1", 30000 + at) for at in range(size)], most=1)
    script = ["desks 1", f"1 wait {size}", "1 search 1"]
    return Asked(["serve"], case(rows, actions, [one_slice("AAA", "BBB")], later=later, script=script), size)


def hubs(rows, count, ways):
    """Flights to and from hubs, so many each, between which each connection fits."""
    for hub in range(count):
        for at in range(ways):
            rows.add("AAA", place(30 + hub), at * 600 // ways, 60)
            rows.add(place(30 + hub), "BBB", 720 + at * 600 // ways, 60)


def positions(size):
    """Heads of a position: connections over four hubs, on which no fare is filed."""
    rows, ways = Rows(), round((size * 1000 / 4) ** 0.5)
    hubs(rows, 4, ways)
    return Asked(["search"], case(rows, [], [one_slice("AAA", "BBB")]), 4 * ways**2 // 1000)


def crossing(count, groups=1, **categories):
    """Heads and tails of two slices: so many flights in each, and fares over both in so many groups, whose rules add a charge, so that no
    class of paths is done with before the last of them."""
    rows = Rows()
    for at in range(count):
        rows.add("AAA", "BBB", at * 600 // count, 60)
        rows.add("BBB", "CCC", 1440 + 240 + at * 600 // count, 60)
    charge = [{"carrier": "QX", "low": 1, "high": 9999, "first": "2031-01-01", "last": "2031-12-31", "amount": 100}]
    actions = [rule(number + 1, cat9={"max": 3, "online": True}, cat12=charge, **categories) for number in range(groups)]
    actions += [fare("AAA", "CCC", f"Y{number}", 20000 + number, rule=number + 1) for number in range(groups)]
    return rows, actions, [one_slice("AAA", "BBB"), one_slice("BBB", "CCC", 1)]


def tables(size):
    """Pairs of a head and a tail, none of which may be passed by."""
    count = round((size * 1000) ** 0.5)
    return Asked(["search", "--best", "1"], case(*crossing(count)), count**2 // 1000)


def groups(size):
    """Groups of fares of one market, on 10,000 pairs of a head and a tail."""
    return Asked(["search", "--best", "1"], case(*crossing(100, groups=size)), size)


def grouping(size):
    """Groups of fares of one market, on one path."""
    rows = one_way()["rows"]
    actions = [rule(number + 1, cat5=7) for number in range(size // 2)]
    actions += [fare("AAA", "BBB", f"Y{at}", 20000 + 2 * at, rule=at % (size // 2) + 1, kind="OS"[at // (size // 2) % 2]) for at in range(size * 4)]
    return Asked(["search", "--best", "1"], case(rows, actions, [one_slice("AAA", "BBB")]), size)


def network(size, best=10):
    """A way there and back over so many hubs, in which the residuals grow with the square of the hubs."""
    rows, draw = Rows(), random.Random(size)
    rows.add("AAA", "BBB", 540, 240)
    rows.add("BBB", "AAA", 7 * 1440 + 540, 240)
    actions = [
        rule(1, cat5=14, cat6={"days": 3, "sunday": True}),
        rule(2, cat3=[["2031-01-01", "2031-06-30"]], cat7=30, cat9={"max": 1, "online": True}),
        rule(3, cat10={"kinds": ["round_trip", "open_jaw"], "partners": "same_rule", "end_on_end": "free"}),
        rule(4, cat10={"kinds": ["one_way", "round_trip"], "partners": "any", "end_on_end": "same_carrier"}),
    ]
    for hub in (place(100 + at) for at in range(size)):
        for start, end, leaves in (("AAA", hub, 360), (hub, "BBB", 720), ("BBB", hub, 7 * 1440 + 360), (hub, "AAA", 7 * 1440 + 720)):
            rows.add(start, end, leaves + draw.randrange(120), 60)
        actions += [fare("AAA", hub, "V", 4000 + 2 * draw.randrange(4000)), fare(hub, "BBB", "V", 4000 + 2 * draw.randrange(4000))]
    for at in range(2 * size):
        actions.append(fare("AAA", "BBB", f"B{at}", 10000 + 2 * draw.randrange(20000), rule=draw.randrange(5), kind="ORS"[draw.randrange(3)]))
    actions.append(fare("BBB", "AAA", "Z", 30000))
    return case(rows, actions, [one_slice("AAA", "BBB"), one_slice("BBB", "AAA", 7)], best=best)


def tickets(size, best=1000):
    """A slice with so many flights and thirty fares, so that all tickets are moves of one residual."""
    rows = Rows()
    for at in range(size):
        rows.add("AAA", "BBB", at * 1200 // size, 60)
    draw = random.Random(1)
    return case(rows, [fare("AAA", "BBB", f"Y{at}", 20000 + draw.randrange(20000)) for at in range(30)], [one_slice("AAA", "BBB")], best=best)


def drawing(size):
    """Tickets that are drawn, of 600 flights and thirty fares."""
    return Asked(["search", "--best", str(size)], tickets(600), size)


def drawing_paths(size):
    """Paths of the residual of which 1,000 tickets are drawn."""
    return Asked(["search", "--best", "1000"], tickets(size), size)


def answers(size):
    """Answers that each have a first move of their own: so many flights out, and so many back of which one is cheap."""
    rows, back = Rows(), 400
    for at in range(size):
        rows.add("AAA", "BBB", at * 1200 // size, 60)
    for at in range(back):
        rows.add("BBB", "AAA", 1440 * 3 + at * 1200 // back, 60, seats="Y9" if at == 0 else "M9")
    actions = [fare("AAA", "BBB", "Y", 20000), fare("BBB", "AAA", "Y", 20000), fare("BBB", "AAA", "M", 90000, booked="M")]
    return case(rows, actions, [one_slice("AAA", "BBB"), one_slice("BBB", "AAA", 3)], best=size)


def calendar(size):
    """Cells: so many days out and so many back of a way over twenty hubs each day."""
    rows = Rows()
    for hub in range(20):
        name = place(100 + hub)
        for start, end, leaves in (("AAA", name, 400), (name, "BBB", 700), ("BBB", name, 400), (name, "AAA", 700)):
            rows.add(start, end, leaves + hub, 60, days=70)
    actions = [fare("AAA", "BBB", f"R{at}", 20000 + 2 * at, kind="R") for at in range(5)]
    given = case(rows, actions, [one_slice("AAA", "BBB"), one_slice("BBB", "AAA", 35)])
    return Asked(["calendar", "--outs", str(size), "--backs", str(size)], given, size**2)


def desks(size):
    """Searches of one desk, in turn of two requests, over the same version."""
    rows, actions, slices = crossing(60)
    given = case(rows, actions, slices, best=1, later=[], script=["desks 1", *("1 search 1", "1 search 2") * (size // 2)])
    lines = given.split(b"\n")
    at = lines.index(b"#request") + 1
    return Asked(["serve"], b"\n".join([*lines[: at + 1], lines[at].replace(b'"party":1', b'"party":2'), *lines[at + 1 :]]), size)


def doubled(first, count):
    return [first * 2**at for at in range(count)]


# Hubs of the network, whose residuals grow with their square; and answers with a front each.
NETWORK = [140, 200, 280, 400]
LARGER_NETWORK = [200, 280, 400, 560, 800]
ANSWERS = doubled(125, 4)

STAGES = [
    Stage("reading", "bytes, in millions", [1, 2], doubled(8, 3), doubled(8, 4)[:3] + [60], 1, reading),
    Stage("schedule", "dated flights", [400, 800], doubled(25000, 4), doubled(25000, 4), 1, schedule),
    Stage("seats", "seat rows", [20, 40], doubled(25000, 4), doubled(25000, 4), 1, seats),
    Stage("filings", "actions", [20, 40], doubled(50000, 4), doubled(50000, 4), 1, filings),
    Stage("books", "later filings", [2, 4], doubled(125, 3), doubled(125, 4), 1, books),
    Stage("positions", "heads, in thousands", [1, 4], doubled(160, 4), doubled(160, 4), 1, positions),
    Stage("tables: pairs", "pairs of head and tail, in thousands", [1, 4], doubled(500, 3), doubled(500, 4), 1, tables),
    Stage("tables: groups", "groups of a market, 10,000 pairs", [2, 4], doubled(50, 4), doubled(50, 6), 1, groups),
    Stage("markets", "groups of a market, one path", [4, 8], doubled(500, 4), doubled(500, 4), 1, grouping),
    Stage("drawing: tickets", "tickets", [2, 4], doubled(125, 4), doubled(125, 4), 1, drawing),
    Stage("drawing: paths", "paths of the residual, 1,000 tickets", [5, 10], doubled(600, 3), doubled(600, 4), 1, drawing_paths),
    Stage("calendar", "cells", [2, 4], [4, 8, 16, 31], [4, 8, 16, 31], 1, calendar),
    Stage("desks", "searches", [2, 4], doubled(16, 3), doubled(16, 5), 1, desks),
]
