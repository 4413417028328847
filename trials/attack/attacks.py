"""The attacks: each a case that is as bad as its author could make it for one table or list of the program, and a harmless one of the same
size, with the same count of residuals. Both are within the limits."""
import collections
import datetime
import json

from cases import DAY, carrier, case, compact, fare, one_slice, place, put_seats, rule, Rows
from collisions import end_digits, group_of_day, groups_for, seat_state
from stages import answers, crossing

# `where` is the table or the list; `words` are the program's; `cases` gives the harmless case and the attack; `checked` says that what is run
# is the check of what the program writes for them.
Attack = collections.namedtuple("Attack", "name where words cases checked")
EPOCH = datetime.date(1970, 1, 1)
SEARCH = ["search", "--budget", "1000000"]
AB = [one_slice("AAA", "BBB")]


def scaled(number, scale):
    return max(2, round(number * scale))


def dated_rows(wanted, keys_of, count):
    """Seat rows of flights that aren't there, on the days that suit."""
    rows, number = [], 0
    while len(rows) < count:
        number += 1
        for day in keys_of(number, min(wanted, count - len(rows))):
            rows.append(f"ZZ,{number},XXX,{EPOCH + datetime.timedelta(days=day)},Y9")
    return rows


def seat_keys(scale):
    """Seat rows whose keys are looked for in an eighth of the groups of the map, so that the others are filled by overflow."""
    count = scaled(199_000, scale)
    groups, first = groups_for(count), (datetime.date(2000, 1, 1) - EPOCH).days
    days = range(first, first + 36_500)

    def meeting(number, most):
        state = seat_state("ZZ", number, "XXX")
        found = [day for day in days if group_of_day(state, day, groups) < groups // 8]
        return found[:most]

    def apart(_, most):
        return days[:most]

    for keys_of in (apart, meeting):
        rows = Rows()
        rows.add("AAA", "BBB", 600, 60)
        yield case(rows, [fare("AAA", "BBB", "Y", 20000)], AB, more=dated_rows(4500, keys_of, count))


def ends_of_carriers(apart, carriers, each, spots=1024):
    """For each carrier places with which its ends share one spot, or any."""
    free, found = set(range(1000, 17_576)), {}
    for number in range(1296):
        if len(found) == carriers:
            break
        by = carrier(number)
        suited = [at for at in free if apart or end_digits(place(at), by) % spots == 7]
        if len(suited) >= each:
            found[by] = sorted(suited)[:each]
            free -= set(found[by])
    return found


def path_ends(scale):
    """Ends of paths that share a spot: connections over a hub for each carrier to places of its own."""
    count, ways = scaled(50, scale), scaled(80, scale)
    for apart in (True, False):
        rows = Rows()
        for at, (by, names) in enumerate(ends_of_carriers(apart, count, 15).items()):
            for way in range(ways):
                rows.add("AAA", place(30 + at), way * 7 + at % 7, 60, days=7, by=by)
            for way, name in enumerate(names):
                rows.add(place(30 + at), place(name), 720 + way * 10, 60, days=7, by=by)
        rows.add("AAA", "BBB", 600, 60)
        yield case(rows, [fare("AAA", "BBB", "Y", 20000)], [one_slice("AAA", "BBB", days=7)])


def heads_in_turn(scale):
    """Heads that arrive in turn a day before the first tail departs (3480, so up to 2039) and a minute later, which parts two classes of
    heads: each has a row anew."""
    ways, tails = scaled(200, scale), scaled(1500, scale)
    for late in (0, 1):
        rows = Rows()
        for at in range(ways):
            rows.add("AAA", "HUB", at, 60, by="QX")
            leaves = 300 + at * 4
            rows.add("HUB", "BBB", leaves, 2039 + late - leaves if at % 2 else 60)
        for at in range(tails):
            leaves = 3480 + at // 2
            rows.add("BBB", "CCC", leaves, 30 + at % 2, by=carrier(700 + at % 2))
            rows.add("CCC", "DDD", leaves + 30 + at % 2 + 1440, 60, by=carrier(700 + at % 2))
        actions = [fare("AAA", "BBB", "Y", 20000), fare("AAA", "CCC", "M", 20000, booked="M")]
        given = case(rows, actions, [one_slice("AAA", "BBB"), one_slice("BBB", "DDD", 2, days=2)])
        yield given.replace(b"\nCCC,30\n", b"\nCCC,1440\n")


def one_class_of_tails(scale):
    """Heads and very many tails of one class, all done with after the first, where a fare is filed over both; harmless without that fare."""
    heads, ways = scaled(1500, scale), scaled(400, scale)
    for over in ("DDD", "CCC"):
        rows = Rows()
        for at in range(heads):
            rows.add("AAA", "BBB", at * 600 // heads, 60)
        for at in range(ways):
            rows.add("BBB", "HUB", 1440 + at, 60)
            rows.add("HUB", "CCC", 1440 + 600 + at, 60)
        rows.add("CCC", "DDD", 600, 60)
        actions = [fare("AAA", "BBB", "Y", 20000), fare("BBB", "CCC", "Y", 20000), fare("AAA", over, "Y", 50000)]
        yield case(rows, actions, [one_slice("AAA", "BBB"), one_slice("BBB", "CCC", 1)])


def carriers_in_turn(scale):
    """Heads of more carriers in turn than there is room for gaps; harmless with few carriers."""
    heads, ways = scaled(800, scale), scaled(400, scale)
    for carriers in (4, 80):
        rows = Rows()
        for at in range(heads):
            rows.add("AAA", "BBB", at * 600 // heads, 60, by=carrier(at % carriers))
        for at in range(ways):
            rows.add("BBB", "HUB", 1440 + at, 60)
            rows.add("HUB", "CCC" if at % 2 else "DDD", 1440 + 600 + at, 60)
        actions = [fare("AAA", "BBB", "Y", 20000), fare("BBB", "CCC", "Y", 20000), fare("AAA", "DDD", "Y", 50000, by="ZZ")]
        actions += [fare("AAA", "CCC", "M", 50000, booked="M", by=carrier(at)) for at in range(80)]
        yield case(rows, actions, [one_slice("AAA", "BBB"), one_slice("BBB", "CCC", 1)])


def bit_of(name):
    """Which bit of a mark a place has."""
    return sum(ord(letter) * times for letter, times in zip(name, (676, 26, 1))) % 64


def marked_places(scale):
    """Places whose bits are one, in heads and tails that are joined a million times."""
    meeting = next(place(at) for at in range(2000, 17_576) if bit_of(place(at)) == bit_of("AAA"))
    for far in ("CCC", meeting):
        yield case(*crossing(scaled(1000, scale)), best=1).replace(b"CCC", far.encode())


def many_rules(rules, count, kinds="OS"):
    """Fares of one market, in turn under so many rules, which ask nothing."""
    actions = [rule(number + 1, cat5=7) for number in range(rules)]
    return actions + [fare("AAA", "BBB", f"Y{at}", 20000 + 2 * at, rule=at % rules + 1, kind=kinds[at // rules % len(kinds)]) for at in range(count)]


def rules_of_a_market(scale):
    """A market of 20,000 fares under 2,000 rules, searched a hundred times by a calendar; harmless under two rules."""
    count, rules = scaled(19_000, scale), scaled(1990, scale)
    for used in (2, rules):
        rows = Rows()
        for day in range(45):
            rows.add("AAA", "BBB", DAY * day + 600, 60)
            rows.add("BBB", "AAA", DAY * day + 600, 60)
        actions = many_rules(rules, 0) + [one for one in many_rules(used, count, kinds="O") if "put_fare" in one]
        actions.append(fare("BBB", "AAA", "Y", 20000))
        yield case(rows, actions, [one_slice("AAA", "BBB"), one_slice("BBB", "AAA", 10)])


def fares_of_a_group(scale):
    """A group of 20,000 fares that each of many paths asks for its cheapest; harmless where most are of another market."""
    count = scaled(19_000, scale)
    for far in ("DDD", "CCC"):
        rows, actions, slices = crossing(scaled(300, scale))
        rows.add("CCC", "DDD", 600, 60)
        more = [fare("AAA", far, f"M{at}", 30000 + at, rule=1, booked="Y") for at in range(count)]
        yield case(rows, actions + more, slices, best=1)


def fares_of_a_rule_each(scale):
    """Paths over a market of 6,000 groups; harmless where its fares are of three."""
    rules = scaled(1990, scale)
    for used in (1, rules):
        rows = Rows()
        for at in range(scaled(2000, scale)):
            rows.add("AAA", "BBB", at * 1400 // 2000, 60)
        charge = [{"carrier": "QX", "low": 1, "high": 9999, "first": "2031-01-01", "last": "2031-12-31", "amount": 100}]
        actions = [rule(number + 1, cat12=charge) for number in range(rules)]
        actions += [fare("AAA", "BBB", f"Y{at}", 20000 + 2 * at, rule=at % used + 1) for at in range(3 * rules)]
        yield case(rows, actions, AB, best=1)


def leads_of_paths(scale):
    """Tickets that are drawn by a thousand leads from paths on all of which but one the fares' class is closed."""
    rules, paths = scaled(1990, scale), scaled(4000, scale)
    for used in (1, rules):
        rows = Rows()
        for at in range(paths):
            rows.add("AAA", "BBB", at * 1400 // paths, 60, seats="Y9" if at == paths - 1 else "M9")
        yield case(rows, many_rules(rules, 0) + [one for one in many_rules(used, 2 * rules) if "put_fare" in one], AB, best=scaled(1000, scale))


def fronts(scale):
    """Answers that have a front each; harmless where they share one."""
    count = scaled(1000, scale)
    yield shared_front(count)
    yield answers(count)


def shared_front(count):
    rows, back = Rows(), 400
    for at in range(back):
        rows.add("AAA", "BBB", at * 1200 // back, 60, seats="Y9" if at == 0 else "M9")
    for at in range(count):
        rows.add("BBB", "AAA", DAY * 3 + at * 1200 // count, 60)
    actions = [fare("AAA", "BBB", "Y", 20000), fare("BBB", "AAA", "Y", 20000), fare("AAA", "BBB", "M", 90000, booked="M")]
    return case(rows, actions, [one_slice("AAA", "BBB"), one_slice("BBB", "AAA", 3)], best=count)


def before_a_window(scale):
    """Departures in the hours before a window, looked at after each path that arrives there; harmless some hours earlier."""
    ways, idle = scaled(300, scale), scaled(2000, scale)
    for begin in (DAY, DAY + 620):
        rows = Rows()
        rows.add("AAA", "BBB", 60, 60)
        for at in range(ways):
            rows.add("BBB", "HUB", DAY + at, 30)
            rows.add("HUB", "CCC", DAY + 400 + at // 2, 30 + at % 2)
        for at in range(idle):
            rows.add("CCC", "EEE", begin + at * 600 // idle, 60, by=carrier(700))
        rows.add("CCC", "DDD", 2 * DAY + 600, 60)
        slices = [one_slice("AAA", "BBB"), one_slice("BBB", "CCC", 1), one_slice("CCC", "DDD", 2)]
        yield case(rows, [fare(start, end, "Y", 20000) for start, end in (("AAA", "BBB"), ("BBB", "CCC"), ("CCC", "DDD"))], slices)


def one_minute(scale):
    """Rows that all depart at one minute; harmless over the day."""
    count = scaled(4900, scale)
    for spread in (1400, 1):
        rows = Rows()
        for at in range(count):
            rows.add(place(30 + at % 70), place(100 + at % 90), at * 7 % spread, 60, days=40)
        rows.add("AAA", "BBB", 600, 60)
        yield case(rows, [fare("AAA", "BBB", "Y", 20000)], AB)


def places_of_a_carrier(scale):
    """Fares of one carrier to 900 places, on paths to each; harmless of as many carriers as places."""
    hubs, ways = 20, scaled(240, scale)
    for carriers in (90, 1):
        rows, actions = Rows(), []
        for at in range(hubs * ways // 6):
            rows.add("AAA", place(30 + at % hubs), at % 600, 60)
        for at in range(hubs * ways // 2):
            rows.add(place(30 + at % hubs), place(100 + at % 900), 720 + at % 600, 60)
        for at in range(900):
            first = "QX" if carriers == 1 else carrier(400 + at % carriers)
            actions += [fare("AAA", place(100 + at), f"Y{number}", 20000, by="QX" if number else first) for number in range(scaled(20, scale))]
        yield case(rows, [*actions, fare("AAA", "BBB", "Y", 20000)], AB)


def dead_ends(scale):
    """Positions from which nothing leads on, whose ranges are all the same; harmless where each place has a flight on, that leads nowhere."""
    hubs, ends = scaled(60, scale), scaled(900, scale)
    for leaves in (1000, 0):
        rows = Rows()
        for hub in range(hubs):
            rows.add("AAA", place(30 + hub), 60 + hub, 60)
        for at in range(min(3900, hubs * ends)):
            rows.add(place(30 + at % hubs), place(100 + at % ends), 300 + at // ends, 60)
        for at in range(ends):
            rows.add(place(100 + at), "EEE", leaves + at % 200, 60)
        yield case(rows, [fare("AAA", place(100 + at), "Y", 20000) for at in range(ends)], AB)


def forged_rows(scale):
    """A certificate's rows at places that are nowhere, whose ranges are all the same; harmless at one place with ranges that differ."""
    count, flights = scaled(40_000, scale), 300
    rows = Rows()
    for at in range(flights):
        rows.add("AAA", "BBB", at, 60)
    given = case(rows, [fare("AAA", "BBB", "Y", 20000)], AB, best=1)
    same = [f"row 0 2 {place(at // 200)} {place(at % 200)} 0 0 - 0:0:- 9" for at in range(count)]
    differ = [f"row 0 2 AAA BBB {lo} {hi} - 0:0:- 9" for lo in range(flights) for hi in range(lo, flights + 1)][:count]
    for forged in (differ, same):
        told = ["certificate 1", "version 1", f"request {request_of(given)}", "answers 0", f"rows {len(forged)}", *forged, "end"]
        yield given.removesuffix(b"#end\n") + ("#certificate\n" + "\n".join(told) + "\n#end\n").encode()


def request_of(given):
    """The text of a case's request as a certificate has it."""
    asked = next(line for line in given.decode().split("\n") if line.startswith('{"sale"'))
    return json.dumps(json.loads(asked), separators=(",", ":"), sort_keys=True)


def later_filings(scale, actions, harmful, harmless):
    count = scaled(900, scale)
    for one in (harmless, harmful):
        rows = Rows()
        rows.add("AAA", "BBB", 600, 60)
        later = [compact({"actions": [one(at)]}) for at in range(count)]
        yield case(rows, actions, AB, later=later, script=["desks 1", f"1 wait {count}", "1 search 1"], best=1)


def filings_into_a_market(scale):
    """Later filings into a market of 19,000 fares; harmless into one of few."""
    actions = [fare("CCC", "DDD", f"Y{at}", 20000) for at in range(scaled(19_000, scale))] + [fare("AAA", "BBB", "Y", 20000)]
    return later_filings(scale, actions, lambda at: fare("CCC", "DDD", "Y1", 20000 + at), lambda at: fare("AAA", "BBB", "Y", 20000 + at))


def filings_of_seats(scale):
    """Later filings of a seat row each, which copy all; harmless of a fare each."""
    rows = [put_seats("ZZ", at % 9999 + 1, place(at // 9999)) for at in range(scaled(190_000, scale))]
    actions = [*rows, fare("AAA", "BBB", "Y", 20000)]
    return later_filings(scale, actions, lambda at: put_seats("ZZ", at + 1, "AAA", seats="Y8"), lambda at: fare("AAA", "BBB", "Y", 20000 + at))


def filings_of_rules(scale):
    """Later filings of a rule each, which no fare of 19,000 markets has; harmless of a fare each."""
    count = scaled(19_000, scale)
    actions = [fare(place(at // 140), place(200 + at % 140), "Y", 20000) for at in range(count)] + [fare("AAA", "BBB", "Y", 20000)]
    return later_filings(scale, actions, lambda at: rule(1 + at % 1000, cat5=7), lambda at: fare("AAA", "BBB", "Y", 20000 + at))


ATTACKS = [
    Attack("seat keys that meet", "`Seats` of `seat_classes`, had they a table with the kit's hash", SEARCH, seat_keys, False),
    Attack("ends of paths that meet", "ends of `fare_ends`, had they a hash by one multiplication", SEARCH, path_ends, False),
    Attack("heads in turn", "buckets of heads of `component_table`", SEARCH, heads_in_turn, False),
    Attack("one class of tails", "classes of tails of `joint_paths`", SEARCH, one_class_of_tails, False),
    Attack("carriers in turn", "`JoinEnds` of `joint_paths`", SEARCH, carriers_in_turn, False),
    Attack("places of one bit", "`marks` of `flight_paths`", SEARCH, marked_places, False),
    Attack("rules of a market", "`groups_of` of `fare_groups`", ["calendar", "--outs", "10", "--backs", "10"], rules_of_a_market, False),
    Attack("fares of a group", "`cheapest` of `fare_groups`", SEARCH, fares_of_a_group, False),
    Attack("a rule for each fare", "`FareEnds` of `fare_ends`", SEARCH, fares_of_a_rule_each, False),
    Attack("leads of paths", "`Hopes` of `cheap_moves`", SEARCH, leads_of_paths, False),
    Attack("a front for each answer", "`front_holds` of `certificate_check`", ["check"], fronts, True),
    Attack("before a window", "`first_in_window` of `flight_paths`", SEARCH, before_a_window, False),
    Attack("one minute", "`gather` of `schedule_book`", SEARCH, one_minute, False),
    Attack("places of a carrier", "`FareEnds` and `Markets` of `fare_ends`", SEARCH, places_of_a_carrier, False),
    Attack("dead ends", "`Position`'s hash: `ResidualParts`, `Tables`", SEARCH, dead_ends, False),
    Attack("forged rows", "`Position`'s hash: `KeyReader` of `residual_table`", ["check"], forged_rows, False),
    Attack("filings into a market", "`Book::with`: the market's table anew", ["serve"], filings_into_a_market, False),
    Attack("filings of seats", "`Book::with`: a copy of all seat rows", ["serve"], filings_of_seats, False),
    Attack("filings of rules", "`touch_stale` of `fare_book`", ["serve"], filings_of_rules, False),
]
