"""What a case and its answer have of what is rare: names to be counted, so that it can be said what a run covered."""
import collections
import datetime
import json

from timetable import minutes_of


def sections_of(case):
    """The lines of each section, or nothing where the text is damaged."""
    found, lines = collections.defaultdict(list), None
    for line in case.decode("latin-1").split("\n"):
        line = line.removesuffix("\r")
        if line.startswith("#"):
            lines = found[line]
        elif line and lines is not None:
            lines.append(line)
    return found


def instant(day, clock, offset, shift=0):
    return (datetime.date.fromisoformat(day).toordinal() + shift) * 1440 + int(clock[:2]) * 60 + int(clock[3:]) - minutes_of(offset)


def of_timetable(sections):
    """Offsets, equal departures, and gaps at their limits."""
    connect = dict(row.split(",") for row in sections["#places"])
    offsets, leave, land = collections.defaultdict(set), collections.defaultdict(list), collections.defaultdict(list)
    for row in sections["#flights"]:
        _, _, start, end, out, here, back, there, shift, first, _, _ = row.split(",")
        offsets[start].add(here)
        offsets[end].add(there)
        leave[start].append(instant(first, out, here))
        land[end].append(instant(first, back, there, int(shift)))
    if any(len(held) > 1 for held in offsets.values()):
        yield "mixed offsets at one place"
    if any(len(set(times)) < len(times) for times in leave.values()):
        yield "equal departures"
    for minutes in {int(number) for number in connect.values()} & {0, 1440}:
        yield f"least connect time {minutes}"
    gaps = {(out - into, int(connect[place])) for place in leave for into in land[place] for out in leave[place]}
    for name, is_it in (("of the least", lambda gap, least: gap == least), ("one less than the least", lambda gap, least: gap == least - 1), ("of 1,440", lambda gap, least: gap == 1440), ("of 1,441", lambda gap, least: gap == 1441)):
        if any(is_it(gap, least) for gap, least in gaps):
            yield f"gap {name} minutes" if name[-1].isdigit() else f"gap {name}"


def of_rules(sections, asked):
    """The categories, and those whose numbers are met exactly or missed by one."""
    rules = collections.defaultdict(list)
    for line in sections["#filings"]:
        for action in json.loads(line)["actions"]:
            for name, value in action.get("put_rule", {}).items():
                if name.startswith("cat"):
                    rules[name].append(value)
    for name in rules:
        yield f"rule of {name}"
    flights = [row.split(",") for row in sections["#flights"]]
    clocks, numbers, days = {one[4] for one in flights}, {int(one[1]) for one in flights}, {one[9] for one in flights}
    firsts = [datetime.date.fromisoformat(one["first"]) for one in asked["slices"]]
    sale = datetime.date.fromisoformat(asked["sale"])
    stays = {(later - firsts[0]).days for later in firsts[1:]}
    edges = {
        "cat2": lambda rule: rule["from"] in clocks or rule["to"] in clocks,
        "cat3": lambda rule: any(day in days for pair in rule for day in pair),
        "cat4": lambda rule: any(number in numbers for triple in rule["flights"] for number in triple[1:]),
        "cat5": lambda rule: rule in {(first - sale).days for first in firsts},
        "cat6": lambda rule: rule["days"] in stays,
        "cat7": lambda rule: rule in stays,
        "cat12": lambda rule: any(one["first"] in days or one["last"] in days or one["low"] in numbers or one["high"] in numbers for one in rule),
        "cat14": lambda rule: rule.get("by") in days or any(day in days for pair in rule.get("ranges", []) for day in pair),
    }
    for name, is_met in edges.items():
        if any(is_met(rule) for rule in rules[name]):
            yield f"{name} met exactly"
    for name in ("cat8", "cat9"):
        for rule in rules[name]:
            yield f"{name} of at most {rule['max']}"


def labels_of(answer):
    """For each ticket the labels of its components, and the kinds."""
    for line in answer:
        words = line.split(" ")
        if words[0] == "ticket":
            labels, kinds = [], []
            yield labels, kinds, int(words[3])
        elif words[0] == "component":
            labels.append(int(words[3]))
            kinds.append(words[4])


def of_tickets(answer):
    tickets = list(labels_of(answer))
    prices = [price for _, _, price in tickets]
    yield from {f"a unit of kind {kind}" for _, kinds, _ in tickets for kind in kinds}
    if any(one == other for one, other in zip(prices, prices[1:])):
        yield "equal prices in an answer"
    if any(len(labels) == 18 for labels, _, _ in tickets):
        yield "a ticket of 18 components"
    for labels, _, _ in tickets:
        last = {label: at for at, label in enumerate(labels)}
        first = {label: at for at, label in reversed(list(enumerate(labels)))}
        if any(sum(first[label] <= at < last[label] for label in last) == 2 for at in range(len(labels))):
            yield "two units straddle"
            break
    if any(len(set(labels)) >= 3 for labels, _, _ in tickets):
        yield "end on end over three units or more"


def of_search(words, case, out, answered):
    """A tie at the last place, and budgets at the number of residuals and one less."""
    answer = out.decode().splitlines()
    if out == b"too large\n":
        budget = int(words[words.index("--budget") + 1]) if "--budget" in words else 100000
        more = [*words[: words.index("--budget")], *words[words.index("--budget") + 2 :], "--budget", str(budget + 1)] if "--budget" in words else words
        if answered(more, case) != out:
            yield "budget one less than the residuals"
        return
    yield from of_tickets(answer)
    rows = next((int(line.split(" ")[1]) for line in answer if line.startswith("rows ")), None)
    if "--budget" in words and int(words[words.index("--budget") + 1]) == rows:
        yield "budget of the residuals"
    prices = [line.split(" ")[3] for line in answer if line.startswith("ticket ")]
    if prices and len(prices) < 1000:
        at = words.index("--best") if "--best" in words else None
        more = words if at is None else [*words[:at], *words[at + 2 :]]
        next_one = [line.split(" ")[3] for line in answered([*more, "--best", str(len(prices) + 1)], case).decode().splitlines() if line.startswith("ticket ")]
        if len(next_one) > len(prices) and next_one[len(prices)] == prices[-1]:
            yield "a tie at the last place"


def outcomes(words, out, status):
    """Names of what came: the command and the status, a refusal's reason, the check that fails, the breaches of a ticket."""
    command = next((word for word in words if not word.startswith("-")), "")
    yield f"{command if command.isalpha() else 'other words'}, status {status}"
    if status == 1:
        yield "refused " + " ".join(word for word in out.decode().split()[2:] if not word.isdigit())
    elif command == "check" and status in (0, 7):
        yield f"check {out.decode().split(' ')[1] if status else 'yes'}"
    elif command == "verdict" and status == 0:
        yield from sorted({f"breach {line.split(' ')[1]}" for line in out.decode().splitlines() if line.startswith("breach ")}) or ["a lawful ticket"]


def features(words, case, out, status, answered):
    """Names of what the case of these words and this answer has."""
    if status not in (0, 6, 7) or "make" in words:
        return
    sections = sections_of(case)
    asked = json.loads(sections["#request"][0])
    yield from of_timetable(sections)
    yield from of_rules(sections, asked)
    yield f"slices {len(asked['slices'])}"
    if "--at" in words and int(words[words.index("--at") + 1]) < len(sections["#filings"]):
        yield "an earlier version"
    if "search" in words:
        yield from of_search(words, case, out, answered)
