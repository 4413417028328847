"""Random cases of each command, well formed and malformed, from a seed."""
import datetime
import json
import random

from filings import Filings
from rare import rare_lines
from timetable import FIRST_DAY, Timetable, date


def slices_of(draw, names):
    """A way of one to six slices: there, there and back, round, or anyhow."""
    count = draw.choice([1, 2, 2, 2, 3, 4, 5, 6])
    form = draw.choice(["back", "round", "jaw", "any", "nested"])
    way = [draw.choice(names)]
    while len(way) <= count:
        way.append(draw.choice([name for name in names if name != way[-1]]))
    if form in ("back", "nested"):
        half = (count + 1) // 2
        way[half:] = [way[half - (at - half)] if half - (at - half) >= 0 else way[at] for at in range(half, count + 1)]
    if form == "round" and way[-2] != way[0]:
        way[-1] = way[0]
    found, day = [], 0
    for start, end in zip(way, way[1:]):
        if form == "jaw" and draw.random() < 0.3:
            start = draw.choice([name for name in names if name != end])
        if start == end:
            end = draw.choice([name for name in names if name != start])
        found.append({"from": start, "to": end, "day": day})
        day += draw.choice([0, 1, 1, 2, 3, 7, 7])
    return found


def request_of(draw, slices):
    asked = {
        "sale": (FIRST_DAY - datetime.timedelta(days=draw.choice([14, 29, 30, 31]))).isoformat(),
        "party": draw.choice([1, 1, 1, 1, 1, 2, 9]),
        "slices": [{"from": one["from"], "to": one["to"], "first": date(one["day"]), "days": draw.choice([1, 1, 2, 7])} for one in slices],
    }
    if draw.random() < 0.9:
        asked["best"] = draw.choice([1, 2, 3, 5, 10, 100, 1000])
    if draw.random() < 0.04:
        asked[draw.choice(["party", "best"])] = draw.choice([0, 10, 1001, -1, 1.5])
    if draw.random() < 0.02:
        asked["slices"][0]["from"] = draw.choice(["XXX", asked["slices"][0]["to"]])
    return asked


def search_lines(draw, calendar=False):
    table = Timetable(draw)
    slices = slices_of(draw, table.names)
    if calendar and draw.random() < 0.95:
        slices = (slices * 2)[:2]
    table.fly(slices)
    asked = request_of(draw, slices)
    return table.lines() + ["#filings"] + Filings(draw, table, slices).lines() + ["#request", json.dumps(asked, separators=(",", ":"))]


def damaged(draw, lines):
    """The text of these lines, now and then with a fault of form."""
    end = draw.choice(["\n", "\n", "\n", "\r\n"])
    text = end.join([*lines, "#end"]) + end
    raw = bytearray(text.encode())
    roll = draw.random()
    if roll < 0.88 or not raw:
        return bytes(raw)
    at = draw.randrange(len(raw))
    if roll < 0.92:
        raw[at] = draw.choice([*b"0159AZaz,:-*#\"{}[] \n\r", 200])
    elif roll < 0.94:
        del raw[at : at + draw.choice([1, 1, 5, 50])]
    elif roll < 0.96:
        raw[at:at] = draw.choice([b"0", b"\n", b"#end\n", b"1", b" ", b"#ticket\n"])
    elif roll < 0.98:
        rows = text.split(end)
        where = draw.randrange(len(rows))
        rows.insert(draw.randrange(len(rows)), rows[where])
        return end.join(rows).encode()
    else:
        return bytes(raw[:at])
    return bytes(raw)


def options(draw, *names):
    ranges = {"best": [1, 2, 4, 1000], "budget": [1, 2, 3, 5, 8, 20, 1000000], "at": [0, 1, 1, 1, 2]}
    words = []
    for name in names:
        if draw.random() < 0.2:
            words += [f"--{name}", str(draw.choice(ranges[name]))]
    return words


def exact_budget(draw, words, lines, answered):
    """Now and then the budget that the search needs, or one less."""
    if "--budget" in words or draw.random() < 0.8:
        return []
    answer = answered(words, text_of(lines)).decode().splitlines()
    rows = next((int(line.split(" ")[1]) for line in answer if line.startswith("rows ")), 0)
    return ["--budget", str(max(1, rows - draw.choice([0, 1])))]


def text_of(lines):
    return ("\n".join([*lines, "#end"]) + "\n").encode()


def loosened(lines):
    """The case without categories and connect times, with wider windows, one traveller and fares of kind O alone. Its tickets break
    rules of the case itself."""
    found, section = [], None
    for line in lines:
        if line.startswith("#"):
            section = line
        elif section == "#places":
            line = line.split(",")[0] + ",0"
        elif section == "#filings":
            filing = json.loads(line)
            for action in filing["actions"]:
                rule = action.get("put_rule", {})
                for name in [name for name in rule if name.startswith("cat")]:
                    del rule[name]
                if "put_fare" in action:
                    action["put_fare"]["kind"] = "O"
            line = json.dumps(filing)
        elif section == "#request":
            asked = json.loads(line)
            asked["party"] = 1
            for one in asked["slices"]:
                one["days"] = min(7, one["days"] + 1)
            line = json.dumps(asked)
        found.append(line)
    return found


def changed_number(draw, words):
    places = [at for at, word in enumerate(words) if word.isdigit()]
    if places:
        at = draw.choice(places)
        words[at] = str(max(0, int(words[at]) + draw.choice([-1, 1, 1, 5, 5000, 2**63])))
    return words


def changed_certificate(draw, lines):
    """A certificate with a line changed, dropped, repeated or moved; often as it is."""
    if draw.random() < 0.3:
        return lines
    for _ in range(draw.choice([1, 1, 2])):
        at = draw.randrange(len(lines))
        roll = draw.random()
        rows = [place for place, line in enumerate(lines) if line.startswith(("answer ", "row "))] or [at]
        if roll < 0.6:
            lines[at] = " ".join(changed_number(draw, lines[at].split(" ")))
        elif roll < 0.75:
            del lines[draw.choice(rows)]
        elif roll < 0.82:
            place = draw.choice(rows)
            lines.insert(place, lines[place])
        elif roll < 0.88:
            one, other = draw.choice(rows), draw.choice(rows)
            lines[one], lines[other] = lines[other], lines[one]
        elif roll < 0.9:
            del lines[at]
        else:
            lines[at] = lines[at].replace(draw.choice("0123456789-"), draw.choice("0123456789-"), 1)
        counted(draw, lines)
        if not lines:
            return ["certificate 1"]
    return lines


def counted(draw, lines):
    """Puts the counts of answers and rows right, mostly."""
    if draw.random() < 0.05:
        return
    for at, line in enumerate(lines):
        for head, row in (("answers ", "answer "), ("rows ", "row ")):
            if line.startswith(head):
                lines[at] = f"{head}{sum(other.startswith(row) for other in lines)}"


def ticket_lines(draw, answer, lines):
    """The lines of a printed ticket, or of none, with a line changed now and then."""
    found, tickets = [], [at for at, line in enumerate(answer) if line.startswith("ticket ")]
    if tickets and draw.random() < 0.9:
        at = draw.choice(tickets) + 1
        while at < len(answer) and answer[at].split(" ")[0] in ("component", "flight"):
            words = answer[at].split(" ")
            if words[0] == "component":
                found.append(f"component {words[3]} {words[6]} {words[7]} {words[8]} {words[9]}")
            else:
                found.append(f"flight {words[1]} {words[2]} {words[3]} {words[4]}")
            at += 1
    flights = [line for line in lines if line.count(",") == 11]
    for _ in range(draw.choice([0, 0, 0, 1, 1, 2, 4])):
        roll = draw.random()
        at = draw.randrange(len(found) + 1)
        if roll < 0.3 and flights:
            fields = draw.choice(flights).split(",")
            found.insert(at, f"flight {fields[0]} {fields[1]} {fields[9]} {fields[2]}")
        elif roll < 0.5 and at < len(found):
            found[at] = " ".join(changed_number(draw, found[at].split(" ")))
        elif roll < 0.65 and at < len(found):
            del found[at]
        elif roll < 0.8:
            found.insert(at, f"component {draw.choice([0, 1, 1, 2, 3, 255, 256])} QX LON NYC {draw.choice(['Y1', 'R7', 'Q'])}")
        elif found:
            found.insert(at, draw.choice(found))
    return found


def make_words(draw):
    words = ["make", "--seed", str(draw.choice([0, 7, draw.randrange(2**32), 4294967295])), "--size", str(draw.choice([1, 1, 2, 3, 5, 8]))]
    if draw.random() < 0.4:
        words.append("--summary")
    return words


def bad_words(draw):
    words = ["search", "check", "make", "calendar", "verdict", "--best", "--best=3", "--budget", "0", "1", "7", "1000", "1001", "--at", "--", "--outs", "--backs", "31", "32", "--seed", "--size", "--summary", "--help", "-v", ""]
    return [draw.choice(words) for _ in range(draw.randint(0, 5))]


def case_of(seed, answered):
    """The words and the input of a seed. `answered` gives what the program to compare with writes for words and an input."""
    draw = random.Random(seed)
    kind = draw.choices(["search", "check", "verdict", "calendar", "make", "words"], [40, 25, 17, 8, 7, 3])[0]
    if kind == "make":
        return make_words(draw), b""
    if kind == "words":
        return bad_words(draw), damaged(draw, search_lines(draw))
    lines, ticket = search_lines(draw, kind == "calendar"), None
    if kind != "calendar" and draw.random() < 0.15:
        lines, ticket = rare_lines(draw)
    if kind == "search":
        words = ["search", *options(draw, "best", "budget", "at")]
        return [*words, *exact_budget(draw, words, lines, answered)], damaged(draw, lines)
    if kind == "calendar":
        spans = ["--outs", str(draw.choice([1, 2, 3, 7])), "--backs", str(draw.choice([1, 2, 4]))]
        return ["calendar", *spans, *options(draw, "budget", "at")], damaged(draw, lines)
    is_loose = kind == "verdict" and draw.random() < 0.7
    answer = answered(["search"], text_of(loosened(lines) if is_loose else lines)).decode().splitlines()
    if kind == "check":
        at = next((at for at, line in enumerate(answer) if line.startswith("certificate ")), None)
        written = answer[at:] if at is not None else ["certificate 1"]
        return ["check", *options(draw, "best", "at")], damaged(draw, [*lines, "#certificate", *changed_certificate(draw, written)])
    if ticket is None or draw.random() < 0.3:
        ticket = ticket_lines(draw, answer, lines)
    return ["verdict", *options(draw, "at")], damaged(draw, [*lines, "#ticket", *ticket])
