"""Explains a refusal: the line of the case, the column's name, and what docs/FORMATS.md advises, which is read from there."""
import json
import pathlib
import re

from lowfare_tools.book import Book
from lowfare_tools.command import Trouble

FORMATS = pathlib.Path(__file__).resolve().parents[3] / "docs" / "FORMATS.md"
WIDTH = 160
COLUMNS = {
    "places": ["place", "least connect time"],
    "flights": [
        *("carrier", "number", "from", "to", "departure", "offset of the departure", "arrival", "offset of the arrival"),
        *("day shift of the arrival", "first day", "last day", "weekdays"),
    ],
    "seats": ["carrier", "number", "from", "date", "classes and seats"],
}


def advice():
    """What FORMATS says of each reason: what it means, what to do, and the names of examples."""
    try:
        page = FORMATS.read_text(encoding="utf-8")
    except OSError as bad:
        raise Trouble(f"docs/FORMATS.md can't be read: {bad.strerror}") from None
    table = page.split("\n## Refusals\n")[1]
    rows = re.findall(r"^\| `([^`]+)` \| (.*?) \| (.*?) \| (.*?) \|$", table, re.MULTILINE)
    return {reason: (means, do, re.findall(r"`([^`]+)`", examples)) for reason, means, do, examples in rows}


def section_of(case, line):
    """The section in which a line stands; None before the first."""
    heads = [(at, name) for name, at in case.headers.items() if at <= line]
    return max(heads)[1] if heads else None


def cut(text):
    return text if len(text) <= WIDTH else text[: WIDTH - 2] + ".."


def of_column(case, line, column):
    """The column's name and what stands in it."""
    section = section_of(case, line)
    if column == 0 or section not in COLUMNS:
        return "column 0: the row as a whole"
    names, fields = COLUMNS[section], case.lines[line - 1].split(",")
    name = names[column - 1] if column <= len(names) else "none"
    return f"column {column}, {name}: {fields[column - 1] if column <= len(fields) else 'not there'}"


def of_action(case, line, number):
    """The action as it stands."""
    try:
        actions = json.loads(case.lines[line - 1])["actions"]
        return f"action {number}: {cut(json.dumps(actions[number - 1]))}" if number else "action 0: the filing itself"
    except (ValueError, KeyError, TypeError, IndexError, RecursionError):
        return f"action {number}"


def explained(text, case):
    """The explanation of a line `refused LINE REASON`, a few lines of text."""
    found = re.fullmatch(r"refused ([0-9]+) ((?:action ([0-9]+) )?[A-Za-z ]+?(?: column ([0-9]+))?)\s*", text)
    general = re.sub(r"action [0-9]+", "action n", re.sub(r"column [0-9]+", "column c", found[2])) if found else None
    known = advice()
    if general not in known:
        raise Trouble(f"{text.strip()!r} is no refusal that docs/FORMATS.md has")
    line = int(found[1])
    means, do, examples = known[general]
    inside = 0 < line <= len(case.lines)
    said = [f"line {line}: {cut(case.lines[line - 1])}" if inside else f"line {line}: the case has {len(case.lines)} lines"]
    if inside and found[4] is not None:
        said.append(of_column(case, line, int(found[4])))
    if inside and found[3] is not None:
        said.append(of_action(case, line, int(found[3])))
    said += sorted({f"here: {fault.reason}" for fault in [*case.faults, *Book(case).faults] if fault.line == line})
    said += [f"{general}: {means}", f"what to do: {do}"]
    said.append("see docs/FORMATS.md#refusals, and " + ", ".join(f"examples/{name}" for name in examples))
    return "\n".join(said) + "\n"
