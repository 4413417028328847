"""A small certificate as a graph for Graphviz: its rows, and the moves of its answers between them."""
from datetime import date

from lowfare_tools import claims, journey, pricing
from lowfare_tools.answer import ROLES
from lowfare_tools.case import EPOCH
from lowfare_tools.command import Trouble
from lowfare_tools.residuals import Walk
from lowfare_tools.wording import counted, day_text, name_of, numbers_text

MOST_ROWS = 100
PAGE = "docs/VIEWS.md#the-graph-of-a-certificate"
NOTE = "Rows of the certificate, and the moves of its answers. Moves that no answer takes aren't in a certificate."


def quoted(text):
    """A text as Graphviz reads it, with line breaks."""
    return '"' + text.replace("\\", "\\\\").replace('"', '\\"').replace("\n", "\\n") + '"'


def unit_words(text):
    """An open unit of a row in words."""
    ends, count, first, *_ = text.split(":")
    began = day_text(date.fromordinal(int(first) + EPOCH), with_year=False)
    return f"open: {ends.replace('>', ' to ')}, {counted(int(count), 'component')}, from {began}"


def row_words(row):
    """A row in words: where the journey stands, what is open, and the least price from there."""
    part, leg, place, _, _, _, units, _ = row.residual.split(" ")
    where = f"before slice {int(part) + 1}, at {place}" if leg == "0" else f"in slice {int(part) + 1}, at {place}"
    try:
        is_open = [unit_words(unit) for unit in units.split("/")] if units != "-" else ["no unit open"]
    except (ValueError, OverflowError):
        is_open = [units]
    least = "no way on" if row.bound is None else f"least {row.bound}"
    return "\n".join([where, *is_open, least])


def move_words(move, fare, rule, flights):
    names = ", ".join(name_of(flight) for flight in flights)
    price = pricing.price_of(pricing.parts_of(fare, rule, flights))
    return f"{names}\n{fare.carrier} {fare.basis} {ROLES[move.role]}, {price}"


def edges_of(certificate, given, book):
    """The moves of the answers: from what to what, in words, with the numbers of the answers that take them."""
    timetable, edges = journey.Timetable.of(given), {}
    for number, certified in enumerate(certificate.answers, 1):
        try:
            claims.labels_of(certified.moves)
            walk = Walk(given, timetable)
            for move in certified.moves:
                flights = claims.flights_of(move, timetable)
                fare = claims.fare_of(move, flights, book)
                rule, begin = book.rule_of(fare), walk.text()
                walk.take(move, fare, rule, flights)
                edge = (begin, walk.text(), move_words(move, fare, rule, flights))
                edges.setdefault(edge, []).append(number)
        except (claims.Unclear, AttributeError, KeyError, IndexError):
            raise Trouble(f"answer {number} of the certificate doesn't fit the case; see docs/AUDIT.md#what-can-differ") from None
    return edges


def dot_text(certificate, given, book):
    """The graph as a text for Graphviz."""
    if len(certificate.rows) > MOST_ROWS:
        count = len(certificate.rows)
        raise Trouble(f"the certificate has {count} rows, and a graph of more than {MOST_ROWS} isn't drawn; see {PAGE}")
    edges = edges_of(certificate, given, book)
    names = {row.residual: f"row{at}" for at, row in enumerate(certificate.rows, 1)} | {"end": "end"}
    lines = ["digraph certificate {", "  rankdir=LR", f"  label={quoted(NOTE)}", "  node [shape=box, style=rounded]"]
    taken = {place for edge in edges for place in edge[:2]}
    for at, row in enumerate(certificate.rows, 1):
        style = "" if row.residual in taken else ", color=gray, fontcolor=gray"
        lines.append(f"  row{at} [label={quoted(row_words(row))}{style}]")
    lines.append("  end [shape=doublecircle]")
    for begin, end, told in edges:
        if begin not in names or end not in names:
            missing = end if begin in names else begin
            raise Trouble(f"an answer leads to what is no row of the certificate, {missing}; see {PAGE}")
        numbers = edges[begin, end, told]
        takers = f"{'answer' if len(numbers) == 1 else 'answers'} {numbers_text(numbers)}"
        lines.append(f"  {names[begin]} -> {names[end]} [label={quoted(f'{told}, {takers}')}]")
    return "\n".join([*lines, "}", ""])
