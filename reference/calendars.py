"""The calendar: docs/FORMATS.md, 'The calendar', and docs/CALENDAR.md."""
import reference.forms as forms
from reference.search import TooLarge, search


def calendar_text(book, request, outs, backs, budget):
    """FORMATS, 'The calendar': for each day out and, within it, each day back the price of the best ticket that leaves and returns on these
    days."""
    out, back = request.slices
    lines = [f"calendar {outs} {backs}"]
    for first in range(out.first, out.first + outs):
        for second in range(back.first, back.first + backs):
            slices = [out._replace(first=first, days=1), back._replace(first=second, days=1)]
            value = cell(book, request._replace(best=1, slices=slices), budget)
            lines.append(f"cell {forms.day_text(first)} {forms.day_text(second)} {value}")
    return lines


def cell(book, request, budget):
    """CALENDAR: a cell is a search of its own. The least price, `none` where there is no lawful ticket, or `too large`."""
    try:
        best = search(book, request, budget).best
    except TooLarge:
        return "too large"
    return str(best[0].price) if best else "none"
