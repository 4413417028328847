"""Pages: one file each, with its style inside and nothing from elsewhere. A page is made of tickets or of a calendar."""
import html
import pathlib

from lowfare_tools.case_text import time_text
from lowfare_tools.wording import (
    counted,
    day_text,
    fare_text,
    length_text,
    name_of,
    numbers_text,
    parts_text,
    prices_text,
)

STYLE = pathlib.Path(__file__).with_name("page.css")
NOTE = "Set by lowfare-view from what lowfare printed. The prices and tickets are the program's; this page is not proved."


def tag(name, inside, **attributes):
    """An element. What is inside is markup; attributes are texts, and `_class` stands for `class`."""
    pairs = "".join(f' {key.removeprefix("_")}="{html.escape(str(value))}"' for key, value in attributes.items())
    return f"<{name}{pairs}>{inside}</{name}>"


def words(text):
    """A text as markup."""
    return html.escape(str(text))


def page(title, body):
    """A whole page."""
    head = [
        '<meta charset="utf-8">',
        '<meta name="viewport" content="width=device-width, initial-scale=1">',
        tag("title", words(title)),
        tag("style", "\n" + STYLE.read_text()),
    ]
    parts = [tag("h1", words(title)), *body, tag("footer", words(NOTE))]
    inside = tag("head", "\n".join(head)) + "\n" + tag("body", "\n".join(parts))
    return f'<!DOCTYPE html>\n{tag("html", inside, lang="en")}\n'


def point(flight_day, place, time):
    """Where and when a flight leaves or arrives. The year stands in the ticket's head."""
    day = tag("span", words(day_text(flight_day, with_year=False)), _class="day")
    return tag("td", f'{day}{words(place)} {tag("b", words(time))}', _class="whole")


def flight_row(flight, instead):
    name = (tag("span", "or ", _class="or") if instead else "") + words(name_of(flight))
    leaves = point(flight.day, flight.origin, time_text(flight.departs))
    lands = point(flight.arrival_day, flight.destination, time_text(flight.arrives))
    takes = tag("td", words(length_text(flight.lands - flight.leaves)), _class="whole")
    return tag("tr", tag("th", name, scope="row") + leaves + lands + takes)


def rows_of(row):
    rows = [flight_row(flight, at > 0) for at, flight in enumerate(row.flights)]
    if row.wait:
        rows.append(tag("tr", tag("td", words(row.wait), colspan="4"), _class="wait"))
    return rows


def component_table(number, component):
    paid = component.paid
    parts = parts_text(paid)
    after = " " + tag("span", words(parts), _class="parts" if paid.agrees else "wrong") if parts else ""
    told = f"Component {number}, unit {paid.component.unit}: {fare_text(paid)}: "
    caption = tag("caption", words(told) + tag("b", words(paid.component.price)) + after)
    heads = "".join(tag("th", name, scope="col") for name in ("Flight", "Leaves", "Arrives", "Takes"))
    rows = [line for row in component.rows for line in rows_of(row)]
    return tag("table", caption + tag("thead", tag("tr", heads)) + "\n" + tag("tbody", "\n".join(rows)))


def article(block, party):
    many = len(block.numbers) > 1
    title = f"Ticket{'s' if many else ''} {numbers_text(block.numbers)}"
    price = ("each " if many else "") + prices_text(block.price, party)
    header = tag("header", tag("h2", words(title)) + tag("p", words(price), _class="price"))
    ways = [tag("li", words(("or " if at else "") + way)) for part in block.slices for at, way in enumerate(part)]
    units = "".join(tag("li", words(unit)) for unit in block.units)
    tables = "\n".join(component_table(number, part) for number, part in enumerate(block.components, 1))
    lists = tag("ul", "".join(ways), _class="ways") + tag("ul", units, _class="units")
    return tag("article", header + lists + "\n" + tag("div", tables, _class="components"))


def tickets_page(blocks, request, version):
    """The page of the tickets of an answer."""
    count = sum(len(block.numbers) for block in blocks)
    title = counted(count, "ticket") if count else "No lawful ticket"
    sold = f"Sold on {day_text(request.sale)} to {counted(request.party, 'traveller')}, version {version} of the book."
    return page(title, [tag("p", words(sold), _class="about"), *(article(block, request.party) for block in blocks)])
