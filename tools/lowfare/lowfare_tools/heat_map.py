"""A calendar as a page: a heat map drawn in the page itself, and the same as a table."""
from lowfare_tools.matrix import SIGNS, cell_text, column_heads, heading, legend
from lowfare_tools.page import page, tag, words
from lowfare_tools.wording import day_text

SHADES = 7
LEFT, TOP, HEIGHT = 84, 40, 32


def shade(matrix, price):
    """The class of a cell: the least, one without a price, or a shade from the least price to the greatest."""
    if price in SIGNS:
        return "blank"
    if price == matrix.least:
        return "least"
    span = max(matrix.numbers) - matrix.least
    return f"q{(price - matrix.least) * (SHADES - 1) // span}"


def text_at(x, y, text, name=""):
    kind = {"_class": name} if name else {}
    return tag("text", words(text), x=x, y=y, **kind)


def cell(matrix, out, back, box):
    """A cell at its place, which a reader who rests on it is told in words."""
    x, y, width = box
    price = matrix.prices[out, back]
    told = tag("title", words(f"out {day_text(out)}, back {day_text(back)}: {price}"))
    square = f'<rect x="{x + 2}" y="{y + 2}" width="{width - 4}" height="{HEIGHT - 4}" rx="4"/>'
    label = text_at(x + width // 2, y + HEIGHT // 2 + 4, cell_text(matrix, out, back))
    return tag("g", told + square + label, _class=shade(matrix, price))


def heat_map(matrix):
    """The drawing."""
    longest = max(len(cell_text(matrix, *pair)) for pair in matrix.prices)
    width = max(48, 8 * longest + 14)
    parts = [text_at(LEFT - 8, TOP - 10, "out, back", "name")]
    for at, day in enumerate(matrix.backs):
        middle = LEFT + at * width + width // 2
        parts += [text_at(middle, y, head, "head") for y, head in zip((TOP - 24, TOP - 9), column_heads(day))]
    for down, out in enumerate(matrix.outs):
        y = TOP + down * HEIGHT
        parts.append(text_at(LEFT - 8, y + HEIGHT // 2 + 4, day_text(out, with_year=False), "name"))
        parts += [cell(matrix, out, back, (LEFT + at * width, y, width)) for at, back in enumerate(matrix.backs)]
    size = LEFT + len(matrix.backs) * width + 2, TOP + len(matrix.outs) * HEIGHT + 2
    frame = {"viewBox": f"0 0 {size[0]} {size[1]}", "width": size[0], "height": size[1]}
    return tag("svg", "\n".join(parts), role="img", **{"aria-label": legend(matrix)}, **frame)


def table(matrix):
    heads = "".join(tag("th", words(day_text(day, with_year=False)), scope="col") for day in matrix.backs)
    rows = [tag("tr", tag("th", "out, back", scope="col") + heads)]
    for out in matrix.outs:
        cells = []
        for back in matrix.backs:
            kind = {"_class": "least"} if matrix.prices[out, back] == matrix.least else {}
            cells.append(tag("td", words(cell_text(matrix, out, back)), **kind))
        rows.append(tag("tr", tag("th", words(day_text(out)), scope="row") + "".join(cells)))
    body = tag("thead", rows[0]) + tag("tbody", "\n".join(rows[1:]))
    return tag("table", body, _class="matrix")


def calendar_page(matrix, request, version):
    """The page of a calendar."""
    drawing = tag("div", heat_map(matrix), _class="scroll")
    as_table = tag("details", tag("summary", "The same as a table") + tag("div", table(matrix), _class="scroll"))
    about = tag("p", words(heading(matrix, request, version) + "."), _class="about")
    signs = tag("p", words(legend(matrix)[:1].upper() + legend(matrix)[1:] + "."))
    return page("Which days are cheapest", [about, drawing, signs, as_table])
