"""A calendar as a matrix: its days out and back, the price of each pair, and which is the least."""
from dataclasses import dataclass
from datetime import date

from lowfare_tools.wording import counted, day_text, joined

NO_TICKET = "none"
TOO_LARGE = "too large"
SIGNS = {NO_TICKET: "-", TOO_LARGE: "?"}


@dataclass(frozen=True)
class Matrix:
    """Days in order, and the price, or a word where there is none, by day out and day back."""

    outs: tuple[date, ...]
    backs: tuple[date, ...]
    prices: dict

    @property
    def least(self):
        """The least price; None where no pair of days has one."""
        return min(self.numbers, default=None)

    @property
    def numbers(self):
        return [price for price in self.prices.values() if isinstance(price, int)]

    def pairs_at(self, price):
        return sum(1 for other in self.prices.values() if other == price)


def matrix_of(calendar):
    outs = tuple(dict.fromkeys(cell.out for cell in calendar.cells))
    backs = tuple(dict.fromkeys(cell.back for cell in calendar.cells))
    return Matrix(outs, backs, {(cell.out, cell.back): cell.price for cell in calendar.cells})


def heading(matrix, request, version):
    """What the matrix shows, in a line."""
    firsts = (matrix.outs[0], matrix.backs[0])
    ways = [f"{part.origin} to {part.destination} from {day_text(day)}" for part, day in zip(request.slices, firsts)]
    each = "each of " if request.party > 1 else ""
    travellers = f"{each}{counted(request.party, 'traveller')}"
    return f"{joined(ways)}: the least price for {travellers}, version {version} of the book"


def legend(matrix):
    """What the signs say, and the least price with how often it comes."""
    all_pairs = len(matrix.prices)
    if matrix.least is None:
        texts = ["no pair of days has a price"]
    else:
        texts = [f"* the least, {matrix.least}, on {matrix.pairs_at(matrix.least)} of {all_pairs} pairs of days"]
    if matrix.pairs_at(NO_TICKET):
        texts.append("- no lawful ticket")
    if matrix.pairs_at(TOO_LARGE):
        texts.append("? too large: ask with a greater --budget")
    return "; ".join(texts)


def cell_text(matrix, out, back):
    price = matrix.prices[out, back]
    if price == matrix.least:
        return f"*{price}"
    return str(SIGNS.get(price, price))


def column_heads(day):
    """A day over a column: its weekday, and its day and month."""
    weekday, rest = day_text(day, with_year=False).split(" ", 1)
    return weekday, rest


def bands(matrix, width, room):
    """The days back in runs of columns that fit into a line with this room."""
    count = max(1, room // (width + 2))
    return [matrix.backs[at : at + count] for at in range(0, len(matrix.backs), count)]


def matrix_text(matrix, request, version, line_width, mark=str):
    """The matrix as text. `mark` puts colour round the least."""
    names = [day_text(day) for day in matrix.outs]
    left = max(map(len, [*names, "out, back"]))
    texts = {pair: cell_text(matrix, *pair) for pair in matrix.prices}
    width = max(6, *map(len, texts.values()))
    lines = [heading(matrix, request, version)]
    for days in bands(matrix, width, line_width - left):
        lines.append("")
        for label, row in zip(("", "out, back"), zip(*map(column_heads, days))):
            lines.append((label.ljust(left) + "".join("  " + head.rjust(width) for head in row)).rstrip())
        for name, out in zip(names, matrix.outs):
            cells = ["  " + texts[out, back].rjust(width) for back in days]
            lines.append(name.ljust(left) + "".join(mark(cell) if "*" in cell else cell for cell in cells))
    return "\n".join([*lines, "", legend(matrix), ""])
