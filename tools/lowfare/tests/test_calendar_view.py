"""A calendar for people: as a matrix, as a heat map, and its bounds."""
import unittest
from datetime import date, timedelta

from lowfare_tools import heat_map, matrix, view
from lowfare_tools.answer import read
from lowfare_tools.case import read_case
from tests.helpers import EXAMPLES
from tests.shown import Page, case_path, run

WEEKEND = """version 1
calendar 3 3
cell 2031-03-07 2031-03-08 49000
cell 2031-03-07 2031-03-09 40000
cell 2031-03-07 2031-03-10 40000
cell 2031-03-08 2031-03-08 49000
cell 2031-03-08 2031-03-09 40000
cell 2031-03-08 2031-03-10 40000
cell 2031-03-09 2031-03-08 none
cell 2031-03-09 2031-03-09 49000
cell 2031-03-09 2031-03-10 49000
"""
SHOWN = """LON to NYC from Fri 7 Mar 2031 and NYC to LON from Sat 8 Mar 2031: the least price for 1 traveller, version 1 of the book

                   Sat     Sun     Mon
out, back        8 Mar   9 Mar  10 Mar
Fri 7 Mar 2031   49000  *40000  *40000
Sat 8 Mar 2031   49000  *40000  *40000
Sun 9 Mar 2031       -   49000   49000

* the least, 40000, on 4 of 9 pairs of days; - no lawful ticket
"""
NONE = "version 1\ncalendar 1 2\ncell 2031-03-07 2031-03-08 none\ncell 2031-03-07 2031-03-09 too large\n"


def month():
    """A calendar of 31 by 31 days in which each price comes once."""
    out, back = date(2031, 3, 7), date(2031, 3, 8)
    cells = [(out + timedelta(a), back + timedelta(b), 100000 + 31 * a + b) for a in range(31) for b in range(31)]
    return "version 1\ncalendar 31 31\n" + "".join(f"cell {day} {other} {price}\n" for day, other, price in cells)


def shown(text, *words):
    return run(view, *words, case_path("calendar-of-a-weekend"), given=text)


class Matrix(unittest.TestCase):
    def test_a_weekend(self):
        self.assertEqual((0, "", SHOWN), (shown(WEEKEND).status, shown(WEEKEND).said, shown(WEEKEND).text))

    def test_days_without_a_price(self):
        text = shown(NONE).text
        self.assertIn("\nFri 7 Mar 2031       -       ?\n", text)
        self.assertTrue(text.endswith("no pair of days has a price; - no lawful ticket; ? too large: ask with a greater --budget\n"))

    def test_a_month_is_cut_into_bands_that_fit_a_line(self):
        text = shown(month()).text
        lines = text.split("\n")[1:]
        self.assertLessEqual(max(map(len, lines)), 100)
        for price in range(100000, 100961):
            self.assertEqual(1, text.split("\n\n", 1)[1].rsplit("\n\n", 1)[0].count(str(price)), price)
        self.assertIn("* the least, 100000, on 1 of 961 pairs of days\n", text)

    def test_the_least_is_coloured_where_that_is_asked(self):
        found = matrix.matrix_of(read(WEEKEND))
        request = read_case((EXAMPLES / "calendar-of-a-weekend.case").read_bytes()).request
        text = matrix.matrix_text(found, request, 1, 100, lambda cell: f"<{cell}>")
        self.assertEqual(4, text.count("<  *40000>"))


class HeatMap(unittest.TestCase):
    def page(self, text):
        made = shown(text, "--html")
        self.assertEqual((0, ""), (made.status, made.said))
        page = Page(made.text)
        self.assertEqual([], page.faults)
        self.assertNotIn("http", made.text)
        return page

    def test_a_weekend(self):
        page = self.page(WEEKEND)
        self.assertEqual((1, 9), (page.count("svg", role="img"), page.count("rect")))
        # Four of the least, four of 49000, the greatest, and one without a ticket; the table marks the least too.
        self.assertEqual((4, 4, 1), tuple(page.count("g", _class=name) for name in ("least", "q6", "blank")))
        self.assertEqual(4, page.count("td", _class="least"))
        self.assertIn("out Fri 7 Mar 2031, back Sun 9 Mar 2031: 40000", page.text)

    def test_without_a_price_and_of_a_month(self):
        self.assertEqual(2, self.page(NONE).count("g", _class="blank"))
        page = self.page(month())
        self.assertEqual((961, 1), (page.count("rect"), page.count("g", _class="least")))

    def test_shades_go_from_the_least_to_the_greatest(self):
        found = matrix.matrix_of(read(month()))
        shades = [heat_map.shade(found, price) for price in (100000, 100001, 100159, 100160, 100959, 100960)]
        # A span of 960 in six steps of 160, and the greatest by itself.
        self.assertEqual(["least", "q0", "q0", "q1", "q5", "q6"], shades)


if __name__ == "__main__":
    unittest.main()
