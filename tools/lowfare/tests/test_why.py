"""What forbids a fare: each cause by the proved program over a small case, and the bound on what is tried."""
import unittest
from datetime import date

from lowfare_tools import why
from lowfare_tools.book import Book
from lowfare_tools.case import Fare, Request, Slice, read_case
from lowfare_tools.journey import Timetable
from lowfare_tools.trials import asked_for, run_of
from lowfare_tools.ways import Ways
from tests.helpers import EXAMPLES, folder
from tests.shown import HERE, case_path, run

ALL_TRIED = "That is all there is to try.\n"
CAUSES = {
    # No seats on one of two flights; the party is of two.
    ("two-carriers", "QRT"): "BX QRT on BX 11, BX 12: no seats in class Q for 2 (BX 12 has 1)\n",
    # Sold on 18 February: thirteen days before 3 March.
    ("advance-purchase-thirteen-days", "Y1"): "QX Y1 on QX 101 alone: advance purchase: rule 1 wants 14 days, and 13 are left\n",
    # Out on a Sunday, back on the Saturday; the Sunday after is 9 March.
    ("minimum-stay-saturday", "R1"): "QX R1 on QX 101, QX 102: minimum stay: rule 1 wants a return on 2031-03-09 or later\n",
    ("maximum-stay-passed", "R1"): "QX R1 on QX 101, QX 102: maximum stay: rule 1 wants a return on 2031-03-09 or earlier\n",
    ("season-over", "Y1"): "season: rule 1 wants a first day in 2031-01-01 to 2031-03-02 and 2031-03-04 to 2031-12-31\n",
    ("departure-time-too-early", "Y1"): "QX Y1 on QX 101 alone: day and time: rule 1 wants Mon, 10:01 to 23:00\n",
    ("flights-not-allowed", "Y1"): "QX Y1 on QX 101 alone: flights: rule 1 bars QX 100 to 101\n",
    ("travel-by-passed", "R1"): "QX R1 on QX 101, QX 102: travel dates: rule 1 wants a last day by 2031-03-09\n",
    ("travel-dates-over", "Y1"): "travel dates: rule 1 wants a first day in 2031-03-04 to 2031-03-31\n",
    # One component over two slices: the wait between them is a stopover.
    ("stopover-not-allowed", "S1"): "QX S1 on QX 101 + QX 103 alone: stopovers: rule 1 allows 0 at most\n",
    ("verdict-transfer", "Y1"): "QX Y1 on QX 101 + QX 103 alone: transfers: rule 1 allows 0 at most, with the first flight of QX\n",
    ("verdict-kind-not-allowed", "R1"): "QX R1 on QX 101, QX 102: combinations: rule 1 wants a one way\n",
    # Lawful alone, but the way back is another unit.
    ("end-on-end-never", "N1"): "QX N1 on QX 101 alone: lawful, 10000 a traveller; with the rest of ticket 1: "
    "combinations: rule 1 of QX allows no other unit beside it\n",
    ("two-carriers", "YRT"): "BX YRT on BX 11, BX 12: lawful, 90000 a traveller, more than the last answer, 48000\n",
}


def told(name, *words):
    return run(why, case_path(name), *words)


def other_march(old, new):
    """The case of March with another text in it."""
    text = (HERE / "cases/march.case").read_text()
    assert old in text
    return folder(march_case=text.replace(old, new))


class Causes(unittest.TestCase):
    def test_each_cause(self):
        for (name, basis), line in CAUSES.items():
            with self.subTest(line):
                made = told(name, basis)
                self.assertEqual((0, ""), (made.status, made.said))
                self.assertIn(line, made.text)
                self.assertTrue(made.text.endswith(ALL_TRIED))

    def test_several_causes_of_one_pair(self):
        # Out on a Monday and back on a Saturday, and no Sunday between.
        line = "QX QMID on QX 101, QX 102: day and time: rule 2 wants Tue and Wed, 00:00 to 23:59; "
        self.assertIn(line + "minimum stay: rule 2 wants a return on 2031-03-09 or later\n", told("march", "QMID").text)

    def test_half_a_round_trip_alone(self):
        with folder(one_case=(EXAMPLES / "one-way.case").read_text().replace('"kind":"O"', '"kind":"R"')) as paths:
            self.assertIn("QX Y1 on QX 101 alone: kind R may not stand alone\n", run(why, paths["one_case"], "Y1").text)

    def test_alone_and_out_and_back(self):
        text = told("two-carriers", "YOW").text
        self.assertIn("rule 0: it is in tickets 2 and 3 of 3.\nEX YOW on EX 201 + EX 101 alone: lawful, 30000 a traveller\n", text)
        self.assertIn("EX YOW on EX 201 + EX 101, EX 102 + EX 202: lawful, 60000 a traveller, more than the last answer, 48000\n", text)
        self.assertTrue(text.endswith("These are all 2 that there are to try.\n"))

    def test_lawful_beside_the_rest_of_an_answer(self):
        line = "QX Y2 on QX 102 alone: lawful, 24000 a traveller; with the rest of ticket 4: lawful, 49000 a traveller\n"
        self.assertIn(line, told("round-trip", "Y2").text)

    def test_nothing_to_try(self):
        made = told("verdict-first-flight-of-another-carrier", "Y1")
        self.assertEqual(0, made.status)
        self.assertIn("There is nothing to try: no way from LON to NYC on the days asked begins with a flight of BX, as its fares want", made.text)

    def test_a_search_that_is_too_large(self):
        wanted = Fare("QX", "LON", "NYC", "A", "Y", "O", 1, 0)
        self.assertIn("too large", why.among_text(wanted, why.answer.TooLarge()))
        self.assertEqual("this case has no lawful ticket", why.among_text(wanted, why.answer.Answer(1, (), None)))

    def test_an_earlier_version(self):
        with other_march('{"put_fare":{"carrier":"QX","from":"LON","to":"NYC","basis":"QMID"', '{"put_fare":{"carrier":"QX","from":"LON","to":"NYC","basis":"QNEW"') as paths:
            self.assertEqual(0, run(why, paths["march_case"], "QNEW", "--at", "1").status)
            made = run(why, paths["march_case"], "QNEW", "--at", "0")
            self.assertIn("has no live fare QNEW; see docs/VIEWS.md#", made.said)


class Bounds(unittest.TestCase):
    def test_pairs_are_cut_and_that_is_said(self):
        three_days = '"days":3},{"from":"NYC","to":"LON","first":"2031-03-08","days":3}'
        with other_march('"days":1},{"from":"NYC","to":"LON","first":"2031-03-08","days":1}', three_days) as paths:
            made = run(why, paths["march_case"], "MWEEK", "--most", "4")
            lines = made.text.split("\n")[1:-1]
            # Of each day out with each day back, by departure.
            self.assertEqual("QX MWEEK on QX 101 of Mon 3 Mar, QX 102 of Sat 8 Mar: minimum stay: rule 1 wants a return on 2031-03-09 or later", lines[0])
            self.assertTrue(lines[1].startswith("QX MWEEK on QX 101 of Mon 3 Mar, QX 102 of Sun 9 Mar: lawful, 40000 a traveller"))
            self.assertEqual("Cut: the first 4 of 9 were tried, those with the fewest flights first; --most 9 tries more.", lines[4])
            self.assertTrue(run(why, paths["march_case"], "MWEEK").text.endswith("These are all 9 that there are to try.\n"))

    def test_ways_are_cut(self):
        rows = "".join(f"QX,{number},LON,NYC,10:00,+00:00,13:00,-05:00,0,2031-03-03,2031-03-03,1\n" for number in range(1, 251))
        given = read_case(f"#places\nLON,60\nNYC,60\n#flights\n{rows}#end\n".encode())
        ways = Ways(given, Timetable.of(given).flights)
        found, more = ways.through((Slice("LON", "NYC", given.flights[0].first, 1),), "QX", False)
        self.assertEqual((200, True), (len(found), more))

    def test_connections_as_a_slice_allows_them(self):
        given = read_case((EXAMPLES / "two-carriers.case").read_bytes())
        ways = Ways(given, Timetable.of(given).flights)
        out = given.request.slices[:1]
        self.assertEqual([[0, 1]], [[leg.index for leg in way] for way in ways.through(out, "EX", True)[0]])
        self.assertEqual([[2]], [[leg.index for leg in way] for way in ways.through(out, "BX", True)[0]])
        # At Dublin an hour and three quarters are enough for 45 minutes, and not for two hours.
        given.places = [place if place.code != "DUB" else type(place)("DUB", 120) for place in given.places]
        self.assertEqual(([], False), Ways(given, Timetable.of(given).flights).through(out, "EX", True))


class Slices(unittest.TestCase):
    def request(self, *ends, days=(3, 3, 3)):
        slices = tuple(Slice(*end, date(2031, 3, day), 1) for end, day in zip(ends, days))
        return Request(date(2031, 2, 1), 1, slices)

    def test_the_slices_of_a_market(self):
        slices = self.request(("LON", "NYC"), ("NYC", "CHI"), ("CHI", "LON")).slices
        cases = {("LON", "NYC"): (0, 1), ("LON", "CHI"): (0, 2), ("NYC", "LON"): (1, 3), ("CHI", "NYC"): None, ("LON", "LON"): (0, 3)}
        for market, run_wanted in cases.items():
            with self.subTest(market):
                self.assertEqual(run_wanted, run_of(market, slices))

    def test_what_a_market_is_asked_for(self):
        slices = self.request(("LON", "DUB"), ("DUB", "NYC"), ("NYC", "LON"), days=(3, 5, 12)).slices

        def told(market, begin=0):
            found = asked_for(market, slices, begin)
            return [(" ".join(f"{part.origin}-{part.destination}:{part.first.day}" for part in parts), end) for parts, end in found]

        self.assertEqual([("LON-DUB:3", 1)], told(("LON", "DUB")))
        # Through Dublin with a stop there, or by itself on each of the days.
        own = [("LON-NYC:3", 1), ("LON-NYC:5", 2), ("LON-NYC:12", 3)]
        self.assertEqual([("LON-DUB:3 DUB-NYC:5", 2), *own], told(("LON", "NYC")))
        self.assertEqual([("DUB-NYC:5 NYC-LON:12", 3), ("DUB-LON:5", 2), ("DUB-LON:12", 3)], told(("DUB", "LON"), 1))
        self.assertEqual([], told(("DUB", "LON"), 3))


class Trouble(unittest.TestCase):
    def test_one_line_and_a_page_for_each(self):
        cases = {
            "no such fare": (("round-trip", "QRT"), "has no live fare QRT; see docs/VIEWS.md#why-isnt-this-fare-among-the-answers"),
            "of another carrier": (("round-trip", "R1", "--carrier", "BX"), "has no live fare BX R1; see docs/VIEWS.md#"),
            "a refused case": (("no-such-rule", "Y1"), "is refused at line 9: action 1 NoRule; see docs/FORMATS.md#refusals"),
            "a case that can't be read": (("bad-row", "Y1"), "line 5: column 4"),
        }
        for name, (words, line) in cases.items():
            with self.subTest(name):
                made = told(*words)
                self.assertEqual((1, "", 1), (made.status, made.text, made.said.count("\n")))
                self.assertIn(line, made.said)

    def test_words(self):
        for words in (("R1", "--most", "0"), ("R1", "--most", "many"), (), ("R1", "R2")):
            with self.subTest(words):
                self.assertEqual(2, told("round-trip", *words).status)

    def test_a_fare_by_its_places(self):
        made = told("two-carriers", "YOW", "--carrier", "EX", "--from", "LON", "--to", "NYC")
        self.assertEqual(0, made.status)
        given = read_case((EXAMPLES / "two-carriers.case").read_bytes())
        self.assertEqual(4, len(Book(given).fares))


if __name__ == "__main__":
    unittest.main()
