"""The journey of docs/YOUR-DATA.md from four files to the answer, and cases made of files beside the same cases by hand."""
import re
import unittest

from lowfare_tools import lint, make_case, program
from lowfare_tools.case import read_case
from tests.helpers import EXAMPLES, TOP, YOUR_DATA, Ran, folder, leg, record, timetable

PAGE = TOP / "docs" / "YOUR-DATA.md"
WORDS = [
    *("--ssim", "flights.ssim", "--seats", "seats.csv", "--fares", "fares.csv", "--rules", "rules.csv"),
    *("--stations", "LHR=LON,JFK=NYC", "--factor", "100", "--sale", "2031-02-10", "--party", "2", "--best", "3"),
    *("--request", "LON-DUB 2031-03-03, DUB-NYC 2031-03-05, NYC-LON 2031-03-12"),
]
CATEGORIES = {
    "day-and-time": 2, "season": 3, "flights": 4, "advance-purchase": 5, "minimum-stay": 6, "maximum-stay": 7, "stopovers": 8,
    "transfers": 9, "combinations": 10, "end-on-end": 10, "surcharges": 12, "travel-dates": 14,
}  # fmt: skip


def made(words=WORDS):
    """The case that lowfare-case makes of the files of the page."""
    return Ran(make_case.work, [str(YOUR_DATA / word) if (YOUR_DATA / word).is_file() else word for word in words])


def tickets(text):
    """The version and the tickets, without the certificate."""
    return text.split("\ncertificate ")[0]


def answer(case):
    ran = program.find().run(["search"], case.encode())
    assert ran.status == 0, ran.text
    return tickets(ran.text)


class Journey(unittest.TestCase):
    def test_the_case_is_the_example(self):
        ran = made()
        self.assertEqual(0, ran.status, ran.said)
        self.assertEqual((EXAMPLES / "your-data.case").read_text(), ran.text)
        self.assertEqual(5, len(list(re.finditer(r"^\S+: \d+ read, .*, 0 bad$|^case: ", ran.said, re.MULTILINE))))

    def test_the_careless_case_is_the_other_example(self):
        careless = ["fares-without-a-rule.csv" if word == "fares.csv" else word for word in WORDS]
        self.assertEqual((EXAMPLES / "your-data-without-a-rule.case").read_text(), made(careless).text)
        one, other = ((YOUR_DATA / name).read_text().splitlines() for name in ("fares.csv", "fares-without-a-rule.csv"))
        self.assertEqual([("EX,LON,DUB,QRT,Q,R,90.00,3", "EX,LON,DUB,QRT,Q,R,90.00,")], [pair for pair in zip(one, other) if pair[0] != pair[1]])

    def test_lint_finds_the_fare_without_a_rule_alone(self):
        self.assertEqual([], lint.findings(made().text.encode(), {}))
        careless = (EXAMPLES / "your-data-without-a-rule.case").read_bytes()
        self.assertEqual(["free-stopovers", "free-transfers"], [one.name for one in lint.findings(careless, {})])

    def test_the_journey_has_what_the_page_says(self):
        case = read_case(made().text.encode())
        self.assertEqual((12, 13), (len(case.flights), len(case.seats)))
        self.assertEqual({"BX", "EX", "NX"}, {row.carrier for row in case.flights})
        actions = [action for filing in case.filings for action in filing]
        self.assertEqual(15, sum(action.name == "put_fare" for action in actions))
        members = {name for action in actions if action.name == "put_rule" for name in action.members}
        self.assertEqual({f"cat{at}" for at in (2, 3, 4, 5, 6, 7, 8, 9, 10, 12, 14)}, members - {"carrier", "rule"})

    def test_the_page_has_the_command(self):
        page = " ".join(PAGE.read_text().replace("\\\n", " ").split())
        for option, value in zip(WORDS[::2], WORDS[1::2]):
            self.assertRegex(page, f"{option} '?{re.escape(('examples/your-data/' if (YOUR_DATA / value).is_file() else '') + value)}'?")


class ByHand(unittest.TestCase):
    """The two-carrier case, written by hand, and the same made of files."""

    FLIGHTS = """carrier,number,from,to,departs,departs_utc,arrives,arrives_utc,day_shift,first,last,weekdays
BX,11,LON,NYC,11:00,+00:00,14:00,-05:00,0,2031-03-03,2031-03-03,1
EX,201,LON,DUB,07:00,+00:00,08:15,+00:00,0,2031-03-03,2031-03-03,1
EX,101,DUB,NYC,10:00,+00:00,12:30,-05:00,0,2031-03-03,2031-03-03,1
BX,12,NYC,LON,19:00,-04:00,06:30,+00:00,1,2031-03-12,2031-03-12,3
EX,102,NYC,DUB,17:30,-04:00,04:45,+00:00,1,2031-03-12,2031-03-12,3
EX,202,DUB,LON,06:30,+00:00,07:45,+00:00,0,2031-03-13,2031-03-13,4
"""
    SEATS = """number;carrier;from;seats
11;BX;LON;J4 Y9 Q2
201;EX;LON;Y9 Q9
101;EX;DUB;Y9 Q9
12;BX;NYC;J4 Y9 Q1
102;EX;NYC;Y9 Q4
202;EX;DUB;Y9 Q9
"""
    FARES = """carrier,from,to,basis,class,kind,amount,rule
BX,LON,NYC,QRT,Q,2,420,1
BX,LON,NYC,YRT,Y,2,900,0
EX,LON,NYC,QEX,Q,2,360.00,1
EX,LON,NYC,YOW,Y,1,300.00,
"""
    RULES = """carrier,rule,advance,min_stay,sunday,max_stay,transfers,online,units,partners
BX,1,14,,yes,30,,,round_trip,same_carrier
EX,1,7,3,yes,,1,yes,,
"""
    PLACES = "place,connect\nLON,60\nDUB,45\nNYC,90\n"
    REQUEST = ["--request", "LON-NYC 2031-03-03, NYC-LON 2031-03-12", "--sale", "2031-02-10", "--party", "2", "--best", "3"]

    def case_of(self, **files):
        tables = {"s_csv": self.SEATS, "f_csv": self.FARES, "r_csv": self.RULES, "p_csv": self.PLACES, **files}
        with folder(**tables) as paths:
            flights = "--ssim" if "t_ssim" in files else "--flights"
            words = [flights, paths.get("t_ssim") or paths["t_csv"], "--seats", paths["s_csv"], "--fares", paths["f_csv"]]
            ran = Ran(make_case.work, [*words, "--rules", paths["r_csv"], "--places", paths["p_csv"], "--factor", "100", *self.REQUEST])
        self.assertEqual(0, ran.status, ran.said)
        return ran.text

    def test_flights_as_csv(self):
        self.assertEqual(tickets((EXAMPLES / "two-carriers.out").read_text()), answer(self.case_of(t_csv=self.FLIGHTS)))

    def test_the_case_is_that_by_hand(self):
        by_hand = read_case((EXAMPLES / "two-carriers.case").read_bytes())
        made_of_files = read_case(self.case_of(t_csv=self.FLIGHTS).encode())
        self.assertEqual((by_hand.places, by_hand.flights, by_hand.seats), (made_of_files.places, made_of_files.flights, made_of_files.seats))
        self.assertEqual(by_hand.filings, made_of_files.filings)
        self.assertEqual(by_hand.requests, made_of_files.requests)

    def test_flights_as_ssim(self):
        """The same flights: EX 102 and EX 202 in UTC, EX 201 with times for the aircraft alone."""
        march = {"c15": "03MAR31", "c22": "03MAR31", "c29": "1      "}
        back = {"c15": "12MAR31", "c22": "12MAR31", "c29": "  3    "}
        bx = [
            leg(**march, c37="LON", c55="NYC"),
            leg(**back, c6="  12", c37="NYC", c40="1900", c48="-0400", c55="LON", c62="0630", c66="+0000", c193="01"),
        ]
        ex = [
            leg(**march, c3="EX", c6=" 201", c37="LON", c40="    ", c44="0700", c55="DUB", c58="0815", c62="    ", c66="+0000"),
            leg(**march, c3="EX", c6=" 101", c37="DUB", c40="1000", c55="NYC", c62="1230"),
        ]
        # In UTC: 17:30 at -04:00 is 21:30.
        utc = [
            leg(**back, c3="EX", c6=" 102", c37="NYC", c40="2130", c48="-0400", c55="DUB", c62="0445", c66="+0000", c193="01"),
            leg(c3="EX", c6=" 202", c15="13MAR31", c22="13MAR31", c29="   4   ", c37="DUB", c40="0630", c55="LON", c62="0745", c66="+0000"),
        ]
        records = timetable(*bx).decode()
        records += timetable(*ex, c3="EX").decode() + record({1: "2", 2: "U", 3: "EX", 22: "31DEC31"}) + "\n" + "\n".join(utc) + "\n"
        case = self.case_of(t_ssim=records + record({1: "5", 3: "EX", 194: "E"}) + "\n")
        self.assertEqual(tickets((EXAMPLES / "two-carriers.out").read_text()), answer(case))

    def test_the_journey_by_hand(self):
        """The journey's answer, which its facts have, doesn't change with the order of lines nor with how they are filed."""
        case = (EXAMPLES / "your-data.case").read_text()
        lines = case.splitlines()
        at = lines.index("#flights")
        turned = [*lines[: at + 1], *reversed(lines[at + 1 : at + 13]), *lines[at + 13 :]]
        self.assertEqual(answer(case), answer("\n".join(turned) + "\n"))


class Worked(unittest.TestCase):
    """The worked journeys: the gate runs each; here, that they belong together."""

    def test_each_is_one_case_three_times(self):
        for name in CATEGORIES:
            case = (EXAMPLES / f"worked-{name}.case").read_text()
            self.assertEqual(case, (EXAMPLES / f"worked-{name}-before.case").read_text())
            self.assertEqual("search --at 1", (EXAMPLES / f"worked-{name}-before.words").read_text().strip())
            verdict = (EXAMPLES / f"worked-{name}-verdict.case").read_text()
            head, ticket = verdict.split("#ticket\n")
            self.assertEqual(case, head + "#end\n")
            self.assertTrue(ticket.startswith("component 1 "))

    def test_the_second_filing_adds_the_category_alone(self):
        for name, category in CATEGORIES.items():
            first, second = read_case((EXAMPLES / f"worked-{name}.case").read_bytes()).filings
            (after,) = second
            before = first[0]
            self.assertEqual({**before.members, f"cat{category}": after.members[f"cat{category}"]}, after.members)
            self.assertNotIn(f"cat{category}", before.members)

    def test_the_verdict_names_the_category_and_the_price_differs(self):
        for name, category in CATEGORIES.items():
            prices = [(EXAMPLES / f"worked-{name}{kind}.facts").read_text().split()[1] for kind in ("-before", "")]
            self.assertLess(int(prices[0]), int(prices[1]), name)
            verdict = (EXAMPLES / f"worked-{name}-verdict.out").read_text()
            if category == 12:
                self.assertEqual("lawful price 33000\n", verdict)
            else:
                self.assertEqual({str(category)}, {line.split()[-1] for line in verdict.splitlines()[1:]}, name)

    def test_the_page_has_each_with_its_prices(self):
        page = PAGE.read_text()
        for name in CATEGORIES:
            prices = [(EXAMPLES / f"worked-{name}{kind}.facts").read_text().split()[1] for kind in ("-before", "")]
            (row,) = [line for line in page.splitlines() if f"`worked-{name}`" in line]
            self.assertEqual(prices, re.findall(r"\b\d{5}\b", row)[-2:], name)


if __name__ == "__main__":
    unittest.main()
