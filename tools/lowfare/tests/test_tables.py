"""The CSV files: each column, each fault with its line, and what lowfare-case says of the whole."""
import random
import unittest
from datetime import date

from lowfare_tools.case import Fare, FlightRow, Place, Rule, SeatRow, read_case
from lowfare_tools.make_case import MOST_ACTIONS, filings_of, over_limits, work
from lowfare_tools.report import Report
from lowfare_tools.rules import read_rules
from lowfare_tools.tables import Source, read_fares, read_flights, read_places, read_seats
from tests.helpers import YOUR_DATA, Ran, damaged, folder, leg, timetable

FARES = "carrier,from,to,basis,class,kind,amount,rule\n"
SEATS = "carrier,number,from,date,seats\n"
FLIGHTS = "carrier,number,from,to,departs,departs_utc,arrives,arrives_utc,day_shift,first,last,weekdays\n"


class Tables(unittest.TestCase):
    """Reads a text by one reader; `said` has what the report says."""

    def read(self, reader, text, **source):
        self.report = Report()
        data = text if isinstance(text, bytes) else text.encode()
        found = reader("x.csv", data, self.report, Source(**source))
        self.said = self.report.messages
        return found

    def good(self, reader, text, **source):
        found = self.read(reader, text, **source)
        self.assertEqual([], self.said)
        return found

    def bad(self, reader, text, reason, line=2, **source):
        self.read(reader, text, **source)
        self.assertEqual(1, len(self.said), self.said)
        self.assertIn(f"x.csv:{line}: bad: {reason}", self.said[0])


class Fares(Tables):
    def test_a_fare_is_a_line(self):
        found = self.good(read_fares, FARES + "BX,LON,NYC,QAP,Q,R,420,1\n\nEX,LON,DUB,YOW,Y,O,75,\n")
        self.assertEqual([Fare("BX", "LON", "NYC", "QAP", "Q", "R", 420, 1, 2), Fare("EX", "LON", "DUB", "YOW", "Y", "O", 75, 0, 4)], found)

    def test_amounts_with_decimals(self):
        for text, factor, amount in (("420.50", 100, 42050), ("420.5", 10, 4205), ("0.01", 100, 1), ("19.9", 100, 1990)):
            (fare,) = self.good(read_fares, FARES + f"BX,LON,NYC,Q,Q,O,{text},1\n", factor=factor)
            self.assertEqual(amount, fare.amount)
        self.bad(read_fares, FARES + "BX,LON,NYC,Q,Q,O,420.50,1\n", "amount: 420.50 times 1 is not whole: give a greater --factor")
        self.bad(read_fares, FARES + "BX,LON,NYC,Q,Q,O,10000000.01,1\n", "amount: 10000000.01 times 100 is over 1000000000", factor=100)

    def test_kinds_by_letter_and_by_number(self):
        text = FARES + "".join(f"BX,LON,NYC,B{kind},Q,{kind},4,1\n" for kind in "ORS123")
        self.assertEqual(list("ORSORS"), [fare.kind for fare in self.good(read_fares, text)])

    def test_stations_are_places(self):
        (fare,) = self.good(read_fares, FARES + "BX,LHR,NYC,Q,Q,O,4,1\n", stations={"LHR": "LON"})
        self.assertEqual(("LON", "NYC"), (fare.origin, fare.destination))

    def test_columns_in_another_order_and_parted_otherwise(self):
        wanted = [Fare("BX", "LON", "NYC", "QAP", "Q", "R", 420, 1, 2)]
        for text in (
            "basis,rule,class,kind,amount,from,to,carrier\nQAP,1,Q,R,420,LON,NYC,BX\n",
            FARES.replace(",", ";") + "BX;LON;NYC;QAP;Q;R;420;1\n",
            FARES.replace(",", "\t") + "BX\tLON\tNYC\tQAP\tQ\tR\t420\t1\n",
            '"Carrier","From","To","Basis","Class","Kind","Amount","Rule"\r\n"BX", LON ,"NYC",QAP,Q,R,420,1\r\n',
            b"\xef\xbb\xbf" + FARES.encode() + b"BX,LON,NYC,QAP,Q,R,420,1",
        ):
            self.assertEqual(wanted, self.good(read_fares, text))

    def test_bad_lines(self):
        good = "BX,LON,NYC,QAP,Q,R,420,1"
        for old, new, reason in (
            ("BX", "bx", "carrier: 'bx' is not a carrier"),
            ("LON", "LO", "from: 'LO' is not a place"),
            ("NYC", "LON", "to: a fare to where it begins"),
            ("QAP", "Q-AP", "basis: 'Q-AP' is not a basis"),
            ("QAP", "QAP123456", "basis: 'QAP123456' is not a basis"),
            (",Q,", ",QQ,", "class: 'QQ' is not a class"),
            (",R,", ",X,", "kind: 'X' is not a kind"),
            ("420", "-420", "amount: '-420' is not an amount"),
            ("420", "1e3", "amount: '1e3' is not an amount"),
            ("420", "421", "amount: 421 is odd, and half of a fare of kind R"),
            (",1", ",10000", "rule: 10000 is not a whole number from 0 to 9999"),
            (",1", "", "7 columns, not 8"),
            ("QAP", '"QAP', "a quote that is not closed"),
            ("BX", "B\xc9", "carrier: 'B\\xc9' is not a carrier"),
        ):
            self.bad(read_fares, FARES + good.replace(old, new, 1) + "\n", reason)

    def test_a_fare_that_stands_already(self):
        text = FARES + "BX,LON,NYC,QAP,Q,R,420,1\nBX,LON,NYC,QAP,Q,R,400,1\n"
        self.bad(read_fares, text, "the same stands in line 2", line=3)

    def test_first_rows(self):
        for first, reason in (
            ("carrier,from,to,basis,class,kind", "there is no column amount; the names are carrier, from, to"),
            (FARES[:-1] + ",price", "no column has the name 'price'"),
            (FARES[:-1] + ",rule", "two columns have the name rule"),
            (FARES[:-1] + ",", "no column has the name ''"),
            ("", "there is no column carrier"),
        ):
            self.bad(read_fares, first + "\n", reason, line=1)

    def test_a_quote_swallows_no_line(self):
        found = self.read(read_fares, FARES + 'BX,LON,NYC,"QAP,Q,R,420,1\nEX,LON,DUB,YOW,Y,O,75,3\n')
        self.assertEqual(["YOW"], [fare.basis for fare in found])
        self.assertEqual(["x.csv:2: bad: a quote that is not closed"], self.said)


class Seats(Tables):
    def test_seats_as_a_display_has_them(self):
        text = SEATS + "BX,11,LHR,*,J4 Y9 B4 M0\nBX,11,LHR,2031-03-05,Y9M4\nBX,12,JFK,,Y1\n"
        wanted = [
            SeatRow("BX", 11, "LON", None, {"J": 4, "Y": 9, "B": 4, "M": 0}, 2),
            SeatRow("BX", 11, "LON", date(2031, 3, 5), {"Y": 9, "M": 4}, 3),
            SeatRow("BX", 12, "JFK", None, {"Y": 1}, 4),
        ]
        self.assertEqual(wanted, self.good(read_seats, text, stations={"LHR": "LON"}))

    def test_bad_lines(self):
        for row, reason in (
            ("BX,0,LHR,*,Y9", "number: 0 is not a whole number from 1 to 9999"),
            ("BX,11,LHR,2031-02-30,Y9", "date: 2031-02-30 is not a day of the calendar"),
            ("BX,11,LHR,3 March,Y9", "date: '3 March' is not a date"),
            ("BX,11,LHR,*,", "seats: '' is not pairs of a class letter and a digit"),
            ("BX,11,LHR,*,Y9 CL", "seats: 'Y9CL' is not pairs"),
            ("BX,11,LHR,*,Y9 Y8", "seats: Y9Y8 names a class twice"),
        ):
            self.bad(read_seats, SEATS + row + "\n", reason)
        self.bad(read_seats, SEATS + "BX,11,LHR,*,Y9\nBX,11,LHR,,Y8\n", "the same stands in line 2", line=3)


class Flights(Tables):
    def test_a_flight_is_a_line(self):
        text = FLIGHTS + "BX,12,JFK,LHR,19:00,-04:00,06:30,+00:00,1,2031-03-09,2031-03-28,1234567\n"
        wanted = FlightRow("BX", 12, "JFK", "LHR", 1140, -240, 390, 0, 1, date(2031, 3, 9), date(2031, 3, 28), (1, 2, 3, 4, 5, 6, 7), 2)
        self.assertEqual([wanted], self.good(read_flights, text))
        without = FLIGHTS.replace("day_shift,", "") + "BX,11,LHR,JFK,11:00,+00:00,14:00,-05:00,2031-03-09,2031-03-28,1\n"
        self.assertEqual(0, self.good(read_flights, without)[0].shift)

    def test_bad_lines(self):
        good = "BX,12,JFK,LHR,19:00,-04:00,06:30,+00:00,1,2031-03-09,2031-03-28,17"
        for old, new, reason in (
            ("19:00", "24:00", "departs: '24:00' is not a time HH:MM"),
            ("-04:00", "-4:00", "departs_utc: '-4:00' is not an offset"),
            ("06:30", "6:30", "arrives: '6:30' is not a time"),
            (",1,2031", ",3,2031", "day_shift: '3' is not a day shift"),
            (",1,2031", ",0,2031", "arrives: it arrives no later than it departs"),
            ("LHR", "JFK", "to: it arrives where it departs"),
            ("2031-03-28", "2031-03-08", "last: the period ends on 2031-03-08, before it begins"),
            ("2031-03-28,17", "2031-03-09,1", "weekdays: no day of its period is one of them"),
            (",17", ",71", "weekdays: '71' is not weekdays"),
            (",17", ",", "weekdays: '' is not weekdays"),
        ):
            self.bad(read_flights, FLIGHTS + good.replace(old, new, 1) + "\n", reason)


class Places(Tables):
    def test_places(self):
        self.assertEqual([Place("LON", 60, 2), Place("DUB", 0, 3)], self.good(read_places, "place,connect\nLON,60\nDUB,0\n"))
        self.bad(read_places, "place,connect\nLON,1441\n", "connect: 1441 is not a whole number from 0 to 1440")
        self.bad(read_places, "place,connect\nLON,60\nLON,70\n", "the same stands in line 2", line=3)


class Rules(Tables):
    def rule(self, columns, fields, **source):
        (found,) = self.good(read_rules, f"carrier,rule,{columns}\nBX,7,{fields}\n", **source)
        return found.categories

    def test_no_category(self):
        self.assertEqual([Rule("BX", 7, {}, 2)], self.good(read_rules, "carrier,rule,advance\nBX,7,\n"))

    def test_each_category(self):
        for columns, fields, category, value in (
            ("days,from_time,to_time", "1234,06:00,11:59", "cat2", {"days": [1, 2, 3, 4], "from": "06:00", "to": "11:59"}),
            ("days", "67", "cat2", {"days": [6, 7], "from": "00:00", "to": "23:59"}),
            ("from_time", "06:00", "cat2", {"days": [1, 2, 3, 4, 5, 6, 7], "from": "06:00", "to": "23:59"}),
            ("season", "2031-01-01..2031-06-30 2031-09-01..2031-12-15", "cat3",
             [["2031-01-01", "2031-06-30"], ["2031-09-01", "2031-12-15"]]),
            ("season", "2031-01-01", "cat3", [["2031-01-01", "2031-01-01"]]),
            ("flights", "only BX11-19 EX101", "cat4", {"allow": True, "flights": [["BX", 11, 19], ["EX", 101, 101]]}),
            ("flights", "not BX400-499", "cat4", {"allow": False, "flights": [["BX", 400, 499]]}),
            ("advance", "14", "cat5", 14),
            ("advance", "0", "cat5", 0),
            ("min_stay,sunday", "3,yes", "cat6", {"days": 3, "sunday": True}),
            ("min_stay,sunday", ",Yes", "cat6", {"days": 0, "sunday": True}),
            ("min_stay,sunday", "3,", "cat6", {"days": 3, "sunday": False}),
            ("max_stay", "30", "cat7", 30),
            ("stopovers", "0", "cat8", {"max": 0, "charge": 0}),
            ("stopovers,stopover_charge,stopover_places", "1,25,DUB LHR", "cat8", {"max": 1, "charge": 2500, "places": ["DUB", "LON"]}),
            ("transfers", "1", "cat9", {"max": 1, "online": False}),
            ("transfers,online", "0,yes", "cat9", {"max": 0, "online": True}),
            ("units", "open_jaw round_trip", "cat10", {"kinds": ["round_trip", "open_jaw"], "partners": "any", "end_on_end": "free"}),
            ("end_on_end", "never", "cat10",
             {"kinds": ["one_way", "round_trip", "open_jaw", "circle"], "partners": "any", "end_on_end": "never"}),
            ("partners", "same_rule", "cat10",
             {"kinds": ["one_way", "round_trip", "open_jaw", "circle"], "partners": "same_rule", "end_on_end": "free"}),
            ("surcharges", "BX15 2031-03-01..2031-03-31 30 | EX1-99 2031-07-01 2.50", "cat12",
             [{"carrier": "BX", "low": 15, "high": 15, "first": "2031-03-01", "last": "2031-03-31", "amount": 3000},
              {"carrier": "EX", "low": 1, "high": 99, "first": "2031-07-01", "last": "2031-07-01", "amount": 250}]),
            ("travel,travel_by", "2031-04-01..2031-06-30,2031-07-15", "cat14",
             {"ranges": [["2031-04-01", "2031-06-30"]], "by": "2031-07-15"}),
            ("travel_by", "2031-07-15", "cat14", {"by": "2031-07-15"}),
        ):
            found = self.rule(columns, fields, factor=100, stations={"LHR": "LON"})
            self.assertEqual({category: value}, found, (columns, fields))

    def test_bad_lines(self):
        for columns, fields, reason in (
            ("days", "21", "days: '21' is not weekdays"),
            ("from_time,to_time", "12:00,11:59", "to_time: 11:59 is before from_time"),
            ("season", "2031-06-30..2031-01-01", "season: 2031-06-30..2031-01-01 ends before it begins"),
            ("season", " ".join(["2031-01-01"] * 9), "season: 9 of them, not 1 to 8"),
            ("flights", "BX11", "flights: 'BX11' is not `only` or `not`"),
            ("flights", "only", "flights: 0 of them, not 1 to 16"),
            ("flights", "only BX19-11", "flights: BX19-11 ends before it begins"),
            ("flights", "only BX0", "flights: 0 is not a whole number from 1 to 9999"),
            ("advance", "366", "advance: 366 is not a whole number from 0 to 365"),
            ("sunday", "maybe", "sunday: 'maybe' is none of yes, no"),
            ("max_stay", "a week", "max_stay: 'a week' is not a whole number"),
            ("stopovers", "4", "stopovers: 4 is not a whole number from 0 to 3"),
            ("stopover_charge", "25", "stopover_charge: it says nothing where stopovers is empty"),
            ("stopovers,stopover_charge", "1,10001", "stopover_charge: 10001 times 100 is over 1000000"),
            ("online", "yes", "online: it says nothing where transfers is empty"),
            ("units", "round_trip return", "units: 'return' is none of one_way, round_trip, open_jaw, circle"),
            ("partners", "none", "partners: 'none' is none of any, same_carrier, same_rule"),
            ("end_on_end", "no", "end_on_end: 'no' is none of free, same_carrier, never"),
            ("surcharges", "BX15 30", "surcharges: 'BX15 30' is not flights, a period and an amount"),
            ("travel_by", "15 July", "travel_by: '15 July' is not a date"),
        ):
            self.bad(read_rules, f"carrier,rule,{columns}\nBX,7,{fields}\n", reason, factor=100)
        self.bad(read_rules, "carrier,rule\nBX,0\n", "rule: 0 is not a whole number from 1 to 9999")
        self.bad(read_rules, "carrier,rule\nBX,7\nBX,7\n", "the same stands in line 2", line=3)

    def test_every_column_is_read(self):
        text = "carrier,rule,advance,min_stya\nBX,7,1,2\n"
        self.bad(read_rules, text, "no column has the name 'min_stya'; the names are carrier, rule, days, from_time", line=1)


REQUEST = ["--request", "LHR-JFK 2031-03-03", "--sale", "2031-02-10"]


def command(paths, *words):
    """Runs lowfare-case over the files that are there."""
    named = [word for name, option in OPTIONS.items() if name in paths for word in (option, paths[name])]
    return Ran(work, [*named, *(words or REQUEST)])


OPTIONS = {"a_ssim": "--ssim", "b_ssim": "--ssim", "flights_csv": "--flights", "seats_csv": "--seats", "fares_csv": "--fares",
           "rules_csv": "--rules", "places_csv": "--places"}  # fmt: skip
SMALL = {"a_ssim": timetable(leg()), "seats_csv": SEATS + "BX,11,LHR,*,Y9\n", "fares_csv": FARES + "BX,LHR,JFK,Y1,Y,O,4,\n"}


class Commands(unittest.TestCase):
    def run_over(self, files, *words):
        with folder(**files) as paths:
            ran = command(paths, *words)
            for name, path in paths.items():
                ran.said = ran.said.replace(path, name)
        return ran

    def test_a_small_case(self):
        ran = self.run_over(SMALL)
        self.assertEqual(0, ran.status, ran.said)
        wanted = """#places
LHR,60
JFK,60
#flights
BX,11,LHR,JFK,11:00,+00:00,14:00,-05:00,0,2031-03-03,2031-03-09,135
#seats
BX,11,LHR,*,Y9
#filings
{"actions":[{"put_fare":{"carrier":"BX","from":"LHR","to":"JFK","basis":"Y1","class":"Y","kind":"O","amount":4,"rule":0}}]}
#request
{"sale":"2031-02-10","party":1,"best":10,"slices":[{"from":"LHR","to":"JFK","first":"2031-03-03","days":1}]}
#end
"""
        self.assertEqual(wanted, ran.text)
        self.assertEqual("""places: note: LHR JFK: a connection takes at least 60 minutes (--connect), since no file says
a_ssim: 4 read, 4 taken, 0 passed over, 0 bad
seats_csv: 1 read, 1 taken, 0 passed over, 0 bad
fares_csv: 1 read, 1 taken, 0 passed over, 0 bad
case: 2 places, 1 flight rows, 3 dated flights, 1 seat rows, 1 fares, 0 rules, 1 filings, 483 bytes
""".replace("483", str(len(wanted))), ran.said)

    def test_flights_as_csv_make_the_same_case(self):
        row = "BX,11,LHR,JFK,11:00,+00:00,14:00,-05:00,0,2031-03-03,2031-03-09,135\n"
        other = {name: text for name, text in SMALL.items() if name != "a_ssim"}
        self.assertEqual(self.run_over(SMALL).text, self.run_over({**other, "flights_csv": FLIGHTS + row}).text)

    def test_a_bad_line_keeps_the_case_back(self):
        files = {**SMALL, "fares_csv": SMALL["fares_csv"] + "BX,LHR,JFK,Y2,Y,O,x,\n"}
        ran = self.run_over(files)
        self.assertEqual((1, ""), (ran.status, ran.text))
        self.assertIn("fares_csv:3: bad: amount: 'x' is not an amount", ran.said)
        self.assertIn("fares_csv: 2 read, 1 taken, 0 passed over, 1 bad", ran.said)
        self.assertIn("lowfare-case: no case is written; --skip-bad writes it without the bad lines", ran.said)
        skipped = self.run_over(files, *REQUEST, "--skip-bad")
        self.assertEqual((0, self.run_over(SMALL).text), (skipped.status, skipped.text))
        self.assertIn("fares_csv:3: bad: amount", skipped.said)

    def test_a_fare_on_a_rule_that_is_not_there(self):
        files = {**SMALL, "fares_csv": FARES + "BX,LHR,JFK,Y1,Y,O,4,7\n"}
        self.assertIn("fares_csv:2: bad: rule: BX has no rule 7 in no --rules", self.run_over(files).said)
        ran = self.run_over({**files, "rules_csv": "carrier,rule,advance\nEX,7,3\n"})
        self.assertIn("fares_csv:2: bad: rule: BX has no rule 7 in rules_csv", ran.said)
        self.assertIn("fares_csv: 1 read, 0 taken, 0 passed over, 1 bad", ran.said)

    def test_a_flight_that_stands_twice(self):
        ran = self.run_over({**SMALL, "b_ssim": timetable(leg(c29="  3 5 7", c22="30MAR31"))})
        self.assertEqual(1, ran.status)
        self.assertIn("b_ssim:3: bad: BX 11 LHR JFK: on 2031-03-05 it stands in a_ssim:3 already", ran.said)
        self.assertIn("b_ssim: 4 read, 3 taken, 0 passed over, 1 bad", ran.said)

    def test_a_record_with_one_bad_period_is_left_out_whole(self):
        """BX 11 flies on 17 March by the second file, and every second week from 3 March on by the first one."""
        fortnight = timetable(leg(c22="30MAR31", c29="1      ", c36="2"))
        files = {**SMALL, "a_ssim": timetable(leg(c15="17MAR31", c22="17MAR31", c29="1      ")), "b_ssim": fortnight}
        ran = self.run_over(files, *REQUEST, "--skip-bad")
        self.assertEqual([date(2031, 3, 17)], [row.first for row in read_case(ran.text.encode()).flights])
        self.assertIn("b_ssim:3: bad: BX 11 LHR JFK: on 2031-03-17 it stands in a_ssim:3 already", ran.said)

    def test_stations_of_one_place(self):
        files = {**SMALL, "a_ssim": timetable(leg(), leg(c6="  12", c55="LGW", c62="1200", c66="+0000"))}
        words = ["--request", "LON-NYC 2031-03-03", "--sale", "2031-02-10", "--stations", "LHR=LON,LGW=LON,JFK=NYC"]
        ran = self.run_over(files, *words)
        self.assertEqual(0, ran.status, ran.said)
        self.assertEqual([("LON", "NYC")], [(row.origin, row.destination) for row in read_case(ran.text.encode()).flights])
        self.assertIn("a_ssim:4: passed over: BX 12 LHR LGW: between two stations of LON", ran.said)

    def test_only_some_days(self):
        files = {**SMALL, "a_ssim": timetable(leg(c22="04APR32"), leg(c6="  12", c15="01JUN31", c22="30JUN31"))}
        ran = self.run_over(files, *REQUEST, "--within", "2031-03-04..2031-03-16")
        (row,) = read_case(ran.text.encode()).flights
        self.assertEqual((date(2031, 3, 4), date(2031, 3, 16)), (row.first, row.last))
        self.assertIn("a_ssim:4: passed over: BX 12 LHR JFK: no flight of it is within the days kept", ran.said)
        self.assertIn("a_ssim: 5 read, 4 taken, 1 passed over, 0 bad", ran.said)

    def test_connect_times(self):
        ran = self.run_over({**SMALL, "places_csv": "place,connect\nLHR,75\nXXX,5\n"}, *REQUEST, "--connect", "40")
        self.assertEqual([("LHR", 75), ("XXX", 5), ("JFK", 40)], [(p.code, p.connect) for p in read_case(ran.text.encode()).places])
        self.assertIn("places: note: JFK: a connection takes at least 40 minutes", ran.said)

    def test_requests(self):
        words = ["--request", "LHR-JFK 2031-03-03..2031-03-05, JFK-LHR 2031-03-12", "--sale", "2031-02-10", "--party", "2", "--best", "3"]
        request = read_case(self.run_over(SMALL, *words).text.encode()).request
        self.assertEqual((2, 3), (request.party, request.best))
        self.assertEqual([("LHR", "JFK", 3), ("JFK", "LHR", 1)], [(p.origin, p.destination, p.days) for p in request.slices])

    def test_words(self):
        for words, reason in (
            (["--request", "LHR JFK 2031-03-03"], "'LHR JFK 2031-03-03' is not a slice such as LON-NYC 2031-03-03"),
            (["--request", "LHR-LHR 2031-03-03"], "ends where it begins"),
            (["--request", "LHR-JFK 2031-03-03..2031-03-10"], "a window has one to seven days"),
            (["--request", ", ".join(["LHR-JFK 2031-03-03"] * 7)], "7 slices, not one to six"),
            (["--sale", "2031-02-29"], "2031-02-29 is not a day of the calendar"),
            (["--party", "10"], "10 is not a whole number from 1 to 9"),
            (["--factor", "0"], "0 is not a whole number from 1 to 1000000"),
            (["--stations", "LHR-LON"], "'LHR-LON' is not a station and its place"),
            (["--within", "2031-03-03..2031-03-02"], "'2031-03-03..2031-03-02' ends before it begins"),
            (["--within", "2031-03-03"], "'2031-03-03' is not days FIRST..LAST"),
        ):
            ran = self.run_over(SMALL, *REQUEST, *words)
            self.assertEqual((2, ""), (ran.status, ran.text))
            self.assertIn(reason, ran.said)
        other = {name: text for name, text in SMALL.items() if name != "a_ssim"}
        self.assertIn("a timetable is needed: --ssim FILE or --flights FILE", self.run_over(other).said)

    def test_filings_are_cut(self):
        fares = [Fare("BX", "LHR", "JFK", f"B{at}", "Y", "O", 4, 1) for at in range(MOST_ACTIONS)]
        filings = filings_of([Rule("BX", 1, {})], fares)
        self.assertEqual([MOST_ACTIONS, 1], [len(filing) for filing in filings])
        self.assertEqual("put_rule", filings[0][0].name)

    def test_limits(self):
        self.assertEqual([], list(over_limits({"flight rows": 5_000, "rules": 2_000})))
        self.assertEqual(["lowfare-case: 5001 flight rows, and a case has at most 5000: narrow it by --within"],
                         list(over_limits({"flight rows": 5_001})))
        rules = "carrier,rule\n" + "".join(f"BX,{at}\n" for at in range(1, 2_002))
        ran = self.run_over({**SMALL, "rules_csv": rules})
        self.assertEqual((1, ""), (ran.status, ran.text))
        self.assertIn("lowfare-case: 2001 rules, and a case has at most 2000\nlowfare-case: no case is written\n", ran.said)


class Damage(unittest.TestCase):
    READERS = {"seats.csv": read_seats, "fares.csv": read_fares, "rules.csv": read_rules}

    def test_damaged_files_are_named_line_by_line(self):
        seeded = random.Random(11)
        for name, reader in self.READERS.items():
            data = (YOUR_DATA / name).read_bytes()
            for _ in range(150):
                report = Report()
                made = damaged(seeded, data)
                found = reader("x.csv", made, report, Source(100, {"LHR": "LON"}))
                counts = report.of("x.csv")
                self.assertEqual((counts.read, counts.taken), (counts.taken + counts.bad, len(found)))
                self.assertEqual(counts.bad, len(report.messages))
                for message in report.messages:
                    self.assertTrue(1 <= int(message.split(":")[1]) <= made.count(b"\n") + 1, message)

    def test_damaged_flights(self):
        seeded = random.Random(12)
        data = (FLIGHTS + "BX,12,JFK,LHR,19:00,-04:00,06:30,+00:00,1,2031-03-09,2031-03-28,17\n" * 9).encode()
        for _ in range(150):
            report = Report()
            found = read_flights("x.csv", damaged(seeded, data), report, None)
            self.assertEqual(report.of("x.csv").taken, len(found))

    def test_the_command_over_damaged_files(self):
        seeded = random.Random(13)
        files = {"a_ssim": "flights.ssim", "seats_csv": "seats.csv", "fares_csv": "fares.csv", "rules_csv": "rules.csv"}
        whole = {name: (YOUR_DATA / file).read_bytes() for name, file in files.items()}
        words = ["--request", "LON-DUB 2031-03-03", "--sale", "2031-02-10", "--factor", "100", "--stations", "LHR=LON,JFK=NYC"]
        for _ in range(40):
            hit = seeded.choice(list(whole))
            with folder(**{**whole, hit: damaged(seeded, whole[hit])}) as paths:
                ran = command(paths, *words)
                skipped = command(paths, *words, "--skip-bad")
            self.assertIn(ran.status, (0, 1))
            self.assertEqual(ran.status == 1, ": bad: " in ran.said)
            self.assertEqual(0, skipped.status)
            self.assertEqual([], read_case(skipped.text.encode()).faults)


if __name__ == "__main__":
    unittest.main()
