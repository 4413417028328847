"""Reading and writing cases: the forms of docs/FORMATS.md, and what stays when a line is damaged."""
import random
import unittest
from datetime import date

from lowfare_tools.book import Book
from lowfare_tools.case import FlightRow, Slice, expand, read_case
from lowfare_tools.case_text import case_text
from tests.helpers import EXAMPLES, damaged


def example(name):
    return (EXAMPLES / f"{name}.case").read_bytes()


class Reading(unittest.TestCase):
    def test_a_whole_case(self):
        case = read_case(example("two-carriers"))
        self.assertEqual([], case.faults)
        self.assertEqual([("LON", 60, 2), ("DUB", 45, 3), ("NYC", 90, 4)], [(p.code, p.connect, p.line) for p in case.places])
        row = FlightRow("BX", 12, "NYC", "LON", 19 * 60, -240, 6 * 60 + 30, 0, 1, date(2031, 3, 12), date(2031, 3, 12), (3,), 9)
        self.assertEqual(row, case.flights[3])
        self.assertEqual({"J": 4, "Y": 9, "Q": 2}, case.seats[0].seats)
        self.assertEqual(["put_rule", "put_rule", *["put_fare"] * 4], [action.name for action in case.filings[0]])
        self.assertEqual(date(2031, 2, 10), case.request.sale)
        self.assertEqual((2, 3, 22), (case.request.party, case.request.best, case.request.line))
        self.assertEqual(Slice("NYC", "LON", date(2031, 3, 12), 1), case.request.slices[1])

    def test_flights_are_numbered_by_departure(self):
        flights = expand(read_case(example("two-carriers")).flights)
        numbered = [("EX", 201), ("EX", 101), ("BX", 11), ("EX", 102), ("BX", 12), ("EX", 202)]
        self.assertEqual(numbered, [(flight.carrier, flight.number) for flight in flights])
        self.assertEqual(list(range(6)), [flight.index for flight in flights])

    def test_equal_departures_go_by_carrier_number_and_origin(self):
        text = "#flights\n" + "".join(
            f"{name},10:00,+00:00,11:00,+00:00,0,2031-03-03,2031-03-03,1\n"
            for name in ("QX,2,LON,NYC", "QX,1,NYC,LON", "QX,1,LON,NYC", "9X,3,LON,NYC")
        )
        flights = expand(read_case(text.encode()).flights)
        self.assertEqual([("9X", 3, "LON"), ("QX", 1, "LON"), ("QX", 1, "NYC"), ("QX", 2, "LON")],
                         [(flight.carrier, flight.number, flight.origin) for flight in flights])

    def test_local_times_and_instants(self):
        text = b"#flights\nBX,12,NYC,LON,19:00,-04:00,06:30,+00:00,1,2031-03-12,2031-03-19,3\n"
        flights = expand(read_case(text).flights)
        self.assertEqual([date(2031, 3, 12), date(2031, 3, 19)], [flight.day for flight in flights])
        self.assertEqual(date(2031, 3, 13), flights[0].arrival_day)
        # 19:00 four hours behind UTC is 23:00 UTC; 06:30 UTC of the next day is 7 hours 30 later.
        self.assertEqual(450, flights[0].lands - flights[0].leaves)
        self.assertEqual(23 * 60, flights[0].leaves % 1440)
        # 3 March 2031 is 22341 days after 1 January 1970.
        self.assertEqual(22341 + 9, flights[0].leaves // 1440)

    def test_what_is_wrong_is_kept_with_its_line(self):
        text = b"""#places
LON,60
lon,60
#flights
BX,12,NYC,LON,19:00,-04:00,06:30,+00:00,1,2031-02-29,2031-03-19,3
#seats
BX,12,NYC,*,Y9Y8
#filings
{"actions":[{"put_fare":1}]}
{"actions":
#request
{"sale":"2031-02-10","party":10,"slices":[]}
"""
        case = read_case(text)
        self.assertEqual([3, 5, 7, 9, 10, 12], [fault.line for fault in case.faults])
        self.assertEqual("column 10: 2031-02-29 is not a day of the calendar", case.faults[1].reason)

    def test_marks_of_the_whole_file(self):
        self.assertTrue(read_case(b"\xef\xbb\xbf#places\nLON,60\n#end\n").bom)
        self.assertEqual("LON", read_case(b"\xef\xbb\xbf#places\nLON,60\n#end\n").places[0].code)
        self.assertFalse(read_case(b"#places\n#end").last_feed)
        self.assertEqual("LON", read_case(b"#places\r\nLON,60\r\n").places[0].code)

    def test_a_certificate_and_a_ticket_are_kept_as_lines(self):
        case = read_case(example("check-yes"))
        self.assertEqual("certificate 1", case.certificate[0][1])
        self.assertEqual("end", case.certificate[-1][1])
        ticket = read_case(example("worked-season-verdict")).ticket
        self.assertEqual([(14, "component 1 BX LON NYC QLOW"), (15, "flight BX 11 2031-03-03 LON")], ticket)


class Books(unittest.TestCase):
    def test_the_last_action_counts(self):
        case = read_case(example("worked-season"))
        self.assertNotIn("cat3", Book(case, 1).rules["BX", 1].categories)
        self.assertEqual([["2031-03-04", "2031-06-30"]], Book(case).rules["BX", 1].categories["cat3"])
        self.assertEqual(30000, Book(case).fares["BX", "LON", "NYC", "QLOW"].amount)
        self.assertEqual({}, Book(case, 0).fares)

    def test_what_is_dropped_is_gone(self):
        text = b"""#filings
{"actions":[{"put_rule":{"carrier":"QX","rule":1,"cat5":1}},{"drop_rule":{"carrier":"QX","rule":1}},{"drop_rule":{"carrier":"QX","rule":1}}]}
"""
        book = Book(read_case(text))
        self.assertEqual({}, book.rules)
        self.assertEqual([(2, "action 3: it drops a rule that isn't there")], [(f.line, f.reason) for f in book.faults])

    def test_seats_of_the_day_before_those_of_all_days(self):
        case = read_case(example("your-data"))
        book = Book(case)
        seats = {flight.day.day: book.seats_left(flight, "Q") for flight in expand(case.flights) if flight.number == 15}
        self.assertEqual({3: 4, 4: 4, 5: 0, 6: 4, 7: 4}, seats)
        flight = next(flight for flight in expand(case.flights) if flight.number == 15)
        self.assertEqual(0, book.seats_left(flight, "K"))


class Writing(unittest.TestCase):
    def test_cases_are_written_as_they_were_read(self):
        for name in ("round-trip", "two-carriers", "your-data", "worked-season-verdict"):
            text = example(name).decode()
            self.assertEqual(without_best(text), without_best(case_text(read_case(text.encode()))), name)

    def test_what_is_written_is_read_again(self):
        for path in sorted(EXAMPLES.glob("*.case")):
            if path.stat().st_size < 100_000:
                case = read_case(path.read_bytes())
                again = read_case(case_text(case).encode())
                self.assertEqual(without_lines(case), without_lines(again), path.stem)


def without_best(text):
    """`best` stands last in what people wrote or is left out."""
    return text.replace('"best":10,', "")


def without_lines(case):
    """The case without its line numbers and faults, which differ where a line was left out."""
    actions = [[(action.name, action.members) for action in filing] for filing in case.filings]
    rows = [repr(row).rpartition(", line=")[0] for row in [*case.places, *case.flights, *case.seats, *case.requests]]
    return actions, rows, [text for _, text in [*case.ticket, *case.certificate]]


class Damage(unittest.TestCase):
    def test_a_damaged_case_never_raises(self):
        seeded = random.Random(46)
        for name in ("two-carriers", "check-yes", "worked-combinations-verdict", "your-data"):
            data = example(name)
            for _ in range(150):
                case = read_case(damaged(seeded, data))
                Book(case)
                self.assertTrue(all(1 <= fault.line <= len(case.lines) for fault in case.faults))


if __name__ == "__main__":
    unittest.main()
