"""SSIM chapter 7: each column that is read, each record that is passed over, and each that is bad."""
import random
import unittest
from datetime import date

from lowfare_tools.case import FlightRow
from lowfare_tools.case_text import flight_text
from lowfare_tools.report import Report
from lowfare_tools.ssim import OTHER_SERVICES, PASSENGERS, VEHICLES, read_ssim
from tests.helpers import YOUR_DATA, damaged, leg, record, timetable


def read(data):
    report = Report()
    return read_ssim("x.ssim", data, report), report


def rows(*legs, **changes):
    """The rows of a file of these legs, in which nothing is bad."""
    found, report = read(timetable(*legs, **changes))
    assert not report.any_bad, report.messages
    return found


def row(*legs, **changes):
    (one,) = rows(*legs, **changes)
    return one


class Columns(unittest.TestCase):
    def test_a_leg_is_a_flight_row(self):
        wanted = FlightRow("BX", 11, "LHR", "JFK", 660, 0, 840, -300, 0, date(2031, 3, 3), date(2031, 3, 9), (1, 3, 5), 3)
        self.assertEqual(wanted, row(leg()))

    def test_the_example_file(self):
        found, report = read((YOUR_DATA / "flights.ssim").read_bytes())
        self.assertEqual(12, len(found))
        self.assertEqual("BX,16,JFK,LHR,22:15,-04:00,09:50,+00:00,1,2031-03-09,2031-03-28,1234567", flight_text(found[3]))
        self.assertEqual("EX,202,DUB,LHR,06:30,+00:00,07:45,+00:00,0,2031-03-01,2031-03-29,1234567", flight_text(found[9]))
        self.assertEqual("NX,2,LHR,JFK,13:00,+00:00,16:00,-05:00,0,2031-03-03,2031-03-07,135", flight_text(found[11]))
        self.assertEqual(["x.ssim:19: passed over: EX 9001 ORK DUB: surface transport (aircraft type BUS)",
                          "x.ssim:24: passed over: NX 5011 LHR JFK: a codeshare of BX 11 (element 050)"], report.messages)
        self.assertEqual(["x.ssim: 26 read, 24 taken, 2 passed over, 0 bad"], list(report.sums()))

    def test_flight_numbers(self):
        for text, number in (("0011", 11), ("  11", 11), ("9999", 9999), ("   1", 1)):
            self.assertEqual(number, row(leg(c6=text)).number)

    def test_times_of_the_aircraft_where_passengers_have_none(self):
        found = row(leg(c40="    ", c62="    "))
        self.assertEqual((10 * 60 + 55, 14 * 60 + 5), (found.departs, found.arrives))

    def test_midnight_as_2400(self):
        found = row(leg(c55="DUB", c62="2400", c66="+0000"))
        self.assertEqual((0, 1), (found.arrives, found.shift))

    def test_arrival_days_later_and_the_day_before(self):
        for text, shift in (("  ", 0), ("00", 0), ("01", 1), ("02", 2), ("12", 1)):
            self.assertEqual(shift, row(leg(c193=text)).shift)
        # Over the date line: 20:00 at +13:00 is 07:00 UTC, 10:00 at -10:00 of the day before is 20:00 UTC of that day: no.
        # 01:00 at +13:00 on the 3rd is 12:00 UTC on the 2nd; 16:00 at -10:00 on the 2nd is 02:00 UTC on the 3rd, 14 hours later.
        for letter in "AJ":
            found = row(leg(c40="0100", c48="+1300", c62="1600", c66="-1000", c193="0" + letter))
            self.assertEqual(-1, found.shift)

    def test_a_later_leg_that_leaves_a_day_later(self):
        """Period and days are those of the first station: Mondays from 3 to 9 March are Tuesdays from 4 to 10 March here."""
        found = row(leg(c12="02", c29="1 3   7", c193="11"))
        self.assertEqual((date(2031, 3, 4), date(2031, 3, 10), (1, 2, 4), 0), (found.first, found.last, found.weekdays, found.shift))

    def test_times_in_utc(self):
        """19:30 UTC on a Monday is 08:30 on Tuesday at +13:00, and 07:30 UTC on Tuesday is 21:30 on Monday at -10:00."""
        found = row(leg(c29="1      ", c40="1930", c48="+1300", c62="0730", c66="-1000", c193="01"), c2="U")
        self.assertEqual((8 * 60 + 30, 21 * 60 + 30, -1), (found.departs, found.arrives, found.shift))
        self.assertEqual((date(2031, 3, 4), date(2031, 3, 10), (2,)), (found.first, found.last, found.weekdays))

    def test_every_second_week(self):
        """From Monday 3 March to 6 April, every second week on Mondays and Fridays: the weeks of 3, 17 and 31 March."""
        found = rows(leg(c22="06APR31", c29="1   5  ", c36="2"))
        self.assertEqual([(date(2031, 3, 3), date(2031, 3, 9)), (date(2031, 3, 17), date(2031, 3, 23)),
                          (date(2031, 3, 31), date(2031, 4, 6))], [(part.first, part.last) for part in found])
        self.assertEqual([3, 7, 17, 21, 31, 4], [day.day for part in found for day in part.days()])

    def test_a_long_period_is_split(self):
        """366 days are one period of a case, 367 are two."""
        self.assertEqual(1, len(rows(leg(c22="02MAR32", c29="1234567"))))
        found = rows(leg(c22="04MAR32", c29="1234567"))
        self.assertEqual([(date(2031, 3, 3), date(2032, 3, 2)), (date(2032, 3, 3), date(2032, 3, 4))],
                         [(part.first, part.last) for part in found])

    def test_an_open_end_is_the_end_of_the_carriers_record(self):
        self.assertEqual(date(2031, 12, 31), row(leg(c22="00XXX00")).last)

    def test_files_without_line_ends_and_with_other_ones(self):
        lines = timetable(leg()).decode()
        for text in (lines.replace("\n", ""), lines.replace("\n", "\r\n"), lines + "\x1a", lines.replace("\n", "\n\n")):
            found, report = read(text.encode())
            self.assertEqual((1, False), (len(found), report.any_bad))


class PassedOver(unittest.TestCase):
    def passed(self, *legs):
        found, report = read(timetable(*legs))
        self.assertEqual((0, 1, 0), (len(found), report.of("x.ssim").passed, report.of("x.ssim").bad))
        return report.messages[0]

    def test_service_types(self):
        for letter in PASSENGERS:
            self.assertEqual(1, len(rows(leg(c14=letter))))
        for letter, what in OTHER_SERVICES.items():
            self.assertIn(f"x.ssim:3: passed over: BX 11 LHR JFK: {what}", self.passed(leg(c14=letter)))

    def test_surface_vehicles(self):
        for vehicle in VEHICLES:
            self.assertIn(f"surface transport (aircraft type {vehicle})", self.passed(leg(c73=vehicle)))

    def test_codeshares(self):
        for letter in "LZ":
            self.assertIn(f"a codeshare (operating airline disclosure {letter})", self.passed(leg(c149=letter)))
        data = record({1: "4", 3: "BX", 6: "  11", 10: "01", 12: "01", 14: "J", 31: "050", 34: "LHR", 37: "JFK", 40: "EX  101"})
        self.assertIn("a codeshare of EX 101 (element 050)", self.passed(leg(), data))


class Noted(unittest.TestCase):
    def noted(self, data, text):
        found, report = read(data)
        self.assertEqual((1, False), (len({part.line for part in found}), report.any_bad))
        self.assertIn(text, "\n".join(report.messages))

    def test_what_a_case_does_not_show(self):
        self.noted(timetable(leg(c149="S")), "x.ssim:3: note: BX 11 LHR JFK: flown by another (operating airline disclosure S)")
        self.noted(timetable(leg(c149="X")), "flown by another (operating airline disclosure X)")
        self.noted(timetable(leg(c150="A")), "x.ssim:3: note: BX 11 LHR JFK: its traffic restriction A is left out")
        self.noted(timetable(leg(c2="D")), "its operational suffix D is left out")
        self.noted(timetable(leg(c22="04MAR32", c29="1234567")), "cut into 2 periods")

    def test_records_that_are_missing(self):
        lines = timetable(leg()).decode().split("\n")
        self.noted("\n".join([lines[0], *lines[2:]]).encode(), "no type 2 record of BX before it: its times are taken as local ones")
        self.noted("\n".join(lines[:3]).encode(), "x.ssim:2: note: no type 5 record of BX follows: was the file cut short?")


class Bad(unittest.TestCase):
    CASES = [
        ("column 3: 'BXX' is not a carrier", {"c3": "BXX"}),
        ("column 6: '0000' is not a flight number", {"c6": "0000"}),
        ("column 6: '1 1' is not a flight number", {"c6": " 1 1"}),
        ("column 14: '' is not a service type that SSIM has", {"c14": " "}),
        ("column 15: '03MRZ31' has no month", {"c15": "03MRZ31"}),
        ("column 15: 31FEB31 is not a day of the calendar", {"c15": "31FEB31"}),
        ("column 22: '2MAR31' is not a day such as 03MAR31", {"c22": " 2MAR31"}),
        ("column 22: the period ends on 2031-03-02, before it begins on 2031-03-03", {"c22": "02MAR31"}),
        ("column 29: no day of operation", {"c29": "       "}),
        ("column 29: '135    ' is not days of operation", {"c29": "135    "}),
        ("column 29: no day of its period is a day of operation", {"c22": "03MAR31", "c29": " 2     "}),
        ("column 36: '3' is not a frequency rate", {"c36": "3"}),
        ("column 37: 'LH1' is not a place", {"c37": "LH1"}),
        ("column 40: '2460' is not a time HHMM", {"c40": "2460"}),
        ("column 48: '0000' is not a variation from UTC", {"c48": " 0000"}),
        ("column 66: the variation -1401 is more than 14 hours", {"c66": "-1401"}),
        ("column 55: it arrives where it departs", {"c55": "LHR"}),
        ("column 62: it arrives no later than it departs", {"c62": "0500"}),
        ("column 194: '9' is not a date variation", {"c194": "9"}),
        ("column 194: it arrives 3 days after it departs; a case has -1 to 2", {"c194": "3"}),
    ]

    def test_each_column(self):
        for reason, changes in self.CASES:
            found, report = read(timetable(leg(**changes)))
            self.assertEqual([], found, reason)
            said = [message for message in report.messages if message.startswith("x.ssim:3: bad: ")]
            self.assertEqual(1, len(said), reason)
            self.assertIn(f": {reason}", said[0])

    def test_records_of_another_form(self):
        for text, reason in (
            (leg()[:-1], "a record of 199 bytes, not 200"),
            (leg() + " ", "a record of 201 bytes, not 200"),
            ("6" + leg()[1:], "column 1: '6' is not a record type, 1 to 5"),
            (record({1: "4", 3: "BX", 6: "  12"}), "column 6: it belongs to no leg before it"),
            (record({1: "2", 2: "Z", 3: "QX"}), "column 2: 'Z' is not a time mode, L or U"),
        ):
            found, report = read(timetable(text, leg()))
            self.assertEqual([f"x.ssim:3: bad: {reason}"], report.messages)
            self.assertEqual(1, len(found))

    def test_an_open_end_without_an_end(self):
        _, report = read(timetable(leg(c22="00XXX00"), c22="00XXX00"))
        self.assertIn("column 22: the period has no end, and the carrier's record none either", report.messages[0])


class Damage(unittest.TestCase):
    def test_damaged_files_are_named_line_by_line(self):
        seeded = random.Random(7)
        data = (YOUR_DATA / "flights.ssim").read_bytes()
        for _ in range(300):
            found, report = read(damaged(seeded, data))
            counts = report.of("x.ssim")
            self.assertEqual(counts.read, counts.taken + counts.passed + counts.bad)
            self.assertEqual(counts.bad, sum(": bad: " in message for message in report.messages))
            self.assertTrue(all(message.split(":")[1].isdigit() for message in report.messages))
            for part in found:
                self.assertTrue(any(part.days()))


if __name__ == "__main__":
    unittest.main()
