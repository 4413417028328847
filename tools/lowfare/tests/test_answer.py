"""Reading what the program prints: each form of docs/FORMATS.md, and the first line that isn't of it."""
import random
import unittest
from datetime import date

from lowfare_tools.answer import (
    Breach,
    Calendar,
    Cell,
    Certified,
    Checked,
    FlightOf,
    Move,
    NotAnAnswer,
    Refused,
    Row,
    TooLarge,
    Verdict,
    read,
)
from tests.helpers import EXAMPLES, damaged

ROUND_TRIP = (EXAMPLES / "round-trip.out").read_text()


class Reading(unittest.TestCase):
    def test_tickets_of_a_round_trip(self):
        found = read(ROUND_TRIP)
        self.assertEqual((1, [40000, 45000, 45000, 49000]), (found.version, [ticket.price for ticket in found.tickets]))
        way_out, way_back = found.tickets[0].components
        self.assertEqual((1, "round_trip", False, 20000), (way_out.unit, way_out.kind, way_out.reverse, way_out.price))
        self.assertEqual(("QX", "LON", "NYC", "R1"), way_back.fare_key)
        self.assertTrue(way_back.reverse)
        self.assertEqual((FlightOf("QX", 102, date(2031, 3, 10), "NYC", "LON"),), way_back.flights)
        self.assertEqual([1, 2], [part.unit for part in found.tickets[3].components])

    def test_its_certificate(self):
        certificate = read(ROUND_TRIP).certificate
        moves = (Move((0,), "QX", "R1", 1, 0), Move((1,), "QX", "R1", 3, 0))
        self.assertEqual(Certified(40000, moves), certificate.answers[0])
        self.assertEqual(Row("0 0 LON - 0 1 - 0:0:-", 40000), certificate.rows[0])
        self.assertEqual(3, len(certificate.rows))
        self.assertEqual(("certificate 1", "end"), (certificate.lines[0], certificate.lines[-1]))

    def test_a_certificate_alone_has_no_tickets(self):
        text = ROUND_TRIP[ROUND_TRIP.index("certificate 1") :]
        found = read(text)
        self.assertIsNone(found.tickets)
        self.assertEqual(read(ROUND_TRIP).certificate, found.certificate)

    def test_a_row_without_a_bound(self):
        text = "certificate 1\nversion 0\nrequest {}\nanswers 0\nrows 1\nrow 0 0 LON - 0 0 - 0:0:- -\nend\n"
        self.assertEqual((Row("0 0 LON - 0 0 - 0:0:-", None),), read(text).certificate.rows)

    def test_other_texts(self):
        day, next_day = date(2031, 3, 7), date(2031, 3, 8)
        cells = (Cell(day, day, 500), Cell(day, next_day, "too large"))
        cases = {
            "version 2\ncalendar 1 2\ncell 2031-03-07 2031-03-07 500\ncell 2031-03-07 2031-03-08 too large\n": Calendar(2, cells),
            "lawful price 45000\n": Verdict(45000, ()),
            "breaches 1\nbreach 21 component 1 unit 1 category 5\n": Verdict(None, (Breach(21, 1, 1, 5),)),
            "yes\n": Checked(0, 0),
            "no C3 2\n": Checked(3, 2),
            "too large\n": TooLarge(),
            "refused 9 action 1 NoRule\n": Refused(9, "action 1 NoRule"),
        }
        for text, wanted in cases.items():
            with self.subTest(text.split("\n")[0]):
                self.assertEqual(wanted, read(text))
                self.assertEqual(wanted, read(text.replace("\n", "\r\n")))


class Faults(unittest.TestCase):
    def test_the_first_line_at_fault_is_named(self):
        cases = {
            "nothing": ("", 1),
            "a case": ("#places\nLON,60\n", 1),
            "a count without its tickets": ("version 1\ntickets 1\n", 3),
            "a ticket out of its number": ("version 1\ntickets 1\nticket 2 price 5\n", 3),
            "a component without flights": ("version 1\ntickets 1\nticket 1 price 5\ncomponent 1 unit 1 circle forward QX LON NYC A 5\n", 5),
            "a kind that is none": ("version 1\ntickets 1\nticket 1 price 5\ncomponent 1 unit 1 square forward QX LON NYC A 5\n", 4),
            "no day of the calendar": (ROUND_TRIP.replace("2031-03-03 LON", "2031-02-30 LON", 1), 5),
            "a number with a zero in front": (ROUND_TRIP.replace("ticket 1 price 40000", "ticket 1 price 040000"), 3),
            "a number of many digits": (f"version {'9' * 5000}\n", 1),
            "a line too many": ("yes\nyes\n", 2),
            "a certificate that was cut": (ROUND_TRIP.removesuffix("end\n"), 35),
            "a role above 3": (ROUND_TRIP.replace("QX R1 3 0", "QX R1 4 0", 1), 27),
            "no cells": ("version 1\ncalendar 0 5\n", 2),
            "a day that isn't the column's": ("version 1\ncalendar 2 1\ncell 2031-03-01 2031-03-02 1\ncell 2031-03-02 2031-03-03 1\n", 4),
        }
        for name, (text, line) in cases.items():
            with self.subTest(name):
                with self.assertRaises(NotAnAnswer) as found:
                    read(text)
                self.assertEqual(line, found.exception.line)

    def test_no_damage_but_ends_in_an_answer_or_a_named_line(self):
        draw = random.Random(20310303)
        for _ in range(1500):
            text = damaged(draw, ROUND_TRIP.encode()).decode("utf-8", "replace")
            try:
                read(text)
            except NotAnAnswer as bad:
                self.assertGreaterEqual(bad.line, 1)


if __name__ == "__main__":
    unittest.main()
