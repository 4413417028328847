"""Tests of what the measurements of growth are made with. What is wanted is worked out by hand."""
import unittest

import cases
import growth
from growth import Point


class Exponents(unittest.TestCase):
    def test_powers(self):
        for name, values, wanted in (("linear", [3, 6, 12], 1), ("square", [1, 4, 16], 2), ("constant", [5, 5, 5], 0)):
            with self.subTest(name):
                self.assertAlmostEqual(growth.exponent([10, 20, 40], values, 0), wanted)

    def test_what_is_below_the_floor_counts_nothing(self):
        self.assertAlmostEqual(growth.exponent([10, 20, 40], [0.001, 2, 8], 0.02), 2)
        self.assertIsNone(growth.exponent([10, 20, 40], [0.001, 0.002, 8], 0.02))

    def test_line(self):
        told = growth.line("walk", "residuals", [Point(1000, 0.1, 10.0), Point(2000, 0.2, 40.0)], 1)
        self.assertEqual(told, "| walk | residuals | 1,000, 2,000 | 100, 200 | 10, 40 | 1.00 | 2.00 | 1 |")


class Cases(unittest.TestCase):
    def test_codes(self):
        self.assertEqual([cases.place(0), cases.place(27), cases.place(17_575)], ["AAA", "ABB", "ZZZ"])
        self.assertEqual([cases.carrier(0), cases.carrier(26), cases.carrier(1295)], ["AA", "A0", "99"])
        self.assertEqual(cases.basis(37), "AABB")

    def test_rows(self):
        rows = cases.Rows()
        rows.add("AAA", "BBB", 1440 + 1430, 20, days=2)
        self.assertEqual(rows.flights, ["QX,1,AAA,BBB,23:50,+00:00,00:10,+00:00,1,2031-03-04,2031-03-05,1234567"])
        self.assertEqual(rows.seats, ["QX,1,AAA,*,Y9"])
        self.assertEqual(rows.places(), ["AAA", "BBB"])

    def test_filings_are_cut(self):
        self.assertEqual(cases.filings_of([1, 2, 3], most=2), ['{"actions":[1,2]}', '{"actions":[3]}'])

    def test_certificate_comes_before_the_end(self):
        given = cases.with_certificate(b"#request\n{}\n#end\n", b"version 1\ncertificate 1\nend\n")
        self.assertEqual(given, b"#request\n{}\n#certificate\ncertificate 1\nend\n#end\n")
