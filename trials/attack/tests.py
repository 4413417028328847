"""Tests of what the attacks are made with. What is wanted is worked out by hand."""
import unittest

import attack
import attacks
import collisions
import programs


class Hashes(unittest.TestCase):
    def test_bytes_as_they_are_read(self):
        read = ((b"", 0), (b"\x07", 0x070707), (b"\x01\x02", 0x020201), (b"\x01\x02\x03", 0x030201), (b"\x01\x00\x00\x00", 0x0000000100000001))
        for data, wanted in read:
            with self.subTest(data):
                self.assertEqual(collisions.short(data), wanted)

    def test_folding(self):
        self.assertEqual(collisions.folded(2**63, 4), 2)
        self.assertEqual(collisions.folded(3, 5), 15)

    def test_groups(self):
        self.assertEqual([collisions.groups_for(count) for count in (9, 10, 200_000)], [1, 2, 32_768])

    def test_digits_of_an_end(self):
        # the letters are the number 1 here, so that the product is the odd number itself
        self.assertEqual(collisions.end_digits("\x01\x00\x00", "\x00\x00"), 0x9E3779B9)


class Makers(unittest.TestCase):
    def test_ends_share_a_spot(self):
        for by, names in attacks.ends_of_carriers(False, 3, 5).items():
            self.assertEqual({collisions.end_digits(attacks.place(at), by) % 1024 for at in names}, {7})

    def test_seat_rows_are_apart(self):
        harmless, attacked = (set(given.split(b"#seats\n")[1].split(b"#filings")[0].split(b"\n")) for given in attacks.seat_keys(0.001))
        self.assertEqual(len(harmless), len(attacked))
        self.assertEqual(len(harmless), 199 + 2)

    def test_ratio(self):
        self.assertEqual(attack.ratio(6, 2, 0.1), 3)
        self.assertEqual(attack.ratio(0.05, 0.06, 0.1), 1)

    def test_residuals_are_read(self):
        self.assertEqual(attack.rows_of(b"rows 3\nend\n"), b"rows 3")

    def test_runs_that_are_cut_off(self):
        for status, wanted in ((0, False), (6, False), (7, False), (5, True), (134, True), (152, True)):
            with self.subTest(status):
                self.assertEqual(attack.is_cut_off(programs.Run(status, 1.0, 1.0, b"")), wanted)
