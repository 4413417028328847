"""Facts of the worked cases, and what the binding adds: errors, threads, closing."""

import concurrent.futures
import datetime
import pathlib
import unittest

from lowfare import Book, Closed, Refused, Request, Slice, TooLarge, run

EXAMPLES = pathlib.Path(__file__).resolve().parents[3] / "examples"
ONE_WAY = Request(sale="2031-02-01", party=1, best=3, slices=[Slice("LON", "NYC", "2031-03-03")])
CHEAPER = {
    "actions": [
        {
            "put_fare": {
                "carrier": "QX",
                "from": "LON",
                "to": "NYC",
                "basis": "Y1",
                "class": "Y",
                "kind": "O",
                "amount": 15000,
                "rule": 0,
            }
        }
    ]
}


def one_way():
    """The book of the one-way case: LON to NYC on QX 101 on 2031-03-03, for 20000."""
    return Book.from_case((EXAMPLES / "one-way.case").read_bytes())


class Searches(unittest.TestCase):
    """The one-way case is worked out by hand in docs/FORMATS.md."""

    def test_search(self):
        answer = one_way().search(ONE_WAY)
        self.assertEqual(answer.version, 1)
        (ticket,) = answer.tickets
        self.assertEqual(ticket.price, 20000)
        (part,) = ticket.components
        self.assertEqual((part.unit, part.kind, part.direction, part.basis), (1, "one_way", "forward", "Y1"))
        (leg,) = part.flights
        self.assertEqual((leg.carrier, leg.number, leg.date), ("QX", 101, datetime.date(2031, 3, 3)))
        self.assertTrue(answer.certificate.endswith(b"end\n"))

    def test_text_is_the_programs(self):
        text = one_way().search_text(ONE_WAY)
        self.assertEqual(text, (EXAMPLES / "one-way.out").read_bytes())

    def test_file(self):
        old = one_way()
        new = old.file(CHEAPER)
        self.assertEqual((old.version, new.version), (1, 2))
        self.assertEqual([ticket.price for ticket in new.search(ONE_WAY).tickets], [15000])
        self.assertEqual([ticket.price for ticket in old.search(ONE_WAY).tickets], [20000])

    def test_check(self):
        old = one_way()
        certificate = old.search(ONE_WAY, best=0).certificate
        self.assertTrue(old.check(ONE_WAY, certificate).holds)
        said = old.file(CHEAPER).check(ONE_WAY, certificate)
        self.assertFalse(said.holds)

    def test_verdict(self):
        book = one_way()
        (ticket,) = book.search(ONE_WAY).tickets
        self.assertEqual(book.verdict(ONE_WAY, ticket).price, 20000)
        unlawful = ticket.to_text().replace(b"Y1", b"Y2")
        said = book.verdict(ONE_WAY, unlawful)
        self.assertFalse(said.is_lawful)
        self.assertTrue(said.breaches)

    def test_calendar(self):
        book = Book.from_case((EXAMPLES / "calendar-of-one-day.case").read_bytes())
        case = (EXAMPLES / "calendar-of-one-day.case").read_text()
        request = case.split("#request\n")[1].split("\n")[0]
        (cell,) = book.calendar(request, 1, 1)
        shown = (EXAMPLES / "calendar-of-one-day.out").read_text().splitlines()[-1]
        self.assertEqual(shown, f"cell {cell.out} {cell.back} {cell.price}")


class Faults(unittest.TestCase):
    """Each refusal names its line and its reason."""

    def test_no_case(self):
        with self.assertRaises(Refused) as caught:
            Book.from_case(b"")
        self.assertEqual(caught.exception.reason, "NoEnd")

    def test_no_request(self):
        with self.assertRaises(Refused) as caught:
            one_way().search("{")
        self.assertEqual((caught.exception.line, caught.exception.reason), (1, "Syntax"))

    def test_unknown_place(self):
        request = Request(sale="2031-02-01", party=1, slices=[Slice("LON", "PAR", "2031-03-03")])
        with self.assertRaises(Refused) as caught:
            one_way().search(request)
        self.assertEqual(caught.exception.reason, "BadRequest UnknownPlace")

    def test_refused_filing(self):
        drop = {"actions": [{"drop_fare": {"carrier": "QX", "from": "LON", "to": "NYC", "basis": "Z9"}}]}
        with self.assertRaises(Refused) as caught:
            one_way().file(drop)
        self.assertEqual(caught.exception.reason, "action 1 NoFare")

    def test_budget(self):
        with self.assertRaises(TooLarge):
            one_way().search(ONE_WAY, budget=0)

    def test_numbers(self):
        for best, budget in ((0, 2**32), (0, -1), (2**32, 1)):
            with self.assertRaises(ValueError):
                one_way().search(ONE_WAY, best, budget)

    def test_closed(self):
        book = one_way()
        book.close()
        with self.assertRaises(Closed):
            book.search(ONE_WAY)


class Commands(unittest.TestCase):
    """`run` is the program."""

    def test_search(self):
        case = (EXAMPLES / "one-way.case").read_bytes()
        self.assertEqual(run(["search"], case), (0, (EXAMPLES / "one-way.out").read_bytes()))

    def test_usage(self):
        status, text = run(["serve"])
        self.assertEqual(status, 2)
        self.assertTrue(text.startswith(b"usage: lowfare "))


class Threads(unittest.TestCase):
    """Many threads ask one book, and one closes it in the end."""

    def test_threads(self):
        book = one_way()
        expected = (EXAMPLES / "one-way.out").read_bytes()
        with concurrent.futures.ThreadPoolExecutor(8) as pool:
            texts = list(pool.map(lambda _: book.search_text(ONE_WAY), range(400)))
        self.assertEqual(set(texts), {expected})


if __name__ == "__main__":
    unittest.main()
