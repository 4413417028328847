"""Audits over the proved program: right certificates, changed ones that fail each of the five checks, and those of others."""
import unittest
import unittest.mock

from lowfare_tools import answer, audit, command
from lowfare_tools.book import Book
from lowfare_tools.case import read_case
from lowfare_tools.claims import Unclear, labels_of, ticket_of
from lowfare_tools.journey import Timetable
from tests.helpers import EXAMPLES, folder
from tests.shown import case_path, run, stored

ROUND_TRIP = (EXAMPLES / "round-trip.out").read_text()
TICKETS, CERTIFICATE = ROUND_TRIP.split("certificate 1\n")
CERTIFICATE = "certificate 1\n" + CERTIFICATE
CASE = case_path("round-trip")
YES = "The proved program says: yes\nThese are the best tickets of your case, whoever found them."
SAME = "The printed tickets are these, in this order.\n"


def audited(text, *words, case=CASE):
    return run(audit, *words, case, "-", given=text)


def changed(old, new, text=CERTIFICATE):
    assert old in text, old
    return text.replace(old, new, 1)


class Right(unittest.TestCase):
    def test_what_search_printed(self):
        made = audited(ROUND_TRIP)
        self.assertEqual((0, ""), (made.status, made.said))
        about = "4 tickets for 1 traveller, sold on 2031-02-01, LON to NYC from 2031-03-03, NYC to LON from 2031-03-10"
        self.assertTrue(made.text.startswith(f"The certificate is of your version, 1, and of your request: {about}.\n{YES}"))
        self.assertIn(SAME, made.text)
        self.assertEqual(4, made.text.count("\nTicket "))
        self.assertIn("\nTicket 4: 49000 for 1 traveller\n", made.text)

    def test_a_certificate_alone(self):
        made = audited(CERTIFICATE)
        self.assertEqual(0, made.status)
        self.assertIn("No tickets were printed with it.\n", made.text)
        self.assertEqual(4, made.text.count("\nTicket "))

    def test_a_certificate_by_another_hand(self):
        made = audited(changed("0:0:- 40000", "0:0:- 39000"))
        self.assertIn(YES, made.text)

    def test_a_case_that_has_a_certificate_of_its_own(self):
        self.assertEqual(0, audited(ROUND_TRIP, case=case_path("check-wrong-price")).status)

    def test_two_carriers_with_their_connections(self):
        text = stored("two-carriers.answer") + stored("two-carriers.certificate")
        made = audited(text, case=case_path("two-carriers"))
        self.assertEqual(0, made.status)
        self.assertTrue(made.text.endswith(stored("two-carriers.txt")))


class Checks(unittest.TestCase):
    def fails(self, text, check, *told, words=()):
        made = audited(text, *words)
        self.assertEqual((7, ""), (made.status, made.said))
        self.assertIn(f"The proved program says: no {check}\n", made.text)
        self.assertNotIn("says: yes", made.text)
        for part in told:
            self.assertIn(part, made.text)
        return made

    def test_rows(self):
        row = "row 1 0 NYC - 1 2 - 1:0:QX 24000\n"
        text = changed("rows 3", "rows 4", changed(row, row * 2))
        self.fails(text, "C1 3", "lack the first one (row 3 is: 1 0 NYC - 1 2 - 1:0:QX 24000).")
        rows = CERTIFICATE.index("rows 3")
        self.fails(CERTIFICATE[:rows] + "rows 0\nend\n", "C1 0", "(the root of your request is no row).")

    def test_bounds(self):
        told = "a row's bound is above what can be paid from there, or a move leads to no row (row 3 is: "
        self.fails(changed("QX:0 1:0:QX 20000", "QX:0 1:0:QX 20001"), "C2 3", told)

    def test_answers(self):
        first = "answer 40000 1 0 QX R1 1 0 1 1 QX R1 3 0\n"
        self.fails(changed("answer 40000", "answer 39999"), "C3 1", "Answer 1 is lawful, but costs 40000 and not 39999.\n")
        twice = changed("answers 4", "answers 5", changed(first, first * 2))
        self.fails(twice, "C3 2", "Answer 2 is lawful at 40000: it comes twice, out of order, or as one too many.\n")
        unlawful = changed(first, "answer 20000 1 0 QX R1 0 0 1 1 QX Y2 0 0\n")
        self.fails(unlawful, "C3 1", "Answer 1 isn't lawful: kind R may not stand alone.\n")

    def test_departures(self):
        last = "answer 49000 1 0 QX Y1 0 0 1 1 QX Y2 0 0\n"
        text = changed("answers 4", "answers 3", changed(last, ""))
        self.fails(text, "C4 0", "or more tickets may exist (it goes with no answer).")

    def test_the_request(self):
        text = changed('"sale":"2031-02-01"', '"sale":"2031-02-02"')
        told = "Differs: the certificate is of a sale on 2031-02-02, your case of one on 2031-02-01.\n"
        made = self.fails(text, "C5 2", told, "it is of another version or another request (the request).")
        self.assertIn("What it claims, of which nothing follows:\n", made.text)
        far = "the certificate is of version 2, your case has 1 filing: it was made over filings that your case doesn't have"
        self.fails(changed("version 1", "version 2"), "C5 1", f"Differs: {far}.\n")


class Others(unittest.TestCase):
    def test_for_another_number_of_tickets(self):
        three = changed('{"best":4', '{"best":3', changed("answers 4", "answers 3")).replace("answer 49000 1 0 QX Y1 0 0 1 1 QX Y2 0 0\n", "")
        made = audited(three)
        self.assertEqual(7, made.status)
        self.assertTrue(made.text.startswith("Differs: the certificate asks for 3 tickets, your case for 4: use --best 3.\n"))
        self.assertEqual(0, audited(three, "--best", "3").status)
        self.assertIn("you ask for 2: use --best 3.\n", audited(three, "--best", "2").text)

    def test_of_an_earlier_version(self):
        later = '{"actions":[{"put_fare":{"carrier":"QX","from":"LON","to":"NYC","basis":"Y0","class":"Y","kind":"O","amount":9000,"rule":0}}]}\n'
        with open(CASE, encoding="ascii") as file, folder(later_case=file.read().replace("#request", later + "#request")) as paths:
            made = audited(ROUND_TRIP, case=paths["later_case"])
            self.assertEqual(7, made.status)
            self.assertIn("Differs: the certificate is of version 1, your case has 2 filings: use --at 1.\n", made.text)
            made = audited(ROUND_TRIP, "--at", "1", case=paths["later_case"])
            self.assertEqual(0, made.status)
            self.assertTrue(made.text.startswith("The certificate is of your version, 1,"))
            self.assertIn("you ask for version 0: use --at 1.\n", audited(ROUND_TRIP, "--at", "0", case=paths["later_case"]).text)

    def test_of_another_journey(self):
        made = audited(ROUND_TRIP, case=case_path("two-carriers"))
        self.assertEqual(7, made.status)
        for told in (
            "Differs: the certificate asks for 4 tickets, your case for 3: use --best 4.\n",
            "Differs: the certificate is for 1 traveller, your case for 2.\n",
            "Differs: slice 2 of the certificate leaves on 2031-03-10, that of your case on 2031-03-12.\n",
            "Answer 1 can't be read with your case: the fare QX R1 from LON to DUB isn't in the book.\n",
        ):
            self.assertIn(told, made.text)
        self.assertIn("the certificate has 2 slices, your case 1.\n", audited(ROUND_TRIP, case=case_path("one-way")).text)

    def test_of_other_ways_and_windows(self):
        text = changed('"to":"NYC"', '"to":"DUB"', changed('"days":1', '"days":3'))
        made = audited(text)
        self.assertIn("slice 1 of the certificate goes from LON to DUB, that of your case from LON to NYC.\n", made.text)
        self.assertIn("slice 1 of the certificate leaves in the 3 days from 2031-03-03 on, that of your case on 2031-03-03.\n", made.text)


class Printed(unittest.TestCase):
    def test_tickets_that_are_not_the_certificate_s(self):
        cases = {
            "another price": (("ticket 2 price 45000", "ticket 2 price 44000"), "printed ticket 2 costs 44000, not 45000"),
            "a component's price": (("NYC LON Y2 24000", "NYC LON Y2 23000"), "printed ticket 4 component 2 is priced 23000, not 24000"),
            "another fare": (("LON NYC R1 20000", "LON NYC Y1 20000"), "printed ticket 1 component 1 is on QX LON NYC Y1, not on QX LON NYC R1"),
            "another flight": (("QX 101 2031-03-03", "QX 101 2031-03-04"), "component 1 is on QX 101 of 2031-03-04, not on QX 101 of 2031-03-03"),
            "another kind": (("round_trip forward", "open_jaw forward"), "of unit 1, open jaw, forward, not of unit 1, round trip, forward"),
            "another version": (("version 1", "version 2"), "the answer is of version 2, its certificate of version 1"),
        }
        for name, ((old, new), told) in cases.items():
            with self.subTest(name):
                made = audited(changed(old, new, TICKETS) + CERTIFICATE)
                self.assertEqual(7, made.status)
                self.assertIn(YES, made.text)
                self.assertIn("The printed tickets are NOT these: ", made.text)
                self.assertIn(told, made.text)

    def test_a_ticket_too_few(self):
        front = TICKETS[: TICKETS.index("ticket 4 ")].replace("tickets 4", "tickets 3")
        self.assertIn("are NOT these: 3 tickets printed, 4 answers in the certificate.\n", audited(front + CERTIFICATE).text)


class Claims(unittest.TestCase):
    def test_units_by_role_and_slot(self):
        def moves(*places):
            return [answer.Move((0,), "QX", "A", role, slot) for role, slot in places]

        opens, closes, alone, goes_on = 1, 3, 0, 2
        # One within the other: the first closes last, so when it closes it is in slot 0.
        self.assertEqual([1, 2, 2, 1], labels_of(moves((opens, 0), (opens, 0), (closes, 1), (closes, 0))))
        self.assertEqual([1, 2, 1, 2], labels_of(moves((opens, 0), (opens, 0), (closes, 0), (closes, 0))))
        self.assertEqual([1, 2, 1, 1], labels_of(moves((opens, 0), (alone, 0), (goes_on, 0), (closes, 0))))
        for wrong in (moves((closes, 0)), moves((opens, 0)), moves((opens, 0), (closes, 1))):
            with self.assertRaises(Unclear):
                labels_of(wrong)

    def test_answers_are_the_tickets_that_were_printed(self):
        given = read_case((EXAMPLES / "round-trip.case").read_bytes())
        found = answer.read(ROUND_TRIP)
        tickets = tuple(ticket_of(one, Book(given), Timetable.of(given)) for one in found.certificate.answers)
        self.assertEqual(found.tickets, tickets)


class Trouble(unittest.TestCase):
    def test_one_line_and_a_page_for_each(self):
        cases = {
            "no certificate": ((CASE, "-"), TICKETS, "has no certificate: ask for all that search printed; see docs/AUDIT.md"),
            "no such case": (("no-such.case", "-"), ROUND_TRIP, "can't be read: No such file or directory; see docs/VIEWS.md#statuses"),
            "no such answer": ((CASE, "no-such.txt"), "", "no-such.txt can't be read"),
            "a line that is cut": ((CASE, "-"), ROUND_TRIP.replace("row 0 0", "row 0"), "isn't what the program prints: line 32 isn't a row"),
            "a case that the book refuses": ((case_path("no-such-rule"), "-"), ROUND_TRIP, "is refused at line 9: action 1 NoRule; see docs/FORMATS.md#refusals"),
            "a serving case": ((case_path("serve-one-search-twice"), "-"), ROUND_TRIP, "is the case of a serving run"),
            "a request that isn't its own text": ((CASE, "-"), ROUND_TRIP.replace('{"best":4,', '{"best": 4,'), "line 3 of what is asked about is refused: Syntax"),
            "a version that isn't there": (("--at", "5", CASE, "-"), ROUND_TRIP, "has 1 filing, and version 5 was asked for"),
        }
        for name, (words, given, told) in cases.items():
            with self.subTest(name):
                made = run(audit, *words, given=given)
                self.assertEqual((1, "", 1), (made.status, made.text, made.said.count("\n")))
                self.assertIn(told, made.said)

    def test_a_program_that_cannot_be_run(self):
        with unittest.mock.patch.dict("os.environ", {"LOWFARE": "no-such-program"}):
            made = audited(ROUND_TRIP)
        self.assertEqual((10, "", 1), (made.status, made.text, made.said.count("\n")))
        with unittest.mock.patch.dict("os.environ", {"LOWFARE": "true"}):
            self.assertEqual(10, audited(ROUND_TRIP).status)

    def test_words(self):
        for words in ((), (CASE,), ("--best", "0", CASE, "-"), ("--best", "1001", CASE, "-"), ("--at", "-1", CASE, "-")):
            with self.subTest(words):
                self.assertEqual(2, run(audit, *words).status)
        self.assertEqual(2, command.VERSION("2"))


if __name__ == "__main__":
    unittest.main()
