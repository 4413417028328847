"""Tickets for people: plain texts against stored ones that were worked out by hand, pages, folds, charges, and what goes wrong."""
import random
import subprocess
import unittest

from lowfare_tools import blocks, plain, view
from lowfare_tools.answer import read
from lowfare_tools.book import Book
from lowfare_tools.case import read_case
from lowfare_tools.wording import length_text, numbers_text
from tests.helpers import EXAMPLES, TOP, damaged, folder
from tests.shown import HERE, Page, case_path, run, stored

ROUND_TRIP = (EXAMPLES / "round-trip.out").read_text()
BIN = TOP / "tools/lowfare/bin"
TICKET = """ price 20000
component 1 unit 1 one_way forward QX LON NYC Y1 20000
flight QX 101 2031-03-03 LON NYC
"""
STOPOVER = """version 1
tickets 1
ticket 1 price 33000
component 1 unit 1 one_way forward QX LON CHI S1 33000
flight QX 101 2031-03-03 LON NYC
flight QX 103 2031-03-04 NYC CHI
"""
OPEN_JAW = """version 1
tickets 1
ticket 1 price 35000
component 1 unit 1 open_jaw forward QX LON NYC A 20000
flight QX 101 2031-03-03 LON NYC
component 2 unit 1 open_jaw reverse QX LON BOS B 15000
flight QX 102 2031-03-10 BOS LON
"""


class PlainText(unittest.TestCase):
    def test_stored_texts(self):
        for name in ("two-carriers", "shuttle"):
            with self.subTest(name):
                shown = run(view, case_path(name), given=stored(f"{name}.answer"))
                self.assertEqual((0, "", stored(f"{name}.txt")), (shown.status, shown.said, shown.text))

    def test_a_certificate_behind_the_tickets_changes_nothing(self):
        front = ROUND_TRIP[: ROUND_TRIP.index("certificate 1")]
        shown = run(view, case_path("round-trip"), given=ROUND_TRIP)
        self.assertEqual(shown.text, run(view, case_path("round-trip"), given=front).text)
        self.assertIn("Ticket 4: 49000 for 1 traveller\n", shown.text)
        self.assertIn("  unit 1: one way, component 1\n  unit 2: one way, component 2\n", shown.text)

    def test_a_stopover_and_its_charge(self):
        shown = run(view, case_path("stopover-with-charge"), given=STOPOVER)
        self.assertIn("class Y, rule 1: 33000 (fare: 30000; stopover at NYC: 3000)\n", shown.text)
        # From 18:00 UTC on the third to 18:01 UTC on the fourth.
        self.assertIn("        stopover at NYC, 1 d 1 min\n", shown.text)

    def test_an_open_jaw_goes_on_from_elsewhere(self):
        shown = run(view, case_path("open-jaw-at-turnaround"), given=OPEN_JAW)
        self.assertIn("  unit 1: open jaw, components 1 and 2\n", shown.text)
        self.assertIn("        stay at NYC, on from BOS, 6 d 21 h\n", shown.text)
        self.assertIn("QX B, LON to BOS the other way round, class Y, rule 0: 15000 (half of 30000)\n", shown.text)

    def test_no_ticket(self):
        shown = run(view, case_path("two-carriers"), given="version 1\ntickets 0\n")
        self.assertEqual("No lawful ticket, sold on Mon 10 Feb 2031 to 2 travellers, version 1 of the book\n", shown.text)

    def test_a_price_that_is_not_of_the_case_is_marked(self):
        changed = STOPOVER.replace("S1 33000", "S1 32000").replace("price 33000", "price 32000")
        shown = run(view, case_path("stopover-with-charge"), given=changed)
        self.assertIn("32000 (by the case's fares 33000: this answer is of another case, or it was changed)", shown.text)

    def test_colour_is_put_in_where_it_is_asked_alone(self):
        given = read_case((HERE / "cases/shuttle.case").read_bytes())
        shown = blocks.blocks_of(read(stored("shuttle.answer")).tickets, given, Book(given))
        coloured = plain.tickets_text(shown, given.request, 1, colour=True)
        self.assertIn("\x1b[", coloured)
        for mark in (plain.BOLD, plain.DIM, plain.GREEN, plain.PLAIN):
            coloured = coloured.replace(mark, "")
        self.assertEqual(stored("shuttle.txt"), coloured)


class Words(unittest.TestCase):
    def test_lengths_of_time(self):
        texts = {0: "0 min", 59: "59 min", 60: "1 h", 1440: "1 d", 1441: "1 d 1 min", 13530: "9 d 9 h 30 min"}
        self.assertEqual(list(texts.values()), [length_text(minutes) for minutes in texts])

    def test_numbers_of_tickets(self):
        texts = {(3,): "3", (1, 2): "1 and 2", (1, 2, 3): "1 to 3", (1, 3, 4, 6, 7, 8): "1, 3, 4 and 6 to 8"}
        self.assertEqual(list(texts.values()), [numbers_text(numbers) for numbers in texts])


class Pages(unittest.TestCase):
    def page(self, name):
        shown = run(view, "--html", case_path(name), given=stored(f"{name}.answer"))
        self.assertEqual((0, ""), (shown.status, shown.said))
        self.assertTrue(shown.text.startswith("<!DOCTYPE html>\n"))
        return shown.text, Page(shown.text)

    def test_well_formed_with_nothing_from_elsewhere(self):
        for name in ("two-carriers", "shuttle"):
            with self.subTest(name):
                text, page = self.page(name)
                self.assertEqual([], page.faults)
                self.assertNotIn("http", text)

    def test_one_article_for_each_block_and_one_table_for_each_component(self):
        _, page = self.page("shuttle")
        self.assertEqual((2, 4, 4), (page.count("article"), page.count("table"), page.count("caption")))
        # Six flights, of which two may stand for one another: seven rows with a flight.
        self.assertEqual(7, page.count("th", scope="row"))
        self.assertEqual(16, page.count("th", scope="col"))
        for told in ("Tickets 1 and 2", "each 40000 a traveller, 80000 for 2", "or EX 203", "connection at DUB, 1 h 45 min or 1 h 15 min"):
            self.assertIn(told, page.text)

    def test_for_a_telephone_and_for_the_dark(self):
        text, page = self.page("two-carriers")
        self.assertEqual(1, page.count("meta", name="viewport"))
        self.assertIn("prefers-color-scheme: dark", text)
        self.assertIn("max-width: 34rem", text)


class Graphs(unittest.TestCase):
    def test_the_round_trip(self):
        shown = run(view, "--dot", case_path("round-trip"), given=ROUND_TRIP)
        self.assertEqual(stored("round-trip.dot"), shown.text)

    def test_a_row_that_no_answer_passes_is_grey(self):
        text = ROUND_TRIP.replace("answers 4", "answers 3").replace("answer 49000 1 0 QX Y1 0 0 1 1 QX Y2 0 0\n", "")
        shown = run(view, "--dot", case_path("round-trip"), given=text)
        self.assertIn("no unit open\\nleast 24000\", color=gray, fontcolor=gray]", shown.text)

    def test_too_many_rows(self):
        row = "row 1 0 NYC - 1 2 - 1:0:QX 24000\n"
        text = ROUND_TRIP.replace("rows 3", "rows 103").replace(row, row * 101)
        shown = run(view, "--dot", case_path("round-trip"), given=text)
        self.assertEqual(1, shown.status)
        self.assertIn("the certificate has 103 rows, and a graph of more than 100 isn't drawn; see docs/VIEWS.md#", shown.said)

    def test_answers_that_do_not_fit(self):
        cases = {"QX R1 1 0": "QX R9 1 0", "1 1 QX R1 3 0": "1 1 QX R1 3 1", "answer 40000 1 0": "answer 40000 1 7"}
        for old, new in cases.items():
            with self.subTest(new):
                shown = run(view, "--dot", case_path("round-trip"), given=ROUND_TRIP.replace(old, new, 1))
                self.assertEqual(1, shown.status)
                self.assertIn("answer 1 of the certificate doesn't fit the case; see docs/AUDIT.md#", shown.said)


class Trouble(unittest.TestCase):
    def test_one_line_and_a_page_for_each(self):
        circle, round_trip = case_path("circle"), case_path("round-trip")
        cases = {
            "no such file": (("no-such.case",), ROUND_TRIP, "no-such.case can't be read: No such file or directory; see docs/VIEWS.md#statuses"),
            "a folder": ((str(HERE),), ROUND_TRIP, "can't be read: Is a directory; see docs/VIEWS.md#statuses"),
            "nothing": ((round_trip,), "", "the answer is empty: did the search end well? see docs/FORMATS.md#statuses"),
            "no answer": ((round_trip,), "hello\n", "isn't what the program prints: line 1 isn't `version` and a number; see docs/FORMATS.md#the-answer"),
            "bytes": ((round_trip,), b"\xff\x00\n", "isn't what the program prints: line 1 isn't"),
            "a refusal": ((round_trip,), "refused 5 BadRow column 4\n", "the case was refused at line 5, BadRow column 4; see docs/FORMATS.md#refusals"),
            "too large": ((round_trip,), "too large\n", "ask with a greater --budget; see docs/FORMATS.md#statuses"),
            "a verdict": ((round_trip,), "lawful price 5\n", "neither tickets nor a calendar; see docs/VIEWS.md"),
            "a certificate alone": ((round_trip,), ROUND_TRIP[ROUND_TRIP.index("certificate 1") :], "lowfare-audit shows its answers; see docs/AUDIT.md"),
            "another case's": ((circle,), ROUND_TRIP, "the case has no flight QX 102 of 2031-03-10 from NYC to LON: is the answer of another case? see docs/AUDIT.md#"),
            "a fare that isn't there": ((round_trip,), ROUND_TRIP.replace("NYC R1 2", "NYC R7 2"), "the case has no fare QX LON NYC R7"),
            "a later version": ((round_trip,), ROUND_TRIP.replace("version 1", "version 2"), "has 1 filing, and version 2 was asked for; see docs/AUDIT.md#"),
            "a refused case": ((case_path("bad-row"),), ROUND_TRIP, "is no case: line 5: column 4: 'NY' is not a place, three capital letters; see docs/FORMATS.md#refusals"),
            "no end": ((case_path("no-end"),), ROUND_TRIP, "#end is missing; see docs/FORMATS.md#refusals"),
            "no certificate to draw": (("--dot", round_trip), ROUND_TRIP[: ROUND_TRIP.index("certificate 1")], "has no certificate to draw; see docs/VIEWS.md#"),
        }
        for name, (words, given, told) in cases.items():
            with self.subTest(name):
                shown = run(view, *words, given=given)
                self.assertEqual((1, "", 1), (shown.status, shown.text, shown.said.count("\n")))
                self.assertTrue(shown.said.startswith("lowfare-view: "))
                self.assertIn(told, shown.said)

    def test_words(self):
        for words in ((), ("a", "b"), ("--html", "--dot", "a"), ("--fancy", "a")):
            with self.subTest(words):
                self.assertEqual(2, run(view, *words).status)

    def test_damaged_texts_end_in_one_line(self):
        draw = random.Random(20310310)
        case, answers = (EXAMPLES / "round-trip.case").read_bytes(), ROUND_TRIP.encode()
        for at in range(240):
            with folder(some_case=damaged(draw, case) if at % 3 else case) as paths:
                how = ((), ("--html",), ("--dot",))[at % 7 % 3]
                shown = run(view, *how, paths["some_case"], given=damaged(draw, answers) if at % 2 else answers)
            self.assertIn(shown.status, (0, 1))
            self.assertEqual(shown.status, shown.said.count("\n"))

    def test_a_rule_of_no_form(self):
        data = (EXAMPLES / "stopover-with-charge.case").read_bytes().replace(b'{"max":1,"charge":3000}', b"[3000]")
        given = read_case(data)
        with self.assertRaisesRegex(view.command.Trouble, "line 12: rule 1 of QX isn't of its form; see docs/FORMATS.md#refusals"):
            blocks.blocks_of(read(STOPOVER).tickets, given, Book(given))


class Commands(unittest.TestCase):
    """The scripts themselves, as they are called."""

    def test_each_says_what_it_does(self):
        for name in ("view", "audit", "why"):
            with self.subTest(name):
                ran = subprocess.run([BIN / f"lowfare-{name}", "--help"], capture_output=True, text=True, check=False)
                self.assertEqual((0, ""), (ran.returncode, ran.stderr))
                self.assertTrue(ran.stdout.startswith(f"usage: lowfare-{name} "))

    def test_a_reader_who_leaves_ends_it_in_silence(self):
        many = "version 1\ntickets 1000\n" + "".join(f"ticket {at}" + TICKET for at in range(1, 1001))
        words = [BIN / "lowfare-view", "--html", case_path("one-way")]
        with subprocess.Popen(words, stdin=subprocess.PIPE, stdout=subprocess.PIPE, stderr=subprocess.PIPE) as view_run:
            view_run.stdin.write(many.encode())
            view_run.stdin.close()
            self.assertEqual(b"<!DOCTYPE html>\n", view_run.stdout.readline())
            view_run.stdout.close()
            self.assertEqual(b"", view_run.stderr.read())
        self.assertEqual(0, view_run.returncode)

    def test_in_a_pipe_there_is_no_colour(self):
        words = [BIN / "lowfare-view", case_path("round-trip")]
        ran = subprocess.run(words, input=ROUND_TRIP.encode(), stdout=subprocess.PIPE, check=True)
        self.assertNotIn(b"\x1b", ran.stdout)


if __name__ == "__main__":
    unittest.main()
