"""What the documents print of examples, and their tables of worked cases, by the reference."""
import pathlib
import re
import unittest

import reference.search as search
import reference.tickets as tickets
import reference.verdict as verdict
from reference.case import read_case
from reference.forms import Refused
from reference.program import answer

TOP = pathlib.Path(__file__).resolve().parent.parent.parent


def told(words, given):
    """What is written for words and a text, and the status."""
    return answer(words.split(), lambda most: given.encode("latin-1")[:most])


def example(name):
    return (TOP / "examples" / f"{name}.case").read_bytes().decode("latin-1")


def page(name):
    return (TOP / "docs" / f"{name}.md").read_text()


def prices(text):
    return [int(line.split()[3]) for line in text.splitlines() if line.startswith("ticket ")]


class Pages(unittest.TestCase):
    """Each page shows what the command writes."""

    def stands(self, name, text, indent=""):
        self.assertIn("".join(f"{indent}{line}\n" for line in text.splitlines()), page(name))

    def test_the_calendar_of_a_weekend(self):
        self.stands("CALENDAR", told("calendar --outs 3 --backs 3", example("calendar-of-a-weekend"))[0], "    ")

    def test_the_verdict_on_a_late_purchase(self):
        self.stands("VERDICT", told("verdict", example("verdict-season-purchase-and-travel-dates"))[0], "    ")

    def test_two_desks(self):
        self.stands("SERVING", told("serve", example("serve-while-a-filing-comes"))[0])

    def test_the_summary_of_a_made_case(self):
        self.stands("MADE", told("make --seed 7 --size 15 --summary", "")[0], "    ")

    def test_the_certificate_of_the_round_trip(self):
        text = told("search", example("round-trip"))[0]
        self.stands("CERTIFICATES", text[text.index("answers ") :])

    def test_the_journey_of_ones_own_data(self):
        self.assertEqual(prices(told("search", example("your-data"))[0]), [48500, 51000, 52900])
        self.assertEqual(prices(told("search", example("your-data-without-a-rule"))[0])[0], 9000)


class Categories(unittest.TestCase):
    """YOUR-DATA, 'One journey for each rule category': the verdict, the price before and the price with the rule."""

    def test_each_row(self):
        rows = re.findall(r"^\| \d+ \| `(worked-[a-z-]+)` \|.*\| `([^`]*)`([^|]*)\| (\d+) \| (\d+) \|$", page("YOUR-DATA"), re.MULTILINE)
        self.assertEqual(len(rows), 12)
        for name, breach, more, before, later in rows:
            with self.subTest(name):
                self.assertEqual(prices(told("search --at 1", example(name))[0])[0], int(before))
                self.assertEqual(prices(told("search", example(name))[0])[0], int(later))
                lines = told("verdict", example(f"{name}-verdict"))[0].splitlines()
                wanted = [breach] + ([breach.replace("component 1", "component 2")] if more.strip() else [])
                self.assertEqual(lines if breach.startswith("lawful") else lines[1:], wanted)


class OneWay(unittest.TestCase):
    """CERTIFICATES, 'A worked case: `OneWay`'."""

    CASE = example("one-way").replace('"best":3', '"best":1').replace("#end", "#certificate\n{}#end")
    LINES = [
        "certificate 1", "version 1",
        'request {"best":1,"party":1,"sale":"2031-02-01","slices":[{"days":1,"first":"2031-03-03","from":"LON","to":"NYC"}]}',
        "answers 1", "answer 20000 1 0 QX Y1 0 0", "rows 1", "row 0 0 LON - 0 1 - 0:0:- 20000", "end",
    ]

    def check(self, **changes):
        """The verdict on the certificate with lines put in place of others, by their numbers from 0."""
        lines = [text for at, line in enumerate(self.LINES) for text in changes.get(f"line{at}", [line])]
        return told("check", self.CASE.replace("{}", "".join(f"{line}\n" for line in lines)))

    def test_what_is_accepted(self):
        self.assertEqual(self.check(), ("yes\n", 0))
        for bound in (0, 1, 19999):
            self.assertEqual(self.check(line6=[f"row 0 0 LON - 0 1 - 0:0:- {bound}"]), ("yes\n", 0))

    def test_what_fails(self):
        answer_line, row = self.LINES[4], self.LINES[6]
        for failure, changes in {
            "C1 0": {"line5": ["rows 0"], "line6": []},
            "C1 2": {"line5": ["rows 2"], "line6": [row, row]},
            "C2 1": {"line6": [row.replace("20000", "20001")]},
            "C3 1": {"line4": [answer_line.replace("20000", "19999")]},
            "C3 2": {"line3": ["answers 2"], "line4": [answer_line, answer_line]},
            "C4 0": {"line3": ["answers 0"], "line4": []},
            "C5 1": {"line1": ["version 2"]},
            "C5 2": {"line2": [self.LINES[2].replace("02-01", "02-02")]},
        }.items():
            self.assertEqual(self.check(**changes), (f"no {failure}\n", 7))


class Refusals(unittest.TestCase):
    """FORMATS, 'Refusals': which of several faults comes first."""

    def reason(self, text, command="search"):
        with self.assertRaises(Refused) as raised:
            read_case(text.encode(), command, {})
        return raised.exception.line, raised.exception.reason

    def test_the_first_stage_decides(self):
        case = example("one-way")
        case = case.replace("QX,101,LON,NYC", "QX,101,LON,LON")
        self.assertEqual(self.reason(case.replace("QX,101,LON,*,Y9", "QX,101,LON,*,Y99")), (7, "BadRow column 5"))
        self.assertEqual(self.reason(case.replace('"amount":20000', '"amount":-1')), (5, "SamePlace"))

    def test_the_end(self):
        self.assertEqual(self.reason(""), (1, "NoEnd"))
        self.assertEqual(self.reason(example("one-way") + "\n\n#end\n"), (15, "AfterEnd"))
        self.assertEqual(self.reason("a" * 10), (1, "Order"))

    def test_json(self):
        case = example("one-way")
        self.assertEqual(self.reason(case.replace("20000", "1e999")), (9, "Syntax"))
        self.assertEqual(self.reason(case.replace("20000", "20000.0")), (9, "action 1 Shape"))
        self.assertEqual(self.reason(case.replace('"Y1"', '"\\ud800"')), (9, "Syntax"))
        self.assertEqual(self.reason(case.replace('"best":3', '"best":1001')), (11, "BadRequest Best"))
        self.assertEqual(self.reason(case.replace('"best":3', '"best":-0')), (11, "Shape"))


class TwoHalves(unittest.TestCase):
    """RESIDUALS, 'The theorems': the least runs are the best tickets."""

    def test_listed_tickets_are_drawn_runs(self):
        for path in sorted(TOP.glob("examples/*.case")):
            if path.with_suffix(".words").exists() or path.stat().st_size > 10000:
                continue
            try:
                case = read_case(path.read_bytes(), "search", {})
            except Refused:
                continue
            listed = search.search(case.books[-1], case.request)
            drawn = search.search(case.books[-1], case.request, most_listed=0)
            with self.subTest(path.stem):
                self.assertEqual([one[:3] for one in listed.best], [one[:3] for one in drawn.best])
                for one in listed.best:
                    self.assertTrue(tickets.lawful(case.books[-1], case.request, one.ticket))
                    self.assertEqual(tickets.ticket_of(case.books[-1], one.moves).labels, one.ticket.labels)

    def test_a_ticket_without_a_breach_is_lawful(self):
        """LAW, 'Breaches': a ticket is lawful exactly where it meets all demands."""
        judged = set()
        for path in sorted(TOP.glob("examples/verdict-*.case")):
            try:
                case = read_case(path.read_bytes(), "verdict", {})
            except Refused:
                continue
            judge = verdict.Judge(case.books[-1], case.request, case.ticket)
            found = {rule for rule, _, _ in judge.findings()}
            if not {1, 2, 3, 11, 12} & found:
                with self.subTest(path.stem):
                    self.assertEqual(tickets.lawful(case.books[-1], case.request, judge.whole()), not found)
                judged.add(not found)
        self.assertEqual(judged, {True, False})


if __name__ == "__main__":
    unittest.main()
