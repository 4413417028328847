"""What lint finds: each name by one change to a case in which it finds nothing; and each refusal that FORMATS has, explained."""
import pathlib
import random
import unittest
from datetime import date

from lowfare_tools.findings import NAMES
from lowfare_tools.lint import findings, work
from lowfare_tools.refusals import advice
from lowfare_tools.zones import KNOWN, offset_at, zone_named
from tests.helpers import EXAMPLES, TOP, Ran, damaged, folder

SOUND = """#places
LON,60
NYC,60
#flights
QX,101,LON,NYC,10:00,+00:00,13:00,-05:00,0,2031-03-03,2031-03-07,15
QX,102,NYC,LON,18:00,-04:00,06:00,+00:00,1,2031-03-10,2031-03-14,1
#seats
QX,101,LON,*,Y9
QX,102,NYC,*,Y9
#filings
{"actions":[{"put_rule":{"carrier":"QX","rule":1,"cat6":{"days":3,"sunday":false},"cat7":30,"cat8":{"max":0,"charge":0},"cat9":{"max":0,"online":true}}},{"put_fare":{"carrier":"QX","from":"LON","to":"NYC","basis":"R1","class":"Y","kind":"R","amount":40000,"rule":1}}]}
#request
{"sale":"2031-02-01","party":1,"best":4,"slices":[{"from":"LON","to":"NYC","first":"2031-03-03","days":1},{"from":"NYC","to":"LON","first":"2031-03-10","days":1}]}
#end
"""
OUT = "QX,101,LON,NYC,10:00,+00:00,13:00,-05:00,0,2031-03-03,2031-03-07,15"
BACK = "QX,102,NYC,LON,18:00,-04:00,06:00,+00:00,1,2031-03-10,2031-03-14,1"
FARE = '{"put_fare":{"carrier":"QX","from":"LON","to":"NYC","basis":"R1","class":"Y","kind":"R","amount":40000,"rule":1}}'
ZONES = zone_named("Europe/London") is not None


def changed(*changes):
    text = SOUND
    for old, new in changes:
        assert text.count(old) == 1, old
        text = text.replace(old, new)
    return text


class Findings(unittest.TestCase):
    def found(self, text, zones=None):
        data = text if isinstance(text, bytes) else text.encode()
        return [(one.line, one.name, one.text) for one in findings(data, zones or {})]

    def finds(self, text, line, name, said, zones=None):
        """The case has this finding and no other."""
        found = self.found(text, zones)
        self.assertEqual([(line, name)], [one[:2] for one in found], found)
        self.assertIn(said, found[0][2])

    def test_a_sound_case_has_none(self):
        self.assertEqual([], self.found(SOUND))
        self.assertEqual([], self.found((EXAMPLES / "your-data.case").read_bytes()))

    def test_form(self):
        self.finds(b"\xef\xbb\xbf" + SOUND.encode(), 1, "bom", "the file begins with a byte order mark")
        self.finds(SOUND[:-1], 14, "no-last-feed", "the last line has no line feed")
        self.finds(changed(("#end\n", "")), 14, "unreadable", "the case ends without #end")
        found = self.found(changed(("#seats\nQX,101,LON,*,Y9\nQX,102,NYC,*,Y9\n", "")))
        self.assertIn((12, "unreadable", "the case ends without #seats"), found)
        self.finds(changed(("#end", "#end\nmore")), 15, "unreadable", "a line after #end")
        self.finds(changed(("NYC,60", "NYC,60\nlon,60")), 4, "unreadable", "column 1: 'lon' is not a place")
        self.finds(changed(('}}]}\n#request', '}},{"drop_fare":{"carrier":"QX","from":"LON","to":"NYC","basis":"X"}}]}\n#request')), 11,
                   "unreadable", "action 3: it drops a fare that isn't there")

    def test_seats(self):
        self.finds(changed(("QX,101,LON,*,Y9\n", "")), 5, "no-seats", "QX 101 LON NYC has no seats on any day")
        self.finds(changed(("QX,101,LON,*,Y9", "QX,101,LON,2031-03-03,Y9")), 5, "no-seats", "on 1 of its 2 days, first 2031-03-07")
        self.finds(changed(("QX,101,LON,*,Y9", "QX,101,LON,*,Y9\nQX,103,LON,*,Y9")), 9, "seats-of-no-flight",
                   "seats of QX 103 from LON: no such flight on any day")
        self.finds(changed(("QX,101,LON,*,Y9", "QX,101,LON,*,Y9\nQX,101,LON,2031-03-04,Y9")), 9, "seats-of-no-flight",
                   "no such flight on 2031-03-04")
        self.finds(changed(('"class":"Y"', '"class":"Q"')), 11, "unsold-class", "no flight has a seat in class Q: fare QX LON NYC R1 is never used")

    def test_flights(self):
        self.finds(changed((OUT, OUT + "\nQX,103,LON,NYC,10:00,+00:00,13:00,-05:00,0,2031-03-03,2031-03-03,2"),
                           ("QX,101,LON,*", "QX,103,LON,*,Y1\nQX,101,LON,*")).replace("QX,103,LON,*,Y1\n", ""),
                   6, "never-flies", "QX 103 LON NYC: no day from 2031-03-03 to 2031-03-03 is a weekday of it")
        self.finds(changed((",-05:00,0,", ",-05:00,1,")), 5, "long-flight", "QX 101 LON NYC takes 32 hours 0: are the offsets and the day shift 1 right?")
        self.finds(changed((OUT, OUT + "\nQX,101,NYC,WAS,13:30,-05:00,14:30,-05:00,0,2031-03-03,2031-03-07,15"), ("NYC,60", "NYC,60\nWAS,60"),
                           ("QX,101,LON,*,Y9", "QX,101,LON,*,Y9\nQX,101,NYC,*,Y9")), 6, "short-stop",
                   "QX 101 LON NYC goes on from NYC 30 minutes after it lands, and a connection takes 60")

    @unittest.skipUnless(ZONES, "this machine has no tables of zones")
    def test_clocks_by_zone(self):
        """New York's clocks go on 9 March 2031, London's on 30 March."""
        self.finds(changed(("2031-03-07,15", "2031-03-10,15")), 5, "clock-change",
                   "clocks at NYC are at -04:00 on 2031-03-10, and the row says -05:00; so it is on 1 of its 3 days")
        self.finds(changed(("18:00,-04:00", "18:00,-05:00")), 6, "wrong-offset", "clocks at NYC are at -04:00 on 2031-03-10, and the row says -05:00")
        self.finds(changed(("2031-03-14,1", "2031-03-31,17"), ("-05:00,0,2031-03-03", "-05:00,0,2031-03-02")), 6, "clock-change",
                   "clocks at LON are at +01:00 on 2031-03-31, and the row says +00:00; so it is on 2 of its 7 days")

    @unittest.skipUnless(ZONES, "this machine has no tables of zones")
    def test_clocks_of_a_place_that_is_told(self):
        text = SOUND.replace("NYC", "XXX").replace("2031-03-07,15", "2031-03-10,15")
        self.finds(text, 6, "two-offsets", "clocks at XXX on 2031-03-10: line 5 has -05:00, this line -04:00")
        self.finds(text, 5, "clock-change", "clocks at XXX are at -04:00", {"XXX": "America/New_York"})

    def test_clocks_without_a_zone(self):
        text = SOUND.replace("NYC", "XXX").replace("LON", "YYY").replace("-05:00,0,2031-03-03,2031-03-07", "-05:00,0,2031-03-03,2031-03-10")
        self.finds(text, 6, "two-offsets", "clocks at XXX on 2031-03-10: line 5 has -05:00, this line -04:00")

    def test_places(self):
        other = FARE.replace("NYC", "BOS").replace("R1", "R2")
        self.finds(changed((FARE, f"{FARE},{other}")), 11, "unserved-place", "no flight calls at BOS: fare QX LON BOS R2 is never used")
        self.finds(changed((FARE, f"{FARE},{other},{other.replace('R2', 'R3')}")), 11, "unserved-place",
                   "no flight calls at BOS: 2 fares (the first QX LON BOS R2) are never used")
        self.finds(changed(('{"from":"NYC","to":"LON","first"', '{"from":"BOS","to":"LON","first"')), 13, "unserved-place",
                   "slice 2, BOS to LON: no flight leaves BOS")
        self.finds(changed(('{"from":"NYC","to":"LON","first"', '{"from":"NYC","to":"BOS","first"')), 13, "unserved-place",
                   "slice 2, NYC to BOS: no flight arrives at BOS")

    def test_rules(self):
        rule = '{"put_rule":{"carrier":"QX","rule":2,"cat5":3}},'
        self.finds(changed((FARE, rule + FARE)), 11, "unused-rule", "action 2: no fare is on rule 2 of QX")
        self.finds(changed(('"cat8":{"max":0,"charge":0},', "")), 11, "free-stopovers",
                   "fare QX LON NYC R1, on rule 1, which has no cat8, may pay for stopovers anywhere")
        self.finds(changed((',"cat9":{"max":0,"online":true}', "")), 11, "free-transfers",
                   "fare QX LON NYC R1, on rule 1, which has no cat9, may pay for up to three flights more, of any carrier")
        self.finds(changed(('"days":3', '"days":31')), 11, "impossible-stay", "action 1: rule 1 of QX wants 31 days or more, and 30 at most")

    def test_rule_zero_restricts_nothing(self):
        found = self.found(changed((FARE, FARE + "," + FARE.replace('"rule":1', '"rule":0').replace("R1", "R2"))))
        self.assertEqual(["free-stopovers", "free-transfers"], [name for _, name, _ in found])
        self.assertIn("fare QX LON NYC R2, on no rule, so without cat8", found[0][2])

    def test_fares(self):
        self.finds(changed((FARE, f"{FARE},{FARE.replace('40000', '50000')}")), 11, "fare-replaced", "actions 2 and 3 both file QX LON NYC R1")
        self.finds(changed(("40000", "0")), 11, "zero-fare", "fare QX LON NYC R1 costs nothing")

    def test_requests(self):
        self.finds(changed(('"first":"2031-03-03"', '"first":"2031-03-04"')), 13, "request-outside",
                   "slice 1, LON to NYC: no flight leaves LON on 2031-03-04; the timetable's go from 2031-03-03 to 2031-03-07")
        self.finds(changed(('"first":"2031-03-10","days":1', '"first":"2032-03-10","days":7')), 13, "request-outside",
                   "slice 2, NYC to LON: no flight leaves NYC from 2032-03-10 to 2032-03-16")
        self.finds(changed(('"sale":"2031-02-01"', '"sale":"2031-03-04"')), 13, "sold-late",
                   "sold on 2031-03-04, after the first slice has left on 2031-03-03")

    def test_a_slice_before_the_one_before(self):
        text = changed(
            ('"first":"2031-03-03"', '"first":"2031-03-07"'),
            ('"first":"2031-03-10"', '"first":"2031-03-03"'),
            (BACK, "QX,102,NYC,LON,18:00,-05:00,06:00,+00:00,1,2031-03-03,2031-03-07,1"),
        )
        self.finds(text, 13, "slices-backwards", "slice 2 leaves by 2031-03-03, before slice 1 can, on 2031-03-07")


class Zones(unittest.TestCase):
    @unittest.skipUnless(ZONES, "this machine has no tables of zones")
    def test_clocks_of_great_cities(self):
        for place, day, minutes in (
            ("LHR", date(2031, 3, 29), 0), ("LHR", date(2031, 3, 30), 60), ("JFK", date(2031, 3, 8), -300), ("JFK", date(2031, 3, 9), -240),
            ("DEL", date(2031, 7, 1), 330), ("NRT", date(2031, 1, 1), 540), ("SYD", date(2031, 1, 1), 660),
        ):  # fmt: skip
            self.assertEqual(minutes, offset_at(zone_named(KNOWN[place]), day, 12 * 60), (place, day))

    @unittest.skipUnless(ZONES, "this machine has no tables of zones")
    def test_each_zone_is_one(self):
        self.assertEqual([], [zone for zone in set(KNOWN.values()) if zone_named(zone) is None])

    def test_a_zone_that_is_none(self):
        self.assertIsNone(zone_named("Europe/Atlantis"))
        self.assertIsNone(zone_named("../etc"))


class Names(unittest.TestCase):
    def test_each_name_is_tried_above(self):
        source = pathlib.Path(__file__).read_text()
        self.assertEqual([], [name for name in NAMES if f'"{name}"' not in source])

    def test_each_name_stands_on_the_page(self):
        page = (TOP / "docs" / "YOUR-DATA.md").read_text()
        self.assertEqual([], [name for name in NAMES if f"| `{name}` |" not in page])


class Commands(unittest.TestCase):
    def lint(self, text, *words):
        with folder(my_case=text) as paths:
            ran = Ran(work, [paths["my_case"], *words])
            ran.text = ran.text.replace(paths["my_case"], "my.case")
            ran.said = ran.said.replace(paths["my_case"], "my.case")
        return ran

    def test_findings_and_statuses(self):
        ran = self.lint(SOUND)
        self.assertEqual((0, "", ""), (ran.status, ran.text, ran.said))
        ran = self.lint(SOUND[:-1])
        self.assertEqual((1, "my.case:14: no-last-feed: the last line has no line feed: was the file cut?\n"), (ran.status, ran.text))
        ran = self.lint(SOUND[:-1], "--allow", "no-last-feed")
        self.assertEqual((0, ""), (ran.status, ran.text))

    def test_lines_that_are_no_text(self):
        ran = self.lint(changed(("NYC,60", "NYC,60\n\x1b[2J\xe9,1")))
        self.assertIn("my.case:4: unreadable: a quote, a CR or a byte that is not ASCII", ran.text)
        self.assertTrue(ran.text.isascii() and ran.text.replace("\n", "").isprintable())

    def test_words(self):
        listed = Ran(work, ["--list"])
        self.assertEqual((0, list(NAMES)), (listed.status, [line.split(":")[0] for line in listed.text.splitlines()]))
        self.assertEqual(2, Ran(work, []).status)
        self.assertEqual(2, self.lint(SOUND, "--allow", "nothing").status)
        self.assertEqual(2, self.lint(SOUND, "--zone", "LON").status)

    def test_every_example_is_read(self):
        for path in sorted(EXAMPLES.glob("*.case")):
            if path.stat().st_size < 20_000:
                self.assertTrue(all(one.name in NAMES for one in findings(path.read_bytes(), {})), path.stem)

    def test_a_damaged_case_is_named_by_its_lines(self):
        seeded = random.Random(17)
        for _ in range(150):
            data = damaged(seeded, SOUND.encode())
            for one in findings(data, {}):
                self.assertTrue(0 <= one.line <= data.count(b"\n") + 2, one)


class Refusals(unittest.TestCase):
    def explain(self, line, text):
        with folder(my_case=text) as paths:
            return Ran(work, [paths["my_case"], "--refusal", line])

    def test_a_row(self):
        ran = self.explain("refused 5 BadRow column 4\n", SOUND.replace(OUT, OUT.replace(",NYC,", ",NY,")))
        self.assertEqual(f"""line 5: {OUT.replace(",NYC,", ",NY,")}
column 4, to: NY
here: column 4: 'NY' is not a place, three capital letters
BadRow column c: column c of a row isn't of its form; column 0: the count of columns, a quote, a CR or a byte that isn't ASCII
what to do: mend that column
see docs/FORMATS.md#refusals, and examples/bad-row, examples/too-many-fields
""", ran.text)
        self.assertEqual(0, ran.status)

    def test_an_action(self):
        ran = self.explain("refused 11 action 2 OddRound", SOUND.replace("40000", "40001"))
        self.assertIn('action 2: {"put_fare": {"carrier": "QX"', ran.text)
        self.assertIn("what to do: make it even\n", ran.text)

    def test_lines_that_are_not_there(self):
        self.assertIn("line 14: the case has 13 lines\nNoEnd: ", self.explain("refused 14 NoEnd", changed(("#end\n", ""))).text)
        self.assertIn("line 0: the case has 14 lines\nNoVersion: ", self.explain("refused 0 NoVersion", SOUND).text)

    def test_every_refusal_of_the_examples(self):
        """Each stored refusal is explained, and together they have every reason that FORMATS names."""
        reasons = set()
        for path in sorted(EXAMPLES.glob("*.out")):
            text = path.read_text()
            given = path.with_suffix(".case")
            if text.startswith("refused ") and given.exists() and given.stat().st_size < 500_000:
                ran = Ran(work, [str(given), "--refusal", text])
                self.assertEqual((0, ""), (ran.status, ran.said), path.stem)
                self.assertIn("what to do: ", ran.text)
                reasons |= {line.split(": ")[0] for line in ran.text.splitlines() if line.split(": ")[0] in advice()}
        self.assertEqual(set(advice()), reasons)

    def test_what_is_no_refusal(self):
        with folder(my_case=SOUND) as paths:
            for line in ("yes", "refused", "refused 5 BadColumn", "refused x NoEnd", "refused 5 BadRow column", ""):
                with self.assertRaisesRegex(Exception, "is no refusal that docs/FORMATS.md has"):
                    work([paths["my_case"], "--refusal", line])


if __name__ == "__main__":
    unittest.main()
