"""The worked examples of docs/: what each says of one rule, with the numbers that stand there."""
import unittest

import reference.forms as forms
import reference.make as make
import reference.rules as rules
import reference.tickets as tickets
from reference.words import command_line


class Days(unittest.TestCase):
    """LAW, 'Days and flights'."""

    def test_day_zero_is_a_thursday(self):
        self.assertEqual(forms.day("2000-01-01"), 10957)
        self.assertEqual(forms.weekday(0), 4)

    def test_the_third_of_march_2031_is_a_monday(self):
        day = forms.day("2031-03-03")
        self.assertEqual((day, forms.weekday(day), forms.day_text(day)), (22341, 1, "2031-03-03"))

    def test_dates_end_with_the_century(self):
        self.assertEqual(forms.day("2099-12-31"), 47481)
        for text in ("1999-12-31", "2100-01-01", "2031-02-29", "2031-2-03", "20310203"):
            self.assertIsNone(forms.day(text))

    def test_the_sunday_is_strictly_after(self):
        self.assertEqual(forms.first_sunday_after(22339), 22340)
        self.assertEqual(forms.first_sunday_after(22340), 22347)

    def test_an_instant_is_in_universal_time(self):
        self.assertEqual(forms.instant(22341, 600, 0), 32171640)
        self.assertEqual(forms.instant(22341, 780, forms.offset("-05:00")), 32171640 + 180 + 300)

    def test_offsets_are_at_most_fourteen_hours(self):
        self.assertEqual((forms.offset("+14:00"), forms.offset("-00:00"), forms.offset("-05:30")), (840, 0, -330))
        for text in ("+14:01", "05:00", "+5:00", "+05:60"):
            self.assertIsNone(forms.offset(text))


class Names(unittest.TestCase):
    """FORMATS, 'The form of a case'."""

    def test_numbers_have_no_sign_and_no_leading_zero(self):
        form = forms.number(0, 1440)
        self.assertEqual((form("0"), form("1440")), (0, 1440))
        for text in ("", "-1", "+1", "00", "060", "1441", "1 "):
            self.assertIsNone(form(text))

    def test_a_class_stands_once(self):
        self.assertEqual(forms.seats("Y9M4"), {"Y": 9, "M": 4})
        for text in ("", "Y", "Y9Y4", "y9", "Y10"):
            self.assertIsNone(forms.seats(text))

    def test_weekdays_ascend(self):
        self.assertEqual(forms.weekdays("17"), "17")
        for text in ("", "0", "8", "71", "11"):
            self.assertIsNone(forms.weekdays(text))


class Words(unittest.TestCase):
    """FORMATS, 'The words'."""

    def test_options_stand_before_or_after_the_command(self):
        for words in (["search", "--best=3"], ["--best", "3", "search"]):
            self.assertEqual(command_line(words), ("search", {"best": 3}))
        self.assertEqual(command_line(["--", "search"]), ("search", {}))
        self.assertEqual(command_line(["make", "--seed", "0", "--summary", "--size", "1"]), ("make", {"seed": 0, "summary": True, "size": 1}))

    def test_all_else_is_no_command_line(self):
        for words in (
            [], ["search", "search"], ["search", "--best", "0"], ["search", "--best", "3", "--best", "3"], ["make", "--seed", "1"],
            ["check", "--budget", "5"], ["search", "--best"], ["search", "--best", "-1"], ["search", "--best", "00000000003"],
            ["search", "--help"], ["make", "--summary=1", "--seed", "1", "--size", "1"], ["--", "search", "--best", "3"], ["-b", "search"],
        ):
            self.assertIsNone(command_line(words), words)

    def test_a_value_has_up_to_ten_digits(self):
        self.assertEqual(command_line(["search", "--best", "0000000003"]), ("search", {"best": 3}))


class Codes(unittest.TestCase):
    """LAW, 'Price, code, order, best'."""

    def test_characters(self):
        self.assertEqual([tickets.character_value(one) for one in "09AZ"], [1, 10, 11, 36])

    def test_the_code_of_the_one_way_ticket(self):
        move = tickets.Move((0,), "QX", "Y1", tickets.ALONE, 0)
        self.assertEqual(tickets.code([move]), (1, 0, 1033, 3327747152473, 0, 0))

    def test_roles_and_slots_of_a_unit_in_a_unit(self):
        labels = [1, 2, 2, 1]
        self.assertEqual([tickets.role_of(labels, at) for at in range(4)], [tickets.OPENS, tickets.OPENS, tickets.CLOSES, tickets.CLOSES])
        self.assertEqual([tickets.slot_number(labels, at) for at in range(4)], [0, 0, 1, 0])

    def test_labels_and_straddling(self):
        self.assertTrue(tickets.is_numbered([1, 2, 2, 1, 3]))
        self.assertFalse(tickets.is_numbered([2]))
        self.assertFalse(tickets.is_numbered([1, 3]))
        self.assertTrue(tickets.at_most_two_straddle([1, 2, 2, 1]))
        self.assertFalse(tickets.at_most_two_straddle([1, 2, 3, 3, 2, 1]))

    def test_labelings_are_counted(self):
        for count, bell in enumerate([1, 2, 5, 15, 52], 1):
            self.assertEqual((len(list(tickets.labelings(count))), tickets.label_counts(count)), (bell, bell))


class Categories(unittest.TestCase):
    """FORMATS, 'Filings' and 'Refusals'."""

    def test_unknown_comes_before_missing_and_range(self):
        for rule, fault in (
            ({"cat6": {"days": 366, "sunday": True}}, "Range"), ({"cat6": {"days": 366}}, "Missing"), ({"cat6": {"day": 366}}, "Unknown"),
            ({"cat6": 1, "cat99": 0}, "Unknown"), ({"cat2": {"days": [1], "from": "10:01", "to": "10:00"}}, "Range"),
            ({"cat3": []}, "Range"), ({"cat10": {"kinds": ["circle", "one_way"], "partners": "any", "end_on_end": "free"}}, "Range"),
            ({"cat14": {"by": None}}, "Range"), ({"cat5": 1.0}, "Range"), ({"cat5": True}, "Range"),
        ):
            with self.assertRaises(rules.RuleFault) as raised:
                rules.read_rule(rule)
            self.assertEqual(str(raised.exception), fault, rule)

    def test_least_return(self):
        # 1 March 2031 is a Saturday: the Sunday after it is the next day, and of Sunday the 2nd it is the 9th.
        saturday = forms.day("2031-03-01")
        rule = rules.read_rule({"cat6": {"days": 0, "sunday": True}})
        self.assertEqual(rules.least_return(rule, saturday), saturday + 1)
        self.assertEqual(rules.least_return(rule, saturday + 1), saturday + 8)


class Made(unittest.TestCase):
    """MADE, 'The text'."""

    def test_draws_of_seed_zero(self):
        # The first state is the added number itself, 1442695040888963407; 2 to the 33 goes into it 167951807 times.
        self.assertEqual(1442695040888963407 // 2**33, 167951807)
        self.assertEqual(make.Draws(0).draw(120), 167951807 % 120)

    def test_counts(self):
        lines = make.made_case(7, 15)
        rows = lines[lines.index("#flights") + 1 : lines.index("#seats")]
        self.assertEqual(len(rows), 62)
        self.assertEqual(lines[1:4], ["AAA,45", "BBB,45", "HAA,45"])


if __name__ == "__main__":
    unittest.main()
