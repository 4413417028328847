"""docs/VIEWS.md and docs/AUDIT.md print what the commands print, and each page that a message names is there."""
import re
import unittest

from lowfare_tools import audit, view, why
from tests.helpers import EXAMPLES, TOP
from tests.shown import case_path, run, stored
from tests.test_calendar_view import WEEKEND


def blocks(page):
    """The indented blocks of a page, by their first line, without the indent."""
    found = re.findall(r"(?:^    .*\n(?:\n(?=    ))?)+", (TOP / "docs" / page).read_text(), re.MULTILINE)
    texts = [re.sub(r"^    ", "", block, flags=re.MULTILINE) for block in found]
    return {text.split("\n")[0]: text for text in texts}


def anchors(page):
    """The anchors of a page's headings, as they are made of their words."""
    heads = re.findall(r"^#+ (.*)$", (TOP / page).read_text(), re.MULTILINE)
    return {re.sub(r"[^a-z0-9 _-]", "", head.lower()).replace(" ", "-") for head in heads}


class Pages(unittest.TestCase):
    def test_tickets(self):
        block = blocks("VIEWS.md")["Tickets 1 and 2: each 40000 a traveller, 80000 for 2"]
        self.assertIn("\n" + block + "\n", stored("shuttle.txt"))

    def test_a_calendar(self):
        (block,) = [text for text in blocks("VIEWS.md").values() if text.startswith("LON to NYC from")]
        self.assertEqual(block, run(view, case_path("calendar-of-a-weekend"), given=WEEKEND).text)

    def test_a_fare(self):
        (block,) = [text for text in blocks("VIEWS.md").values() if text.startswith("BX QRT")]
        self.assertEqual(block, run(why, case_path("two-carriers"), "QRT").text)

    def test_an_audit(self):
        (block,) = [text for text in blocks("AUDIT.md").values() if text.startswith("The certificate is of")]
        made = run(audit, case_path("round-trip"), "-", given=(EXAMPLES / "round-trip.out").read_text())
        self.assertTrue(made.text.startswith(block + "\n"))

    def test_each_page_that_a_message_names_is_there(self):
        sources = (TOP / "tools/lowfare/lowfare_tools").glob("*.py")
        named = {found for source in sources for found in re.findall(r"docs/[A-Z-]+\.md(?:#[a-z-]+)?", source.read_text())}
        self.assertIn("docs/VIEWS.md#statuses", named)
        for place in sorted(named):
            with self.subTest(place):
                page, _, anchor = place.partition("#")
                self.assertTrue((TOP / page).exists())
                if anchor:
                    self.assertIn(anchor, anchors(page))


if __name__ == "__main__":
    unittest.main()
