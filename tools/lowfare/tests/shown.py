"""What the tests of views, audits and causes share: commands run in this process over examples and stored texts, and a reader of
pages that refuses what isn't well formed or comes from elsewhere."""
import html.parser
import io
import pathlib
import sys
import unittest.mock

from lowfare_tools import command
from tests.helpers import EXAMPLES, Ran

HERE = pathlib.Path(__file__).resolve().parent
VOID = ("meta", "rect")


def case_path(name):
    """The path of a case of the tests, else of an example."""
    own = HERE / "cases" / f"{name}.case"
    return str(own if own.exists() else EXAMPLES / f"{name}.case")


def stored(name):
    return (HERE / "views" / name).read_text()


def run(tool, *words, given=""):
    """Runs a command, a module with NAME and work, with this text as standard input."""
    data = given if isinstance(given, bytes) else given.encode()
    with unittest.mock.patch.object(sys, "stdin", io.TextIOWrapper(io.BytesIO(data))):
        return Ran(lambda given_words: command.run(tool.NAME, tool.work, given_words), list(words))


class Page(html.parser.HTMLParser):
    """Reads a page: each element is closed in its order, and nothing is fetched from elsewhere."""

    def __init__(self, text):
        super().__init__()
        self.open, self.tags, self.faults, self.words = [], [], [], []
        self.feed(text)
        self.close()
        self.faults += [f"{tag} is never closed" for tag in self.open]
        self.text = " ".join(" ".join(self.words).split())

    def handle_starttag(self, tag, attrs):
        self.tags.append((tag, dict(attrs)))
        if tag not in VOID:
            self.open.append(tag)
        fetching = {"src", "href", "srcset", "data", "action", "background", "poster", "xlink:href"}
        self.faults += [f"{tag} fetches by {name}" for name, _ in attrs if name in fetching or name.startswith("on")]
        if tag in ("script", "link", "iframe", "object", "embed", "base", "img"):
            self.faults.append(f"an element {tag}")

    def handle_startendtag(self, tag, attrs):
        self.handle_starttag(tag, attrs)
        if tag not in VOID:
            self.handle_endtag(tag)

    def handle_endtag(self, tag):
        if not self.open or self.open.pop() != tag:
            self.faults.append(f"{tag} is closed out of order")

    def handle_data(self, data):
        if self.open and self.open[-1] == "style":
            self.faults += [f"the style has {word}" for word in ("url(", "@import", "@font-face", "http") if word in data]
        else:
            self.words.append(data)

    def count(self, tag, **attributes):
        """How many elements have this name and these attributes; `_class` stands for `class`."""
        wanted = {name.removeprefix("_"): value for name, value in attributes.items()}
        return sum(1 for name, found in self.tags if name == tag and wanted.items() <= found.items())
