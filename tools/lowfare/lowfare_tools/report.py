"""What became of each line of the source files: nothing is dropped in silence."""
import re
from dataclasses import dataclass


def printable(text):
    """The text with all but printable ASCII escaped, so that a damaged line can be shown."""
    return re.sub(r"[^ -~\n]", lambda found: ascii(found[0])[1:-1], text)


@dataclass
class Counts:
    """Of one file: records read, and of these those taken, passed over on purpose, and bad."""

    read: int = 0
    taken: int = 0
    passed: int = 0
    bad: int = 0


class Report:
    """Counts and messages, in the order in which they come. A message is `FILE:LINE: what: reason`."""

    def __init__(self):
        self.counts = {}
        self.messages = []
        self.order = []

    def of(self, name):
        if name not in self.counts:
            self.counts[name] = Counts()
            self.order.append(name)
        return self.counts[name]

    def read(self, name):
        self.of(name).read += 1

    def took(self, name):
        self.of(name).taken += 1

    def passed(self, name, line, reason):
        """A record that is well formed and isn't wanted."""
        self.of(name).passed += 1
        self.messages.append(printable(f"{name}:{line}: passed over: {reason}"))

    def bad(self, name, line, reason):
        """A record that can't be taken."""
        self.of(name).bad += 1
        self.messages.append(printable(f"{name}:{line}: bad: {reason}"))

    def note(self, name, line, text):
        """What a reader has to know of a record that is taken all the same, or of the whole file (line 0)."""
        where = f"{name}:{line}" if line else name
        self.messages.append(printable(f"{where}: note: {text}"))

    @property
    def any_bad(self):
        return any(counts.bad for counts in self.counts.values())

    def sums(self):
        """One line for each file."""
        for name in self.order:
            counts = self.counts[name]
            yield f"{name}: {counts.read} read, {counts.taken} taken, {counts.passed} passed over, {counts.bad} bad"
