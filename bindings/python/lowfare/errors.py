"""What a call may raise. Want of memory is Python's own `MemoryError`."""

from __future__ import annotations


class LowfareError(Exception):
    """The base of this package's errors."""


class NoLibrary(LowfareError):
    """The shared library isn't found; `make_lib` builds it."""


class Closed(LowfareError):
    """The book was closed."""


class TooLong(LowfareError):
    """A text has more than 67,108,864 bytes."""


class TooLarge(LowfareError):
    """The search reaches more residuals than the budget."""


class Refused(LowfareError):
    """A text isn't lawful: the line, counted from 1 in that text (0 where it is in no line), and the reason."""

    def __init__(self, line: int, reason: str) -> None:
        super().__init__(f"line {line}: {reason}")
        self.line = line
        self.reason = reason

    @classmethod
    def from_text(cls, text: bytes) -> Refused:
        """The error of a line `refused LINE REASON`."""
        _, line, reason = text.decode("ascii").rstrip("\n").split(" ", 2)
        return cls(int(line), reason)
