"""Books, and the program's commands."""

from __future__ import annotations

import contextlib
import threading
from collections.abc import Iterator, Mapping, Sequence
from typing import Any, Union

from .answers import Answer, Cell, Check, Ticket, Verdict, answer_of, cells_of, check_of, verdict_of
from .errors import Closed, Refused, TooLarge, TooLong
from .library import LIBRARY, NO, NO_BOOK, OUT_OF_MEMORY, REFUSED, TOO_LARGE, TOO_LONG, Handle, take_text
from .requests import Asking, json_text, text_of

BUDGET = 100_000
"""The budget that the program has by default: how many residuals a search may reach."""


def run(words: Sequence[str], data: bytes = b"") -> tuple[int, bytes]:
    """Runs a command of the program, any but `serve`, over an input in memory: the exit status that the program would
    end with, and what it would print."""
    if any("\n" in word for word in words):
        return 2, b"usage: lowfare search|check|make|serve|calendar|verdict\n"
    said = "".join(word + "\n" for word in words).encode()
    answer = Handle()
    status = LIBRARY.lowfare_run(said, len(said), data, len(data), answer)
    text = take_text(answer)
    if status == OUT_OF_MEMORY:
        raise MemoryError
    return status, text


def _judge(status: int, text: Handle) -> bytes:
    """The text of a call that did what it is for; else its error."""
    told = take_text(text)
    if status == REFUSED:
        raise Refused.from_text(told)
    if status == OUT_OF_MEMORY:
        raise MemoryError
    if status == TOO_LARGE:
        raise TooLarge("the search reaches more residuals than the budget")
    if status == TOO_LONG:
        raise TooLong("a text has more than 67,108,864 bytes")
    if status == NO_BOOK:
        raise Closed("the book was closed")
    return told


def _number(number: int, name: str) -> int:
    """A number of 32 bits: `ctypes` would cut off what is above."""
    if not 0 <= number < 2**32:
        raise ValueError(f"{name} isn't from 0 to 4,294,967,295")
    return number


class Book:
    """A version of a book. It never changes: `file` gives the next version. Any thread may call it at any time."""

    def __init__(self, handle: Handle) -> None:
        """A book of a handle that the library made, which is this object's from here on: see `from_case`."""
        self._handle = handle
        self._lock = threading.Lock()

    @classmethod
    def from_case(cls, case: bytes) -> Book:
        """The book of the text of a search's case: its last version. Raises `Refused` where the text is no case."""
        book, refusal = Handle(), Handle()
        _judge(LIBRARY.lowfare_open(case, len(case), book, refusal), refusal)
        return cls(book)

    @contextlib.contextmanager
    def _own(self) -> Iterator[Handle]:
        """A handle of this book for one call. The lock is held for the count alone, and not during the call."""
        own = Handle()
        with self._lock:
            status = LIBRARY.lowfare_book_share(self._handle, own)
        _judge(status, Handle())
        try:
            yield own
        finally:
            LIBRARY.lowfare_book_close(own)

    def close(self) -> None:
        """Lets go of the book. Calls that are under way end as they would."""
        with self._lock:
            LIBRARY.lowfare_book_close(self._handle)

    def __enter__(self) -> Book:
        return self

    def __exit__(self, *_: object) -> None:
        self.close()

    def __del__(self) -> None:
        with contextlib.suppress(AttributeError):
            self.close()

    @property
    def version(self) -> int:
        """The version's number: how many filings the book has."""
        with self._own() as own:
            return LIBRARY.lowfare_version(own)

    def file(self, filing: Union[Mapping[str, Any], str, bytes]) -> Book:
        """The next version, with a filing, given as its JSON. Raises `Refused` where the book doesn't take it."""
        text = json_text(filing)
        following, refusal = Handle(), Handle()
        with self._own() as own:
            status = LIBRARY.lowfare_file(own, text, len(text), following, refusal)
        _judge(status, refusal)
        return Book(following)

    def search_text(self, request: Asking, best: int = 0, budget: int = BUDGET) -> bytes:
        """What the command `search` prints."""
        asked = text_of(request)
        count, most = _number(best, "best"), _number(budget, "budget")
        answer = Handle()
        with self._own() as own:
            status = LIBRARY.lowfare_search(own, asked, len(asked), count, most, answer)
        return _judge(status, answer)

    def search(self, request: Asking, best: int = 10, budget: int = BUDGET) -> Answer:
        """The best tickets of a request. `best` takes the place of the request's own number of tickets, where it isn't
        0. Raises `Refused` where the request is none, and `TooLarge` where it is beyond the budget."""
        return answer_of(self.search_text(request, best, budget))

    def check(self, request: Asking, certificate: bytes) -> Check:
        """Whether a certificate shows that its answers are the best tickets of the request in this version."""
        asked = text_of(request)
        answer = Handle()
        with self._own() as own:
            status = LIBRARY.lowfare_check(own, asked, len(asked), certificate, len(certificate), answer)
        if status == NO:
            return check_of(take_text(answer))
        return check_of(_judge(status, answer))

    def calendar(self, request: Asking, outs: int, backs: int, budget: int = BUDGET) -> list[Cell]:
        """For a request of two slices the least price of each pair of days: so many days out and so many back, 1 to 31,
        from the first days of its slices on."""
        asked = text_of(request)
        if not (0 <= outs <= 255 and 0 <= backs <= 255):
            raise Refused(1, "Span")
        most = _number(budget, "budget")
        answer = Handle()
        with self._own() as own:
            status = LIBRARY.lowfare_calendar(own, asked, len(asked), outs, backs, most, answer)
        return cells_of(_judge(status, answer))

    def verdict(self, request: Asking, ticket: Union[Ticket, str, bytes]) -> Verdict:
        """Whether a ticket is lawful for the request, with its price, or all its breaches. The ticket is one of an
        answer, or the lines of a case's `#ticket` section."""
        asked = text_of(request)
        if isinstance(ticket, Ticket):
            lines = ticket.to_text()
        else:
            lines = ticket.encode() if isinstance(ticket, str) else ticket
        answer = Handle()
        with self._own() as own:
            status = LIBRARY.lowfare_verdict(own, asked, len(asked), lines, len(lines), answer)
        return verdict_of(_judge(status, answer))
