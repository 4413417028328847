"""A proved low-fare search in a Python program.

    from lowfare import Book, Request, Slice

    book = Book.from_case(open("book.case", "rb").read())
    answer = book.search(Request(sale="2031-02-01", party=1, slices=[Slice("LON", "NYC", "2031-03-03")]))
    for ticket in answer.tickets:
        print(ticket.price, [component.basis for component in ticket.components])

The calls go to the shared library that `make_lib` builds, whose clauses are proved; what this package does beside them
(reading texts into objects, counting handles) is tested and not proved. A book may be asked by many threads at once, and
other threads run during a call. `docs/EMBEDDING.md` has whole programs.
"""

from .answers import Answer, Breach, Cell, Check, Component, Flight, Ticket, Verdict
from .books import Book, run
from .errors import Closed, LowfareError, NoLibrary, Refused, TooLarge, TooLong
from .requests import Request, Slice

__all__ = [
    "Answer",
    "Book",
    "Breach",
    "Cell",
    "Check",
    "Closed",
    "Component",
    "Flight",
    "LowfareError",
    "NoLibrary",
    "Refused",
    "Request",
    "Slice",
    "Ticket",
    "TooLarge",
    "TooLong",
    "Verdict",
    "run",
]
