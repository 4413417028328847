"""A shop in Python: a command over bytes in memory, searches of a book, and desks on threads beside a clerk that files."""

import sys
import threading
from concurrent.futures import ThreadPoolExecutor

from lowfare import Answer, Book, Request, Slice, run

REQUEST = Request(sale="2031-02-01", party=1, slices=[Slice("LON", "NYC", "2031-03-03")])
FARE = {
    "carrier": "QX",
    "from": "LON",
    "to": "NYC",
    "basis": "Y1",
    "class": "Y",
    "kind": "O",
    "amount": 15000,
    "rule": 0,
}


def show(answer: Answer) -> None:
    print(f"version {answer.version}")
    for ticket in answer.tickets:
        print(ticket.price, "by", ", ".join(part.basis for part in ticket.components))


def main(name: str) -> None:
    with open(name, "rb") as file:
        case = file.read()

    # A command of the program over memory.
    status, text = run(["search"], case)
    print(f"status {status}, {len(text)} bytes")

    # A book that is opened once, and searched.
    book = Book.from_case(case)
    show(book.search(REQUEST))

    # Four desks on threads ask the book that is current, while the clerk files. A search lets other threads run.
    current = {"book": book}
    filed = threading.Event()

    def desk(_: int) -> int:
        answers = [current["book"].search(REQUEST) for _ in range(100)]
        filed.wait()
        return len(answers)

    with ThreadPoolExecutor(4) as desks:
        counts = desks.map(desk, range(4))
        current["book"] = book.file({"actions": [{"put_fare": FARE}]})
        filed.set()
        print(sum(counts), "searches")
    show(current["book"].search(REQUEST))


if __name__ == "__main__":
    main(sys.argv[1])
