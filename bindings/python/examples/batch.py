"""Prices many requests over one book on Dask's workers, while filings come.

    batch.py CASE LOG [--requests N] [--workers N] [--kill N]

CASE is the text of a search's case, and its request is the one that is varied. LOG has a filing in each line, in the order in
which a clerk accepted them: the request of number i is asked of the book with the first filings of the log, as many as have
come when it is sent, here an equal share of the requests for each. Each worker opens the book once, files what it hasn't
filed yet, and keeps the versions that requests still name.

A book follows from the case and the filings, so any worker's answer is the answer: where a worker is killed, Dask sends what
it had to another, and nothing else changes. The last line printed is a digest of all answers, the same for every number of
workers and of kills.
"""

from __future__ import annotations

import argparse
import hashlib
import json
import os
import signal
import sys
import time
from dataclasses import dataclass, field

from distributed import Client, LocalCluster, as_completed, get_worker

from lowfare import Book, LowfareError

PIECE = 50


@dataclass
class Shelf:
    """The versions of a book that a worker has."""

    log: list[bytes]
    books: list[Book] = field(default_factory=list)

    def at(self, count: int) -> Book:
        """The book with the first filings of the log, as many as this."""
        while len(self.books) <= count:
            self.books.append(self.books[-1].file(self.log[len(self.books) - 1]))
        return self.books[count]


def shelf_of(case: str, log: str) -> Shelf:
    """This worker's shelf: the case is read and opened once."""
    worker = get_worker()
    if not hasattr(worker, "lowfare_shelf"):
        with open(log, "rb") as lines:
            filings = lines.read().splitlines()
        with open(case, "rb") as text:
            worker.lowfare_shelf = Shelf(filings, [Book.from_case(text.read())])
    return worker.lowfare_shelf


def price(case: str, log: str, asked: list[tuple[int, int, bytes]]) -> list[tuple[int, str]]:
    """Of each request, by its number, the digest of its answer or its refusal, in the version that it names."""
    shelf = shelf_of(case, log)
    told = []
    for number, filings, request in asked:
        try:
            text = shelf.at(filings).search_text(request)
        except LowfareError as error:
            text = repr(error).encode()
        told.append((number, hashlib.sha256(text).hexdigest()))
    return told


def requests_of(case: str, log: str, count: int) -> list[tuple[int, int, bytes]]:
    """The requests: the case's own with each party and number of tickets in turn, and how many filings had come."""
    with open(case, encoding="utf-8") as text:
        asked = json.loads(text.read().split("\n#request\n")[1].split("\n")[0])
    with open(log, "rb") as lines:
        filings = len(lines.read().splitlines())
    found = []
    for number in range(count):
        asked["party"], asked["best"] = 1 + number % 4, 1 + number % 10
        found.append((number, number * (filings + 1) // count, json.dumps(asked).encode()))
    return found


def kill_one(client: Client) -> None:
    """Kills one worker's process. Dask starts another."""
    pids = list(client.run(os.getpid).values())
    if pids:
        os.kill(pids[0], signal.SIGKILL)


def main() -> int:
    words = argparse.ArgumentParser(description=__doc__.split("\n")[0])
    words.add_argument("case")
    words.add_argument("log")
    words.add_argument("--requests", type=int, default=10_000)
    words.add_argument("--workers", type=int, default=4)
    words.add_argument("--kill", type=int, default=0, help="how many workers are killed on the way")
    given = words.parse_args()
    case, log = os.path.abspath(given.case), os.path.abspath(given.log)
    asked = requests_of(case, log, given.requests)
    pieces = [asked[at : at + PIECE] for at in range(0, len(asked), PIECE)]
    cluster = LocalCluster(n_workers=given.workers, threads_per_worker=1, processes=True, dashboard_address=None)
    with cluster, Client(cluster) as client:
        # Each worker opens its book before the clock starts.
        client.run(price, case, log, [])
        began = time.monotonic()
        waiting = as_completed(client.submit(price, case, log, piece, pure=False, retries=9) for piece in pieces)
        told: dict[int, str] = {}
        kills = given.kill
        for done, piece in enumerate(waiting, 1):
            told.update(piece.result())
            if kills and done * (given.kill + 1) >= len(pieces) * (given.kill - kills + 1):
                kill_one(client)
                kills -= 1
        took = time.monotonic() - began
    print(f"{len(told)} requests, {given.workers} workers, {given.kill} killed: {len(told) / took:.0f} a second")
    print(hashlib.sha256("".join(told[number] for number, _, _ in asked).encode()).hexdigest())
    return 0 if len(told) == given.requests else 1


if __name__ == "__main__":
    sys.exit(main())
