#!/usr/bin/env python3
"""Judges what `serve` writes for random cases, whichever thread came first: the history, each refusal of a later filing, and of each
reply its number, its desk, a version that the desk could know, and the answer of that version.

usage: desks.py PROGRAM PEER FIRST COUNT DONE
"""
import json
import random
import sys

from cases import request_of, slices_of
from features import outcomes
from filings import Filings
from survey import LATE, Survey, ran, serves
from timetable import Timetable


class Desks:
    """A random case of `serve`: the lines of its sections."""

    def __init__(self, draw):
        table = Timetable(draw)
        slices = slices_of(draw, table.names)
        table.fly(slices)
        filings = Filings(draw, table, slices)
        self.rows = table.lines()
        self.filings = filings.lines()
        self.later = [self.filing(draw, filings) for _ in range(draw.randint(0, 6))]
        self.requests = [json.dumps(request_of(draw, slices)) for _ in range(draw.randint(1, 3))]
        self.desks = draw.randint(1, 8)
        self.script = [self.step(draw) for _ in range(draw.randint(0, 20))]

    @staticmethod
    def filing(draw, filings):
        """A later filing that can be read: one that can't be read is a fault of the whole case."""
        actions = [filings.change() for _ in range(draw.randint(0, 3))]
        return json.dumps({"actions": actions}).replace("1000000001", "1000000000")

    def step(self, draw):
        desk = draw.randint(1, self.desks)
        if draw.random() < 0.3:
            return desk, "wait", draw.randint(0, len(self.later))
        return desk, "search", draw.randint(1, len(self.requests))

    def text(self):
        steps = [f"{desk} {what} {number}" for desk, what, number in self.script]
        return text_of([*self.rows, "#filings", *self.filings, "#later", *self.later, "#request", *self.requests, "#script", f"desks {self.desks}", *steps])

    def search_text(self, filings, request):
        return text_of([*self.rows, "#filings", *filings, "#request", request])


def text_of(lines):
    return ("\n".join([*lines, "#end"]) + "\n").encode()


class Judge:
    """What may be written for a case, by searches of the other program."""

    def __init__(self, peer, case, options):
        self.peer, self.case, self.options = peer, case, options
        self.answers = {}
        self.accepted, self.history, self.refusals = list(case.filings), [], []
        self.floors = [len(case.filings)]
        for number, filing in enumerate(case.later, 1):
            self.file(number, filing)
            self.floors.append(len(self.accepted))

    def file(self, number, filing):
        text, status = ran(self.peer, ["search", "--budget", "1"], self.case.search_text([*self.accepted, filing], self.case.requests[0]))
        words = text.decode().split()
        if status == 1 and words[2] == "action":
            self.refusals.append(f"later {number} refused {' '.join(words[2:])}")
        else:
            self.accepted.append(filing)
            self.history.append(f"entry {len(self.accepted)} later {number}")

    def head(self):
        opening = [f"entry {number} filing {number}" for number in range(1, len(self.case.filings) + 1)]
        return [f"history {len(self.accepted)}", *opening, *self.history, *self.refusals]

    def answer(self, request, version):
        """The lines of the answer of a version, which is asked for once."""
        if (request, version) not in self.answers:
            self.answers[request, version] = self.asked(request, version)
        return self.answers[request, version]

    def asked(self, request, version):
        words = ["search", "--at", str(version), *self.options]
        told = ran(self.peer, words, self.case.search_text(self.accepted, self.case.requests[request - 1]))
        if told == LATE:
            raise TimeoutError
        lines = told[0].decode().splitlines()
        if lines == ["too large"]:
            return lines
        return lines[1 : next(at for at, line in enumerate(lines) if line.startswith("certificate "))]

    def wrong(self, lines):
        """What is wrong with these lines, or None."""
        head = self.head()
        if lines[: len(head)] != head:
            return "the history"
        lines, known = lines[len(head) :], {}
        for number, (desk, what, count) in enumerate(self.case.script, 1):
            least = known.get(desk, len(self.case.filings))
            if what == "wait":
                known[desk] = max(least, self.floors[count])
                continue
            words = lines[0].split(" ") if lines else []
            if words[:5] != ["reply", str(number), "desk", str(desk), "version"]:
                return f"reply {number} is missing"
            version = int(words[5])
            if not least <= version <= len(self.accepted):
                return f"reply {number} is of version {version}"
            answer = self.answer(count, version)
            if lines[1 : 1 + len(answer)] != answer:
                return f"the answer of reply {number}"
            known[desk], lines = version, lines[1 + len(answer) :]
        return "lines after the last reply" if lines else None


def main():
    program, peer, first, count, done = sys.argv[1:6]
    if not serves(program):
        print("desks: left out, since the program doesn't have the command `serve`")
        return

    def judge(number):
        draw = random.Random(int(first) + number)
        case = Desks(draw)
        options = draw.choice([[], [], ["--budget", "5"], ["--best", "2"]])
        text, status = ran(program, ["serve", *options], case.text())
        others = [ran(peer, ["search", "--budget", "1"], case.search_text(case.filings, request)) for request in case.requests]
        refused = [other for other in others if other[1] == 1]
        if refused:
            # The line is another one, since later filings stand in between.
            right = status == 1 and text.split()[2:] in [other[0].split()[2:] for other in refused]
            return list(outcomes(["serve"], text, status)), None if right else (f"status {status} for a refusal", case.text())
        if status != 0:
            return ["wrong"], (f"status {status}", case.text())
        judged = Judge(peer, case, options)
        try:
            wrong = judged.wrong(text.decode().splitlines())
        except TimeoutError:
            return ["the other program took too long"], None
        names = [f"serve, status {status}", f"{min(case.desks, len(case.script))} desks"]
        names += [f"a later filing refused: {' '.join(line.split()[5:])}" for line in judged.refusals]
        names += ["a reply too large"] * text.decode().count("too large")
        names += ["reply"] * text.decode().count("reply ")
        return names, (wrong, case.text()) if wrong else None

    sys.exit(0 if Survey(done, f"desks-{first}").run(int(count), judge) else 1)


main()
