#!/usr/bin/env python3
"""Measures what the time and the room of each stage grow with, and prints the exponents. GROWTH.md says what they are to be. It is a tool
beside the program, of which nothing is proved.

usage: growth.py PROGRAM [--larger] [--tiny] [--times N] [--only STAGE[,STAGE ..]]
"""
import argparse
import collections
import math
import sys

from cases import with_certificate
from programs import TOO_LARGE, least
from stages import ANSWERS, BUDGET, LARGER_NETWORK, NETWORK, STAGES, answers, network, one_way
import cases

# What is taken by what isn't the stage drowns less than this.
FLOOR_SECONDS = 0.02
FLOOR_MEGABYTES = 4.0

Point = collections.namedtuple("Point", "size seconds megabytes")
HEAD = "| Stage | Size | Sizes | Milliseconds | MB | Time grows by | Room grows by | Said |\n|---|---|---|---|---|---|---|---|"


def exponent(sizes, values, floor):
    """The slope of the line through the logarithms, by least squares, of the values above the floor. None where fewer than two are."""
    found = [(math.log(size), math.log(value)) for size, value in zip(sizes, values) if value > floor]
    if len(found) < 2 or len({x for x, _ in found}) < 2:
        return None
    middle_x = sum(x for x, _ in found) / len(found)
    middle_y = sum(y for _, y in found) / len(found)
    return sum((x - middle_x) * (y - middle_y) for x, y in found) / sum((x - middle_x) ** 2 for x, _ in found)


def told(value):
    return "below the floor" if value is None else f"{value:.2f}"


def line(name, counts, points, said):
    """A line of the table."""
    sizes = [point.size for point in points]
    time = exponent(sizes, [point.seconds for point in points], FLOOR_SECONDS)
    room = exponent(sizes, [point.megabytes for point in points], FLOOR_MEGABYTES)
    milliseconds = ", ".join(f"{point.seconds * 1000:.0f}" for point in points)
    megabytes = ", ".join(f"{point.megabytes:.0f}" for point in points)
    each = ", ".join(f"{size:,}" for size in sizes)
    return f"| {name} | {counts} | {each} | {milliseconds} | {megabytes} | {told(time)} | {told(room)} | {said} |"


class Measure:
    """The program, how often each case is run, and what the smallest case takes, which is taken off each."""

    def __init__(self, program, times):
        self.program, self.times = program, times
        self.base = least(program, ["search"], cases.case(**one_way()), 3)
        self.faults = []

    def taken(self, words, given, wanted=0):
        """The run, with what the smallest case takes taken off."""
        found = least(self.program, words, given, self.times)
        if found.status != wanted:
            self.faults.append(f"{' '.join(words)}: status {found.status} in place of {wanted}")
        seconds, megabytes = found.seconds - self.base.seconds, found.megabytes - self.base.megabytes
        return found._replace(seconds=max(0.0, seconds), megabytes=max(0.0, megabytes))

    def stage(self, stage, sizes):
        points = []
        for size in sizes:
            asked = stage.make(size)
            found = self.taken(asked.words, asked.given)
            points.append(Point(asked.size, found.seconds, found.megabytes))
        print(line(stage.name, stage.counts, points, stage.said), flush=True)

    def network(self, sizes):
        """Walk, order of rows, certificate and check over one case: the walk alone where the budget is one less than it reaches; rows in
        order by a calendar of one cell, which writes none of them."""
        found = collections.defaultdict(list)
        for size in sizes:
            given = network(size)
            text = self.written(given)
            rows = next(int(told.split()[1]) for told in text.split(b"\n") if told.startswith(b"rows "))
            walk = self.taken(["search", "--budget", str(rows - 1)], given, TOO_LARGE)
            order = self.taken(["calendar", "--outs", "1", "--backs", "1", *BUDGET], given)
            search = self.taken(["search", *BUDGET], given)
            check = self.taken(["check"], with_certificate(given, text))
            found["walk"].append(Point(rows, walk.seconds, walk.megabytes))
            found["order of rows"].append(Point(rows, max(0.0, order.seconds - walk.seconds), order.megabytes))
            found["certificate"].append(Point(rows, max(0.0, search.seconds - order.seconds), search.megabytes))
            found["check: rows"].append(Point(rows, check.seconds, check.megabytes))
        for name, points in found.items():
            print(line(name, "residuals", points, 1), flush=True)

    def answers(self, sizes):
        """The check of answers that each have a front of their own."""
        points = []
        for size in sizes:
            given = answers(size)
            found = self.taken(["check"], with_certificate(given, self.written(given)))
            points.append(Point(size, found.seconds, found.megabytes))
        print(line("check: answers", "answers with a front each", points, 1), flush=True)

    def written(self, given):
        return least(self.program, ["search", *BUDGET], given, 1, keep=True).text


def main():
    words = argparse.ArgumentParser(usage=__doc__)
    words.add_argument("program")
    words.add_argument("--larger", action="store_true")
    words.add_argument("--tiny", action="store_true")
    words.add_argument("--times", type=int, default=2)
    words.add_argument("--only", default="")
    asked = words.parse_args()
    only = [name for name in asked.only.split(",") if name]
    measure = Measure(asked.program, asked.times)

    def wanted(name):
        return not only or any(name.startswith(one) for one in only)

    print(HEAD)
    for stage in (one for one in STAGES if wanted(one.name)):
        measure.stage(stage, stage.tiny if asked.tiny else stage.larger if asked.larger else stage.sizes)
    if any(wanted(name) for name in ("walk", "order of rows", "certificate", "check: rows")):
        measure.network([4, 8] if asked.tiny else LARGER_NETWORK if asked.larger else NETWORK)
    if wanted("check: answers"):
        measure.answers([2, 4] if asked.tiny else ANSWERS)
    for fault in measure.faults:
        print(f"WRONG: {fault}")
    sys.exit(1 if measure.faults else 0)


if __name__ == "__main__":
    main()
