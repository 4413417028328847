#!/usr/bin/env python3
"""Runs each command in little address space and with a small stack. In any address space in which the program starts, what comes is the
whole text with its status, or status 5 with nothing written; with any of the stacks it is the whole text.

usage: room.py PROGRAM DONE   DONE keeps how far each run came, so that a run that was cut off goes on
"""
import os
import resource
import sys

from survey import Survey, ran, serves
from worked import check_case, two_desks_texts, worked

OUT_OF_MEMORY = 5
KB = 1024
SIZES = 20
STEP = 16 * KB
MOST_STEPS = 1 << 18
LEAST_STACK, STACK_STEP = 256 * KB, 64 * KB


def within(limit, size, program, words, case):
    return ran(program, words, case, preexec_fn=lambda: resource.setrlimit(limit, (size, size)))


def least(suits):
    """The least number of steps that suits, where all greater ones do."""
    below, at = 0, MOST_STEPS
    while at - below > 1:
        middle = (below + at) // 2
        below, at = (below, middle) if suits(middle) else (middle, at)
    return at


def in_space(program, done, name, words, case, wholes):
    """Twenty sizes of address space, the last of which is the least that was found to do."""
    usage = ran(program, [], b"")
    first = least(lambda steps: within(resource.RLIMIT_AS, steps * STEP, program, [], b"") == usage)
    last = max(first, least(lambda steps: within(resource.RLIMIT_AS, steps * STEP, program, words, case) in wholes))

    def judge(number):
        size = (first + (last - first) * number // (SIZES - 1)) * STEP
        got = within(resource.RLIMIT_AS, size, program, words, case)
        if got == (b"", OUT_OF_MEMORY):
            return ["status 5"], None
        if got in wholes:
            return ["whole text"], None
        return ["wrong"], (f"address space of {size // KB} KB: status {got[1]}, {len(got[0])} bytes", case)

    return Survey(done, f"room-space-{name}").run(SIZES, judge)


def on_stack(program, done, name, words, case, wholes):
    def judge(number):
        size = LEAST_STACK + number * STACK_STEP
        got = within(resource.RLIMIT_STACK, size, program, words, case)
        if got in wholes:
            return ["whole text"], None
        return ["wrong"], (f"stack of {size // KB} KB: status {got[1]}, {len(got[0])} bytes", case)

    return Survey(done, f"room-stack-{name}").run(SIZES, judge)


def made_cases(program):
    """Names, words and inputs of commands on a made case."""
    case = ran(program, ["make", "--seed", "1", "--size", "60"], b"")[0]
    yield "search-made", ["search"], case
    yield "check-made", ["check"], check_case(program, case)
    yield "calendar-made", ["calendar", "--outs", "7", "--backs", "7"], case
    yield "make-summary-made", ["make", "--seed", "1", "--size", "60", "--summary"], b""


def main():
    program, done = sys.argv[1:3]
    top = os.path.dirname(os.path.dirname(os.path.dirname(os.path.abspath(__file__))))
    os.makedirs(done, exist_ok=True)
    right = True
    for name, words, case in [*worked(program, top), *made_cases(program)]:
        if words != ["serve"]:
            wholes = [ran(program, words, case)]
        elif serves(program):
            wholes = [(text, 0) for text in two_desks_texts(program, top)]
        else:
            print(f"room-{name}: left out, since the program doesn't have this command")
            continue
        right &= in_space(program, done, name, words, case, wholes)
        right &= on_stack(program, done, name, words, case, wholes)
    sys.exit(0 if right else 1)


main()
