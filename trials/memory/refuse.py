#!/usr/bin/env python3
"""Refuses memory to each command on the worked cases: each allocation alone, and all from each one on. What comes is the whole text with its
status, or status 5 with nothing written; and what the program took of the heap and didn't give back is no more than in a run of which nothing
is refused.

usage: refuse.py PROGRAM LIBRARY DONE   DONE keeps how far each run came, so that a run that was cut off goes on
"""
import os
import sys
import tempfile

from survey import Survey, ran, serves
from worked import two_desks_texts, worked

OUT_OF_MEMORY = 5


def refused(program, library, done, words, case, number, **more):
    """What comes where this allocation is refused, none where it is 0; how many allocations were asked for, and how many blocks are left."""
    file, name = tempfile.mkstemp(dir=done)
    os.close(file)
    got = ran(program, words, case, env=dict(os.environ, LD_PRELOAD=library, REFUSE=str(number), COUNTED=name, **more))
    with open(name) as held:
        counts = [int(count) for count in held.read().split()]
    os.remove(name)
    return got, *(counts or (0, 0))


def judged(run, wholes, most_left, what, case):
    (text, status), _, left = run
    if left > most_left:
        return ["wrong"], (f"{what}: {left} blocks were left, and {most_left} without it", case)
    if (text, status) == (b"", OUT_OF_MEMORY):
        return ["status 5"], None
    if (text, status) in wholes:
        return ["whole text"], None
    return ["wrong"], (f"{what}: status {status}, {len(text)} bytes", case)


def each_allocation(program, library, done, name, words, case, wholes):
    whole, count, left = refused(program, library, done, words, case, 0)
    if whole not in wholes:
        print(f"memory-{name}: with the library, but nothing refused, it writes something else")
        return False

    def judge(number):
        one = refused(program, library, done, words, case, number + 1)
        names, wrong = judged(one, wholes, left, f"allocation {number + 1} of {name}", case)
        if wrong:
            return names, wrong
        all_from = refused(program, library, done, words, case, number + 1, FROM="1")
        more, wrong = judged(all_from, wholes, left, f"from allocation {number + 1} of {name} on", case)
        return [*names, *(f"{one}, all from one on" for one in more)], wrong

    return Survey(done, f"memory-{name}").run(count, judge)


def main():
    program, library, done = sys.argv[1:4]
    top = os.path.dirname(os.path.dirname(os.path.dirname(os.path.abspath(__file__))))
    os.makedirs(done, exist_ok=True)
    right = True
    for name, words, case in worked(program, top):
        if words != ["serve"]:
            wholes = [ran(program, words, case)]
        elif serves(program):
            wholes = [(text, 0) for text in two_desks_texts(program, top)]
        else:
            print(f"memory-{name}: left out, since the program doesn't have this command")
            continue
        right &= each_allocation(program, library, done, name, words, case, wholes)
    sys.exit(0 if right else 1)


main()
