#!/usr/bin/env python3
"""Cuts each worked case after each of its bytes, and changes each byte of it: the one-way case to all other values, the other cases,
certificates and tickets to those values that a form knows, to the next value and to a byte above 127.

usage: damage.py PROGRAM PEER DONE
"""
import os
import sys

from survey import Survey, ran
from worked import NAMES, check_case, search_case, verdict_case

KNOWN = b"019AYZ:-,*#\" \n\r"


def values(byte, every):
    """What a byte is changed to."""
    if every:
        return [value for value in range(256) if value != byte]
    return sorted({*KNOWN, (byte + 1) % 256, 200} - {byte})


def damages(case, first, every):
    """Places and values: a value of None cuts the case before that place."""
    for place in range(first, len(case)):
        yield place, None
        for value in values(case[place], every):
            yield place, value


def damaged(case, place, value):
    return case[:place] if value is None else case[:place] + bytes([value]) + case[place + 1 :]


def surveys(program, top):
    """Names, words, cases, where the damage begins, and whether each value is tried."""
    for name in NAMES:
        case = search_case(top, name)
        yield f"search-{name}", ["search"], case, 0, name == "one-way"
        check, verdict = check_case(program, case), verdict_case(program, case)
        yield f"check-{name}", ["check"], check, check.index(b"#certificate"), False
        yield f"verdict-{name}", ["verdict"], verdict, verdict.index(b"#ticket"), False
    check = search_case(top, "check-best-two")
    yield "check-best-two", ["check"], check, check.index(b"#certificate"), False


def main():
    program, peer, done = sys.argv[1:4]
    top = os.path.dirname(os.path.dirname(os.path.dirname(os.path.abspath(__file__))))
    right = True
    for name, words, case, first, every in surveys(peer, top):
        found = list(damages(case, first, every))

        def judge(number):
            place, value = found[number]
            given = damaged(case, place, value)
            ours, theirs = ran(program, words, given), ran(peer, words, given)
            if ours == theirs:
                return [f"status {ours[1]}"], None
            what = "cut" if value is None else f"byte {value}"
            return ["differs"], (f"{what} at {place}: status {ours[1]} and {theirs[1]}", given)

        right &= Survey(done, f"damage-{name}").run(len(found), judge)
    sys.exit(0 if right else 1)


main()
