#!/usr/bin/env python3
"""Random changes of the examples, each from a seed: bytes, numbers, fields, lines, JSON values, pieces of other examples, and words.

usage: fuzz.py PROGRAM PEER FIRST COUNT DONE
"""
import os
import random
import re
import sys

from features import outcomes
from survey import LATE, Survey, ran
from worked import examples

MOST_BYTES = 100000
TOKENS = [b"#end\n", b"#request\n", b"#ticket\n", b"#certificate\n", b"#later\n", b"#script\n", b"\n", b"\r", b"\r\n", b"\0", b"\xff", b"\xc3\xa9", b",", b",,", b'"', b"{", b"}", b"[", b"]", b"null", b"true", b"-", b"*", b" ", b"\\u0000", b"1e999", b"0.5"]
NUMBERS = [b"0", b"1", b"2", b"9", b"10", b"255", b"256", b"365", b"366", b"1000", b"1001", b"9999", b"10000", b"65535", b"65536", b"1000000", b"1000001", b"2147483648", b"4294967295", b"4294967296", b"9223372036854775808", b"18446744073709551615", b"18446744073709551616", b"-1", b"-0", b"00", b"01"]
WORDS = ["search", "check", "verdict", "calendar", "--best", "1", "1000", "--budget", "2", "--at", "0", "--outs", "--backs", "31", "--", "--summary"]


def changed_byte(draw, case):
    at = draw.randrange(len(case))
    return case[:at] + bytes([draw.randrange(256)]) + case[at + 1 :]


def cut_out(draw, case):
    at = draw.randrange(len(case))
    return case[:at] + case[at + draw.choice([1, 2, 10, 100]) :]


def put_in(draw, case):
    at = draw.randrange(len(case) + 1)
    return case[:at] + draw.choice(TOKENS) + case[at:]


def changed_number(draw, case):
    places = list(re.finditer(rb"\d+", case))
    if not places:
        return case
    place = draw.choice(places)
    number = draw.choice([*NUMBERS, b"%d" % (int(place[0][:18]) + draw.choice([-1, 1]))])
    return case[: place.start()] + number + case[place.end() :]


def changed_lines(draw, case):
    lines = case.split(b"\n")
    one, other = draw.randrange(len(lines)), draw.randrange(len(lines))
    roll = draw.randrange(4)
    if roll == 0:
        del lines[one]
    elif roll == 1:
        lines.insert(other, lines[one])
    elif roll == 2:
        lines[one], lines[other] = lines[other], lines[one]
    else:
        lines[one] = b",".join(draw.sample(fields := lines[one].split(b","), len(fields)))
    return b"\n".join(lines)


def changed_value(draw, case):
    """One JSON value in place of another one of the same text."""
    places = list(re.finditer(rb'"[^"]*"|\d+|true|false|\[[^\[\]{}]*\]|\{[^{}\[\]]*\}', case))
    if not places:
        return case
    place, other = draw.choice(places), draw.choice(places)
    return case[: place.start()] + other[0] + case[place.end() :]


def crossed(draw, case, every):
    other = draw.choice(every)[2]
    at, there = draw.randrange(len(case) + 1), draw.randrange(len(other) + 1)
    return case[:at] + other[there:]


def case_of(seed, every, lawful):
    draw = random.Random(seed)
    _, words, case = draw.choice(lawful if draw.random() < 0.8 else every)
    for _ in range(draw.choice([1, 1, 1, 2, 3, 8])):
        if not case:
            break
        change = draw.choice([changed_byte, cut_out, put_in, changed_number, changed_number, changed_lines, changed_value, changed_value, None])
        case = change(draw, case) if change else crossed(draw, case, every)
    if draw.random() < 0.05:
        words = [*words, *draw.sample(WORDS, draw.choice([1, 2]))]
    return words, case


def main():
    program, peer, first, count, done = sys.argv[1:6]
    top = os.path.dirname(os.path.dirname(os.path.dirname(os.path.abspath(__file__))))
    # What `serve` writes depends on which thread comes first, so its cases are left to other scripts.
    every = [one for one in examples(top) if "serve" not in one[1] and len(one[2]) < MOST_BYTES]
    lawful = [one for one in every if not os.path.exists(f"{top}/examples/{one[0]}.status")]

    def judge(number):
        seed = int(first) + number
        words, case = case_of(seed, every, lawful)
        ours, theirs = ran(program, words, case), ran(peer, words, case)
        if theirs == LATE:
            return ["the other program took too long"], None
        if ours == theirs:
            return list(outcomes(words, *theirs)), None
        return ["differs"], (f"seed {seed}: {' '.join(words)}: status {ours[1]} and {theirs[1]}", case)

    sys.exit(0 if Survey(done, f"fuzz-{first}").run(int(count), judge) else 1)


main()
