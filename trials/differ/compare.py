#!/usr/bin/env python3
"""Runs two programs on random cases and stops at nothing: each case on which bytes or status differ is kept.

usage: compare.py PRODUCT PEER FIRST COUNT DONE [COMMAND ..]   (with commands: only cases of these)
"""
import sys

from cases import case_of
from features import features, outcomes
from survey import LATE, Survey, ran


def main():
    product, peer, first, count, done = sys.argv[1:6]
    commands = set(sys.argv[6:])

    def answered(words, case):
        return ran(peer, words, case)[0]

    def judge(number):
        seed = int(first) + number
        words, case = case_of(seed, answered)
        command = next((word for word in words if not word.startswith("-")), "")
        if commands and command not in commands:
            return ["left out"], None
        ours, theirs = ran(product, words, case), ran(peer, words, case)
        if theirs == LATE:
            return ["the other program took too long"], None
        seen = [*outcomes(words, *theirs), *set(features(words or [""], case, *theirs, answered))]
        if ours == theirs:
            return seen, None
        return [*seen, "differs"], (f"seed {seed}: {' '.join(words)}: status {ours[1]} and {theirs[1]}", case)

    sys.exit(0 if Survey(done, f"differ-{first}").run(int(count), judge) else 1)


if __name__ == "__main__":
    main()
