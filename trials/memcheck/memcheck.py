#!/usr/bin/env python3
"""Each example and worked case under memcheck.

usage: memcheck.py PROGRAM DONE
"""
import os
import sys
import tempfile

from survey import Survey, ran, serves
from worked import examples, worked

# A status that the program never ends with.
FOUND = 99
VALGRIND = ["-q", f"--error-exitcode={FOUND}", "--leak-check=full", "--errors-for-leak-kinds=definite,indirect,possible", "--child-silent-after-fork=yes"]


def main():
    program, done = sys.argv[1:3]
    top = os.path.dirname(os.path.dirname(os.path.dirname(os.path.abspath(__file__))))
    every = [*worked(program, top), *examples(top)]
    every = [one for one in every if one[1][:1] != ["serve"] or serves(program)]

    def judge(number):
        name, words, case = every[number]
        with tempfile.NamedTemporaryFile("r") as log:
            got = ran("valgrind", [*VALGRIND, f"--log-file={log.name}", program, *words], case)
            said = log.read().splitlines()
        if said:
            return ["found"], (f"{name}: {said[0]}", case)
        if words[:1] != ["serve"] and got != ran(program, words, case):
            return ["another text"], (f"{name}: status {got[1]}, {len(got[0])} bytes", case)
        return [f"status {got[1]}"], None

    sys.exit(0 if Survey(done, "memcheck").run(len(every), judge) else 1)


main()
