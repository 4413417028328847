#!/usr/bin/env python3
"""Runs the C interface and the program on random cases of all commands and keeps each on which bytes or status differ.

usage: library.py PROGRAM FIRST COUNT DONE

Each case goes through `lowfare_run`. Where the program takes it as it stands, without `--at`, without `--best` for a check and with no
carriage return, the call on an open book that answers the same is compared too: a refusal names a line of the text that it is of, which
there isn't the whole case.
"""
import sys

from cases import case_of
from features import outcomes
from lowfare import run
from lowfare.library import LIBRARY, Handle, take_text
from survey import LATE, Survey, ran

BUDGET = 100_000
REFUSED, USAGE = 1, 2


def parts_of(case):
    """The text of the search case, its request, and the text of the section behind it, where there is one; without empty lines."""
    case = b"".join(line + b"\n" for line in case.split(b"\n") if line)
    head, _, rest = case.partition(b"\n#request\n")
    request, _, rest = rest.partition(b"\n")
    last = rest.removesuffix(b"#end\n")
    _, _, lines = last.partition(b"\n")
    return head + b"\n#request\n" + request + b"\n#end\n", request, lines


def option(words, name, default):
    """The value of an option in words that are a command line: `name value` or `name=value`."""
    for word, value in zip(words, [*words[1:], ""]):
        start, equals, rest = word.partition("=")
        if start == name:
            return int(rest if equals else value)
    return default


def on_book(words, case):
    """What the call on an open book answers that is for this command: its status and text; None where there is no such call."""
    command = words[0]
    text, request, lines = parts_of(case)
    budget, best = option(words, "--budget", BUDGET), option(words, "--best", 0)
    calls = {
        "search": (LIBRARY.lowfare_search, [best, budget]),
        "calendar": (LIBRARY.lowfare_calendar, [option(words, "--outs", 0), option(words, "--backs", 0), budget]),
        "check": (LIBRARY.lowfare_check, [lines, len(lines)]),
        "verdict": (LIBRARY.lowfare_verdict, [lines, len(lines)]),
    }
    if command not in calls or option(words, "--at", None) is not None or command == "check" and best:
        return None
    call, more = calls[command]
    book, answer = Handle(), Handle()
    status = LIBRARY.lowfare_open(text, len(text), book, answer)
    if status == 0:
        status = call(book, request, len(request), *more, answer)
        LIBRARY.lowfare_book_close(book)
    return take_text(answer), status


def main(program, first, count, done):
    def answered(words, case):
        return ran(program, words, case)[0]

    def judge(number):
        seed = int(first) + number
        words, case = case_of(seed, answered)
        told = ran(program, words, case)
        if told == LATE:
            return ["the program took too long"], None
        seen = list(outcomes(words, *told))
        status, text = run(words, case)
        found = {"run": (text, status)}
        if told[1] not in (REFUSED, USAGE) and b"\r" not in case:
            answer = on_book(words, case)
            if answer is not None:
                found["book"] = answer
                seen.append(f"on a book: {words[0]}")
        wrong = [name for name, answer in found.items() if answer != told]
        if not wrong:
            return seen, None
        return [*seen, "differs"], (f"seed {seed}: {' '.join(words)}: by {', '.join(wrong)}", case)

    sys.exit(0 if Survey(done, f"library-{first}").run(int(count), judge) else 1)


if __name__ == "__main__":
    main(*sys.argv[1:])
