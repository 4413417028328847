#!/usr/bin/env python3
"""Compares random searches by the library with the program's bytes: equal.py PROGRAM COUNT. A case is a made one of a random seed and
a size of 1 to 3, of which in half of all cases a byte is changed; its search by `run` and on an open book is compared with what the
program prints."""

import json
import random
import subprocess
import sys

from lowfare import Book, LowfareError, Refused, TooLarge, run


def printed(program, words, case):
    ran = subprocess.run([program, *words], input=case, stdout=subprocess.PIPE, check=False)
    return ran.returncode, ran.stdout


def damaged(case, draw):
    """The case with one byte of one line changed, in half of all cases."""
    if draw.random() < 0.5:
        return case
    at = draw.randrange(len(case))
    return case[:at] + bytes([draw.choice(b'0123456789,"{}\nAZ')]) + case[at + 1 :]


def by_book(case, best):
    """The status and the text of a search on an open book. The line of a request's refusal is that of its text."""
    book = Book.from_case(case)
    request = case.split(b"\n#request\n")[1].split(b"\n")[0]
    try:
        return 0, book.search_text(request, best)
    except TooLarge:
        return 6, b"too large\n"


def main(program, count):
    draw = random.Random(47)
    wrong = 0
    for number in range(count):
        seed, size, best = draw.randrange(2**32), draw.randrange(1, 4), draw.randrange(1, 12)
        status, case = run(["make", "--seed", str(seed), "--size", str(size)])
        case = damaged(case, draw)
        words = ["search", "--best", str(best)]
        told = printed(program, words, case)
        found = [run(words, case)]
        try:
            found.append(by_book(case, best))
        except Refused as error:
            found.append((1, f"refused {error.line} {error.reason}\n".encode()))
        except LowfareError as error:
            found.append((9, repr(error).encode()))
        if status != 0 or any(each != told for each in found):
            print(json.dumps({"seed": seed, "size": size, "best": best, "number": number}))
            wrong += 1
    print(f"{count} cases, {wrong} differ")
    return wrong != 0


if __name__ == "__main__":
    sys.exit(main(sys.argv[1], int(sys.argv[2])))
