#!/usr/bin/env python3
"""Runs both programs on one input at each limit and one past it, and prints what came, in what time and memory.

usage: limits.py PROGRAM PEER DONE
"""
import json
import os
import subprocess
import sys
import tempfile

from inputs import limits
from survey import MOST_SECONDS, serves


def measured(program, words, case):
    """Text, status, processor seconds and megabytes at the most."""
    with tempfile.NamedTemporaryFile() as given, tempfile.NamedTemporaryFile("r") as told:
        given.write(case)
        given.flush()
        timed = ["/usr/bin/time", "-q", "-o", told.name, "-f", "%U %S %M", program, *words]
        with open(given.name, "rb") as held:
            end = subprocess.run(timed, stdin=held, stdout=subprocess.PIPE, stderr=subprocess.DEVNULL, timeout=MOST_SECONDS)
        *seconds, kilobytes = map(float, told.read().split())
    return end.stdout, end.returncode, round(sum(seconds), 2), kilobytes / 1000


def one_limit(program, peer, words, make, expected):
    """What came, whether it is right, and the figures of both."""
    case, (status, line) = make(), expected() if callable(expected) else expected
    ours, theirs = measured(program, words, case), measured(peer, words, case)
    lines = ours[0].decode().splitlines()
    right = ours[:2] == theirs[:2] and ours[1] == status and line in (lines if status == 0 else lines[:1])
    came = line if right else f"WRONG: status {ours[1]} and {theirs[1]}, `{''.join(lines[:1])}` for `{line}`"
    return {"bytes": len(case), "status": ours[1], "came": came, "right": right, "ours": ours[2:], "theirs": theirs[2:]}


def shown(limit, figures):
    at, past = figures[limit, "at"], figures.get((limit, "past"))
    beyond = f"`{past['came']}`, status {past['status']}" if past else "none can be asked for"
    (seconds, megabytes), (other_seconds, other_megabytes) = at["ours"], at["theirs"]
    return (
        f"| {limit} | `{at['came']}`, status {at['status']} | {beyond} "
        f"| {seconds:.2f} s, {megabytes:.0f} MB | {other_seconds:.2f} s, {other_megabytes:.0f} MB |"
    )


def main():
    program, peer, done = sys.argv[1:4]
    os.makedirs(done, exist_ok=True)
    file = f"{done}/limits-figures.json"
    figures = {}
    if os.path.exists(file):
        with open(file) as held:
            figures = {tuple(key.split("|")): value for key, value in json.load(held).items()}
    for limit, side, words, make, expected in limits():
        if (limit, side) in figures or (words == ["serve"] and not serves(program)):
            continue
        figures[limit, side] = one_limit(program, peer, words, make, expected)
        print(f"limits: {limit}, {side} it: {figures[limit, side]['came']}", flush=True)
        with open(file, "w") as held:
            json.dump({"|".join(key): value for key, value in figures.items()}, held, indent=1)
    wrong = [key for key, value in figures.items() if not value["right"]]
    with open(f"{done}/limits.md", "w") as held:
        held.write("| Limit | At it | Past it | At it, lowfare | At it, the other program |\n|---|---|---|---|---|\n")
        for limit in dict.fromkeys(limit for limit, _ in figures):
            held.write(shown(limit, figures) + "\n")
    with open(f"{done}/limits.json", "w") as held:
        found = [f"{' '.join(key)}: {figures[key]['came']}" for key in wrong]
        seconds = sum(value["ours"][0] for value in figures.values())
        json.dump({"name": "limits", "count": len(figures), "reached": len(figures), "seconds": seconds, "seen": {}, "found": found}, held)
    print(f"limits: {len(figures)} inputs, {len(wrong)} wrong")
    sys.exit(1 if wrong else 0)


main()
