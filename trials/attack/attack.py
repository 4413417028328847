#!/usr/bin/env python3
"""Runs each attack and its harmless case, and prints what they take and the ratio of time and of memory. Wanted are at most three times the
time and twice the memory. It is a tool beside the program, of which nothing is proved.

usage: attack.py PROGRAM [--scale PART] [--times N] [--only ATTACK[,ATTACK ..]] [--judge]
"""
import argparse
import sys

from attacks import ATTACKS
from cases import with_certificate
from programs import WANT_OF_MEMORY, least

MOST_TIME, MOST_ROOM = 3.0, 2.0
# Below these a ratio says nothing.
FLOOR_SECONDS, FLOOR_MEGABYTES = 0.02, 10.0
HEAD = "| Attack | Where | Harmless | Attack | Time | Memory |\n|---|---|---|---|---|---|"


def ratio(one, other, floor):
    """How many times the one is the other, where the floor stands for what is below it."""
    return max(one, floor) / max(other, floor)


def rows_of(text):
    """How many residuals were reached, as a certificate says."""
    return next((line for line in text.split(b"\n") if line.startswith(b"rows ")), b"")


def is_cut_off(run):
    """Whether it ended at the bounds of time or memory: by a signal, or since memory was wanting."""
    return run.status == WANT_OF_MEMORY or run.status >= 128


def shown(run):
    return f"{run.seconds:.2f} s, {run.megabytes:.0f} MB" + (", and not done" if is_cut_off(run) else "")


def taken(program, attack, times):
    """What the harmless case and the attack take, and what is wrong with them."""
    found, faults, told = [], [], []
    for given in attack.cases:
        if attack.checked:
            given = with_certificate(given, least(program, ["search", "--budget", "1000000"], given, 1, keep=True).text)
        found.append(least(program, attack.words, given, times, keep=True))
        told.append((found[-1].status, rows_of(found[-1].text)))
    if told[0] != told[1] and not is_cut_off(found[1]):
        faults.append(f"{attack.name}: {told[0]} and {told[1]}")
    return found, faults


def main():
    words = argparse.ArgumentParser(usage=__doc__)
    words.add_argument("program")
    words.add_argument("--scale", type=float, default=1.0)
    words.add_argument("--times", type=int, default=1)
    words.add_argument("--only", default="")
    words.add_argument("--judge", action="store_true")
    asked = words.parse_args()
    only = [name for name in asked.only.split(",") if name]
    wrong, beyond = [], []
    print(HEAD)
    for attack in ATTACKS:
        if only and not any(attack.name.startswith(name) for name in only):
            continue
        (harmless, attacked), faults = taken(asked.program, attack._replace(cases=attack.cases(asked.scale)), asked.times)
        wrong += faults
        time, room = ratio(attacked.seconds, harmless.seconds, FLOOR_SECONDS), ratio(attacked.megabytes, harmless.megabytes, FLOOR_MEGABYTES)
        if time > MOST_TIME or room > MOST_ROOM or is_cut_off(attacked):
            beyond.append(attack.name)
        print(f"| {attack.name} | {attack.where} | {shown(harmless)} | {shown(attacked)} | {time:.1f} | {room:.1f} |", flush=True)
    print(f"\n{len(beyond)} beyond {MOST_TIME:.0f} times the time or {MOST_ROOM:.0f} times the memory: {', '.join(beyond) or 'none'}")
    for fault in wrong:
        print(f"WRONG: the cases differ in their statuses or residuals: {fault}")
    sys.exit(1 if wrong or (asked.judge and beyond) else 0)


if __name__ == "__main__":
    main()
