#!/usr/bin/env python3
"""Prints what the surveys of a folder counted, as tables for a document.

usage: report.py DONE
"""
import collections
import json
import os
import sys

PARTS = {
    "memory": "`trials/memory.sh`: each allocation refused alone, and all from it on",
    "room": "`trials/room.sh`: twenty sizes of address space, and of stack",
    "streams": "`trials/streams.sh`: closed, failing, full, broken and slow streams",
    "damage": "`trials/damage.sh`: cases, certificates and tickets with each byte changed, and cut after each",
    "limits": "`trials/limits.sh`: one input at each limit and one past it",
    "differ": "`trials/differ.sh`: random cases",
    "fuzz": "`trials/fuzz.sh`: examples changed at random",
    "desks": "`trials/desks.sh`: random cases of `serve`",
    "memcheck": "`trials/memcheck.sh`: the examples and worked cases under memcheck",
}


def surveys(done):
    for name in sorted(os.listdir(done)):
        if name.endswith(".json") and name != "limits-figures.json":
            with open(f"{done}/{name}") as held:
                yield json.load(held)


def times(number):
    return f"{number:,}"


def listed(seen):
    return "; ".join(f"{name} {times(count)}" for name, count in sorted(seen.items())) or "-"


def main():
    done = sys.argv[1]
    every = collections.defaultdict(list)
    for one in surveys(done):
        every[one["name"].split("-")[0]].append(one)
    print("| What | Times | Wrong | Seconds |\n|---|---|---|---|")
    for part, what in PARTS.items():
        for one in every[part][:1]:
            reached, count = sum(one["reached"] for one in every[part]), sum(one["count"] for one in every[part])
            left = "" if reached == count else f" of {times(count)}"
            wrong = sum(len(one["found"]) for one in every[part])
            print(f"| {what} | {times(reached)}{left} | {wrong or 'none'} | {sum(one['seconds'] for one in every[part]):.0f} |")
    for part in ("memory", "damage", "memcheck"):
        if every[part]:
            print(f"\n| {part} | Times | What came |\n|---|---|---|")
        for one in every[part]:
            print(f"| {one['name'].removeprefix(part + '-')} | {times(one['reached'])} | {listed(one['seen'])} |")
    for part in ("room", "streams", "differ", "fuzz", "desks"):
        seen = sum((collections.Counter(one["seen"]) for one in every[part]), collections.Counter())
        if seen:
            print(f"\n| {part} | Times |\n|---|---|")
        for name, count in sorted(seen.items()):
            print(f"| {name} | {times(count)} |")
    if os.path.exists(f"{done}/limits.md"):
        with open(f"{done}/limits.md") as held:
            print("\n" + held.read(), end="")
    for part in every.values():
        for one in part:
            for found in one["found"]:
                print(f"\n{one['name']} {found}")


main()
