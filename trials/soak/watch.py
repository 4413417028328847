#!/usr/bin/env python3
"""Runs a program that serves a case so many times, for about so many seconds of the processors, and prints the memory that it has in each
tenth of the run. Before, it counts by the library how many blocks of the heap are left after one run and after ten.

usage: watch.py PROGRAM LIBRARY CASE SECONDS
"""
import os
import resource
import subprocess
import sys
import tempfile
import time

PARTS = 10
# How much more the process may have later than early: a heap that serves many threads keeps freed pages for each of them.
SLACK = 1.5
LOOK_SECONDS = 0.05


def kilobytes(pid):
    """What the process has of the memory now; none where it has ended."""
    try:
        with open(f"/proc/{pid}/status") as held:
            return next((int(line.split()[1]) for line in held if line.startswith("VmRSS:")), None)
    except FileNotFoundError:
        return None


def left(program, library, case, times):
    """How many blocks of the heap the program took and never gave back in so many runs."""
    with open(case, "rb") as given, tempfile.NamedTemporaryFile("r") as counts:
        held = dict(os.environ, LD_PRELOAD=library, COUNTED=counts.name)
        subprocess.run([program, str(times)], stdin=given, env=held, check=True)
        return int(counts.read().split()[1])


def processor_seconds(program, case, times):
    """How long so many runs take the processors."""
    before = resource.getrusage(resource.RUSAGE_CHILDREN)
    with open(case, "rb") as given:
        subprocess.run([program, str(times)], stdin=given, check=True)
    after = resource.getrusage(resource.RUSAGE_CHILDREN)
    return after.ru_utime + after.ru_stime - before.ru_utime - before.ru_stime


def watched(program, case, times):
    """The memory at each look, and how the program ended."""
    looks = []
    with open(case, "rb") as given, subprocess.Popen([program, str(times)], stdin=given) as running:
        while running.poll() is None:
            now = kilobytes(running.pid)
            looks += [] if now is None else [now]
            time.sleep(LOOK_SECONDS)
        return looks, running.returncode


def main():
    program, library, case, seconds = *sys.argv[1:4], float(sys.argv[4])
    one, ten = (left(program, library, case, times) for times in (1, 10))
    print(f"blocks of the heap that are left: {one} after one run, {ten} after ten")
    once = processor_seconds(program, case, 10) / 10
    times = max(PARTS, round(seconds / once))
    begun, before = time.monotonic(), resource.getrusage(resource.RUSAGE_CHILDREN)
    looks, status = watched(program, case, times)
    after = resource.getrusage(resource.RUSAGE_CHILDREN)
    taken = after.ru_utime + after.ru_stime - before.ru_utime - before.ru_stime
    print(f"{times:,} runs of 8 desks, {taken:,.0f} s of {os.cpu_count()} processors, {time.monotonic() - begun:,.0f} s by the clock, status {status}")
    if len(looks) < PARTS:
        sys.exit("too short to be looked at")
    most = [max(looks[len(looks) * part // PARTS : len(looks) * (part + 1) // PARTS]) for part in range(PARTS)]
    print("greatest memory in each tenth, in MB: " + ", ".join(f"{kb / 1024:.1f}" for kb in most))
    sys.exit(0 if status == 0 and one == ten and max(most[1:]) <= SLACK * most[0] else 1)


main()
