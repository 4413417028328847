"""A run of a program: what it writes, its status, the processor time of the user and the system, and its greatest resident memory."""
import collections
import os
import resource
import subprocess
import tempfile

TIME = "/usr/bin/time"
MOST_SECONDS = int(os.environ.get("MOST_SECONDS", "120"))
MOST_BYTES = int(os.environ.get("MOST_MEGABYTES", "4000")) * 1_000_000
WANT_OF_MEMORY = 5
TOO_LARGE = 6

Run = collections.namedtuple("Run", "status seconds megabytes text")


def limited():
    """What the child may take: so that an attack that succeeds takes no more than a part of the machine."""
    resource.setrlimit(resource.RLIMIT_CPU, (MOST_SECONDS, MOST_SECONDS))
    resource.setrlimit(resource.RLIMIT_AS, (MOST_BYTES, MOST_BYTES))


def run(program, words, given, keep=False):
    """One run. `time` stands between, since the memory of a child counts from its parent's on, and this process has the case in its own."""
    with tempfile.TemporaryFile() as case, tempfile.TemporaryFile() as told, tempfile.NamedTemporaryFile("r") as taken:
        case.write(given)
        case.seek(0)
        end = subprocess.Popen(
            [TIME, "-q", "-o", taken.name, "-f", "%M", program, *words],
            stdin=case,
            stdout=told if keep else subprocess.DEVNULL,
            stderr=subprocess.DEVNULL,
            preexec_fn=limited,
        )
        _, status, used = os.wait4(end.pid, 0)
        end.returncode = os.waitstatus_to_exitcode(status)
        told.seek(0)
        kilobytes = taken.read().split()
        return Run(end.returncode, used.ru_utime + used.ru_stime, float(kilobytes[-1]) / 1000 if kilobytes else 0.0, told.read())


def least(program, words, given, times, keep=False):
    """The run that took the least time, of so many; it isn't repeated where it takes long."""
    best = run(program, words, given, keep)
    for _ in range(times - 1):
        if best.seconds > 5:
            break
        best = min(best, run(program, words, given, keep), key=lambda one: one.seconds)
    return best
