"""Many runs of a program: what each gave is judged and counted, and a survey that was cut off goes on where it was."""
import collections
import json
import multiprocessing
import os
import pathlib
import signal
import subprocess
import sys
import time

TOP = pathlib.Path(__file__).resolve().parent.parent.parent
REFERENCE = str(TOP / "reference" / "run")
LATE = (b"", "late")
MOST_SECONDS = 300
MOST_SECONDS_OF_REFERENCE = 60
CHUNK = 50
PROGRESS_SECONDS = 10


def told_by_reference(words, given):
    """What the reference writes for these words and these bytes, and its status. It is called in this process, which spares its start."""
    sys.path[:0] = [] if str(TOP) in sys.path else [str(TOP)]
    from reference.program import answer

    def stop(*_):
        raise TimeoutError

    signal.signal(signal.SIGALRM, stop)
    signal.alarm(MOST_SECONDS_OF_REFERENCE)
    try:
        text, status = answer(list(words), lambda most: given[:most])
    except TimeoutError:
        return LATE
    finally:
        signal.alarm(0)
    return text.encode(), status


def ran(program, words, given, **more):
    """What a program writes for these words and these bytes, and its status; `late` where it doesn't end."""
    if program == REFERENCE and not more:
        return told_by_reference(words, given)
    file = os.memfd_create("case")
    try:
        with open(file, "wb", closefd=False) as held:
            held.write(given)
        os.lseek(file, 0, os.SEEK_SET)
        more = {"stdout": subprocess.PIPE, "stderr": subprocess.DEVNULL, "timeout": MOST_SECONDS, **more}
        end = subprocess.run([program, *words], stdin=file, **more)
    except subprocess.TimeoutExpired:
        return LATE
    finally:
        os.close(file)
    return end.stdout, end.returncode


def serves(program):
    """Whether the program has the command `serve`: where it has none, the word is answered with the usage line."""
    return ran(program, ["serve"], b"") != ran(program, [], b"")


class Survey:
    """What was counted under a name, kept in a file of the folder `done`."""

    def __init__(self, done, name):
        self.file = f"{done}/{name}.json"
        self.name, self.done = name, done
        self.reached, self.seconds, self.seen, self.found = 0, 0, collections.Counter(), []
        os.makedirs(done, exist_ok=True)
        if os.path.exists(self.file):
            with open(self.file) as held:
                kept = json.load(held)
            self.reached, self.seconds, self.found = kept["reached"], kept["seconds"], kept["found"]
            self.seen.update(kept["seen"])

    def keep(self, count):
        kept = {"name": self.name, "count": count, "reached": self.reached, "seconds": round(self.seconds, 1), "seen": self.seen, "found": self.found}
        with open(self.file + ".new", "w") as held:
            json.dump(kept, held, indent=1, sort_keys=True)
        os.replace(self.file + ".new", self.file)

    def find(self, number, told, case):
        self.found.append(f"{number}: {told}")
        with open(f"{self.done}/{self.name}-{number}.case", "wb") as held:
            held.write(case)
        print(f"{self.name} {number}: {told}", flush=True)

    def run(self, count, judge):
        """Judges each number below the count. `judge` gives what it saw, a list of names, and None or what is wrong and the case.

        JOBS is how many are judged at a time, and with SAMPLE n only each n-th is judged, for a quick look.
        """
        jobs, step = int(os.environ.get("JOBS", "1")), int(os.environ.get("SAMPLE", "1"))
        count = -(-count // step)
        context = multiprocessing.get_context("fork")
        global _judge
        _judge = judge
        pool = context.Pool(jobs) if jobs > 1 else None
        told = time.monotonic()
        while self.reached < count:
            begun = time.monotonic()
            until = min(count, self.reached + CHUNK)
            numbers = range(self.reached * step, until * step, step)
            for number, (names, wrong) in zip(numbers, pool.imap(_judged, numbers) if pool else map(judge, numbers)):
                self.seen.update(names)
                if wrong:
                    self.find(number, *wrong)
            self.reached = until
            self.seconds += time.monotonic() - begun
            self.keep(count)
            if self.reached == count or time.monotonic() - told > PROGRESS_SECONDS:
                told = time.monotonic()
                print(f"{self.name}: {self.reached} of {count}, {len(self.found)} found, {self.seconds:.0f} s", flush=True)
        if pool:
            pool.terminate()
        return not self.found


_judge = None


def _judged(number):
    return _judge(number)
