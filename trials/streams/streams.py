#!/usr/bin/env python3
"""Each command on the worked cases with broken streams. A fault of reading gives status 3 and nothing written, a fault of writing
status 4 and a front of the text, and a stream that is only slow or takes little at a time the whole text. Where a library makes the fault, no more
blocks of the heap are left at the end than in a run without one.

usage: streams.py PROGRAM LIBRARIES DONE
"""
import collections
import os
import subprocess
import sys
import tempfile
import threading
import time

from survey import MOST_SECONDS, Survey, ran, serves
from worked import two_desks_texts, worked

READ_FAULT, WRITE_FAULT = 3, 4
READS_NOTHING = ("make", "search search")


class Command:
    """A command on a case, and the texts that it may write in good order with their status."""

    def __init__(self, name, words, case, wholes):
        self.name, self.words, self.case, self.wholes = name, words, case, wholes
        self.reads = not " ".join(words).startswith(READS_NOTHING)
        self.longest = max(len(text) for text, _ in wholes)
        # How many blocks of the heap are left where no stream has a fault.
        self.left = 0


def whole(command, text, status):
    return (text, status) in command.wholes


def not_read(command, text, status):
    return (text, status) == (b"", READ_FAULT) if command.reads else whole(command, text, status)


def read_or_not(command, text, status):
    return not_read(command, text, status) or whole(command, text, status)


def front(size):
    """At most this many bytes could be written; all of a shorter text."""

    def judge(command, text, status):
        if whole(command, text, status):
            return len(text) <= size
        return status == WRITE_FAULT and len(text) == size and any(other.startswith(text) for other, _ in command.wholes)

    return judge


def some_front(command, text, status):
    return status == WRITE_FAULT and any(other.startswith(text) for other, _ in command.wholes)


def run(program, command, **more):
    """Text, status and what standard error has."""
    done = subprocess.run([program, *command.words], stdout=subprocess.PIPE, stderr=subprocess.PIPE, timeout=MOST_SECONDS, **more)
    return done.stdout, done.returncode, done.stderr


def counted(program, libraries, command, **faults):
    """A run with the libraries, and how many blocks of the heap are left."""
    with tempfile.NamedTemporaryFile("r") as counts:
        held = dict(os.environ, LD_PRELOAD=libraries, COUNTED=counts.name, **{name: str(number) for name, number in faults.items()})
        text, status, said = run(program, command, input=command.case, env=held)
        return text, status, said, int(counts.read().split()[1])


def preloaded(program, libraries, command, **faults):
    text, status, said, left = counted(program, libraries, command, **faults)
    if left > command.left:
        status = f"{status} with {left} blocks left, and {command.left} without a fault,"
    return text, status, said


def from_shell(program, command, redirections):
    """The program run with redirections, as a shell opens them."""
    script = f'exec "$0" "$@" {redirections}'
    done = subprocess.run(["sh", "-c", script, program, *command.words], input=command.case, stdout=subprocess.PIPE, stderr=subprocess.PIPE, timeout=MOST_SECONDS)
    return done.stdout, done.returncode, done.stderr


def reader_leaves(program, command, after):
    """A pipe whose reader takes so many bytes and goes."""
    ours, theirs = os.pipe()
    if after == 0:
        os.close(ours)
    with subprocess.Popen([program, *command.words], stdin=subprocess.PIPE, stdout=theirs, stderr=subprocess.PIPE) as running:
        os.close(theirs)
        feeder = threading.Thread(target=feed, args=(running.stdin, [command.case], 0))
        feeder.start()
        text = b""
        while len(text) < after and (piece := os.read(ours, after - len(text))):
            text += piece
        if after:
            os.close(ours)
        told = running.stderr.read()
        feeder.join()
    return text, running.returncode, told


def feed(pipe, pieces, pause):
    try:
        for piece in pieces:
            pipe.write(piece)
            pipe.flush()
            time.sleep(pause)
        pipe.close()
    except BrokenPipeError:
        pass


def slow_writer(program, command):
    """Standard input that comes in eight pieces, with a pause after each."""
    step = max(1, -(-len(command.case) // 8))
    pieces = [command.case[at : at + step] for at in range(0, len(command.case), step)]
    with subprocess.Popen([program, *command.words], stdin=subprocess.PIPE, stdout=subprocess.PIPE, stderr=subprocess.PIPE) as running:
        feeder = threading.Thread(target=feed, args=(running.stdin, pieces, 0.01))
        feeder.start()
        text, told = running.stdout.read(), running.stderr.read()
        feeder.join()
    return text, running.returncode, told


def slow_reader(program, command):
    """A reader that first waits until the pipe is full, and then takes a little at a time."""
    with subprocess.Popen([program, *command.words], stdin=subprocess.PIPE, stdout=subprocess.PIPE, stderr=subprocess.PIPE, bufsize=0) as running:
        feeder = threading.Thread(target=feed, args=(running.stdin, [command.case], 0))
        feeder.start()
        time.sleep(0.05)
        text = b""
        while piece := running.stdout.read(1000):
            text += piece
        told = running.stderr.read()
        feeder.join()
    return text, running.returncode, told


def waiting_input(program, command):
    """Standard input that has nothing yet and doesn't wait."""
    ours, theirs = os.pipe()
    os.set_blocking(ours, False)
    try:
        return run(program, command, stdin=ours)
    finally:
        os.close(ours)
        os.close(theirs)


def shell_streams():
    return [
        ("standard input closed", "<&-", not_read),
        ("standard input a folder", "</", not_read),
        ("standard input only for writing", "0>/dev/null", not_read),
        ("standard output closed", ">&-", some_front),
        ("standard output full", ">/dev/full", some_front),
        ("standard output only for reading", "1</dev/null", some_front),
        ("standard error closed", "2>&-", whole),
        ("standard error full", "2>/dev/full", whole),
        ("standard input and error closed", "<&- 2>&-", not_read),
        ("standard output full, error closed", ">/dev/full 2>&-", some_front),
        ("standard input and output closed", "<&- >&-", None),
    ]


def any_fault(command, text, status):
    return text == b"" and status == (READ_FAULT if command.reads else WRITE_FAULT)


def trials(program, libraries, command):
    """Name of the stream, how it is run, and what must come."""
    for name, redirections, judge in shell_streams():
        yield name, lambda redirections=redirections: from_shell(program, command, redirections), judge or any_fault
    yield "standard input that doesn't wait", lambda: waiting_input(program, command), not_read
    yield "standard input in pieces", lambda: slow_writer(program, command), whole
    yield "a slow reader", lambda: slow_reader(program, command), whole
    yield "a reader that has gone", lambda: reader_leaves(program, command, 0), some_front
    for call in range(1, 7):
        yield "a read that fails", lambda call=call: preloaded(program, libraries, command, READ_FAILS=call), read_or_not
        yield "a read that is interrupted", lambda call=call: preloaded(program, libraries, command, READ_BREAKS=call), read_or_not
    yield "one byte a read", lambda: preloaded(program, libraries, command, READ_MOST=1), whole
    yield "one byte a write", lambda: preloaded(program, libraries, command, WRITE_MOST=1), whole
    for call in sorted({1, 2, 3, command.longest // 2, command.longest, command.longest + 1}):
        yield "a write that fails, one byte a write", lambda call=call: preloaded(program, libraries, command, WRITE_MOST=1, WRITE_FAILS=call), front(call - 1)
        yield "a write that is interrupted", lambda call=call: preloaded(program, libraries, command, WRITE_MOST=1, WRITE_BREAKS=call), lambda *got: whole(*got) or some_front(*got)
    sizes = range(command.longest + 1) if command.longest <= 2000 else range(0, command.longest + 1, command.longest // 100)
    for room in sizes:
        yield "full at a size", lambda room=room: preloaded(program, libraries, command, WRITE_ROOM=room), front(room)
        yield "takes nothing after a size", lambda room=room: preloaded(program, libraries, command, WRITE_ROOM=room, WRITE_NONE=1), front(room)


def commands(program, top):
    for name, words, case in [*worked(program, top), ("make-100", ["make", "--seed", "1", "--size", "100"], b"")]:
        if words != ["serve"]:
            yield Command(name, words, case, [ran(program, words, case)])
        elif serves(program):
            yield Command(name, words, case, [(text, 0) for text in two_desks_texts(program, top)])


def main():
    program, libraries, done = sys.argv[1:4]
    top = os.path.dirname(os.path.dirname(os.path.dirname(os.path.abspath(__file__))))
    every, told = [], collections.Counter()
    for command in commands(program, top):
        command.left = counted(program, libraries, command)[3]
        every += [(command, *trial) for trial in trials(program, libraries, command)]

    def judge(number):
        command, name, trial, right = every[number]
        text, status, said = trial()
        seen = [name, f"status {status}"]
        if status in (READ_FAULT, WRITE_FAULT):
            seen.append(f"status {status} {'with a word' if said else 'without a word'} on standard error")
        if right(command, text, status):
            return seen, None
        return seen, (f"{command.name}, {name}: status {status}, {len(text)} bytes", command.case)

    sys.exit(0 if Survey(done, "streams").run(len(every), judge) else 1)


main()
