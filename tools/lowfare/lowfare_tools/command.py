"""What the commands on answers share: reading their files, and one line for each thing that goes wrong.

| Status | Comes where |
|---|---|
| 0 | it was done |
| 1 | a file can't be read, isn't of its form, is refused, or doesn't belong to the other one |
| 2 | the words are not those of the command |
| 7 | `lowfare-audit` alone: the certificate fails a check, or the printed tickets aren't its answers |
| 10 | the proved program can't be run |
"""
import argparse
import os
import pathlib
import re
import sys

from lowfare_tools import answer, program
from lowfare_tools.book import Book
from lowfare_tools.case import read_case
from lowfare_tools.wording import counted

REFUSALS = "docs/FORMATS.md#refusals"


class Trouble(Exception):
    """Why a command can't do its work, in one line with the page that says more."""


def read_bytes(name):
    """The bytes of a file, or of standard input where the name is `-`, which we say that we wait for."""
    if name == "-" and sys.stdin.isatty():
        print("waiting for what lowfare printed, on standard input", file=sys.stderr)
    try:
        data = sys.stdin.buffer.read() if name == "-" else pathlib.Path(name).read_bytes()
    except OSError as bad:
        raise Trouble(f"{name} can't be read: {bad.strerror}; see docs/VIEWS.md#statuses") from None
    return data


def read_answer(name, data):
    """What the program printed; a refusal or too large is trouble, for there is nothing to show."""
    if not data.strip():
        raise Trouble(f"{name} is empty: did the search end well? see docs/FORMATS.md#statuses")
    try:
        found = answer.read(data.decode("utf-8", "replace"))
    except answer.NotAnAnswer as bad:
        raise Trouble(f"{name} isn't what the program prints: {bad}; see docs/FORMATS.md#the-answer") from None
    if isinstance(found, answer.Refused):
        raise Trouble(f"{name} says that the case was refused at line {found.line}, {found.reason}; see {REFUSALS}")
    if isinstance(found, answer.TooLarge):
        raise Trouble(f"{name} says that the search was too large: ask with a greater --budget; see docs/FORMATS.md#statuses")
    return found


def sound_case(name, data):
    """A case that could be read whole."""
    case = read_case(data)
    if case.faults:
        fault = case.faults[0]
        raise Trouble(f"{name} is no case: line {fault.line}: {fault.reason}; see {REFUSALS}")
    if case.request is None or "end" not in case.headers:
        raise Trouble(f"{name} is no case: {'#end' if case.request else 'a request'} is missing; see {REFUSALS}")
    return case


def book_of(name, case, version):
    """The book of a case at a version."""
    if version > len(case.filings):
        filings = counted(len(case.filings), "filing")
        raise Trouble(f"{name} has {filings}, and version {version} was asked for; see docs/AUDIT.md#what-can-differ")
    return Book(case, version)


def number(low, high):
    """Reads the value of an option that is a whole number in a range."""

    def read(text):
        if not re.fullmatch(r"0|[1-9][0-9]{0,6}", text) or not low <= int(text) <= high:
            raise argparse.ArgumentTypeError(f"{text} isn't a whole number from {low} to {high:,}")
        return int(text)

    return read


VERSION = number(0, 1_000_000)


def out(text):
    """Writes a text to standard output."""
    sys.stdout.write(text)
    sys.stdout.flush()


def with_colour():
    """Whether standard output is a terminal that takes colour."""
    return sys.stdout.isatty() and "NO_COLOR" not in os.environ


def run(name, work, words):
    """Runs a command and gives its status. What goes wrong is one line on standard error; a reader of our output who leaves ends
    us in silence."""
    try:
        return work(words)
    except Trouble as bad:
        print(f"{name}: {bad}", file=sys.stderr)
        return 1
    except program.CannotRun as bad:
        print(f"{name}: {bad}", file=sys.stderr)
        return program.NOT_PROVED
    except BrokenPipeError:
        os.dup2(os.open(os.devnull, os.O_WRONLY), sys.stdout.fileno())
        return 0


def main(name, work):
    """Runs a command with the words that it was called with."""
    sys.exit(run(name, work, sys.argv[1:]))
