"""Finds the proved program and runs a command of it over bytes.

It is the one that the environment's LOWFARE names; else the library that LOWFARE_LIBRARY names, or that `make_lib` built of these
very sources, which runs the same commands in this process; else `./lowfare` of this repository, which proves the program where
that has to be done yet and says so on standard error.
"""
import functools
import importlib
import os
import pathlib
import subprocess
import sys
from collections.abc import Callable
from dataclasses import dataclass

TOP = pathlib.Path(__file__).resolve().parents[3]
BINDING = str(TOP / "bindings" / "python")
# The archive beside the shared library is the one that is kept by the sum of these sources and of the kit.
IS_OF_THESE_SOURCES = """
top=$PWD && source launch/proved.sh && source launch/library.sh && cmp -s "$(kept_library "$(library_sum)")" out/liblowfare.a &&
  [ ! out/liblowfare.a -nt out/liblowfare.so ]
"""

DONE = 0
REFUSED = 1
USAGE = 2
TOO_LARGE = 6
FAILS_A_CHECK = 7
TOO_LONG = 8
NOT_PROVED = 10

PAGE = "docs/FORMATS.md#statuses"


class CannotRun(Exception):
    """The program can't be run, or ends in a way that answers nothing; the text says which."""


@dataclass(frozen=True)
class Result:
    """What a run ended with: its status and what it wrote."""

    status: int
    text: str


@dataclass(frozen=True)
class Command:
    """The program as a command of the system."""

    path: str

    def run(self, words, given=b""):
        """Runs the program with these words over these bytes. What it says on standard error goes on to ours."""
        try:
            ran = subprocess.run([self.path, *words], input=given, stdout=subprocess.PIPE, check=False)
        except OSError as bad:
            raise CannotRun(f"{self.path} can't be run: {bad.strerror}; see README.md") from None
        if ran.returncode not in (DONE, REFUSED, USAGE, TOO_LARGE, FAILS_A_CHECK, TOO_LONG):
            raise CannotRun(f"{self.path} ended with status {ran.returncode} and answered nothing; see {PAGE}")
        return Result(ran.returncode, ran.stdout.decode("utf-8", "replace"))


@dataclass(frozen=True)
class Library:
    """The program as a call of the library, in this process."""

    call: Callable[..., tuple[int, bytes]]

    def run(self, words, given=b""):
        """Runs the program with these words over these bytes."""
        try:
            status, text = self.call(words, given)
        except MemoryError:
            raise CannotRun(f"the library wanted memory and answered nothing; see {PAGE}") from None
        return Result(status, text.decode("utf-8", "replace"))


@functools.cache
def is_built():
    """Whether `make_lib` built the library of these very sources."""
    if not (TOP / "out" / "liblowfare.so").exists():
        return False
    ran = subprocess.run(["bash", "-c", IS_OF_THESE_SOURCES], cwd=TOP, stdin=subprocess.DEVNULL, capture_output=True, check=False)
    return ran.returncode == 0


def library():
    """The library, where it is there."""
    if not os.environ.get("LOWFARE_LIBRARY") and not is_built():
        return None
    if BINDING not in sys.path:
        sys.path.append(BINDING)
    try:
        return Library(importlib.import_module("lowfare").run)
    except (OSError, AttributeError) as bad:
        raise CannotRun(f"the library can't be used: {bad}; see docs/EMBEDDING.md") from None


def find():
    """The program to run."""
    named = os.environ.get("LOWFARE")
    return Command(named) if named else library() or Command(str(TOP / "lowfare"))
