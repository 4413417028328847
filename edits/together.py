#!/usr/bin/env python3
"""Tries many edits of a crate in one check, for edits/try.sh, and says what becomes of each as `rt must-fail` would.

A function is proved by itself, or with those of its cycle, from its own contract and those of what it calls. So edits in the bodies of
different functions don't touch one another's verdicts, and one check of the crate has all of them: an edit is refused where a goal of
its function isn't proved any more.
The checker doesn't try a function that calls one which isn't proved, so such edits wait for the next check, as a function's second
edit does. What doesn't fit in, as an edit of a contract or of two functions, and an edit of which no goal tells, since its function
is still proved or only a name is missing, is to be tried alone: their names are the last line that it prints. The verdicts are recorded after each check.

  together.py TOP COPY CRATE EDIT..     COPY is a copy of the repository TOP that it may change; the edits are those of COPY/edits/CRATE
"""
import os
import pathlib
import re
import resource
import subprocess
import sys
from dataclasses import dataclass
from typing import Optional

import verdicts

# A check that takes longer is of an edit on which the prover finds no end.
MOST_SECONDS = 1200

FUNCTION = re.compile(r"^( *)(?:pub(?:\([a-z ]+\))? )?(?:const )?(?:unsafe )?fn (\w+)")
CYCLE = re.compile(r"^ *#\[cycle\((\w+)\)\]")
VERDICT = re.compile(r"^fn (\S+): (proved|not proved|no proof|could not tell)\b(.*)")
WAITS = re.compile(r"[:;] it calls .* not proved$")
PLACE = re.compile(r"^(?:note: )?(?:\./)?(\S+?):(\d+):\d+:")
# What says only that a proof file names what the edit took away, as `rt must-fail` judges it.
NAMES = re.compile(r"(note: )?(\./)?proofs/.*(has no field|is not in scope|has no `|was not admitted)")
WAITING, ALONE = "waiting", "alone"


@dataclass(frozen=True)
class Body:
    """The body of one function: its file below the crate, its name and lines, the type that it is a method of, and the cycle of calls
    that it is proved with, where it is one or has one."""

    file: str
    name: str
    owner: Optional[str]
    cycle: Optional[str]
    first: int
    start: int
    last: int

    def place(self):
        """What is proved by itself."""
        return self.cycle or (self.file, self.first)

    def module(self):
        parts = list(pathlib.PurePath(self.file).with_suffix("").parts[1:])
        return parts if parts not in (["lib"], ["main"]) else []

    def is_named(self, path):
        """Whether a path of the checker's, without the crate, may be this function's."""
        inside = self.module()
        if path[: len(inside)] != inside or path[-1] != self.name:
            return False
        between = path[len(inside) : -1]
        return not between if self.owner is None else len(between) == 1 and between[0].startswith(self.owner)


def owner_of(head):
    """The type of a head of an `impl` block."""
    rest = head.removeprefix("impl")
    if rest.startswith("<"):
        depth = 0
        for at, letter in enumerate(rest):
            depth += (letter == "<") - (letter == ">" and rest[at - 1] != "-")
            if depth == 0:
                rest = rest[at + 1 :]
                break
    named = re.match(r"[&\s]*(?:\w+::)*(\w+)", rest.rpartition(" for ")[2])
    return named[1] if named else None


def bodies(file, text):
    """The functions of a formatted file that have a body, the inner ones last."""
    lines, found = text.split("\n"), []
    owner = None
    for at, line in enumerate(lines):
        if line and not line[0].isspace():
            owner = owner_of(line) if re.match(r"impl\b", line) else None
        head = FUNCTION.match(line)
        if not head:
            continue
        indent = head[1]
        start = at if line.endswith(" {") else next((it for it in range(at + 1, len(lines)) if lines[it] == indent + "{"), None)
        # A signature over several lines ends with its brace.
        broken = next((it for it in range(at + 1, len(lines)) if lines[it].startswith(indent + ")")), None)
        if not line.endswith(" {") and "(" in line and ")" not in line and broken is not None and lines[broken].endswith("{"):
            start = broken
        last = next((it for it in range(at, len(lines)) if lines[it] == indent + "}"), None)
        if start is None or last is None or start > last:
            continue
        cycle = next((named[1] for line in lines[max(0, at - 3) : at] if (named := CYCLE.match(line))), None)
        found.append(Body(file, head[2], owner if indent else None, cycle, at, start, last))
    return found


def pairs_of(edit):
    """The file that an edit changes and its pairs of texts, or None where it changes several."""
    file, old, pairs = None, None, []
    for line in edit.read_text().split("\n"):
        if line.startswith("file: "):
            if file is not None and file != line[6:].strip():
                return None
            file = line[6:].strip()
        elif line.startswith("old: "):
            old = line[5:]
        elif line.startswith("new:"):
            pairs.append((old, line[4:].removeprefix(" ")))
    return file, pairs


def body_of(folder, edit):
    """The one function in whose body the edit is, or None."""
    found = pairs_of(edit)
    if not found or not found[0].startswith("src/") or not (folder / found[0]).is_file():
        return None
    file, pairs = found
    text = (folder / file).read_text()
    inside = None
    for old, _ in pairs:
        if text.count(old) != 1:
            return None
        line = text[: text.index(old)].count("\n")
        around = [it for it in bodies(file, text) if it.start <= line <= it.last]
        if not around or inside not in (None, around[-1]):
            return None
        inside = around[-1]
    return inside


def next_round(waiting):
    """Of each function the first edit that waits, and the others."""
    now, later, taken = [], [], set()
    for edit, body in waiting:
        (later if body.place() in taken else now).append((edit, body))
        taken.add(body.place())
    return now, later


def limited():
    resource.setrlimit(resource.RLIMIT_CPU, (MOST_SECONDS, MOST_SECONDS))


def check(folder, tries):
    """What the checker says of the crate with these edits; the files are put back."""
    texts = {}
    for edit, _ in tries:
        file, pairs = pairs_of(edit)
        text = texts.setdefault(file, (folder / file).read_text())
        for old, new in pairs:
            text = text.replace(old, new)
        texts[file] = text
    was = {file: (folder / file).read_text() for file in texts}
    try:
        for file, text in texts.items():
            (folder / file).write_text(text)
        words = ["rt", "check", "--jobs", os.environ.get("RT_JOBS", "1")]
        how = {"stdout": subprocess.PIPE, "stderr": subprocess.STDOUT, "errors": "replace", "preexec_fn": limited}
        return subprocess.run(words, cwd=folder, **how).stdout
    finally:
        for file, text in was.items():
            (folder / file).write_text(text)


def told(said, crate):
    """By each function's path: its verdict, whether only since another isn't proved, and the notes on it; and the errors by their files."""
    lines, notes, found = said.split("\n"), [], {}
    errors = [(place[1], line) for line in lines if (place := PLACE.match(line)) and ": error" in line]
    for line in lines:
        verdict = VERDICT.match(line)
        if verdict:
            path = verdict[1].split("::")
            if path[0] == crate:
                found["/".join(path[1:])] = verdict[2], bool(WAITS.search(verdict[3])), notes
        if re.match(r"(fn|impl|struct|enum) ", line):
            notes = []
        elif line.startswith("note: ") and PLACE.match(line):
            notes.append(line)
    return found, errors


def judged(body, edit, crate, found, errors):
    """What this check says of an edit: its line, that it waits, or that it is to be tried alone."""
    named = [it for it in found if body.is_named(it.split("/"))]
    if len(named) != 1:
        return ALONE
    verdict, waits, notes = found[named[0]]
    if waits:
        return WAITING
    if verdict not in ("not proved", "no proof"):
        return ALONE
    own = f"proofs/{named[0]}/"
    why = [line for file, line in errors if file.startswith(own) or body.cycle and f"/+{body.cycle}/" in file] + notes
    first = next((it for it in why if not NAMES.match(it)), "")
    # A name may be missing for another edit's sake.
    return f"rt: must-fail {crate}/{edit.name}: refused, as it must be: {first[:160]}" if first else ALONE


def settle(folder, crate, tries):
    """The lines of these edits, those that wait, and those that are to be tried alone. Where the checker rejects the whole, by halves."""
    found, errors = told(check(folder, tries), crate)
    if not found:
        if len(tries) == 1:
            return [], [], [tries[0][0]]
        half = len(tries) // 2
        one, other = settle(folder, crate, tries[:half]), settle(folder, crate, tries[half:])
        return tuple(first + second for first, second in zip(one, other))
    lines, waiting, alone = [], [], []
    for edit, body in tries:
        said = judged(body, edit, crate, found, errors)
        if said is WAITING:
            waiting.append((edit, body))
        elif said is ALONE:
            alone.append(edit)
        else:
            lines.append(said)
    return lines, waiting, alone


def main(top, copy, crate, *names):
    top, copy = pathlib.Path(top), pathlib.Path(copy)
    folder = copy / "crates" / crate
    edits = [copy / "edits" / crate / f"{name}.edit" for name in names]
    placed = [(edit, body_of(folder, edit)) for edit in edits]
    alone = [edit for edit, body in placed if body is None]
    waiting = [it for it in placed if it[1] is not None]
    while waiting:
        now, later = next_round(waiting)
        lines, still, left = settle(folder, crate, now)
        alone += left
        if lines:
            verdicts.record(top, copy, crate, "\n".join(lines))
        if len(still) == len(now):
            alone += [edit for edit, _ in still]
            still = []
        waiting = still + later
    print("alone:", *(it.stem for it in alone))


if __name__ == "__main__":
    main(*sys.argv[1:])
