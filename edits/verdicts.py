#!/usr/bin/env python3
"""What became of each edit that the prover must refuse: reads, plans and writes edits/VERDICTS, for edits/try.sh and ci/edits.

A line of edits/VERDICTS is

  CRATE EDIT SUM VERDICT WHERE

SUM is that of what the edit was tried over: the crate's own src/, specs/ and proofs/, and the edit's file. The crates below it
don't count, or a change of the lowest would make each verdict old at once. VERDICT is one of

  refused           the prover refuses it, and WHERE is the clause or the goal that it finds first
  refused-by-name   only since a proof file names what the edit took away: that says little of the contract
  refused-by-limit  only by a limit of the prover, which gave no verdict
  let-through       the crate is still proved with the edit
  bad               it can't be applied, read or compiled, so no contract was tried

An edit whose check was killed has no line, and is tried again.

  verdicts.py due TOP [--anew] CRATE..     the edits that are to be tried, a crate and its edits a line
  verdicts.py record TOP FROM CRATE FILE   takes what `rt must-fail CRATE` wrote to FILE about the sources in the folder FROM
"""
import fcntl
import hashlib
import os
import pathlib
import re
import sys

REFUSED = "refused"
SAID = re.compile(r"rt: must-fail (\w+)/([\w.-]+)\.edit: (refused, as it must be|NOT REFUSED|BAD EDIT)(.*)")
# What `rt must-fail` says in brackets of a refusal that isn't the contract's.
LESS = {"only because a proof file names": "refused-by-name", "only by a limit of the prover": "refused-by-limit"}


def edits_of(top, crate):
    """The edits of a crate by their names: those of its own folder must-fail/, which the gate tries, and the further ones."""
    folders = [top / "crates" / crate / "must-fail", top / "edits" / crate]
    return {edit.stem: edit for folder in folders for edit in sorted(folder.glob("*.edit"))}


def crates_with_edits(top):
    """Their names, those that stand on fewer others first."""
    lines = (line.partition("#")[0] for line in (top / "crates.txt").read_text().splitlines())
    names = [line.partition(":")[0].split()[0] for line in lines if ":" in line]
    return [name for name in names if edits_of(top, name)]


class Sums:
    """The sums of a repository's edits; a crate's files are read once."""

    def __init__(self, top):
        self.top, self.crates = top, {}

    def of_crate(self, crate):
        if crate not in self.crates:
            found = hashlib.sha256()
            folder = self.top / "crates" / crate
            for file in sorted(it for part in ("src", "specs", "proofs") for it in (folder / part).rglob("*") if it.is_file()):
                text = file.read_bytes()
                found.update(f"{file.relative_to(folder)} {len(text)}\n".encode() + text)
            self.crates[crate] = found.digest()
        return self.crates[crate]

    def of(self, crate, edit):
        return hashlib.sha256(self.of_crate(crate) + edit.name.encode() + b"\n" + edit.read_bytes()).hexdigest()[:16]


def verdicts(top):
    """The lines of edits/VERDICTS: by crate and edit, the sum, the verdict and where it was refused."""
    file, found = top / "edits" / "VERDICTS", {}
    for line in file.read_text().splitlines() if file.exists() else []:
        if line and not line.startswith("#"):
            crate, edit, total, verdict, *where = line.split(" ", 4)
            found[crate, edit] = total, verdict, "".join(where)
    return found


def due(top, names, anew):
    """The edits of these crates without a verdict on their crate as it stands, by crate."""
    known, sums = verdicts(top), Sums(top)
    for crate in (it for it in crates_with_edits(top) if it in names):
        left = [it for it, file in edits_of(top, crate).items() if anew or known.get((crate, it), ("",))[0] != sums.of(crate, file)]
        if left:
            yield crate, left


def without_folders(text):
    """The text with the names alone of files of this machine."""
    return re.sub(r"(?<![\w.])/(?:[\w.-]+/)+", "", text)


def read(text):
    """What `rt must-fail` says: by crate and edit, the verdict and where it was refused."""
    lines, found = text.split("\n"), {}
    for at, line in enumerate(lines):
        said = SAID.match(line)
        if not said:
            continue
        crate, edit, kind, rest = said.groups()
        if kind == "NOT REFUSED":
            found[crate, edit] = "let-through", ""
            continue
        if kind == "BAD EDIT":
            more = [lines[at + 1]] if rest.endswith("what it said:") and at + 1 < len(lines) else []
            found[crate, edit] = "bad", " ".join([rest.removeprefix(": "), *more])
            continue
        less = next((word for start, word in LESS.items() if rest.startswith(f" ({start}")), None)
        where = re.sub(r"\A \([^()]*\)", "", rest) if less else rest
        found[crate, edit] = less or REFUSED, where.removeprefix(": ").strip()
    return found


def record(top, source, crate, text):
    """Writes the verdicts of these tries, and drops those of edits that are no longer there. Of two calls at once one waits."""
    said, sums, file = read(text), Sums(source), top / "edits" / "VERDICTS"
    (top / "out").mkdir(exist_ok=True)
    with open(top / "out" / "verdicts.lock", "w", encoding="utf-8") as lock:
        fcntl.flock(lock, fcntl.LOCK_EX)
        known = verdicts(top)
        tried = edits_of(source, crate)
        for (of, edit), (verdict, where) in said.items():
            if of == crate and edit in tried:
                known[crate, edit] = sums.of(crate, tried[edit]), verdict, without_folders(where)
        there = {(name, edit) for name in crates_with_edits(top) for edit in edits_of(top, name)}
        lines = [" ".join((*name, *known[name])).rstrip() for name in sorted(known) if name in there]
        new = file.with_suffix(f".{os.getpid()}")
        head = "# What became of each edit, written by edits/try.sh alone: its crate, its name, the sum of what it was tried over, the verdict, and the clause or goal.\n"
        new.write_text(head + "".join(f"{line}\n" for line in lines))
        new.replace(file)
    for (of, edit), (verdict, where) in sorted(said.items()):
        print(f"{of}/{edit}: {verdict}{': ' * bool(where)}{where}")
    return all(verdict == REFUSED for verdict, _ in said.values())


def main(verb, top, *words):
    top = pathlib.Path(top)
    if verb == "due":
        names = [it for it in words if it != "--anew"]
        for crate, edits in due(top, names, "--anew" in words):
            print(crate, *edits)
        return 0
    source, crate, file = words
    return 0 if record(top, pathlib.Path(source), crate, pathlib.Path(file).read_text(errors="replace")) else 1


if __name__ == "__main__":
    sys.exit(main(*sys.argv[1:]))
