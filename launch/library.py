"""Builds the library for C over the libraries that `rt ci` proved and built in a checkout, for which the toolchain has no word of its
own: library.py KIT CHECKOUT FILE [PROCESSES], by so many processes: up to three where none is said, which are done sooner, and one takes
less of the processors.

What is built is a crate that is made here of the heads of the calls over handles of crates/shop_book: for each call an export of its
name that has its clauses and calls it. The compiler proves that crate before it builds it, and rt holds what it says to the rules of
each other verdict.
"""

import copy
import os
import pathlib
import re
import sys
import tempfile

# The head of a call: its name, its parameters, and what it gives with its clauses.
HEAD = re.compile(r"^pub fn (lowfare_\w+)\(([^)]*)\)((?: -> \w+)?\n.*?)^\{$", re.MULTILINE | re.DOTALL)
# An import for clauses, and the names that it brings.
IMPORT = re.compile(r"^ghost use .*\n", re.MULTILINE)
IMPORTED = re.compile(r"[^\s{},;]+(?=[,};])")
USES = "\nuse shop_book::Handle;\nuse std::alloc::Global;\n"


def export_of(name, parameters, clauses):
    """The export of a call."""
    given = ", ".join(re.findall(r"(\w+): ", parameters))
    return f'\n#[unsafe(no_mangle)]\npub extern "C" fn {name}({parameters}){clauses}{{\n    shop_book::{name}({given})\n}}\n'


def is_named(name, text):
    """Whether a text has a name, or the sign of an operator, as a word."""
    return re.search(rf"(?<!\w){re.escape(name.strip('◌'))}(?!\w)", text)


def write_exports(calls, folder):
    """Writes the crate of the exports of these sources: for each that has calls a module, with the imports that their clauses need."""
    modules = []
    for source in sorted(calls.glob("*.rt")):
        text = source.read_text()
        exports = "".join(export_of(*head) for head in HEAD.findall(text))
        if exports:
            imports = [line for line in IMPORT.findall(text) if any(is_named(name, exports) for name in IMPORTED.findall(line))]
            modules.append(source.stem)
            (folder / source.name).write_text("".join(imports) + USES + exports)
    (folder / "lib.rt").write_text("#![tactic(auto)]\n\n" + "".join(f"mod {name};\n" for name in modules))


def main(kit, checkout, file, processes=None):
    sys.path.insert(0, os.path.join(kit, "bin"))
    import rtlib

    calls = rtlib.Crate(os.path.join(checkout, "crates", "shop_book"), checkout, {})
    exports = copy.copy(calls)
    exports.name, exports.is_static, exports.deps = "lowfare_exports", True, [*calls.deps, calls]
    with tempfile.TemporaryDirectory() as room:
        exports.folder = room
        source = pathlib.Path(room, "src")
        source.mkdir()
        write_exports(pathlib.Path(calls.folder, "src", "handles"), source)
        words = exports.words(["--jobs", processes or str(min(os.cpu_count() or 1, 3))], keeps=False)
        words += ["--toolchain", os.path.join(kit, "toolchain"), "--backend", "llvm", "-o", file]
        # Its first call sets a signal's handler, which only the main thread may.
        rtlib.guarded()
        return exports.prove(["build", *words])


if __name__ == "__main__":
    sys.exit(main(*sys.argv[1:]))
