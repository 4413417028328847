"""Which program the tools ask: the one that is named, the library where it is there, else ./lowfare."""
import sys
import unittest
import unittest.mock

from lowfare_tools import program
from tests.helpers import EXAMPLES, TOP


def environment(**names):
    """The environment with these names of a program and of a library, and no others."""
    others = {name: text for name, text in program.os.environ.items() if name not in ("LOWFARE", "LOWFARE_LIBRARY")}
    return unittest.mock.patch.dict("os.environ", {**others, **names}, clear=True)


def without_binding():
    """Where the binding isn't imported yet."""
    others = {name: module for name, module in sys.modules.items() if name.partition(".")[0] != "lowfare"}
    return unittest.mock.patch.dict(sys.modules, others, clear=True)


def no_memory(_words, _given):
    raise MemoryError


class Found(unittest.TestCase):
    def test_a_program_that_is_named(self):
        with environment(LOWFARE="other", LOWFARE_LIBRARY="no-such-library"):
            self.assertEqual(program.Command("other"), program.find())

    def test_no_library(self):
        with environment(), unittest.mock.patch.object(program, "is_built", lambda: False):
            self.assertEqual(program.Command(str(TOP / "lowfare")), program.find())

    def test_a_library_that_is_not_there(self):
        with environment(LOWFARE_LIBRARY="no-such-library"), without_binding(), self.assertRaises(program.CannotRun):
            program.find()

    def test_the_library_where_it_is_there(self):
        case, shown = ((EXAMPLES / f"one-way.{kind}").read_text() for kind in ("case", "out"))
        named = {name: text for name, text in program.os.environ.items() if name == "LOWFARE_LIBRARY"}
        with environment(**named):
            found = program.library()
            if found is None:
                self.skipTest("make_lib didn't build these sources")
            self.assertEqual(found, program.find())
        self.assertEqual(program.Result(0, shown), found.run(["search"], case.encode()))
        self.assertEqual(program.USAGE, found.run(["search", "--best", "0"]).status)


class Calls(unittest.TestCase):
    def test_what_a_call_tells(self):
        asked = []
        found = program.Library(lambda *given: asked.append(given) or (7, b"no C4 0\n")).run(["check", "--best", "2"], b"case")
        self.assertEqual((program.Result(7, "no C4 0\n"), [(["check", "--best", "2"], b"case")]), (found, asked))

    def test_want_of_memory(self):
        with self.assertRaises(program.CannotRun):
            program.Library(no_memory).run(["search"])


if __name__ == "__main__":
    unittest.main()
