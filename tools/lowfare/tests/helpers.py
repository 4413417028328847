"""What the tests of importers and of lint share: files in a folder of their own, a command run in this process, and damage."""
import contextlib
import io
import pathlib
import tempfile

TOP = pathlib.Path(__file__).resolve().parents[3]
EXAMPLES = TOP / "examples"
YOUR_DATA = EXAMPLES / "your-data"


class Ran:
    """What a command wrote to standard output and error, and its status."""

    def __init__(self, work, words):
        text, said = io.StringIO(), io.StringIO()
        with contextlib.redirect_stdout(text), contextlib.redirect_stderr(said):
            try:
                self.status = work(words)
            except SystemExit as ended:
                self.status = ended.code
        self.text, self.said = text.getvalue(), said.getvalue()


@contextlib.contextmanager
def folder(**files):
    """A folder with these files, each by its name with `_` for the dot; gives the path of each by the same name."""
    with tempfile.TemporaryDirectory() as room:
        paths = {}
        for name, text in files.items():
            path = pathlib.Path(room, name.replace("_", "."))
            path.write_bytes(text if isinstance(text, bytes) else text.encode())
            paths[name] = str(path)
        yield paths


def record(columns):
    """An SSIM record: texts by the column, from 1, at which each begins."""
    made = [" "] * 200
    for column, text in columns.items():
        made[column - 1 : column - 1 + len(text)] = text
    assert len(made) == 200
    return "".join(made)


LEG = {
    1: "3", 3: "BX", 6: "  11", 10: "01", 12: "01", 14: "J", 15: "03MAR31", 22: "09MAR31", 29: "1 3 5  ", 37: "LHR",
    40: "1100", 44: "1055", 48: "+0000", 55: "JFK", 58: "1405", 62: "1400", 66: "-0500", 73: "788", 193: "00", 195: "000003",
}  # fmt: skip
CARRIER = {1: "2", 2: "L", 3: "BX", 15: "01MAR31", 22: "31DEC31", 195: "000002"}
TRAILER = {1: "5", 3: "BX", 194: "E", 195: "000009"}


def leg(**changes):
    """A leg of BX 11 from LHR to JFK, with other texts at columns named c14 and so on."""
    return record({**LEG, **{int(name[1:]): text for name, text in changes.items()}})


def timetable(*legs, **changes):
    """A whole file of one carrier with these legs."""
    first = record({**CARRIER, **{int(name[1:]): text for name, text in changes.items()}})
    return "\n".join([record({1: "1"}), first, *legs, record(TRAILER), ""]).encode()


def damaged(random, data):
    """The bytes with a few of them changed, dropped, doubled or put in."""
    made = bytearray(data)
    for _ in range(random.randint(1, 4)):
        at = random.randrange(len(made) + 1)
        what = random.randrange(4)
        if what == 0:
            made[at : at + 1] = bytes([random.choice(b'0129AZaz ,;"\\#\n\r\t\x00\xff-+:{}[]')])
        elif what == 1:
            del made[at : at + random.randint(1, 12)]
        elif what == 2:
            made[at:at] = made[at : at + random.randint(1, 40)]
        else:
            made[at:at] = bytes(random.randrange(256) for _ in range(random.randint(1, 3)))
    return bytes(made)
