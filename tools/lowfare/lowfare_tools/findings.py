"""What lint can find: the names, which stay as they are, and what each means."""
from dataclasses import dataclass

NAMES = {
    "unreadable": "a line that isn't of its form; the program may refuse the case for it",
    "bom": "the file begins with a byte order mark, for which the program refuses line 1",
    "no-last-feed": "the last line has no line feed: was the file cut?",
    "no-seats": "a flight has no seat row on some of its days, so that nothing can be sold on it",
    "seats-of-no-flight": "a seat row that no flight has",
    "unsold-class": "a fare's class in which no flight has a seat",
    "never-flies": "a flight row without a single day",
    "long-flight": "a flight of more than 20 hours: are its offsets and its day shift right?",
    "clock-change": "clocks at a place change inside a flight's period, and its row has one offset",
    "wrong-offset": "a row's offset isn't that of the place's clocks on any of its days",
    "two-offsets": "two rows give a place different offsets on the same day",
    "short-stop": "a flight number goes on at a place sooner than that place's least connect time",
    "unserved-place": "a fare or a slice to or from a place at which no flight calls",
    "unused-rule": "a rule that no fare names",
    "free-stopovers": "fares without category 8: they pay for stopovers anywhere, and so for other slices",
    "free-transfers": "fares without category 9: they pay for flights of any carrier after the first",
    "fare-replaced": "a filing files a fare twice; the later one counts",
    "zero-fare": "a fare for nothing",
    "impossible-stay": "a rule whose least stay is longer than its longest",
    "request-outside": "a slice on whose days no flight leaves its origin",
    "slices-backwards": "a slice whose window ends before that of the slice before it begins",
    "sold-late": "the day of sale is after the first slice's window",
}


@dataclass(frozen=True, order=True)
class Finding:
    """One thing that is surely not meant: the line of the case (0 for the whole), its name and what is said of it."""

    line: int
    name: str
    text: str

    def __post_init__(self):
        assert self.name in NAMES, self.name
