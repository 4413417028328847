"""What is left of a journey after each move: the residuals that an answer passes, as texts of a certificate's rows. What each
part says stands in docs/RESIDUALS.md; nothing here is proved, and it serves to draw.
"""
from dataclasses import dataclass, replace
from datetime import date

from lowfare_tools.answer import KINDS
from lowfare_tools.case import EPOCH, ONE_DAY
from lowfare_tools.causes import least_return
from lowfare_tools.claims import ALONE, CLOSES, OPENS

PARTNERS = ("any", "same_carrier", "same_rule")
ONE_WAY, CIRCLE = 1, 8
ALL_KINDS = 15


@dataclass(frozen=True)
class Position:
    """Where the journey stands: its slice and the flights taken in it, the place, the place called at first where two flights
    were taken, and the range of flight numbers that may come next."""

    part: int
    leg: int
    place: str
    via: str
    low: int
    high: int

    def text(self):
        return f"{self.part} {self.leg} {self.place} {self.via} {self.low} {self.high}"


@dataclass(frozen=True)
class OpenUnit:
    """What is kept of a unit that isn't complete. Days are numbers since 1970-01-01; None is absent, `*` mixed."""

    origin: str
    end: str
    count: int
    first: int
    least: int | None
    greatest: int | None
    by: int | None
    kinds: int
    partner: int
    carrier: str
    rule: int | str

    def text(self):
        asked = ("-" if value is None else value for value in (self.least, self.greatest, self.by))
        parts = [self.count, self.first, *asked, self.kinds, self.partner, self.carrier, self.rule]
        return f"{self.origin}>{self.end}:" + ":".join(map(str, parts))


def day_number(day):
    return day.toordinal() - EPOCH


def opened(fare, rule, flights, first):
    """What a fare asks of the unit that begins on a day, with its own flights as the whole of it so far."""
    at = rule.categories
    combine = at.get("cat10", {})
    kinds = sum(1 << KINDS.index(kind) for kind in combine.get("kinds", KINDS))
    by = at.get("cat14", {}).get("by")
    return OpenUnit(
        flights[0].origin,
        flights[-1].destination,
        1,
        day_number(first),
        day_number(least_return(at["cat6"], first)) if "cat6" in at else None,
        day_number(first) + at["cat7"] if "cat7" in at else None,
        day_number(date.fromisoformat(by)) if by else None,
        kinds & (ALL_KINDS - ONE_WAY),
        PARTNERS.index(combine.get("partners", "any")),
        fare.carrier,
        fare.rule,
    )


def least_of(choose, *values):
    """The greatest or smallest of the values that are there."""
    present = [value for value in values if value is not None]
    return choose(present) if present else None


def gone_on(unit, asked):
    """The unit with one component more, which asks this of it."""
    carrier = unit.carrier if unit.carrier == asked.carrier else "*"
    return replace(
        unit,
        end=asked.end,
        count=unit.count + 1,
        least=least_of(max, unit.least, asked.least),
        greatest=least_of(min, unit.greatest, asked.greatest),
        by=least_of(min, unit.by, asked.by),
        kinds=CIRCLE,
        partner=max(unit.partner, asked.partner),
        carrier=carrier,
        rule=unit.rule if carrier != "*" and unit.rule == asked.rule else "*",
    )


class Walk:
    """A walk over a case, move by move, from the root."""

    def __init__(self, given, timetable):
        self.slices = given.request.slices
        self.connect = {place.code: place.connect for place in given.places}
        self.flights = timetable.flights
        self.units = []
        self.begun = 0
        self.ends = set()
        self.carriers = set()
        self.position = self.before(0, None)

    def ranged(self, part, leg, place, via, fits):
        numbers = [flight.index for flight in self.flights if flight.origin == place and fits(flight)]
        return Position(part, leg, place, via, *((numbers[0], numbers[-1] + 1) if numbers else (0, 0)))

    def before(self, part, arrival):
        """The position before a slice, after an arrival or, at the root, after none."""
        wanted = self.slices[part]
        least = None if arrival is None else arrival.lands + self.connect[wanted.origin]

        def fits(flight):
            return wanted.first <= flight.day <= wanted.last and (least is None or flight.leaves >= least)

        return self.ranged(part, 0, wanted.origin, "-", fits)

    def fly(self, flight):
        """Goes on by one flight. After the last slice there is no position."""
        at, place = self.position, flight.destination
        if place == self.slices[at.part].destination:
            rest = at.part + 1 < len(self.slices)
            self.position = self.before(at.part + 1, flight) if rest else None
            return
        low, high = flight.lands + self.connect[place], flight.lands + ONE_DAY
        via = at.place if at.leg == 1 else "-"
        self.position = self.ranged(at.part, at.leg + 1, place, via, lambda other: low <= other.leaves <= high)

    def take(self, move, fare, rule, flights):
        """Goes on by one move."""
        if move.role in (ALONE, OPENS):
            self.begun = min(2, self.begun + 1)
            if move.role == OPENS:
                self.units.append(opened(fare, rule, flights, flights[0].day))
        elif move.role == CLOSES:
            del self.units[move.slot]
        else:
            unit = self.units[move.slot]
            first = date.fromordinal(unit.first + EPOCH)
            self.units[move.slot] = gone_on(unit, opened(fare, rule, flights, first))
        self.ends.add(rule.categories.get("cat10", {}).get("end_on_end", "free"))
        self.carriers.add(fare.carrier)
        for flight in flights:
            self.fly(flight)

    def text(self):
        """The residual as a row has it; `end` where the journey is complete."""
        if self.position is None:
            return "end"
        units = "/".join(unit.text() for unit in self.units) or "-"
        ends = ("same_carrier" in self.ends) + 2 * ("never" in self.ends)
        carrier = "*" if len(self.carriers) > 1 else next(iter(self.carriers), "-")
        return f"{self.position.text()} {units} {self.begun}:{ends}:{carrier}"
