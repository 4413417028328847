"""The moves of a residual and what they leave: docs/RESIDUALS.md, 'Open units and roles' and 'Moves'."""
import collections

import reference.components as components
import reference.rules as rules
from reference.residuals import DONE, MIXED, OpenUnit, Part, Residual, leads_to, takes
from reference.tickets import ALONE, CLOSES, GOES_ON, OPENS, Move, code

ONE_WAY, ROUND_TRIP, OPEN_JAW, CIRCLE = 1, 2, 4, 8
SAME_CARRIER, SAME_RULE = 1, 2
ONE_CARRIER, ONE_UNIT = 1, 2
"""RESIDUALS: the kinds as a sum; what a unit asks of its partners; what a ticket is asked end on end, as a sum."""

Chosen = collections.namedtuple("Chosen", "move code price next")
"""RESIDUALS, `IsChosen`: a move with its code, its price and what it leaves: a residual, or the end of the journey."""


class Moves:
    """The moves of the residuals of one book and request. What was found of a position, of a path and of a residual is kept, since many
    residuals ask for it."""

    def __init__(self, book, request):
        self.book, self.request = book, request
        self.paths_at, self.offers_on, self.known = {}, {}, {}

    def paths(self, at):
        """RESIDUALS, `IsPath`: the paths of a position, each with where it leads."""
        if at not in self.paths_at:
            self.paths_at[at] = list(paths(self.book.timetable, self.request.slices, at))
        return self.paths_at[at]

    def offers(self, numbers):
        """RESIDUALS, `Moves`: the live fares that are lawful on a path at component level."""
        if numbers not in self.offers_on:
            self.offers_on[numbers] = components.offers(self.book, self.request, numbers)
        return self.offers_on[numbers]

    def of(self, residual):
        """RESIDUALS, `AreMoves`: all moves of a residual, each once, ascending by code."""
        if residual not in self.known:
            found = [chosen for numbers, after in self.paths(residual.at) for chosen in self.over(residual, numbers, after)]
            self.known[residual] = sorted(found, key=lambda chosen: chosen.code)
        return self.known[residual]

    def over(self, residual, numbers, after):
        """RESIDUALS, `Moves`: the moves over a path. Where the journey is complete no unit is open."""
        for piece in self.offers(numbers):
            for role, slot, units in unit_steps(self.request, residual.units, piece):
                part = part_with(residual.part, piece, role)
                if not part_allows(part) or after is DONE and units:
                    continue
                move = Move(numbers, piece.fare.carrier, piece.fare.basis, role, slot)
                yield Chosen(move, code([move]), piece.price, DONE if after is DONE else Residual(after, units, part))


def paths(timetable, slices, at):
    """RESIDUALS, `IsPath`: at least one flight, of the shape of a component, that lead on from the position, and in its slice none calls again
    at a place that was called at before: the slice's origin, the position's place, its via."""
    if at.slice >= len(slices):
        return
    going_on = [((), at, {slices[at.slice].origin, at.place, at.via})]
    while going_on:
        numbers, here, called = going_on.pop()
        for number in takes(timetable, slices, here):
            flight = timetable.flights[number]
            longer = (*numbers, number)
            if flight.to in called or not components.has_shape([timetable.flights[one] for one in longer]):
                continue
            after = leads_to(timetable, slices, here, flight)
            if after is None:
                continue
            yield longer, after
            if after is not DONE and len(longer) < components.MOST_FLIGHTS:
                is_inside = after.slice == here.slice
                going_on.append((longer, after, called if is_inside else set()))


def kinds_of(rule):
    """RESIDUALS, 'The roles': the kinds that a rule lists, as a sum."""
    return sum(1 << at for at, kind in enumerate(rules.KINDS) if kind in rules.combinations(rule)[0])


def partner_of(rule):
    """RESIDUALS, 'The roles': 0 for any, 1 for same carrier and 2 for same rule."""
    return rules.PARTNERS.index(rules.combinations(rule)[1])


def days_hold(request, piece, first_day):
    """RESIDUALS, 'The roles': categories 3, 5 and the ranges of 14 hold on a first day."""
    rule = piece.rule
    return rules.season_holds(rule, first_day) and rules.advance_holds(rule, request.sale, first_day) and rules.travel_holds(rule, first_day)


def may_alone(request, piece):
    """RESIDUALS, `MayAlone`: forward, kind O or S, one way among its kinds, categories 3, 5 and 14 hold on its own days."""
    by = rules.travel_by(piece.rule)
    return (
        not piece.is_reverse
        and piece.fare.kind in "OS"
        and kinds_of(piece.rule) & ONE_WAY
        and days_hold(request, piece, piece.first_day)
        and (by is None or piece.last_day <= by)
    )


def opened(request, piece):
    """RESIDUALS, `MayOpen`, `opened`: forward, kind O or R, some kind other than one way, and its days hold on its own first day. The unit
    that is then open, or None."""
    rule, first = piece.rule, piece.first_day
    kinds = kinds_of(rule) & ~ONE_WAY
    if piece.is_reverse or piece.fare.kind not in "OR" or not kinds or not days_hold(request, piece, first):
        return None
    demands = (rules.least_return(rule, first), rules.greatest_return(rule, first), rules.travel_by(rule))
    return OpenUnit(piece.begin, piece.end, 1, first, *demands, kinds, partner_of(rule), piece.fare.carrier, piece.fare.rule)


def stricter(choose, one, other):
    """RESIDUALS, 'The roles': the greater least day, or the smaller greatest day, of those that are asked."""
    asked = [day for day in (one, other) if day is not None]
    return choose(asked) if asked else None


def met(unit, piece):
    """RESIDUALS, 'The roles': the unit with the demand in which it and a further fare meet, and with that fare's carrier and rule."""
    rule, fare = piece.rule, piece.fare
    carrier = fare.carrier if unit.carrier == fare.carrier else MIXED
    return unit._replace(
        least=stricter(max, unit.least, rules.least_return(rule, unit.first)),
        greatest=stricter(min, unit.greatest, rules.greatest_return(rule, unit.first)),
        by=stricter(min, unit.by, rules.travel_by(rule)),
        kinds=unit.kinds & kinds_of(rule),
        partner=max(unit.partner, partner_of(rule)),
        carrier=carrier,
        rule=fare.rule if carrier != MIXED and unit.rule == fare.rule else MIXED,
    )


def partners_hold(unit):
    """RESIDUALS, 'The roles': what is asked of the partners holds over the unit's fares."""
    return not (unit.partner >= SAME_CARRIER and unit.carrier == MIXED) and not (unit.partner == SAME_RULE and unit.rule == MIXED)


def gone_on(request, unit, piece):
    """RESIDUALS, `MayGoOn`, `gone_on`: the fare is forward and of kind O or R; the unit has one or two components and ends where the path
    begins; circle is a common kind, and the only one that the unit keeps. The unit that is then open, or None."""
    if piece.is_reverse or piece.fare.kind not in "OR" or unit.count > 2 or unit.end != piece.begin:
        return None
    after = met(unit, piece)
    may = after.kinds & CIRCLE and days_hold(request, piece, unit.first) and partners_hold(after)
    return after._replace(end=piece.end, count=unit.count + 1, kinds=CIRCLE) if may else None


def closing_kind(unit, piece):
    """RESIDUALS, `MayClose`: with one component before the path makes a round trip or an open jaw, with two or three a circle; 0 where it
    makes none."""
    joins, returns = unit.end == piece.begin, unit.origin == piece.end
    if unit.count == 1:
        return ROUND_TRIP if joins and returns else OPEN_JAW if joins != returns else 0
    return CIRCLE if joins and returns else 0


def may_close(request, unit, piece):
    """RESIDUALS, `MayClose`: the fare is reverse and of kind O or R; the kind that is made is a common one; its days hold on the unit's first
    day; the return day and the last day meet what is asked, and so do the partners."""
    kind = closing_kind(unit, piece)
    if not piece.is_reverse or piece.fare.kind not in "OR" or not kind:
        return False
    after = met(unit, piece)
    return (
        after.kinds & kind
        and days_hold(request, piece, unit.first)
        and (after.least is None or after.least <= piece.first_day)
        and (after.greatest is None or piece.first_day <= after.greatest)
        and (after.by is None or piece.last_day <= after.by)
        and partners_hold(after)
    )


def unit_steps(request, units, piece):
    """RESIDUALS, `UnitStep`: the roles and slots that a component may have, each with the units that are then open, at most two."""
    if may_alone(request, piece):
        yield ALONE, 0, units
    first = opened(request, piece) if len(units) < 2 else None
    if first:
        yield OPENS, 0, (*units, first)
    for slot, unit in enumerate(units):
        before, behind = units[:slot], units[slot + 1 :]
        after = gone_on(request, unit, piece)
        if after:
            yield GOES_ON, slot, (*before, after, *behind)
        if may_close(request, unit, piece):
            yield CLOSES, slot, (*before, *behind)


def part_with(part, piece, role):
    """RESIDUALS, `part_with`: units begun up to two, what fares ask end on end, and the carrier of all fares so far."""
    fare, asked = piece.fare, rules.combinations(piece.rule)[2]
    begun = min(2, part.units + (role in (ALONE, OPENS)))
    ends = part.ends | {"free": 0, "same_carrier": ONE_CARRIER, "never": ONE_UNIT}[asked]
    return Part(begun, ends, fare.carrier if part.carrier in (None, fare.carrier) else MIXED)


def part_allows(part):
    """RESIDUALS, `PartAllows`: one carrier where one is asked, one unit begun where one is asked."""
    return not (part.ends & ONE_CARRIER and part.carrier == MIXED) and not (part.ends & ONE_UNIT and part.units != 1)
