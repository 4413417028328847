"""What a fare is tried on: ways of its market, each as one unit with a request that just these ways meet; and, for a way that is
part of the case's request, the whole ticket with the rest of an answer beside it.
"""
from dataclasses import dataclass, replace

from lowfare_tools import journey
from lowfare_tools.answer import Component, FlightOf, Ticket
from lowfare_tools.case import Request, Slice


@dataclass(frozen=True)
class Trial:
    """The ways of one unit, in order, and the request that they meet."""

    ways: tuple
    request: Request


@dataclass(frozen=True)
class Trials:
    """The trials of one fare, and whether there are more than were looked for."""

    all: tuple[Trial, ...]
    more: bool


def run_of(market, slices):
    """The first slices of these, one after another without a gap, that lead between the places of a market, as the places of the
    first and behind the last; None where there are none."""
    for begin in range(len(slices)):
        for end in range(begin + 1, len(slices) + 1):
            run = slices[begin:end]
            if any(one.destination != other.origin for one, other in zip(run, run[1:])):
                break
            if (run[0].origin, run[-1].destination) == market:
                return begin, end
    return None


def asked_for(market, slices, begin=0):
    """What a way of a market is asked for behind the first slices, with the count of slices up to its end: the slices that lead
    between its places; and, where these aren't one slice, the market by itself on the days of each slice."""
    run = run_of(market, slices[begin:])
    found = [(slices[begin + run[0] : begin + run[1]], begin + run[1])] if run else []
    if not run or run[1] - run[0] > 1:
        own = {(part.first, part.days): at + 1 for at, part in reversed([*enumerate(slices)][begin:])}
        found += [((Slice(*market, *days),), end) for days, end in sorted(own.items())]
    return found


def trials_of(fare, rule, request, ways):
    """The trials of a fare: alone on each way out where its kind allows it or the request has one slice, and, but for kind S, out
    and back. No fare pays for a way that begins with another carrier's flight, or has one where its rule wants its own alone."""
    market = (fare.origin, fare.destination)
    whole_way = rule.categories.get("cat9", {}).get("online", False)
    alone, pairs, more = [], [], False
    for out, end in asked_for(market, request.slices):
        outs, cut = ways.through(out, fare.carrier, whole_way)
        more = more or cut
        if fare.kind != "R" or len(request.slices) == 1:
            alone += [Trial((way,), replace(request, slices=out)) for way in outs]
        for back, _ in asked_for(market[::-1], request.slices, end) if fare.kind != "S" and outs else ():
            backs, cut = ways.through(back, fare.carrier, whole_way)
            both = replace(request, slices=out + back)
            pairs += [Trial(pair, both) for pair in ways.pairs(outs, backs)]
            more = more or cut
    return Trials((*in_order(alone), *in_order(pairs)), more)


def in_order(trials):
    """The trials by their count of flights, then by departures, each set of ways once."""
    by_ways = {trial.ways: trial for trial in reversed(trials)}
    departures = {ways: [leg.leaves for way in ways for leg in way] for ways in by_ways}
    return [by_ways[ways] for ways in sorted(by_ways, key=lambda ways: (len(departures[ways]), departures[ways]))]


def component_of(fare, way, unit, kind, reverse=False):
    named = tuple(FlightOf(leg.carrier, leg.number, leg.day, leg.origin, leg.destination) for leg in way)
    return Component(unit, kind, reverse, *fare.key, 0, named)


def ticket_of(fare, trial):
    """The ticket of one unit that a trial is: the fare on each of its ways."""
    kind = "one_way" if len(trial.ways) == 1 else "round_trip"
    return Ticket(0, tuple(component_of(fare, way, 1, kind, at > 0) for at, way in enumerate(trial.ways)))


def numbered(components):
    """The components with the labels of their units numbered from 1 by first appearance."""
    labels = {}
    for part in components:
        labels.setdefault(part.unit, len(labels) + 1)
    return tuple(replace(part, unit=labels[part.unit]) for part in components)


def parts_beside(ticket, request, run, timetable):
    """The components of a ticket before a run of slices and after it; None where a component or a unit reaches into it."""
    slices = journey.cut([timetable.find(named) for named in ticket.flights], request)
    begin, end = (sum(map(len, slices[:at])) for at in run)
    before, inside, after, flown = [], [], [], 0
    for component in ticket.components:
        first, flown = flown, flown + len(component.flights)
        if flown > begin and first < end and not begin <= first <= flown <= end:
            return None
        (before if flown <= begin else after if first >= end else inside).append(component)
    if {part.unit for part in inside} & {part.unit for part in before + after}:
        return None
    return before, after


def beside(fare, trial, request, tickets, timetable):
    """The whole ticket of a trial on one way: with all that an answer has for the other slices. It comes with the answer's
    number; None where there are no other slices, or each answer has units that reach into the way's."""
    part = trial.request.slices
    places = (at for at in range(len(request.slices)) if request.slices[at : at + len(part)] == part)
    at = next(places, None)
    if len(trial.ways) != 1 or at is None or part == request.slices:
        return None
    for number, ticket in enumerate(tickets, 1):
        parts = parts_beside(ticket, request, (at, at + len(part)), timetable)
        if parts is not None:
            own = component_of(fare, trial.ways[0], 0, "one_way")
            return number, Ticket(0, numbered([*parts[0], own, *parts[1]]))
    return None
