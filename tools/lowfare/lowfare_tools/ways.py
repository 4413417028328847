"""The ways to fly from a place to a place in a window of days: one to three flights, connections as a slice allows them."""
from collections import defaultdict

from lowfare_tools.case import ONE_DAY

MOST_FLIGHTS = 3
MOST_IN_COMPONENT = 4
MOST_WAYS = 200


def is_component(path):
    """Whether flights in a row may be one component: at most four, and at no place twice."""
    called = {path[0].origin, *(flight.destination for flight in path)}
    return len(path) <= MOST_IN_COMPONENT and len(called) == len(path) + 1


class Ways:
    """Ways over a timetable."""

    def __init__(self, given, flights):
        self.connect = {place.code: place.connect for place in given.places}
        self.from_place = defaultdict(list)
        for flight in flights:
            self.from_place[flight.origin].append(flight)

    def onward(self, path):
        """The paths with one flight more that a slice allows."""
        last = path[-1]
        called = {path[0].origin, *(flight.destination for flight in path)}
        least = last.lands + self.connect.get(last.destination, 0)
        for flight in self.from_place[last.destination]:
            if least <= flight.leaves <= last.lands + ONE_DAY and flight.destination not in called:
                yield (*path, flight)

    def of(self, part, first, every):
        """The ways of a slice whose first flight, or whose every flight, is of a carrier, where one is named: those with the
        fewest flights first, then by departure; at most one more than `MOST_WAYS`."""
        on_days = (flight for flight in self.from_place[part.origin] if part.first <= flight.day <= part.last)
        paths = [(flight,) for flight in on_days if first in (None, flight.carrier)]
        found = []
        for _ in range(MOST_FLIGHTS):
            found += [path for path in paths if path[-1].destination == part.destination]
            if len(found) > MOST_WAYS:
                break
            going = (path for path in paths if path[-1].destination != part.destination)
            paths = [longer for path in going for longer in self.onward(path) if every in (None, longer[-1].carrier)]
        return found[: MOST_WAYS + 1]

    def through(self, parts, carrier, whole_way):
        """The ways through slices one after another, as one component of this carrier's: at most `MOST_WAYS`, and whether there
        are more. A component calls at no place twice."""
        every, found = carrier if whole_way else None, [()]
        for part in parts:
            ways = self.of(part, every if found[0] else carrier, every)
            joined = (path + way for path in found for way in ways if self.follows(path, way))
            found = sorted(filter(is_component, joined), key=len)[: MOST_WAYS + 1]
            if not found:
                break
        return found[:MOST_WAYS], len(found) > MOST_WAYS

    def follows(self, path, way):
        """Whether a way leaves late enough after a path of the slice before."""
        return not path or way[0].leaves >= path[-1].lands + self.connect.get(way[0].origin, 0)

    def pairs(self, outs, backs):
        """A way out with each way back that leaves late enough after it."""
        return [(out, back) for out in outs for back in backs if self.follows(out, back)]
