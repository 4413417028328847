"""The journey of a request: docs/LAW.md, 'The journey'."""
MOST_IN_SLICE = 3
LONGEST_STOP = 1440


def in_window(one, flight):
    """LAW, 'The journey', `InWindow`: the first flight departs on a local day of the slice's window."""
    return one.first <= flight.day <= one.first + one.days - 1


def late_enough(timetable, one, arrival, flight):
    """LAW, 'The journey', `LateEnough`: the first departure of a further slice is at least the arrival before it plus the least connect time
    of the slice's own origin."""
    return arrival is None or flight.dep >= arrival + timetable.connect[one.origin]


def joins(timetable, earlier, later):
    """LAW, 'The journey', `Joins` and `ShortStop`: the later flight departs where the earlier one arrived, not sooner than that place's least
    connect time after the arrival and at most 1,440 minutes after it."""
    return earlier.to == later.origin and timetable.connect[earlier.to] <= later.dep - earlier.arr <= LONGEST_STOP


def slice_lists(timetable, one, arrival):
    """LAW, 'The journey', `FliesSlice`: the lists of flights that fly a slice after an arrival: one to three from its origin, the last to its
    destination and no earlier one there, by `joins`, calling at no place twice, the first in the window."""
    flights = timetable.flights
    begun = [
        [number]
        for number in timetable.departures[one.origin]
        if in_window(one, flights[number]) and late_enough(timetable, one, arrival, flights[number])
    ]
    while begun:
        going_on = []
        for numbers in begun:
            last = flights[numbers[-1]]
            if len({one.origin, *(flights[number].to for number in numbers)}) <= len(numbers):
                continue
            if last.to == one.to:
                yield numbers
            elif len(numbers) < MOST_IN_SLICE:
                going_on += [[*numbers, further] for further in timetable.departures[last.to] if joins(timetable, last, flights[further])]
        begun = going_on


def itineraries(timetable, slices, arrival=None):
    """LAW, 'The journey', `Itinerary`: the flights of the slices, one slice after another."""
    if not slices:
        yield []
        return
    for numbers in slice_lists(timetable, slices[0], arrival):
        for rest in itineraries(timetable, slices[1:], timetable.flights[numbers[-1]].arr):
            yield numbers + rest


def is_itinerary(timetable, slices, flights):
    """LAW, 'The journey', `Itinerary`, of flights that are given. They are cut at each first arrival at a slice's destination."""
    pieces = cut(slices, flights)
    return pieces is not None and all(test(timetable, slices, pieces) for test in (begins_and_joins, short, once, in_time, in_windows))


def cut(slices, flights):
    """LAW, 'Breaches', demand 6: the flights are cut, at each first arrival at a slice's destination, into exactly the slices. The pieces,
    or None."""
    pieces, at = [], 0
    for one in slices:
        start = at
        while at < len(flights) and flights[at].to != one.to:
            at += 1
        if at == len(flights):
            return None
        at += 1
        pieces.append(flights[start:at])
    return pieces if at == len(flights) else None


def begins_and_joins(_timetable, slices, pieces):
    """LAW, 'Breaches', demand 6: a slice begins at its origin and has no gap."""
    return all(
        flights[0].origin == one.origin and all(earlier.to == later.origin for earlier, later in zip(flights, flights[1:]))
        for one, flights in zip(slices, pieces)
    )


def short(_timetable, _slices, pieces):
    """LAW, 'Breaches', demand 7: a slice has at most three flights."""
    return all(len(flights) <= MOST_IN_SLICE for flights in pieces)


def once(_timetable, _slices, pieces):
    """LAW, 'Breaches', demand 8: a slice calls at no place twice, its origin included."""
    return all(len({flights[0].origin, *(flight.to for flight in flights)}) == len(flights) + 1 for flights in pieces)


def in_time(timetable, slices, pieces):
    """LAW, 'Breaches', demand 9: its connections hold, as does the time from the slice before."""
    arrivals = [None, *(flights[-1].arr for flights in pieces)]
    return all(
        late_enough(timetable, one, arrival, flights[0]) and all(joins(timetable, earlier, later) for earlier, later in zip(flights, flights[1:]))
        for one, arrival, flights in zip(slices, arrivals, pieces)
    )


def in_windows(_timetable, slices, pieces):
    """LAW, 'Breaches', demand 10: its window holds."""
    return all(in_window(one, flights[0]) for one, flights in zip(slices, pieces))
