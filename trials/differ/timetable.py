"""Random timetables: places, flights on the way of the slices, and seats."""
import datetime

PLACES = ["LON", "NYC", "PAR", "CHI", "BOS", "DEN", "ROM", "AMS"]
CARRIERS = ["QX", "BX", "E1", "2Z"]
CLASSES = "YMQJ"
FIRST_DAY = datetime.date(2031, 3, 3)
OFFSETS = ["+00:00", "-05:00", "+05:30", "-00:30", "+14:00"]


def date(day):
    return (FIRST_DAY + datetime.timedelta(days=day)).isoformat()


def clock(minute):
    return f"{minute // 60 % 24:02}:{minute % 60:02}"


def minutes_of(offset):
    sign = -1 if offset[0] == "-" else 1
    return sign * (int(offset[1:3]) * 60 + int(offset[4:6]))


class Timetable:
    """Rows of places, flights and seats, and the flights by number as the tickets' lines name them."""

    def __init__(self, draw):
        self.draw = draw
        self.names = draw.sample(PLACES, draw.randint(3, 7))
        self.connect = {name: draw.choice([0, 30, 45, 60, 60, 90, 1440]) for name in self.names}
        offsets = OFFSETS[: draw.choice([1, 1, 1, 2, 5])]
        self.offset = {name: draw.choice(offsets) for name in self.names}
        self.carriers = draw.sample(CARRIERS, draw.choice([1, 1, 2, 2, 4]))
        self.flights = []
        self.seats = []
        self.numbers = iter(draw.sample(range(1, 60), 59))

    def add(self, day, start, minute, end):
        """A flight on a day, or on each day from it on, and the minute of the day, in universal time, at which it arrives."""
        draw = self.draw
        number = next(self.numbers, None)
        if number is None:
            return day * 1440 + minute
        carrier = draw.choice(self.carriers)
        length = draw.choice([45, 60, 60, 75, 180, 420])
        there, here = self.offset[end], self.offset[start]
        if draw.random() < 0.03:
            here = draw.choice(OFFSETS)
        leaves = minute % 1440
        lands = leaves - minutes_of(here) + length + minutes_of(there)
        shift = lands // 1440
        last = day + draw.choice([0, 0, 0, 1, 6])
        days = "1234567" if last > day or draw.random() < 0.3 else str(day % 7 + 1)
        if not -1 <= shift <= 2:
            shift, lands = 0, leaves + length
        self.flights.append(f"{carrier},{number},{start},{end},{clock(leaves)},{here},{clock(lands)},{there},{shift},{date(day)},{date(last)},{days}")
        self.seat(carrier, number, start, day)
        return day * 1440 + leaves - minutes_of(here) + length

    def seat(self, carrier, number, start, day):
        draw = self.draw
        if draw.random() < 0.95:
            self.seats.append(f"{carrier},{number},{start},*,{self.classes()}")
        if draw.random() < 0.2:
            self.seats.append(f"{carrier},{number},{start},{date(day)},{self.classes()}")

    def classes(self):
        draw = self.draw
        chosen = CLASSES if draw.random() < 0.7 else draw.sample(CLASSES, draw.randint(1, 4))
        return "".join(f"{name}{draw.choice([0, 1, 2, *[9] * 16])}" for name in chosen)

    def fly(self, slices):
        """Flights for each slice: straight ones, and some over one or two further places, with gaps at their limits."""
        draw = self.draw
        for one in slices:
            for _ in range(draw.choice([1, 1, 2, 3])):
                stops = draw.sample([name for name in self.names if name not in (one["from"], one["to"])], draw.choice([0, 0, 1, 2]) if len(self.names) > 3 else 0)
                way = [one["from"], *stops, one["to"]]
                day = one["day"] + draw.choice([*[0] * 9, 1, -1])
                at = day * 1440 + draw.choice([0, 360, 480, 600, 600, 1080, 1380]) - minutes_of(self.offset[one["from"]])
                for start, end in zip(way, way[1:]):
                    local = at + minutes_of(self.offset[start])
                    lands = self.add(local // 1440, start, local % 1440, end)
                    gap = draw.choice([self.connect[end], self.connect[end], self.connect[end] - 1, 120, 300, 300, 1440, 1441])
                    at = lands + max(gap, 0)

    def lines(self):
        return (
            ["#places"]
            + [f"{name},{self.connect[name]}" for name in self.names]
            + ["#flights"]
            + self.flights
            + ["#seats"]
            + list({row.rsplit(",", 1)[0]: row for row in self.seats}.values())
        )
