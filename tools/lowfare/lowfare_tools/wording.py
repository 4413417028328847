"""Words that the views share: days, times, lengths of time, prices, names."""
from lowfare_tools.case_text import time_text

WEEKDAYS = ("Mon", "Tue", "Wed", "Thu", "Fri", "Sat", "Sun")
MONTHS = ("Jan", "Feb", "Mar", "Apr", "May", "Jun", "Jul", "Aug", "Sep", "Oct", "Nov", "Dec")
KIND_WORDS = {"one_way": "one way", "round_trip": "round trip", "open_jaw": "open jaw", "circle": "circle trip"}


def day_text(day, with_year=True):
    """A day as `Mon 3 Mar 2031`. The names are English whatever the system's language."""
    text = f"{WEEKDAYS[day.weekday()]} {day.day} {MONTHS[day.month - 1]}"
    return f"{text} {day.year}" if with_year else text


def length_text(minutes):
    """A length of time as `2 d 3 h 15 min`, without the parts that are 0."""
    sign, minutes = ("-", -minutes) if minutes < 0 else ("", minutes)
    parts = [(minutes // 1440, "d"), (minutes // 60 % 24, "h"), (minutes % 60, "min")]
    return sign + (" ".join(f"{count} {unit}" for count, unit in parts if count) or "0 min")


def arrival_text(flight):
    """The local time of an arrival, with the days by which it is later than the departure's."""
    shift = f"{flight.row.shift:+}" if flight.row.shift else ""
    return time_text(flight.arrives) + shift


def name_of(flight):
    return f"{flight.carrier} {flight.number}"


def joined(words):
    """Words as `1`, `1 and 2` or `1, 2 and 3`."""
    *first, last = map(str, words)
    return f"{', '.join(first)} and {last}" if first else last


def counted(count, word):
    return f"{count} {word}" if count == 1 else f"{count} {word}s"


def wait_text(wait):
    return f"{wait.kind} at {wait.place}, {length_text(wait.minutes)}"


def fare_text(paid):
    """A component's fare as `EX QEX, LON to NYC, class Q, rule 1`. Rule 0 restricts nothing."""
    fare = paid.fare
    way = " the other way round" if paid.component.reverse else ""
    ends = f"{fare.origin} to {fare.destination}{way}"
    return f"{fare.carrier} {fare.basis}, {ends}, class {fare.booking_class}, rule {fare.rule}"


def parts_text(paid):
    """What the price of a component is made of, where there is more to say than the fare itself."""
    parts = paid.parts
    if not paid.agrees:
        total = sum(part.amount for part in parts)
        return f"by the case's fares {total}: this answer is of another case, or it was changed"
    if len(parts) == 1:
        return "" if parts[0].what == "fare" else parts[0].what
    return "; ".join(f"{part.what}: {part.amount}" for part in parts)


def slice_text(flights):
    """A slice as `LON to NYC, Mon 3 Mar 2031 07:00 to 12:30, 10 h 30 min, by way of DUB`."""
    first, last = flights[0], flights[-1]
    back = day_text(last.arrival_day, with_year=False) + " " if last.arrival_day != first.day else ""
    when = f"{day_text(first.day)} {time_text(first.departs)} to {back}{time_text(last.arrives)}"
    via = [flight.destination for flight in flights[:-1]]
    way = f"by way of {joined(via)}" if via else "without a stop"
    return f"{first.origin} to {last.destination}, {when}, {length_text(last.lands - first.leaves)}, {way}"


def units_text(shown):
    """The units of a ticket as `unit 1: round trip, components 1 and 2`."""
    for label, kind, numbers in shown.units():
        word = "component" if len(numbers) == 1 else "components"
        yield f"unit {label}: {KIND_WORDS[kind]}, {word} {joined(numbers)}"


def numbers_text(numbers):
    """Ticket numbers as `1 to 3 and 7`, runs of three and more drawn together."""
    runs = []
    for number in numbers:
        if runs and runs[-1][1] == number - 1:
            runs[-1][1] = number
        else:
            runs.append([number, number])
    words = []
    for low, high in runs:
        words += [f"{low} to {high}"] if high - low > 1 else sorted({low, high})
    return joined(words)


def prices_text(price, party):
    """A price for a traveller and for the party."""
    return f"{price} for 1 traveller" if party == 1 else f"{price} a traveller, {price * party} for {party}"
