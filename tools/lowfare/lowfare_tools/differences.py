"""In which points a certificate and a case differ, and printed tickets and certified ones, in words."""
from lowfare_tools.case import request_of
from lowfare_tools.wording import KIND_WORDS, counted, name_of

FAR = "it was made over filings that your case doesn't have"


def version_differs(certificate, filings, at):
    """Of the versions. `at` are the words of --at, where they were given."""
    theirs, yours = certificate.version, int(at[1]) if at else filings
    if theirs == yours:
        return []
    whose = f"you ask for version {yours}" if at else f"your case has {counted(filings, 'filing')}"
    advice = f"use --at {theirs}" if theirs <= filings else FAR
    return [f"the certificate is of version {theirs}, {whose}: {advice}"]


def window_text(part):
    return f"on {part.first}" if part.days == 1 else f"in the {part.days} days from {part.first} on"


def slices_differ(theirs, yours):
    if len(theirs) != len(yours):
        return [f"the certificate has {counted(len(theirs), 'slice')}, your case {len(yours)}"]
    found = []
    for at, (their, your) in enumerate(zip(theirs, yours), 1):
        ways = [f"from {part.origin} to {part.destination}" for part in (their, your)]
        if ways[0] != ways[1]:
            found.append(f"slice {at} of the certificate goes {ways[0]}, that of your case {ways[1]}")
        windows = [window_text(part) for part in (their, your)]
        if windows[0] != windows[1]:
            found.append(f"slice {at} of the certificate leaves {windows[0]}, that of your case {windows[1]}")
    return found


def differences(certificate, given, at=(), best=None):
    """What differs between a certificate and a case, with the words that would help. `at` are the words of --at and `best` the
    number of --best, where they were given."""
    found = version_differs(certificate, len(given.filings), at)
    yours = given.request
    try:
        theirs = request_of(certificate.request)
    except (ValueError, KeyError, TypeError, RecursionError):
        return [*found, "the certificate's request can't be read"]
    wanted = best or yours.best
    if theirs.best != wanted:
        whose = "you ask" if best else "your case"
        asked = counted(theirs.best, "ticket")
        found.append(f"the certificate asks for {asked}, {whose} for {wanted}: use --best {theirs.best}")
    if theirs.party != yours.party:
        found.append(f"the certificate is for {counted(theirs.party, 'traveller')}, your case for {yours.party}")
    if theirs.sale != yours.sale:
        found.append(f"the certificate is of a sale on {theirs.sale}, your case of one on {yours.sale}")
    return found + slices_differ(theirs.slices, yours.slices)


def request_text(request, best=None):
    """A request in a line."""
    ways = ", ".join(f"{part.origin} to {part.destination} from {part.first}" for part in request.slices)
    tickets, travellers = counted(best or request.best, "ticket"), counted(request.party, "traveller")
    return f"{tickets} for {travellers}, sold on {request.sale}, {ways}"


def place_text(component):
    """Where a component stands in the ticket: its unit, the kind of that, its direction."""
    return f"unit {component.unit}, {KIND_WORDS[component.kind]}, {'reverse' if component.reverse else 'forward'}"


def component_differs(number, printed, certified):
    """The first point in which a printed component isn't the certified one."""
    where = f"component {number} is"
    if printed.fare_key != certified.fare_key:
        return f"{where} on {' '.join(printed.fare_key)}, not on {' '.join(certified.fare_key)}"
    if (printed.unit, printed.kind, printed.reverse) != (certified.unit, certified.kind, certified.reverse):
        return f"{where} of {place_text(printed)}, not of {place_text(certified)}"
    if printed.flights != certified.flights:
        flights = [", ".join(f"{name_of(flight)} of {flight.day}" for flight in part.flights) for part in (printed, certified)]
        return f"{where} on {flights[0]}, not on {flights[1]}"
    if printed.price != certified.price:
        return f"{where} priced {printed.price}, not {certified.price}"
    return ""


def ticket_differs(printed, certified):
    """The first point in which a printed ticket isn't the certified one."""
    if printed.price != certified.price:
        return f"costs {printed.price}, not {certified.price}"
    counts = len(printed.components), len(certified.components)
    if counts[0] != counts[1]:
        return f"has {counted(counts[0], 'component')}, not {counts[1]}"
    pairs = enumerate(zip(printed.components, certified.components), 1)
    return next(filter(None, (component_differs(at, *pair) for at, pair in pairs)), "")


def tickets_differ(printed, certified):
    """Each printed ticket that isn't the answer of its number, and whether their counts differ."""
    found = []
    if len(printed) != len(certified):
        found.append(f"{counted(len(printed), 'ticket')} printed, {counted(len(certified), 'answer')} in the certificate")
    for number, pair in enumerate(zip(printed, certified), 1):
        differs = ticket_differs(*pair)
        if differs:
            found.append(f"printed ticket {number} {differs}")
    return found
