"""Units of components: docs/LAW.md, 'The unit'."""
import reference.rules as rules


def kind_of(pieces):
    """LAW, 'The unit', the table of kinds: the kind of which these components are, or None."""
    *before, last = pieces
    ends = [(piece.begin, piece.end) for piece in pieces]
    if not before:
        return None if last.is_reverse else "one_way"
    if any(piece.is_reverse for piece in before) or not last.is_reverse:
        return None
    if len(pieces) == 2:
        (a, b), (c, d) = ends
        if b == c and d == a:
            return "round_trip"
        return "open_jaw" if (b == c) != (d == a) else None
    closes = last.end == pieces[0].begin and all(one[1] == other[0] for one, other in zip(ends, ends[1:]))
    return "circle" if closes and len(pieces) <= 4 else None


def may_stand(kind, fare):
    """LAW, 'The unit', `MayStand`: kind O in any unit, R not in a one way, S only in a one way."""
    return fare.kind == "O" or (fare.kind == "S") == (kind == "one_way")


def season(pieces, piece, _request):
    """LAW, 'The unit', category 3: the unit's first day lies in a listed range."""
    return rules.season_holds(piece.rule, pieces[0].first_day)


def advance(pieces, piece, request):
    """LAW, 'The unit', category 5: the day of sale plus so many days is at most the first day."""
    return rules.advance_holds(piece.rule, request.sale, pieces[0].first_day)


def travel(pieces, piece, _request):
    """LAW, 'The unit', category 14: the first day lies in a listed range; the local day of departure of the unit's last flight is at most
    its last day."""
    by = rules.travel_by(piece.rule)
    return rules.travel_holds(piece.rule, pieces[0].first_day) and (by is None or pieces[-1].last_day <= by)


def minimum_stay(pieces, piece, _request):
    """LAW, 'The unit', category 6, but for a one way: the return day, the local day of departure of the first flight of the last component,
    is at least so many days after the first day."""
    least = rules.least_return(piece.rule, pieces[0].first_day)
    return len(pieces) == 1 or least is None or least <= pieces[-1].first_day


def maximum_stay(pieces, piece, _request):
    """LAW, 'The unit', category 7, but for a one way: the return day is at most so many days after the first day."""
    greatest = rules.greatest_return(piece.rule, pieces[0].first_day)
    return len(pieces) == 1 or greatest is None or pieces[-1].first_day <= greatest


def combination(pieces, piece, _request):
    """LAW, 'The unit', category 10: the unit's kind is listed, and every fare of the unit is of this carrier, or of this carrier and rule
    number."""
    kinds, partners, _ = rules.combinations(piece.rule)
    mine, fares = piece.fare, [other.fare for other in pieces]
    if partners == "same_carrier" and any(fare.carrier != mine.carrier for fare in fares):
        return False
    if partners == "same_rule" and any((fare.carrier, fare.rule) != (mine.carrier, mine.rule) for fare in fares):
        return False
    return kind_of(pieces) in kinds


RULES = [season, advance, travel, minimum_stay, maximum_stay, combination]


def unit_lawful(pieces, request):
    """LAW, 'The unit', `UnitLawful`: the components are of a kind, and each fare's rules hold in it."""
    kind = kind_of(pieces)
    return kind is not None and all(may_stand(kind, piece.fare) and all(rule(pieces, piece, request) for rule in RULES) for piece in pieces)
