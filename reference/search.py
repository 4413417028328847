"""A search: what is reached, the least prices, the best tickets, and the text of the answer. docs/LAW.md, 'Price, code, order, best';
docs/RESIDUALS.md, 'Ticket part, residuals, moves, runs'; docs/FORMATS.md, 'The answer'."""
import collections
import heapq

import reference.forms as forms
import reference.residuals as residuals
import reference.tickets as tickets
import reference.units as units
from reference.moves import Moves
from reference.residuals import DONE

DEFAULT_BUDGET = 100000
MOST_LISTED = 1000
"""How many tickets are looked at one by one; where there are more, the best are drawn as runs."""

Answer = collections.namedtuple("Answer", "book request best rows")


class TooLarge(Exception):
    """FORMATS, 'Statuses': more residuals are reached than the budget."""


def search(book, request, budget=DEFAULT_BUDGET, most_listed=MOST_LISTED):
    """LAW, 'Price, code, order, best', `Best`, and CERTIFICATES, 'The certificate of a search': the best tickets in order, and a row for each
    residual that is reached, ascending, with its least price. The tickets are the first of all lawful ones; only where these are too many
    to be listed they are the least runs."""
    moves = Moves(book, request)
    needed = reached(book, request, moves, budget)
    bounds = least_prices(moves, needed)
    try:
        best = tickets.all_lawful(book, request, most_listed)[: request.best]
    except tickets.TooMany:
        best = least_runs(book, request, moves, bounds)
    return Answer(book, request, best, [(residual, bounds[residual]) for residual in sorted(needed, key=residuals.order)])


def reached(book, request, moves, budget):
    """RESIDUALS, `Reached`, `ReachesMoreThan`: all residuals that moves from the root lead to, the root among them, in the order in which
    they are met."""
    start = residuals.root(book, request)
    known, waiting = {start: None}, [start]
    while waiting:
        if len(known) > budget:
            raise TooLarge
        for chosen in moves.of(waiting.pop()):
            if chosen.next is not DONE and chosen.next not in known:
                known[chosen.next] = None
                waiting.append(chosen.next)
    if len(known) > budget:
        raise TooLarge
    return list(known)


def least_prices(moves, needed):
    """RESIDUALS, `Least`: the least price of a run from each residual, or None where there is no run. Each move raises the slice or the
    leg, so what a move leads to is judged before."""
    bounds = {}
    for residual in sorted(needed, key=lambda one: one.at[:2], reverse=True):
        totals = [total(chosen, bounds) for chosen in moves.of(residual)]
        bounds[residual] = min((found for found in totals if found is not None), default=None)
    return bounds


def total(chosen, bounds):
    """RESIDUALS, `Least`: the least price of a run that begins with a move, or None."""
    if chosen.next is DONE:
        return chosen.price
    bound = bounds[chosen.next]
    return None if bound is None else chosen.price + bound


def least_runs(book, request, moves, bounds):
    """RESIDUALS, `BestRuns`: the k least runs from the root by price and code, as tickets. What is begun is gone on with by the least price
    that it can come to, and of equal ones by code: so a run that is whole is met before each greater one."""
    start = residuals.root(book, request)
    found = []
    begun = [(bounds[start], (), 0, 0, [], start)] if bounds[start] is not None else []
    met = 0
    while begun and len(found) < request.best:
        _, code, _, price, chosen_moves, here = heapq.heappop(begun)
        if here is DONE:
            found.append(tickets.Priced(price, code, chosen_moves, tickets.ticket_of(book, chosen_moves)))
            continue
        for chosen in moves.of(here):
            least = total(chosen, bounds)
            if least is not None:
                met += 1
                heapq.heappush(begun, (price + least, code + chosen.code, met, price + chosen.price, [*chosen_moves, chosen.move], chosen.next))
    return found


def answer_text(best):
    """FORMATS, 'The answer': the tickets, their components and flights."""
    lines = [f"tickets {len(best)}"]
    for at, priced in enumerate(best, 1):
        lines.append(f"ticket {at} price {priced.price}")
        kinds = {label: units.kind_of(pieces) for label, pieces in tickets.units_of(priced.ticket).items()}
        for number, (piece, label) in enumerate(zip(*priced.ticket), 1):
            fare, direction = piece.fare, "reverse" if piece.is_reverse else "forward"
            words = [fare.carrier, fare.origin, fare.to, fare.basis, piece.price]
            lines.append(f"component {number} unit {label} {kinds[label]} {direction} " + " ".join(map(str, words)))
            lines += [f"flight {one.carrier} {one.number} {forms.day_text(one.day)} {one.origin} {one.to}" for one in piece.flights]
    return lines
