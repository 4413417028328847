"""The check of a certificate: docs/CERTIFICATES.md, 'The five checks'."""
import reference.requests as requests
import reference.residuals as residuals
import reference.tickets as tickets
from reference.moves import Moves
from reference.residuals import DONE


class Checker:
    """A certificate with the book and the request by which it is checked."""

    def __init__(self, book, request, certificate):
        self.book, self.request, self.certificate = book, request, certificate
        self.moves = Moves(book, request)
        self.bounds = dict(certificate.rows)

    def first_failure(self):
        """CERTIFICATES, 'The five checks', `FirstFailure`: the first check that fails and its place, or None."""
        checks = [self.rows_fail, self.bounds_fail, self.answers_fail, self.departures_fail, self.request_fails]
        for number, check in enumerate(checks, 1):
            place = check()
            if place is not None:
                return number, place
        return None

    def rows_fail(self):
        """CERTIFICATES, 'The row check': each row is greater than the one before and fits the request; then the root is a row."""
        before = None
        for place, (residual, _) in enumerate(self.certificate.rows, 1):
            order = residuals.order(residual)
            if before is not None and not before < order or not residuals.fits(self.request, self.book.timetable, residual.at):
                return place
            before = order
        return None if residuals.root(self.book, self.request) in self.bounds else 0

    def bounds_fail(self):
        """CERTIFICATES, 'The bound check': the first row of which not every move ends or leads to a row as it should."""
        for place, (residual, bound) in enumerate(self.certificate.rows, 1):
            if not all(self.step_holds(bound, chosen) for chosen in self.moves.of(residual)):
                return place
        return None

    def step_holds(self, bound, chosen):
        """CERTIFICATES, 'The bound check', `EndsHold` and `StepsHold`."""
        if chosen.next is not DONE and chosen.next not in self.bounds:
            return False
        least = self.counts_for(chosen)
        return least is None or bound is not None and bound <= least

    def counts_for(self, chosen):
        """CERTIFICATES, 'The departure check', `CountsFor`: the price of a move that ends the journey, or with the bound of the row that it leads
        to; None where that row has no bound."""
        if chosen.next is DONE:
            return chosen.price
        bound = self.bounds[chosen.next]
        return None if bound is None else chosen.price + bound

    def answers_fail(self):
        """CERTIFICATES, 'The answer check': each answer's place is at most `best`, it is a lawful ticket with these moves and this price, and
        greater than the one before."""
        before = None
        for place, (price, moves) in enumerate(self.certificate.answers, 1):
            key = (price, tickets.code(moves))
            ticket = tickets.ticket_of(self.book, moves)
            is_right = ticket is not None and tickets.lawful(self.book, self.request, ticket) and tickets.price(ticket) == price
            if place > self.request.best or not is_right or before is not None and not before < key:
                return place
            before = key
        return None

    def departures_fail(self):
        """CERTIFICATES, 'The departure check': the least number of a front from which a departure that counts doesn't come after the answers."""
        answers = [moves for _, moves in self.certificate.answers]
        taken, places = {(): set()}, {(): 0}
        for place, moves in enumerate(answers, 1):
            for length, move in enumerate(moves):
                front = tuple(moves[:length])
                taken.setdefault(front, set()).add(move)
                places.setdefault(front, place)
        failing = [places[front] for front in taken if not self.departs_after(front, taken[front])]
        return min(failing, default=None)

    def departs_after(self, front, taken):
        """CERTIFICATES, 'The departure check', `Departs` and `ComesAfter`, of the departures from one front."""
        here, price, is_full = residuals.root(self.book, self.request), 0, len(self.certificate.answers) == self.request.best
        for move in front:
            chosen = next(chosen for chosen in self.moves.of(here) if chosen.move == move)
            here, price = chosen.next, price + chosen.price
        for chosen in self.moves.of(here):
            least = self.counts_for(chosen)
            if chosen.move in taken or least is None:
                continue
            last_price, last_moves = self.certificate.answers[-1] if is_full else (0, [])
            if not is_full or not (last_price, tickets.code(last_moves)) < (price + least, tickets.code([*front, chosen.move])):
                return False
        return True

    def request_fails(self):
        """CERTIFICATES, 'The request check': place 1 where the version is another, else 2 where the request is."""
        if self.certificate.version != self.book.number:
            return 1
        return 2 if requests.request_text(self.certificate.request) != requests.request_text(self.request) else None
