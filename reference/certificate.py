"""Certificates as text, both ways: docs/FORMATS.md, 'The certificate'."""
import collections

import reference.forms as forms
import reference.requests as requests
import reference.residuals as residuals
from reference.forms import Refused
from reference.json_text import Syntax
from reference.tickets import Move

MOST_MOVES = 18

Certificate = collections.namedtuple("Certificate", "version request answers rows")
"""CERTIFICATES, 'The parts': an answer is a price and its moves, a row is a residual and a bound, or None for none."""


def certificate_text(answer):
    """CERTIFICATES, 'The certificate of a search': its lines."""
    lines = ["certificate 1", f"version {answer.book.number}", f"request {requests.request_text(answer.request)}", f"answers {len(answer.best)}"]
    for priced in answer.best:
        words = [f"answer {priced.price}"]
        for move in priced.moves:
            words += [len(move.flights), *move.flights, move.carrier, move.basis, move.role, move.slot]
        lines.append(" ".join(map(str, words)))
    lines.append(f"rows {len(answer.rows)}")
    lines += [f"row {residuals.text(residual)} {residuals.dashed(bound)}" for residual, bound in answer.rows]
    return [*lines, "end"]


def bits(count):
    """FORMATS, 'The certificate': a number that a field of so many bits holds."""
    return forms.number(0, 2**count - 1)


class Lines:
    """The lines of a certificate, from which one after another is due. A missing line has the number of the line `#end`."""

    def __init__(self, lines, end):
        self.lines, self.end, self.at = lines, end, 0

    def number(self):
        return self.lines[self.at][0] if self.at < len(self.lines) else self.end

    def text(self):
        """The line that stands there, or None."""
        return self.lines[self.at][1] if self.at < len(self.lines) else None

    def refuse(self, reason):
        raise Refused(self.number(), reason)

    def take(self, read, is_count=lambda line: False):
        """What the line that is due spells; it is `Count` where it is wrong and shows that there are fewer or more lines than are stated, else
        `Syntax`."""
        line = self.text()
        value = read(line) if line is not None else None
        if value is None:
            self.refuse("Count" if is_count(line) else "Syntax")
        self.at += 1
        return value


def read_certificate(lines, end):
    """FORMATS, 'The certificate' and 'Refusals': the certificate that lines spell; the first line that isn't of the form that is due is
    refused."""
    due = Lines(lines, end)
    due.take(exactly("certificate 1"))
    version = due.take(headed("version", bits(32)))
    request = due.take(read_request)
    read_rows = headed("rows", bits(32))
    count = due.take(headed("answers", bits(32)))
    answers = [due.take(read_answer, lambda line: line is None or read_rows(line) is not None) for _ in range(count)]
    count = due.take(read_rows, lambda line: line is not None and read_answer(line) is not None)
    rows = [due.take(read_row, lambda line: line in (None, "end")) for _ in range(count)]
    due.take(exactly("end"), lambda line: line is not None and read_row(line) is not None)
    if due.text() is not None:
        due.refuse("Syntax")
    return Certificate(version, request, answers, rows)


def exactly(wanted):
    """A line that is given."""
    return lambda line: line if line == wanted else None


def headed(word, form):
    """A word and a number."""
    return lambda line: form(line[len(word) + 1 :]) if line.startswith(word + " ") else None


def read_request(line):
    """FORMATS, 'The certificate': `request` and the request's text, in the program's own form and within its limits."""
    text = line.removeprefix("request ")
    try:
        request = requests.read_request(text)
        requests.judge(request)
    except (Syntax, requests.BadRequest):
        return None
    return request if "request " + requests.request_text(request) == line else None


def read_answer(line):
    """FORMATS, 'The certificate': `answer price moves`, each move as its count of flights, their numbers, carrier, basis, role and slot."""
    word, *words = line.split(" ")
    price = bits(64)(words[0]) if words else None
    if word != "answer" or price is None:
        return None
    moves, at = [], 1
    while at < len(words):
        move, at = read_move(words, at)
        if move is None or len(moves) == MOST_MOVES:
            return None
        moves.append(move)
    return price, moves


def read_move(words, at):
    """One move of an answer, and where the next one begins; or None."""
    count = forms.number(1, 4)(words[at]) or 0
    columns = [bits(32)] * count + [forms.carrier, forms.basis, forms.number(0, 3), bits(8)]
    values = [form(word) for form, word in zip(columns, words[at + 1 :])]
    if not count or len(values) < len(columns) or None in values:
        return None, at
    return Move(tuple(values[:count]), *values[count:]), at + 1 + len(columns)


def read_row(line):
    """FORMATS, 'The certificate': `row residual bound`."""
    word, *words = line.split(" ")
    residual = residuals.read(words[:-1]) if word == "row" else None
    bound = residuals.absent_or(bits(64))(words[-1]) if words else None
    if residual is None or bound is None:
        return None
    return residual, None if isinstance(bound, list) else bound
