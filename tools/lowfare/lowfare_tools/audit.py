"""`lowfare-audit CASE ANSWER`: is somebody's certificate right for your case? docs/AUDIT.md reads one through."""
import argparse

from lowfare_tools import answer, blocks, causes, claims, command, journey, plain, program
from lowfare_tools.asking import Asker
from lowfare_tools.differences import differences, request_text, tickets_differ

NAME = "lowfare-audit"
CHECKS = {
    1: "its rows aren't in order, don't fit the request, or lack the first one",
    2: "a row's bound is above what can be paid from there, or a move leads to no row",
    3: "an answer is no lawful ticket at its price, isn't in order, or is one too many",
    4: "a ticket that is no answer may be cheaper than the last of them, or more tickets may exist",
    5: "it is of another version or another request",
}


def words_of(words):
    about = "Checks the certificate of an answer over your case by the proved program. What is said besides is not proved."
    parser = argparse.ArgumentParser(prog=NAME, description=about)
    parser.add_argument("case", metavar="CASE", help="your case: the book and the request that you trust")
    parser.add_argument("answer", metavar="ANSWER", help="what search printed, or its certificate; - for standard input")
    tickets = "check for so many tickets, in place of those of the case's request"
    parser.add_argument("--best", type=command.number(1, 1000), metavar="N", help=tickets)
    parser.add_argument("--at", type=command.VERSION, metavar="N", help="check by the version that the first N filings leave")
    return parser.parse_args(words)


def place_text(checked, certificate):
    """What stands at the place of the check that fails."""
    place = checked.place
    if checked.rule in (1, 2) and 1 <= place <= len(certificate.rows):
        row = certificate.rows[place - 1]
        return f"row {place} is: {row.residual} {'-' if row.bound is None else row.bound}"
    if checked.rule == 1:
        return "the root of your request is no row"
    if checked.rule == 3:
        return f"answer {place}"
    if checked.rule == 4:
        return f"it goes along with answer {place} for a part" if place else "it goes with no answer"
    return {1: "the version", 2: "the request"}[place]


def check_lines(checked, certificate):
    """What the proved program says, in words."""
    if checked.rule == 0:
        yield "The proved program says: yes"
        yield "These are the best tickets of your case, whoever found them. Whether your case is right, no check says."
        return
    yield f"The proved program says: no C{checked.rule} {checked.place}"
    yield f"The certificate proves nothing for your case: {CHECKS[checked.rule]} ({place_text(checked, certificate)})."


def claimed_tickets(certificate, book, timetable):
    """The tickets that the certificate's answers are, read with the case; or why they can't be read."""
    tickets = []
    for number, certified in enumerate(certificate.answers, 1):
        try:
            tickets.append(claims.ticket_of(certified, book, timetable))
        except claims.Unclear as bad:
            return None, f"answer {number} can't be read with your case: {bad}"
    return tickets, ""


def verdict_lines(asker, number, ticket, book, timetable):
    """What the proved program says of the answer that fails the answer check."""
    verdict = asker.verdict(ticket)
    if verdict.price is None:
        judged = causes.judged_of(ticket, book, timetable, asker.given.request)
        yield f"Answer {number} isn't lawful: {'; '.join(causes.causes(verdict.breaches, judged))}."
    elif verdict.price != ticket.price:
        yield f"Answer {number} is lawful, but costs {verdict.price} and not {ticket.price}."
    else:
        yield f"Answer {number} is lawful at {ticket.price}: it comes twice, out of order, or as one too many."


def printed_lines(found, tickets):
    """Whether the tickets that were printed are the certificate's answers."""
    if found.tickets is None:
        return ["No tickets were printed with it."], True
    differ = tickets_differ(found.tickets, tickets)
    if found.version != found.certificate.version:
        differ.append(f"the answer is of version {found.version}, its certificate of version {found.certificate.version}")
    if not differ:
        return ["The printed tickets are these, in this order."], True
    return [f"The printed tickets are NOT these: {text}." for text in differ], False


def report(asker, found, book, best):
    """All lines of an audit, and whether all is right."""
    certificate, given = found.certificate, asker.given
    timetable = journey.Timetable.of(given)
    version = asker.version
    differ = differences(certificate, given, asker.at, best)
    lines = [f"Differs: {text}." for text in differ]
    if not differ:
        lines.append(f"The certificate is of your version, {version}, and of your request: {request_text(given.request, best)}.")
    checked = asker.check(certificate, best)
    lines += check_lines(checked, certificate)
    tickets, why_not = claimed_tickets(certificate, book, timetable)
    if tickets is None:
        return [*lines, f"{why_not[:1].upper()}{why_not[1:]}."], False
    if checked.rule == 3:
        lines += verdict_lines(asker, checked.place, tickets[checked.place - 1], book, timetable)
    printed, same = printed_lines(found, tickets)
    heading = "Its answers, read with your case:" if checked.rule == 0 else "What it claims, of which nothing follows:"
    lines += [*printed, "", heading]
    shown = plain.tickets_text(blocks.blocks_of(tickets, given, book), given.request, version, command.with_colour())
    return [*lines, shown.rstrip("\n")], checked.rule == 0 and same


def work(words):
    asked = words_of(words)
    data = command.read_bytes(asked.case)
    given = command.sound_case(asked.case, data)
    asker = Asker(program.find(), asked.case, data, given, asked.at)
    found = command.read_answer(asked.answer, command.read_bytes(asked.answer))
    if not isinstance(found, answer.Answer) or found.certificate is None:
        raise command.Trouble(f"{asked.answer} has no certificate: ask for all that search printed; see docs/AUDIT.md")
    book = command.book_of(asked.case, given, asker.version)
    lines, right = report(asker, found, book, asked.best)
    command.out("\n".join(lines) + "\n")
    return program.DONE if right else program.FAILS_A_CHECK


def main():
    command.main(NAME, work)
