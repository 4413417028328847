"""`lowfare-view CASE < ANSWER`: shows to people what the program printed: tickets, or a calendar."""
import argparse
import shutil
import sys

from lowfare_tools import answer, blocks, command, graph, heat_map, matrix, page, plain

NAME = "lowfare-view"
PIPE_WIDTH = 100


def words_of(words):
    about = "Shows tickets or a calendar that lowfare printed. Nothing here is proved."
    parser = argparse.ArgumentParser(prog=NAME, description=about)
    parser.add_argument("case", metavar="CASE", help="the case that was asked")
    how = parser.add_mutually_exclusive_group()
    how.add_argument("--html", action="store_true", help="one page without anything from elsewhere")
    how.add_argument("--dot", action="store_true", help="the certificate's graph, for Graphviz")
    return parser.parse_args(words)


def view_tickets(given, found, asked):
    book = command.book_of(asked.case, given, found.version)
    if found.tickets is None:
        raise command.Trouble("the text is a certificate without tickets: lowfare-audit shows its answers; see docs/AUDIT.md")
    shown = blocks.blocks_of(found.tickets, given, book)
    if asked.html:
        return page.tickets_page(shown, given.request, found.version)
    return plain.tickets_text(shown, given.request, found.version, command.with_colour())


def view_calendar(given, found, asked):
    shown = matrix.matrix_of(found)
    if asked.html:
        return heat_map.calendar_page(shown, given.request, found.version)
    width = shutil.get_terminal_size().columns if sys.stdout.isatty() else PIPE_WIDTH
    pen = plain.Pen(command.with_colour())
    return matrix.matrix_text(shown, given.request, found.version, width, lambda cell: pen(plain.GREEN, cell))


def view_graph(asked, given, found):
    if not isinstance(found, answer.Answer) or found.certificate is None:
        raise command.Trouble("the answer has no certificate to draw; see docs/VIEWS.md#the-graph-of-a-certificate")
    certificate = found.certificate
    return graph.dot_text(certificate, given, command.book_of(asked.case, given, certificate.version))


def work(words):
    asked = words_of(words)
    given = command.sound_case(asked.case, command.read_bytes(asked.case))
    found = command.read_answer("the answer", command.read_bytes("-"))
    if asked.dot:
        text = view_graph(asked, given, found)
    elif isinstance(found, answer.Calendar):
        text = view_calendar(given, found, asked)
    elif isinstance(found, answer.Answer):
        text = view_tickets(given, found, asked)
    else:
        raise command.Trouble("the text is neither tickets nor a calendar; see docs/VIEWS.md")
    command.out(text)
    return 0


def main():
    command.main(NAME, work)
