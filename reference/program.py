"""The six commands: docs/FORMATS.md, 'The words' and 'Statuses'."""
import reference.calendars as calendars
import reference.certificate as certificate
import reference.verdict as verdict
from reference.case import read_case
from reference.check import Checker
from reference.forms import Refused
from reference.make import made_case
from reference.search import DEFAULT_BUDGET, TooLarge, answer_text, search
from reference.serve import serve_text
from reference.words import USAGE, command_line

MOST_BYTES = 67108864
DONE, REFUSED, USED_WRONG, NOT_READ, NOT_WRITTEN, NO_MEMORY, TOO_LARGE, NO, TOO_LONG, NO_WORDS = range(10)
"""FORMATS, 'Statuses'."""


def answer(words, read):
    """FORMATS, 'Statuses': the text that is written for words and input, and the status. `read` gives the bytes of the input, at most so many
    as it is asked for."""
    line = command_line(words)
    if line is None:
        return USAGE, USED_WRONG
    command, values = line
    given = b"" if command == "make" else read(MOST_BYTES + 1)
    if len(given) > MOST_BYTES:
        return "too long\n", TOO_LONG
    try:
        lines, status = COMMANDS[command](given, values)
    except Refused as fault:
        return f"refused {fault.line} {fault.reason}\n", REFUSED
    except TooLarge:
        return "too large\n", TOO_LARGE
    return "".join(f"{text}\n" for text in lines), status


def of_version(given, command, values):
    """FORMATS, 'The words': the case, and its book after the first n filings, or after all of them."""
    case = read_case(given, command, values)
    return case, case.books[values.get("at", -1)]


def do_search(given, values):
    """FORMATS, 'The words', search: the version, the answer, the certificate."""
    case, book = of_version(given, "search", values)
    found = search(book, case.request, values.get("budget", DEFAULT_BUDGET))
    return [f"version {book.number}", *answer_text(found.best), *certificate.certificate_text(found)], DONE


def do_check(given, values):
    """FORMATS, 'The check of a certificate': `yes`, or the first check that fails and the place."""
    case, book = of_version(given, "check", values)
    failure = Checker(book, case.request, case.certificate).first_failure()
    return (["yes"], DONE) if failure is None else ([f"no C{failure[0]} {failure[1]}"], NO)


def do_make(_given, values):
    """FORMATS, 'The made case': the case, or with `--summary` one line on it."""
    lines = made_case(values["seed"], values["size"])
    if "summary" not in values:
        return lines, DONE
    case, book = of_version("".join(line + "\n" for line in lines).encode(), "search", {})
    found = search(book, case.request)
    told = certificate.Certificate(book.number, case.request, [(one.price, one.moves) for one in found.best], found.rows)
    checked = "yes" if Checker(book, case.request, told).first_failure() is None else "no"
    counts = f"flights {len(book.timetable.flights)} residuals {len(found.rows)} tickets {len(found.best)}"
    return [f"seed {values['seed']} size {values['size']} {counts} cheapest {found.best[0].price} checked {checked}"], DONE


def do_calendar(given, values):
    """FORMATS, 'The calendar': the version, and the least price of each pair of days."""
    case, book = of_version(given, "calendar", values)
    cells = calendars.calendar_text(book, case.request, values["outs"], values["backs"], values.get("budget", DEFAULT_BUDGET))
    return [f"version {book.number}", *cells], DONE


def do_verdict(given, values):
    """FORMATS, 'The verdict': the price, or all breaches."""
    case, book = of_version(given, "verdict", values)
    return verdict.verdict_text(book, case.request, case.ticket), DONE


def do_serve(given, values):
    """FORMATS, 'The serving run': the history, and a reply for each search of the script."""
    return serve_text(read_case(given, "serve", values), values.get("budget", DEFAULT_BUDGET)), DONE


COMMANDS = {"search": do_search, "check": do_check, "make": do_make, "calendar": do_calendar, "verdict": do_verdict, "serve": do_serve}
