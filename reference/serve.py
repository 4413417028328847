"""The serving run: docs/FORMATS.md, 'The serving run', and docs/SERVING.md. There are no threads here: a desk answers from the oldest
version that it may, and so this is one of the runs that a case allows."""
from reference.filings import BadAction
from reference.search import TooLarge, answer_text, search


def serve_text(case, budget):
    """FORMATS, 'The serving run': the history, what was refused of the later filings, and the replies in the order of the script."""
    books, history, refusals, judged = history_of(case)
    lines = [f"history {books[-1].number}", *history, *refusals]
    known = {}
    for number, step in enumerate(case.script, 1):
        least = known.get(step.desk, len(case.books) - 1)
        if step.what == "wait":
            known[step.desk] = max(least, judged[step.number])
            continue
        known[step.desk] = least
        lines.append(f"reply {number} desk {step.desk} version {least}")
        lines += reply(books[least], case.requests[step.number - 1], budget)
    return lines


def history_of(case):
    """FORMATS, 'The serving run': the later filings, taken in order or refused. The books of all versions, the entries, the refusals, and for
    each count of later filings the version once so many were judged."""
    opening = len(case.books) - 1
    books, refusals, judged = list(case.books), [], [opening]
    history = [f"entry {number} filing {number}" for number in range(1, opening + 1)]
    for number, filing in enumerate(case.later, 1):
        try:
            books.append(books[-1].with_filing(filing))
            history.append(f"entry {books[-1].number} later {number}")
        except BadAction as fault:
            refusals.append(f"later {number} refused {fault.text}")
        judged.append(books[-1].number)
    return books, history, refusals, judged


def reply(book, request, budget):
    """FORMATS, 'The serving run': the answer of a version, or `too large`."""
    try:
        return answer_text(search(book, request, budget).best)
    except TooLarge:
        return ["too large"]
