"""The script of a serving run: docs/FORMATS.md, 'The script'."""
import collections

import reference.forms as forms
from reference.forms import Refused

MOST_DESKS = 8

Step = collections.namedtuple("Step", "desk what number")


def read_script(lines, later, asked):
    """FORMATS, 'The script': the first line is `desks n`; the steps of the further lines. Where the section is empty the line is 0."""
    if not lines:
        raise Refused(0, "Script")
    (first_number, first), *others = lines
    desks = forms.number(1, MOST_DESKS)(first.removeprefix("desks ")) if first.startswith("desks ") else None
    if desks is None:
        raise Refused(first_number, "Script")
    return [read_step(number, line, desks, later, asked) for number, line in others]


def read_step(number, line, desks, later, asked):
    """FORMATS, 'The script': `d search r` or `d wait n`; desks and requests are counted from 1, n is at most the count of later filings."""
    desk, what, count = (line.split(" ") + ["", ""])[:3]
    ranges = {"search": (1, asked), "wait": (0, later)}
    if line.count(" ") != 2 or what not in ranges:
        raise Refused(number, "Script")
    step = Step(forms.number(1, desks)(desk), what, forms.number(*ranges[what])(count))
    if None in step:
        raise Refused(number, "Script")
    return step
