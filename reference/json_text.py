"""JSON as filings and requests have it: what `serde_json` reads, which is JSON with these decisions of its own (docs/FORMATS.md, 'Filings')."""
import json
import math

MOST_DEEP = 127


class Syntax(Exception):
    """FORMATS, 'Refusals': the line isn't JSON."""


def read(text):
    """The value of a line, whose characters are its bytes. Of members of one name the last counts; whole numbers of 64 bits are whole, all
    other numbers are floats; texts are UTF-8 without halves of surrogate pairs."""
    if deeper_than(text, MOST_DEEP):
        raise Syntax
    try:
        plain = text.encode("latin-1").decode()
        value = json.loads(plain, parse_int=whole, parse_float=finite, parse_constant=none_such, object_pairs_hook=members)
        check_texts(value)
    except (ValueError, RecursionError):
        raise Syntax from None
    return value


def deeper_than(text, most):
    """Whether lists and objects stand in one another more than so many times."""
    if text.count("[") + text.count("{") <= most:
        return False
    depth, quoted, at = 0, False, 0
    while at < len(text):
        character = text[at]
        if quoted:
            at += character == "\\"
            quoted = character != '"'
        elif character == '"':
            quoted = True
        elif character in "[{":
            depth += 1
            if depth > most:
                return True
        elif character in "]}":
            depth -= 1
        at += 1
    return False


def whole(digits):
    """A number of digits alone: whole where it is one of 64 bits, with or without a sign; `-0` is a float."""
    if digits == "-0" or len(digits) > 20 or not -(2**63) <= int(digits) < 2**64:
        return finite(digits)
    return int(digits)


def finite(digits):
    """A number that is no finite float is no JSON."""
    number = float(digits)
    if math.isinf(number):
        raise ValueError
    return number


def none_such(_name):
    """`NaN` and `Infinity` are no JSON."""
    raise ValueError


def members(pairs):
    """Of members of one name the last counts, and each is a text or has texts that are judged."""
    for name, value in pairs:
        check_texts(name)
        check_texts(value)
    return dict(pairs)


def check_texts(value):
    """Half of a surrogate pair is no text: it has no UTF-8. The members of objects were judged before."""
    if isinstance(value, str):
        value.encode()
    elif isinstance(value, list):
        for item in value:
            check_texts(item)


def is_whole(value):
    """A whole number, which true and false aren't."""
    return isinstance(value, int) and not isinstance(value, bool)


def compact(value):
    """FORMATS, 'The certificate': the program's own text of a value, compact and with members ascending by name."""
    return json.dumps(value, separators=(",", ":"), sort_keys=True)
