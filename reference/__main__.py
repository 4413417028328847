"""`python3 -m reference COMMAND ..`, over standard input and output. docs/FORMATS.md, 'Statuses'."""
import os
import sys

from reference.program import NO_MEMORY, NO_WORDS, NOT_READ, NOT_WRITTEN, answer


class NotRead(Exception):
    """Reading failed."""


def read(most):
    """The bytes of standard input, at most so many."""
    pieces, length = [], 0
    try:
        while length < most:
            piece = os.read(0, min(1 << 20, most - length))
            if not piece:
                break
            pieces.append(piece)
            length += len(piece)
    except OSError:
        raise NotRead from None
    return b"".join(pieces)


def write(text):
    """Whether the text was written whole."""
    left = memoryview(text.encode())
    try:
        while left:
            taken = os.write(1, left)
            if not taken:
                return False
            left = left[taken:]
    except OSError:
        return False
    return True


def say(text):
    """FORMATS, 'Statuses': one line on standard error; whether it can be written changes nothing."""
    try:
        os.write(2, f"reference: {text}\n".encode())
    except OSError:
        pass


def main():
    """The status with which the program ends."""
    words = sys.argv[1:]
    try:
        "".join(words).encode()
    except UnicodeEncodeError:
        say("the words are no text")
        return NO_WORDS
    try:
        text, status = answer(words, read)
    except NotRead:
        say("reading failed")
        return NOT_READ
    except MemoryError:
        say("memory is wanting")
        return NO_MEMORY
    if write(text):
        return status
    say("writing failed")
    return NOT_WRITTEN


sys.exit(main())
