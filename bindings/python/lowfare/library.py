"""The shared library: where it is, and the types of its calls, as `include/lowfare.h` declares them."""

from __future__ import annotations

import ctypes
import ctypes.util
import os
import pathlib
from ctypes import POINTER, c_bool, c_char_p, c_size_t, c_uint8, c_uint32, c_void_p

from .errors import NoLibrary

DONE, REFUSED, USAGE, OUT_OF_MEMORY, TOO_LARGE, NO, TOO_LONG, NO_BOOK = 0, 1, 2, 5, 6, 7, 8, 16


class Handle(ctypes.Structure):
    """A handle of a book or of a text. A new one holds nothing."""

    _fields_ = [("is_held", c_bool), ("at", c_void_p)]


_HANDLE = POINTER(Handle)
_TEXT = [c_char_p, c_size_t]
_CALLS = {
    "lowfare_run": (c_uint32, [*_TEXT, *_TEXT, _HANDLE]),
    "lowfare_open": (c_uint32, [*_TEXT, _HANDLE, _HANDLE]),
    "lowfare_book_share": (c_uint32, [_HANDLE, _HANDLE]),
    "lowfare_book_close": (None, [_HANDLE]),
    "lowfare_file": (c_uint32, [_HANDLE, *_TEXT, _HANDLE, _HANDLE]),
    "lowfare_version": (c_uint32, [_HANDLE]),
    "lowfare_search": (c_uint32, [_HANDLE, *_TEXT, c_uint32, c_uint32, _HANDLE]),
    "lowfare_check": (c_uint32, [_HANDLE, *_TEXT, *_TEXT, _HANDLE]),
    "lowfare_calendar": (c_uint32, [_HANDLE, *_TEXT, c_uint8, c_uint8, c_uint32, _HANDLE]),
    "lowfare_verdict": (c_uint32, [_HANDLE, *_TEXT, *_TEXT, _HANDLE]),
    "lowfare_text_length": (c_size_t, [_HANDLE]),
    "lowfare_text_copy": (c_size_t, [_HANDLE, c_void_p, c_size_t]),
    "lowfare_text_free": (None, [_HANDLE]),
}


def _path() -> str:
    """LOWFARE_LIBRARY, or what `make_lib` left in the repository's `out`, or what the system's linker finds."""
    named = os.environ.get("LOWFARE_LIBRARY")
    if named:
        return named
    built = pathlib.Path(__file__).resolve().parents[3] / "out" / "liblowfare.so"
    if built.exists():
        return str(built)
    found = ctypes.util.find_library("lowfare")
    if not found:
        raise NoLibrary("liblowfare.so isn't found: run make_lib, or name the file by LOWFARE_LIBRARY")
    return found


def _load() -> ctypes.CDLL:
    library = ctypes.CDLL(_path())
    for name, (result, arguments) in _CALLS.items():
        call = getattr(library, name)
        call.restype, call.argtypes = result, arguments
    return library


LIBRARY = _load()


def take_text(text: Handle) -> bytes:
    """The bytes of a text, which is let go."""
    room = LIBRARY.lowfare_text_length(text)
    buffer = ctypes.create_string_buffer(max(room, 1))
    LIBRARY.lowfare_text_copy(text, buffer, room)
    LIBRARY.lowfare_text_free(text)
    return buffer.raw[:room]
