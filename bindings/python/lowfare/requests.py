"""Requests: what is asked of a book."""

from __future__ import annotations

import datetime
import json
from collections.abc import Mapping, Sequence
from dataclasses import dataclass
from typing import Any, Union

Day = Union[str, datetime.date]
"""A day, as a date or as a text `2031-03-03`."""


def _day_text(day: Day) -> str:
    return day.isoformat() if isinstance(day, datetime.date) else day


@dataclass(frozen=True)
class Slice:
    """One way of a journey: from a place to another, departing on one of so many days (1 to 7) from the first on."""

    origin: str
    destination: str
    first: Day
    days: int = 1


@dataclass(frozen=True)
class Request:
    """A request: the day of sale, how many passengers (1 to 9), the slices (1 to 6), and how many tickets are wanted
    (1 to 1,000)."""

    sale: Day
    party: int
    slices: Sequence[Slice]
    best: int = 10

    def to_json(self) -> bytes:
        """The request's text."""
        slices = [
            {"from": part.origin, "to": part.destination, "first": _day_text(part.first), "days": part.days}
            for part in self.slices
        ]
        asked = {"sale": _day_text(self.sale), "party": self.party, "slices": slices, "best": self.best}
        return json.dumps(asked, separators=(",", ":")).encode()


Asking = Union[Request, Mapping[str, Any], str, bytes]
"""A request, or its JSON as a mapping or a text."""


def text_of(request: Asking) -> bytes:
    """The text of a request."""
    if isinstance(request, Request):
        return request.to_json()
    return json_text(request)


def json_text(value: Union[Mapping[str, Any], str, bytes]) -> bytes:
    """The text of a JSON value that is given as a mapping or already as a text."""
    if isinstance(value, bytes):
        return value
    if isinstance(value, str):
        return value.encode()
    return json.dumps(value, separators=(",", ":")).encode()
