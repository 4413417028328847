"""Requests: docs/FORMATS.md, 'The request', and docs/LAW.md, 'Requests'."""
import collections

import reference.forms as forms
import reference.json_text as json_text

Slice = collections.namedtuple("Slice", "origin to first days")
Request = collections.namedtuple("Request", "sale party best slices")


class BadRequest(Exception):
    """FORMATS, 'Refusals': `Shape`, or `BadRequest` with a reason."""


def read_request(text):
    """FORMATS, 'The request': `sale`, `party`, `slices` and optionally `best`, else 10, and no other member. A request whose numbers are
    whole is of its form; their ranges are judged afterwards."""
    value = json_text.read(text)
    needed = {"sale", "party", "slices"}
    if not isinstance(value, dict) or not needed <= set(value) <= needed | {"best"} or not isinstance(value["slices"], list):
        raise BadRequest("Shape")
    slices = [read_slice(one) for one in value["slices"]]
    party, best = value["party"], value.get("best", 10)
    return Request(date(value["sale"]), whole(party), whole(best), slices)


def read_slice(value):
    """FORMATS, 'The request': an object of `from`, `to`, `first` and `days`."""
    if not isinstance(value, dict) or set(value) != {"from", "to", "first", "days"}:
        raise BadRequest("Shape")
    ends = [value["from"], value["to"]]
    if not all(isinstance(end, str) and forms.place(end) for end in ends):
        raise BadRequest("Shape")
    return Slice(*ends, date(value["first"]), whole(value["days"]))


def date(value):
    """FORMATS, 'The request': a date."""
    found = forms.day(value) if isinstance(value, str) else None
    if found is None:
        raise BadRequest("Shape")
    return found


def whole(value):
    """FORMATS, 'The request': a whole number of any size; any other number is `Shape`."""
    if not json_text.is_whole(value):
        raise BadRequest("Shape")
    return value


def judge(request, places=None):
    """LAW, 'Requests': the first reason for which a request is refused; that of places only where they are given."""
    slices = request.slices
    reasons = {
        "Slices": not 1 <= len(slices) <= 6,
        "Party": not 1 <= request.party <= 9,
        "Best": not 1 <= request.best <= 1000,
        "Window": any(not 1 <= one.days <= 7 for one in slices),
        "SamePlace": any(one.origin == one.to for one in slices),
        "UnknownPlace": places is not None and any(end not in places for one in slices for end in one[:2]),
    }
    for reason, holds in reasons.items():
        if holds:
            raise BadRequest(f"BadRequest {reason}")


def request_text(request):
    """FORMATS, 'The certificate': the request's text, compact and with members ascending by name."""
    slices = [{"from": one.origin, "to": one.to, "first": forms.day_text(one.first), "days": one.days} for one in request.slices]
    return json_text.compact({"sale": forms.day_text(request.sale), "party": request.party, "best": request.best, "slices": slices})
