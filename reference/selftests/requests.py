"""The letters that ask for a telegram."""

import re

import leitch_cases
import manual_examples
import request_letters
from refusals import outcome
from request_letters import Request
from selftests.checking import same


def request_read(text):
    """What is asked, or the number."""
    request, number = outcome(request_letters.read_request, text)
    return number if request is None else request


REQUESTS = re.compile(rb"(?P<alone>[UDG])|(?P<letter>[udg])(?P<count>[0-9A-F]{2})")
MEANINGS = {b"u": "time", b"d": "time and date", b"g": "UTC time and date"}


def requests_by_pattern(dice):
    """The requests of the cases, found by a pattern too."""
    for text in leitch_cases.requests(dice):
        found = REQUESTS.fullmatch(text)
        wanted = 18
        if found:
            letter = found["alone"] or found["letter"]
            wanted = Request(MEANINGS[letter.lower()], 10 * int(found["count"] or b"0", 16))
        same("requests", (text, request_read(text)), (text, wanted))


def requests_of_the_manuals():
    """What the manuals print and spell out, and what differs from it in little."""
    wanted = {b"u05": Request("time", 50), b"gFF": Request("UTC time and date", 2550), b"U": Request("time", 0),
              b"D": Request("time and date", 0), b"G": Request("UTC time and date", 0)}
    asked = [example.telegram for example in manual_examples.EXAMPLES if example.kind == "request"]
    same("requests", set(wanted) <= set(asked), True)
    for text in asked + [b"T", b"", b"u5", b"gff", b"u050", b"U00", b"d0G", b"D\r\n", b"t05"]:
        same("requests", (text, request_read(text)), (text, wanted.get(text, 18)))
    same("requests", (request_read(b"d00"), request_read(b"d0A")), (request_read(b"D"), Request("time and date", 100)))
