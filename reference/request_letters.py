"""The letters by which a data string is asked for: source document 000, section 6."""

from typing import NamedTuple

from refusals import REQUEST, Refused
from status import nibble_of

STEP = 10   # milliseconds a count

TIME, TIME_AND_DATE, UTC_TIME_AND_DATE = "time", "time and date", "UTC time and date"

AT_ONCE = {b"U": TIME, b"D": TIME_AND_DATE, b"G": UTC_TIME_AND_DATE}
DELAYED = {b"u": TIME, b"d": TIME_AND_DATE, b"g": UTC_TIME_AND_DATE}


class Request(NamedTuple):
    asked: str
    delay: int   # in milliseconds


def count_of(digits):
    """The number of two characters 0 to 9 or A to F; None for any other bytes."""
    nibbles = [nibble_of(digit) for digit in digits]
    if len(nibbles) != 2 or None in nibbles:
        return None
    return 16 * nibbles[0] + nibbles[1]


def read_request(text):
    """A capital letter alone, which waits for nothing, or a small letter with its count; 18 for any other bytes."""
    if text in AT_ONCE:
        return Request(AT_ONCE[text], 0)
    letter, count = text[:1], count_of(text[1:])
    if letter not in DELAYED or count is None:
        raise Refused(REQUEST)
    return Request(DELAYED[letter], STEP * count)
