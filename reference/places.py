"""Rows of places, whatever their digits mean, and the digits of the seven layouts.

A place of a row holds one fixed character, a decimal digit, or a status or weekday character. A digit has a slot, and in
the slots it is kept in four bits: of a larger number the low four count.
"""

from typing import NamedTuple

import telegrams
from layouts import LAYOUTS, STATUS, WEEKDAY, Decimal, is_decimal, is_fixed
from refusals import DECIMAL_PLACE, FIXED_PLACE, STATUS_OR_WEEKDAY, check
from status import character_of, nibble_of

SLOTS = 32
FIXED, DECIMAL, CODE = "fixed", "decimal", "code"


class Place(NamedTuple):
    """A kind, and the fixed character or the digit's slot."""
    kind: str
    number: int


# --- any row ---

def no_such_byte(kind, belongs):
    """The condition that some place of a kind has a byte that does not belong there. A row and its bytes count up to the end of
    the shorter one."""
    def wrong(row, found):
        return any(place.kind == kind and not belongs(place, byte) for place, byte in zip(row, found))
    return wrong


CONDITIONS = (
    (FIXED_PLACE, no_such_byte(FIXED, lambda place, byte: byte == place.number)),
    (DECIMAL_PLACE, no_such_byte(DECIMAL, lambda place, byte: byte in b"0123456789")),
    (STATUS_OR_WEEKDAY, no_such_byte(CODE, lambda place, byte: nibble_of(byte) is not None)),
)


def scan(row, found):
    """The digits of some bytes, each in its place's slot, and 0 in the slots of none; or the lowest of 3, 4 and 5."""
    check(CONDITIONS, row, found)
    digits = [0] * SLOTS
    for place, byte in zip(row, found):
        if place.kind != FIXED:
            digits[place.number] = nibble_of(byte)
    return digits


def render(row, digits, buffer):
    """Lays the bytes of a row over a buffer's first ones, as far as it reaches."""
    for at, place in zip(range(len(buffer)), row):
        buffer[at] = place.number if place.kind == FIXED else character_of(digits[place.number] % 16)


# --- the rows of the seven layouts ---

# The slot of each digit that a layout can carry. The years of two and of four digits share the last two.
SLOT = {STATUS: 0, WEEKDAY: 1, Decimal("year", 1000): 12, Decimal("year", 100): 13}
for field, slot in (("hour", 2), ("minute", 4), ("second", 6), ("day", 8), ("month", 10), ("short_year", 14), ("year", 14)):
    SLOT[Decimal(field, 10)] = slot
    SLOT[Decimal(field, 1)] = slot + 1


def place_of(place):
    """A place of a layout as one of a row."""
    if is_fixed(place):
        return Place(FIXED, place)
    return Place(DECIMAL if is_decimal(place) else CODE, SLOT[place])


def row_of(layout):
    """A layout's row."""
    return [place_of(place) for place in LAYOUTS[layout]]


def digits_of(record):
    """The digits that a good record's telegram carries."""
    return scan(row_of(record.layout), telegrams.telegram_of(record, False))


def record_of(layout, digits):
    """The record of a telegram that has these digits, right or wrong."""
    telegram = bytearray(len(LAYOUTS[layout]))
    render(row_of(layout), digits, telegram)
    return telegrams.record_of(layout, telegram)
