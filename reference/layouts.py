"""The seven layouts as data: one row of places each, what stands between STX and ETX.

A place is a fixed byte (a number), a decimal place (Decimal), STATUS or WEEKDAY. The last two places of a row are the trailer, CR and
LF; they stand as printed, or exchanged on a line of that order.
"""

import functools
import operator
from typing import NamedTuple

STX, ETX = 0x02, 0x03
LF, CR, SPACE = 0x0A, 0x0D, 0x20

STATUS = "status"
WEEKDAY = "weekday"

AS_PRINTED, EXCHANGED = ORDERS = ("as-printed", "exchanged")


class Decimal(NamedTuple):
    """One decimal digit of a field; unit is 1, 10, 100 or 1000."""
    field: str
    unit: int


def two(field):
    """Tens and units of a field."""
    return (Decimal(field, 10), Decimal(field, 1))


HH, MM, SS = two("hour"), two("minute"), two("second")
DD, MO, YY = two("day"), two("month"), two("short_year")
YYYY = (Decimal("year", 1000), Decimal("year", 100)) + two("year")

LAYOUTS = {
    "6021": (STATUS, WEEKDAY, *HH, *MM, *SS, *DD, *MO, *YY, LF, CR),
    "6021t": (*HH, *MM, *SS, LF, CR),
    "2000": (STATUS, WEEKDAY, *HH, *MM, *SS, *DD, *MO, *YYYY, LF, CR),
    "5500": (STATUS, SPACE, *HH, *MM, *SS, SPACE, *DD, *MO, *YY, SPACE, WEEKDAY, CR, LF),
    "5500t": (*HH, *MM, *SS, CR, LF),
    "5050": (*HH, SPACE, *MM, SPACE, *SS, SPACE, *DD, SPACE, *MO, SPACE, *YY, SPACE,
             STATUS, WEEKDAY, SPACE, CR, LF),
    "5050t": (*HH, SPACE, *MM, SPACE, *SS, SPACE, CR, LF),
}

TIME_ONLY = ("6021t", "5500t", "5050t")
STATUS_AS_6021 = ("6021", "2000")
STATUS_AS_5500 = ("5500", "5050")


def is_fixed(place):
    """A place that always holds the same space, CR or LF."""
    return isinstance(place, int)


def is_decimal(place):
    """A place that holds one digit 0 to 9."""
    return isinstance(place, Decimal)


def other_order(order):
    """As-printed for exchanged, and exchanged for as-printed."""
    return AS_PRINTED if order == EXCHANGED else EXCHANGED


def row_in(layout, order):
    """A layout's row on a line of that order: exchanged, its two trailer places have changed places."""
    row = LAYOUTS[layout]
    return row if order == AS_PRINTED else (*row[:-2], row[-1], row[-2])


def places_that(holds, row):
    """Some places of a row, with where they stand."""
    return [(at, place) for at, place in enumerate(row) if holds(place)]


# The fixed places of each layout in each order, and its decimal places, which are the same in both.
FIXED_AT = {(layout, order): places_that(is_fixed, row_in(layout, order)) for layout in LAYOUTS for order in ORDERS}
DECIMALS_AT = {layout: places_that(is_decimal, row) for layout, row in LAYOUTS.items()}


def picker(places):
    """What picks the bytes at some places, and the bytes that belong there."""
    at, belonging = zip(*places)
    return operator.itemgetter(*at), belonging


FIXED_PICKER = {key: picker(places) for key, places in FIXED_AT.items()}


def length(layout, control_characters):
    """Bytes of a telegram; STX and ETX are two of them where they are sent."""
    return len(LAYOUTS[layout]) + (2 if control_characters else 0)


@functools.cache
def layouts_of_length(number_of_bytes, control_characters):
    """The layouts of a length, in any order of the trailer: mostly one, two time-only ones at 10 (8), else none."""
    return [layout for layout in LAYOUTS if length(layout, control_characters) == number_of_bytes]
