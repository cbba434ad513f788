"""Rows of places: those of the layouts, and any others."""

import making
import places
import trailers
from cases.one_case import ONE, digits_in_case, digits_out_case, layout_case, render_case, row_of_case, scan_case
from cases.writing import one_of_each
from layouts import LAYOUTS, TIME_ONLY
from places import CODE, DECIMAL, FIXED, SLOTS, Place
from status import status_allowed, weekday_allowed


def random_row(dice):
    """A row of any places; a slot may be named more than once."""
    kinds = dice.choices((FIXED, DECIMAL, CODE), k=dice.randrange(ONE))
    return [Place(kind, dice.choice(making.LIKELY) if kind == FIXED else dice.randrange(SLOTS)) for kind in kinds]


# A slot that is named three times: the last digit counts.
ONE_SLOT = [Place(DECIMAL, 5), Place(CODE, 5), Place(DECIMAL, 5)]


def fitting(dice, row):
    """Bytes that a row takes, mostly: some are then changed, dropped or put in."""
    found = bytearray(len(row))
    places.render(row, [dice.randrange(10) for _ in range(SLOTS)], found)
    return making.damaged(dice, found) if found else b""


def random_digits(dice, layout):
    """Digits that a layout allows in its code places, with more than four bits now and then."""
    digits = [dice.randrange(10) for _ in range(SLOTS)]
    if layout not in TIME_ONLY:
        digits[places.SLOT["status"]] = dice.choice([nibble for nibble in range(16) if status_allowed(layout, nibble)])
        digits[places.SLOT["weekday"]] = dice.choice([nibble for nibble in range(16) if weekday_allowed(layout, nibble)])
    return [digit + dice.choice([0, 0, 16, 240]) for digit in digits]


def layout_cases(dice):
    """Rows of the layouts and any others; bytes of every length, and of the length that two layouts have in each order."""
    for layout in LAYOUTS:
        row = places.row_of(layout)
        yield row_of_case(layout)
        for found in making.each_place_wrong(trailers.GOOD[layout] + trailers.PRINTED[layout]):
            yield scan_case(row, found)
        for _ in range(6):
            yield scan_case(row, fitting(dice, row))
            yield digits_in_case(layout, random_digits(dice, layout))
        for room in (*range(len(row) + 2), ONE):
            yield render_case(row, [dice.randrange(256) for _ in range(SLOTS)], room)
    for found in (b"123", b"1A0", b"0F9", b"900", b"9:0"):
        yield scan_case(ONE_SLOT, found)
    for _ in range(80):
        row = random_row(dice)
        yield scan_case(row, fitting(dice, row))
        yield render_case(row, [dice.randrange(256) for _ in range(SLOTS)], dice.randrange(ONE + 1))
    for record in [*one_of_each()] + [making.good_record(dice) for _ in range(40)]:
        yield digits_out_case(record)
    for size in [*range(40), 255, 256, 300]:
        for _ in range(2):
            yield layout_case(bytes(dice.choice(making.LIKELY) for _ in range(size)))
    for trailer in (b"\n\r", b"\r\n", b"\n\n", b"\r\r", b"\n ", b" \n"):
        yield layout_case(b"123456" + trailer)
