"""Rows of the listing."""

import itertools

import line
import listing
import making
import second_60
import unnamed
from cases.one_case import ROW, header_case, row_case, stray_case
from cases.writing import bad_records, one_of_each

COUNTS = [0, 9, 10, 99, 100, 65535, 65536, 999999999, 1000000000, 4294967295]


def row_cases(dice):
    """Rows of every layout and of refusals, and from every kind of start, into buffers that are a byte short and long enough; of every
    status. A record that no telegram could carry is refused with its own number, whatever the buffer's length."""
    good = [*one_of_each(), *second_60.one_of_each(), *range(1, 12)]
    for answer, start in [*zip(good, itertools.cycle(COUNTS)), *itertools.product((good[0], 10), COUNTS)]:
        size = len(listing.row(line.Event(start, 0, answer)))
        for room in (size - 1, size):
            yield row_case(start, answer, room)
    for answer, room in itertools.product((good[0], good[1], 10), (0, ROW)):
        yield row_case(0, answer, room)
    for answer in [*unnamed.with_every_status()] + [making.any_record(dice) for _ in range(40)]:
        yield row_case(dice.choice(COUNTS), answer, ROW)
    for answer, room in zip(bad_records(), itertools.cycle((0, dice.randrange(1, ROW), ROW))):
        yield row_case(dice.choice(COUNTS), answer, room)


def other_row_cases(dice):
    """The header and the last row."""
    for room in (0, 1, *range(len(listing.HEADER) - 2, len(listing.HEADER) + 3), ROW):
        yield header_case(room)
    for stray in COUNTS:
        size = len(listing.stray_row(stray))
        for room in (size - 1, size):
            yield stray_case(stray, room)
    for stray in [10 ** digits - less for digits in range(1, 10) for less in (0, 1)] + [dice.randrange(2 ** 32) for _ in range(10)]:
        yield stray_case(stray, ROW)
    yield stray_case(0, 0)
