"""Records for writes without a named setting, good ones and bad ones, for tests.

Such a write is 6021 with control characters whatever layout the record has, so that a line reader takes it. What a record says goes
over into another layout's characters; so the good ones are of every dated layout, with everything that its status can say.
"""

import itertools

import days
import layouts
import making
import records
import second_60
import status
import telegrams
from days import Date
from records import Dated, TimeOnly

SIZE = 18   # a 6021 with its control characters
BARE = telegrams.Setting(control_characters=False, second_advance=False)

DATED = layouts.STATUS_AS_6021 + layouts.STATUS_AS_5500

# What the two meter programs hand over, with the bare setting named: the records of P1 and P11 in document 01.
METER_RECORDS = (Dated("6021", "high", True, False, False, 3, 12, 34, 56, 17, 4, 1996),
                 Dated("6021", "high", False, False, True, 3, 12, 34, 56, 3, 1, 1996))


# --- good ones ---

# A date for each weekday, among them the ends of the calendar and the turn of the century.
DATES = [Date(*date) for date in (
    (1980, 1, 1), (1996, 4, 17), (1999, 12, 31), (2000, 1, 1), (2001, 1, 1), (2024, 2, 29), (2079, 12, 31))]

# Month ends behind which a second 60 stands whatever the mark is.
MONTH_ENDS = second_60.PICKED[:-1]


def statuses(layout):
    """Everything that a record of a dated layout can say beside its date and time."""
    every = itertools.starmap(status.Flags, itertools.product(status.RECEPTIONS, (False, True), (False, True), (False, True)))
    return [flags for flags in every if status.flags_allowed(layout, flags)]


def with_every_status():
    """Each dated layout with each status, on the dates in turn, so that each weekday is told with UTC and without; and the same with
    second 60."""
    dates, ends = itertools.cycle(DATES), itertools.cycle(MONTH_ENDS)
    for layout in DATED:
        for flags in statuses(layout):
            date = next(dates)
            yield Dated(layout, *flags, days.weekday_of(date), 7, 8, 9, date.day, date.month, date.year)
            last = second_60.after(layout, (flags.daylight, flags.utc), next(ends))
            yield last._replace(reception=flags.reception, announced=flags.announced)


def good_by_dice(dice):
    """A good record with a date, now and then one with second 60."""
    make = second_60.good_by_dice if dice.random() < 0.2 else making.good_record
    while True:
        record = make(dice)
        if not records.is_time_only(record):
            return record


def written(some):
    """What unnamed writes make of good records with a date, one behind another."""
    buffer = bytearray(SIZE * len(some))
    telegrams.write_telegrams(some, buffer)
    return bytes(buffer)


# --- refused ones ---

def without_date():
    """Good records that carry no date: 14."""
    for layout, time in itertools.product(layouts.TIME_ONLY, ((0, 0, 0), (12, 34, 56), (23, 59, 60))):
        yield TimeOnly(layout, *time)


def bad_ones():
    """Bad records of every layout with the number that each is refused with. What a 5500 or 5050 cannot say is 5, although the 6021
    that is to be written could say it."""
    wednesday = METER_RECORDS[1]._replace(reception="radio")
    for layout in DATED:
        for number, changed in ((5, {"weekday": 0}), (5, {"weekday": 8}), (5, {"weekday": 0, "hour": 24}), (6, {"hour": 24}),
                                (6, {"minute": 60}), (6, {"second": 60}), (6, {"month": 13}), (6, {"year": 2080}),
                                (7, {"day": 30, "month": 2}), (7, {"day": 31, "month": 4, "weekday": 7}), (8, {"weekday": 4})):
            yield number, wednesday._replace(layout=layout, **changed)
    for layout in layouts.STATUS_AS_5500:
        for changed in ({"reception": "high"}, {"reception": "invalid"}, {"daylight": True}, {"announced": True}):
            yield 5, wednesday._replace(layout=layout, **changed)
    for layout, time in itertools.product(layouts.TIME_ONLY, ((24, 0, 0), (12, 60, 0), (12, 0, 60), (23, 59, 61))):
        yield 6, TimeOnly(layout, *time)


def bad_of_each_number():
    """One bad record of each number, with a date and without."""
    return {(number, records.is_time_only(record)): record for number, record in bad_ones()}.values()


def bad_of_each_layout():
    """One bad record of each number of each layout."""
    return {(number, record.layout): record for number, record in bad_ones()}.values()


def shown_ones(control, order):
    """A telegram of each of these that its layout has characters for."""
    return [telegrams.telegram_of(record, control, order) for record in bad_of_each_layout() if second_60.can_be_shown(record)]
