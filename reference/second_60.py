"""Records and telegrams with second 60, good ones and bad ones, for tests.

A good one is made from a UTC month's last second, shifted to the clock on the wall, and not by asking the rule of records.py.
"""

import itertools

import days
import layouts
import making
import records
import status
import telegrams
from layouts import AS_PRINTED
from records import Dated, TimeOnly
from refusals import NO_SUCH_DAY, RANGE, STATUS_OR_WEEKDAY, WEEKDAY

BEYOND = (61, 62, 63, 99, 255)   # seconds that no record has; a telegram's two digits end at 99


# --- good ones ---

MARKS = [(False, False), (True, False), (False, True), (True, True)]   # the daylight bit, the UTC bit
SHIFTS = {(False, False): 3600, (True, False): 7200, (False, True): 0, (True, True): 0}


def layouts_of(mark):
    """The dated layouts that can say both bits of a mark."""
    return layouts.STATUS_AS_6021 if mark == (True, True) else layouts.STATUS_AS_6021 + layouts.STATUS_AS_5500


def after(layout, mark, last_day):
    """The second 60 that follows the last second of a UTC day, as a clock with that mark shows it; None where the calendar has no
    such day. The status is the plainest."""
    seconds = days.SECONDS_PER_DAY * (last_day + 1) - 1 + SHIFTS[mark]
    number, second = divmod(seconds, days.SECONDS_PER_DAY)
    if number >= days.DAYS:
        return None
    date = days.date_of(number)
    return Dated(layout, "radio", mark[0], False, mark[1], days.weekday_of_number(number),
                 second // 3600, second // 60 % 60, 60, date.day, date.month, date.year)


LAST_DAYS = [start - 1 for start in days.MONTH_STARTS[1:] + [days.DAYS]]

# The last days of long and short months, of February in leap years and others, of years, of both ends of the calendar.
PICKED = [days.day_number(days.Date(*date)) for date in (
    (1980, 1, 31), (1980, 2, 29), (1980, 12, 31), (1997, 6, 30), (1999, 2, 28), (1999, 12, 31), (2000, 2, 29), (2015, 6, 30),
    (2016, 12, 31), (2023, 4, 30), (2024, 2, 29), (2079, 2, 28), (2079, 11, 30), (2079, 12, 31))]


def good_by_hand():
    """Each picked month end in each mark and each dated layout, and each time-only layout at some hours."""
    for last_day, mark in itertools.product(PICKED, MARKS):
        for layout in layouts_of(mark):
            record = after(layout, mark, last_day)
            if record is not None:
                yield record
    for layout, hour in itertools.product(layouts.TIME_ONLY, (0, 1, 12, 22, 23)):
        yield TimeOnly(layout, hour, 59, 60)


def one_of_each():
    """A good one of each layout."""
    for layout in layouts.LAYOUTS:
        yield TimeOnly(layout, 23, 59, 60) if layout in layouts.TIME_ONLY else after(layout, (False, True), LAST_DAYS[-2])


def good_by_dice(dice):
    """Any good one, with any status that its layout allows."""
    layout = dice.choice(list(layouts.LAYOUTS))
    if layout in layouts.TIME_ONLY:
        return TimeOnly(layout, dice.randrange(24), 59, 60)
    mark = dice.choice([mark for mark in MARKS if layout in layouts_of(mark)])
    last_day = dice.choice([LAST_DAYS[-1]] + [dice.choice(LAST_DAYS) for _ in range(4)])
    # The last month of the calendar ends in UTC only.
    record = after(layout, mark, last_day) or after(layout, mark, LAST_DAYS[0])
    if layout in layouts.STATUS_AS_6021:
        return record._replace(reception=dice.choice(status.RECEPTIONS), announced=dice.random() < 0.5)
    return record._replace(reception=dice.choice(["crystal", "radio"]), announced=not record.utc and dice.random() < 0.5)


# --- bad ones ---

def neighbours(record):
    """What keeps a good dated one from being the end of a UTC month, or its second from being 60. All are 6."""
    yield from ({"minute": minute} for minute in (0, 58, 60, 255))
    yield from ({"hour": hour} for hour in (0, 1, 2, 12, 22, 23, 24, 255) if hour != record.hour)
    yield from ({"second": second} for second in BEYOND)
    yield {"day": 1 if record.day > 1 else 31}
    yield {"day": record.day - 1 if record.day > 1 else 2}
    yield {"day": 15}
    yield from ({"day": 0}, {"day": 32}, {"month": 0}, {"month": 13}, {"year": 1979}, {"year": 2080})
    if not record.utc:
        yield {"daylight": not record.daylight}
        yield {"utc": True, "daylight": False}


# Layouts that between them show each mark twice, but for both bits, which two layouts only can say.
SHOWN = [("6021", MARKS[0]), ("5050", MARKS[0]), ("2000", MARKS[1]), ("5500", MARKS[1]), ("5500", MARKS[2]), ("6021", MARKS[2]),
         ("2000", MARKS[3])]


def bad_by_hand():
    """Bad ones with the number that each is refused with."""
    for layout, mark in SHOWN:
        good = after(layout, mark, days.day_number(days.Date(2016, 12, 31)))
        for changed in neighbours(good):
            yield 6, good._replace(**changed)
    for mark in MARKS:
        for layout in layouts_of(mark):
            good = after(layout, mark, days.day_number(days.Date(2015, 6, 30)))
            wrong = good.weekday % 7 + 1
            yield 8, good._replace(weekday=wrong)
            yield 6, good._replace(weekday=wrong, hour=12)
            yield from ((5, good._replace(weekday=weekday, second=second)) for weekday, second in ((0, 60), (8, 61), (255, 60)))
    for layout in layouts.STATUS_AS_5500:
        good = after(layout, (False, False), days.day_number(days.Date(1999, 6, 30)))
        for changed in ({"reception": "high"}, {"reception": "invalid"}, {"utc": True, "daylight": True},
                        {"utc": True, "announced": True, "hour": 12}):
            yield 5, good._replace(**changed)
    yield from bad_ends_of_the_calendar()
    yield from bad_days()
    for layout in layouts.TIME_ONLY:
        for time in ((23, 58, 60), (0, 0, 60), (12, 34, 60), (24, 59, 60), (255, 59, 60), (23, 60, 60)):
            yield 6, TimeOnly(layout, *time)
        for second in BEYOND:
            yield 6, TimeOnly(layout, 23, 59, second)


def bad_ones():
    """A bad one of each number, with a date and without."""
    return {(number, records.is_time_only(record)): record for number, record in bad_by_hand()}.values()


def bad_of_each_layout():
    """A bad one of each number of each layout."""
    return {(number, record.layout): record for number, record in bad_by_hand()}.values()


def bad_ends_of_the_calendar():
    """The first hours, which are the end of a month in UTC before the calendar, and the last day, which in local time ends none."""
    first = Dated("6021", "radio", False, False, False, 2, 0, 59, 60, 1, 1, 1980)
    last = Dated("5500", "radio", False, False, False, 7, 23, 59, 60, 31, 12, 2079)
    for layout in layouts.STATUS_AS_6021 + layouts.STATUS_AS_5500:
        for daylight, hour in itertools.product((False, True), (0, 1, 23)):
            yield 6, first._replace(layout=layout, daylight=daylight, hour=hour)
            yield 6, last._replace(layout=layout, daylight=daylight, hour=hour)
        yield 6, first._replace(layout=layout, daylight=True, hour=1, weekday=3)
        yield 6, first._replace(layout=layout, utc=True)


def bad_days():
    """Days that the month lacks, at the hour at which a month ends: 6 and not 7."""
    for (year, month, day), (daylight, utc) in itertools.product(
            ((1999, 2, 29), (2000, 2, 30), (2023, 2, 31), (2023, 4, 31), (1997, 6, 31), (2079, 11, 31)), MARKS):
        for hour in (23, 0, 1):
            yield 6, Dated("2000", "crystal", daylight, True, utc, 1, hour, 59, 60, day, month, year)


# --- either kind ---

# What a field is changed to, all of it numbers that a telegram can show.
CHANGED = {
    "reception": status.RECEPTIONS, "daylight": (False, True), "announced": (False, True), "utc": (False, True), "weekday": range(1, 8),
    "hour": (0, 1, 2, 12, 22, 23, 24, 99), "minute": (0, 29, 58, 59, 60, 99), "second": (0, 59, 60, 61, 62, 63, 99),
    "day": (0, 1, 2, 15, 27, 28, 29, 30, 31, 32), "month": (0, 1, 2, 3, 6, 7, 11, 12, 13), "year": (1980, 1999, 2000, 2016, 2079),
}


def any_by_dice(dice):
    """One that is good, or that one or two changes have mostly made bad."""
    record = good_by_dice(dice)
    for field in dice.choices(record._fields[1:], k=dice.choice([0, 0, 1, 1, 2])):
        record = record._replace(**{field: dice.choice(CHANGED[field])})
    return record


def can_be_shown(record):
    """Whether the record's layout has characters for what it says, good or not."""
    if records.status_not_allowed(record) or records.weekday_not_allowed(record):
        return False
    return max(record.hour, record.minute, record.second) <= 99


def without_weekday(telegram, layout, control):
    """A telegram of a dated layout whose weekday character is none."""
    at = layouts.LAYOUTS[layout].index(layouts.WEEKDAY) + control
    return telegram[:at] + b"0" + telegram[at + 1:]


def shown_ones(control, order):
    """A telegram of a good one of each layout; then of a bad one of each number, with a date and without."""
    bad = {(number, records.is_time_only(record)): record for number, record in bad_by_hand() if can_be_shown(record)}
    for record in [*one_of_each(), *bad.values()]:
        yield telegrams.telegram_of(record, control, order)
    dated = next(record for record in one_of_each() if not records.is_time_only(record))
    yield without_weekday(telegrams.telegram_of(dated, control, order), dated.layout, control)


def some_telegram(dice, control, order=AS_PRINTED):
    """A telegram of any of them, seldom without a weekday, seldom damaged."""
    record, kind = any_by_dice(dice), dice.random()
    if not can_be_shown(record):
        record = good_by_dice(dice)
    telegram = telegrams.telegram_of(record, control, order)
    if kind < 0.1 and not records.is_time_only(record):
        return without_weekday(telegram, record.layout, control)
    return making.damaged(dice, telegram) if kind < 0.25 else telegram


# --- what a test was run on ---

def in_record(record, refusal):
    """A record whose second is 60 or more: whether it has a date, and the number that it was refused with, 0 for none. None for
    any other record."""
    return ("time-only" if isinstance(record, TimeOnly) else "dated", refusal or 0) if record.second >= 60 else None


# Whatever else it is refused with, a telegram has no digits in known places, or it is no whole one.
SPELLED = (None, STATUS_OR_WEEKDAY, RANGE, NO_SUCH_DAY, WEEKDAY)


def in_telegram(telegram, control, refusal, order=AS_PRINTED):
    """The same of a telegram that was read in that order, right or wrong; None also where it spells no second."""
    if refusal not in SPELLED:
        return None
    layout = telegrams.layout_of(telegram, control, order)
    if telegrams.numbers_of(layout, telegrams.between(telegram, control))["second"] < 60:
        return None
    return "time-only" if layout in layouts.TIME_ONLY else "dated", refusal or 0
