"""Records: a layout and exactly the fields that layout carries.

A Dated record has layout 6021, 2000, 5500 or 5050, a TimeOnly record one of the
three others. Field values may be any whole numbers; the one rule below tells which
records are good.
"""

import functools
from typing import NamedTuple

import days
from days import Date, Time
from layouts import TIME_ONLY
from refusals import (CALENDAR, NO_DATE, NO_SUCH_DAY, RANGE, STATUS_OR_WEEKDAY, WEEKDAY,
                      Refused, lowest, outcome)
from status import Flags, flags_allowed

STANDARD_SHIFT = 3600
DAYLIGHT_SHIFT = 7200

# The last second of each UTC month: the one before the next month begins, or before the calendar ends.
LAST_SECONDS = frozenset(days.SECONDS_PER_DAY * start - 1 for start in [*days.MONTH_STARTS[1:], days.DAYS])


class Dated(NamedTuple):
    layout: str
    reception: str   # invalid, crystal, radio or high
    daylight: bool
    announced: bool
    utc: bool
    weekday: int     # 1 Monday to 7 Sunday, without the UTC bit
    hour: int
    minute: int
    second: int
    day: int
    month: int
    year: int        # all four digits


class TimeOnly(NamedTuple):
    layout: str
    hour: int
    minute: int
    second: int


class LocalSeconds(NamedTuple):
    """Seconds since 1.1.1980 00:00 as the clock on the wall counts them."""
    count: int


class UtcSeconds(NamedTuple):
    """Seconds since 1.1.1980 00:00 UTC."""
    count: int


# --- the parts of a record ---

def is_time_only(record):
    """Whether the layout carries nothing but the time."""
    return record.layout in TIME_ONLY


def time_of(record):
    """The time, which every record has."""
    return Time(record.hour, record.minute, record.second)


def date_of(record):
    """The date of a dated record."""
    return Date(record.year, record.month, record.day)


def flags_of(record):
    """What the status of a dated record says."""
    return Flags(record.reception, record.daylight, record.announced, record.utc)


# --- local seconds and UTC seconds ---

def seconds_shown(record):
    """86,400 times the day number plus the second of the day: UTC seconds of a record marked UTC, else local seconds. Status and
    weekday are not looked at; 6 and 7 where the calendar or the day has no such date or time."""
    count = (days.SECONDS_PER_DAY * days.day_number(date_of(record))
             + days.second_of_day(time_of(record)))
    return UtcSeconds(count) if record.utc else LocalSeconds(count)


def to_utc(local, daylight):
    """The season's shift, the only way from local to UTC; 12 where the calendar does not reach."""
    count = local.count - (DAYLIGHT_SHIFT if daylight else STANDARD_SHIFT)
    if not 0 <= count < days.SECONDS_PER_DAY * days.DAYS:
        raise Refused(CALENDAR)
    return UtcSeconds(count)


def as_utc(count, daylight):
    """Either count in UTC; a count of UTC seconds is not shifted, whatever the season."""
    return count if isinstance(count, UtcSeconds) else to_utc(count, daylight)


# --- second 60 ---

def ends_a_utc_month(record):
    """Whether a record, its weekday aside, is the last second of a UTC month. It is not where the calendar has no such date or time,
    nor where its UTC second lies before the calendar."""
    seconds, _ = outcome(lambda: as_utc(seconds_shown(record), record.daylight))
    return seconds is not None and seconds.count in LAST_SECONDS


def may_be_60(record):
    """Whether a record of second 60 has a second 60: its minute is 59, and the same record with second 59 ends a UTC month, or has a
    good hour where there is no date."""
    if record.minute != 59:
        return False
    before = record._replace(second=59)
    return not days.time_out_of_range(time_of(before)) if is_time_only(record) else ends_a_utc_month(before)


# --- the one refusal rule of a record ---

def status_not_allowed(record):
    """Condition 5: the layout's status cannot say it. Time-only layouts have none."""
    return not is_time_only(record) and not flags_allowed(record.layout, flags_of(record))


def weekday_not_allowed(record):
    """Condition 5: the weekday is none of 1 to 7."""
    return not is_time_only(record) and not 1 <= record.weekday <= 7


def out_of_range(record):
    """Condition 6: the time, and the date where there is one. A second 60 out of its place is out of range, whatever the date."""
    if record.second == 60:
        return not may_be_60(record)
    if days.time_out_of_range(time_of(record)):
        return True
    return not is_time_only(record) and days.date_out_of_range(date_of(record))


def no_such_day(record):
    """Condition 7: the month has no such day."""
    return not is_time_only(record) and days.no_such_day(date_of(record))


def weekday_disagrees(record):
    """Condition 8: the calendar has another weekday for the date."""
    return not is_time_only(record) and days.weekday_of(date_of(record)) != record.weekday


RECORD_CONDITIONS = (
    (STATUS_OR_WEEKDAY, status_not_allowed),
    (STATUS_OR_WEEKDAY, weekday_not_allowed),
    (RANGE, out_of_range),
    (NO_SUCH_DAY, no_such_day),
    (WEEKDAY, weekday_disagrees),
)


@functools.lru_cache(maxsize=4096)
def refusal_of(record):
    """The lowest of 5 to 8 that holds for a record, or None for a good one."""
    return lowest(RECORD_CONDITIONS, record)


def check_record(record):
    """Refuses a record that is not good with the lowest of 5 to 8 that holds."""
    number = refusal_of(record)
    if number is not None:
        raise Refused(number)


# --- one second later ---

def following(record):
    """The record of the second behind a good one, date and weekday included; 12 where there is none.

    Season and status stay. A time-only record goes from 23:59:59 to 00:00:00. Behind a second 60 comes what comes behind the 59
    before it, so that nothing makes a 60.
    """
    time, midnight = days.next_second(time_of(record)._replace(second=min(record.second, 59)))
    later = record._replace(hour=time.hour, minute=time.minute, second=time.second)
    if is_time_only(record) or not midnight:
        return later
    date = days.next_day(date_of(record))
    return later._replace(year=date.year, month=date.month, day=date.day,
                          weekday=days.weekday_of(date))


def next_second(record):
    """The record of the next second; 5 to 8, then 12."""
    check_record(record)
    return following(record)


def step_clock(record):
    """The station clock one second later; 5 to 8, 12, and 14 where there is no date.

    The caller puts the answer in place of the record; refused, the record stays.
    """
    check_record(record)
    if is_time_only(record):
        raise Refused(NO_DATE)
    return following(record)


# --- the seconds of a record ---

def count_of(record):
    """The seconds that a record shows, UTC seconds where it is marked UTC, else local seconds. A second 60 has the count of the second
    that follows it. 5 to 8, then 12 where none follows, then 14."""
    check_record(record)
    if is_time_only(record):
        raise Refused(NO_DATE)
    return seconds_shown(following(record) if record.second == 60 else record)


def utc_seconds(record):
    """UTC seconds of a record; 5 to 8, then 12, then 14. A record marked UTC is not shifted."""
    return as_utc(count_of(record), record.daylight)
