"""The calendar from 1980 to 2079, and the time of day.

Day number 0 is 1 January 1980, a Tuesday. Weekdays are 1 Monday to 7 Sunday.
"""

import functools
from typing import NamedTuple

from refusals import CALENDAR, NO_SUCH_DAY, RANGE, Refused, check

FIRST_YEAR = 1980
LAST_YEAR = 2079
SECONDS_PER_DAY = 86400
WEEKDAY_OF_DAY_0 = 2

MONTH_LENGTHS = (31, 28, 31, 30, 31, 30, 31, 31, 30, 31, 30, 31)
FEBRUARY = 2


class Date(NamedTuple):
    year: int
    month: int
    day: int


class Time(NamedTuple):
    hour: int
    minute: int
    second: int


# --- months and years ---

def is_leap(year):
    """Gregorian rule: every fourth year, but of the full centuries every fourth only."""
    if year % 100 == 0:
        return year % 400 == 0
    return year % 4 == 0


def days_in_year(year):
    """366 in a leap year, else 365."""
    return 366 if is_leap(year) else 365


def year_or_month_out_of_range(year, month):
    """The year is not 1980 to 2079, or the month is not 1 to 12."""
    return not FIRST_YEAR <= year <= LAST_YEAR or not 1 <= month <= 12


@functools.cache
def days_in_month(year, month):
    """Length of a month; 6 where year or month is out of range."""
    check(((RANGE, year_or_month_out_of_range),), year, month)
    leap_day = month == FEBRUARY and is_leap(year)
    return MONTH_LENGTHS[month - 1] + leap_day


# --- dates ---

def date_out_of_range(date):
    """Condition 6 of a date: year 1980 to 2079, month 1 to 12, day 1 to 31."""
    return year_or_month_out_of_range(date.year, date.month) or not 1 <= date.day <= 31


def no_such_day(date):
    """Condition 7 of a date: the month is shorter."""
    return date.day > days_in_month(date.year, date.month)


DATE_CONDITIONS = ((RANGE, date_out_of_range), (NO_SUCH_DAY, no_such_day))


def month_starts():
    """Day number of the first day of each of the 1,200 months, in order."""
    starts, number = [], 0
    for year in range(FIRST_YEAR, LAST_YEAR + 1):
        for month in range(1, 13):
            starts.append(number)
            number += days_in_month(year, month)
    return starts


MONTH_STARTS = month_starts()
DAYS = sum(days_in_year(year) for year in range(FIRST_YEAR, LAST_YEAR + 1))


@functools.cache
def day_number(date):
    """Days since 1 January 1980; 6 out of range, 7 no such day."""
    check(DATE_CONDITIONS, date)
    return MONTH_STARTS[12 * (date.year - FIRST_YEAR) + date.month - 1] + date.day - 1


def date_of(number):
    """The date of a day number; 12 where the calendar does not reach."""
    if not 0 <= number < DAYS:
        raise Refused(CALENDAR)
    year, month = FIRST_YEAR, 1
    while number >= days_in_year(year):
        number -= days_in_year(year)
        year += 1
    while number >= days_in_month(year, month):
        number -= days_in_month(year, month)
        month += 1
    return Date(year, month, number + 1)


def weekday_of_number(number):
    """Weekday of any day number, also of one the calendar does not reach."""
    return (number + WEEKDAY_OF_DAY_0 - 1) % 7 + 1


def weekday_of(date):
    """Weekday of a date; 6 and 7 as for its day number."""
    return weekday_of_number(day_number(date))


def day_of_year(date):
    """1 on 1 January to 365, or 366 in a leap year, on 31 December; 6 and 7 as for its day number."""
    check(DATE_CONDITIONS, date)
    return sum(days_in_month(date.year, month) for month in range(1, date.month)) + date.day


def next_day(date):
    """The day after; 6 and 7 for a bad date, 12 after 31.12.2079."""
    check(DATE_CONDITIONS, date)
    if date.day < days_in_month(date.year, date.month):
        return Date(date.year, date.month, date.day + 1)
    if date.month < 12:
        return Date(date.year, date.month + 1, 1)
    if date.year < LAST_YEAR:
        return Date(date.year + 1, 1, 1)
    raise Refused(CALENDAR)


# --- the time of day ---

def time_out_of_range(time):
    """Condition 6 of a time: hour 0 to 23, minute 0 to 59, second 0 to 59."""
    return not (0 <= time.hour <= 23 and 0 <= time.minute <= 59 and 0 <= time.second <= 59)


TIME_CONDITIONS = ((RANGE, time_out_of_range),)


def second_of_day(time):
    """Seconds since midnight; 6 for a bad time."""
    check(TIME_CONDITIONS, time)
    return 3600 * time.hour + 60 * time.minute + time.second


def next_second(time):
    """The time one second later, and whether midnight was passed; 6 for a bad time."""
    check(TIME_CONDITIONS, time)
    if time.second < 59:
        return Time(time.hour, time.minute, time.second + 1), False
    if time.minute < 59:
        return Time(time.hour, time.minute + 1, 0), False
    if time.hour < 23:
        return Time(time.hour + 1, 0, 0), False
    return Time(0, 0, 0), True
