"""The calendar and the time of day, held to the dates of the standard library."""

import datetime

import days
import leitch_cases
from days import Date, Time
from refusals import outcome
from selftests.checking import same

DAY = datetime.timedelta(days=1)


def of_library(date):
    """A date of the standard library as one of ours."""
    return Date(date.year, date.month, date.day)


def calendar():
    """Every day, held to the dates of the standard library."""
    first, last = datetime.date(1980, 1, 1), datetime.date(2079, 12, 31)
    same("calendar", (days.DAYS, (last - first).days + 1), (36525, 36525))
    for number in range(days.DAYS):
        there = first + number * DAY
        date = of_library(there)
        same("calendar", days.date_of(number), date)
        same("calendar", days.day_number(date), number)
        same("calendar", days.weekday_of_number(number), there.isoweekday())
        same("calendar", days.weekday_of(date), there.isoweekday())
        if there < last:
            same("calendar", days.next_day(date), of_library(there + DAY))
    same("calendar", outcome(days.next_day, Date(2079, 12, 31)), (None, 12))
    same("calendar", outcome(days.date_of, 36525), (None, 12))


def months():
    """Every month, held to the standard library, and to what the document says of the table."""
    firsts = [datetime.date(year, month, 1) for year in range(1980, 2080) for month in range(1, 13)]
    starts = [(first - firsts[0]).days for first in firsts]
    same("months", days.MONTH_STARTS, starts)
    same("months", (len(starts), starts[:3], starts[-1]), (1200, [0, 31, 60], 36494))
    for first, end in zip(firsts, [*firsts[1:], datetime.date(2080, 1, 1)]):
        same("months", days.days_in_month(first.year, first.month), (end - first).days)
    for year, month, day, number in ((1979, 1, 1, 6), (2080, 1, 1, 6), (2000, 0, 1, 6),
                                     (2000, 13, 1, 6), (2000, 1, 0, 6), (2000, 1, 32, 6),
                                     (1999, 2, 29, 7), (2000, 2, 30, 7), (2000, 4, 31, 7)):
        same("months", outcome(days.day_number, Date(year, month, day)), (None, number))
        same("months", outcome(days.next_day, Date(year, month, day)), (None, number))
    for year, month in ((2000, 13), (2000, 0), (1979, 12), (2080, 1)):
        same("months", outcome(days.days_in_month, year, month), (None, 6))


def time_of_day():
    time = Time(0, 0, 0)
    for second in range(days.SECONDS_PER_DAY):
        same("time of day", days.second_of_day(time), second)
        time, midnight = days.next_second(time)
        same("time of day", midnight, second == days.SECONDS_PER_DAY - 1)
    same("time of day", time, Time(0, 0, 0))
    same("time of day", outcome(days.next_second, Time(24, 0, 0)), (None, 6))


def days_of_the_year():
    """Every day, held to the standard library; bad dates as for their day number."""
    first = datetime.date(1980, 1, 1)
    for number in range(days.DAYS):
        there = first + number * DAY
        same("day of year", days.day_of_year(of_library(there)), there.timetuple().tm_yday)
    for date, wanted in ((Date(1996, 1, 1), 1), (Date(1996, 2, 29), 60), (Date(1996, 3, 1), 61), (Date(1996, 12, 31), 366),
                         (Date(1999, 3, 1), 60), (Date(1999, 12, 31), 365), (Date(2000, 12, 31), 366), (Date(2079, 12, 31), 365)):
        same("day of year", days.day_of_year(date), wanted)
    for date in leitch_cases.wrong_dates():
        same("day of year", outcome(days.day_of_year, date), outcome(days.day_number, date))
