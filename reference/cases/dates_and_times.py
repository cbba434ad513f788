"""Dates, months and times: the edges of each, and what lies outside."""

import days
from cases.one_case import date_case, day_case, month_case, next_day_case, next_time_case, second_case, time_range_case
from days import Date, Time


def calendar_cases():
    """Each month, with the numbers of its first and its last day, its last day and what follows it; and what lies outside."""
    for start, end in zip(days.MONTH_STARTS, days.MONTH_STARTS[1:] + [days.DAYS]):
        last = days.date_of(end - 1)
        yield month_case(last.year, last.month)
        yield date_case(start)
        yield date_case(end - 1)
        yield day_case(last)
        yield next_day_case(last)
    for number in (36524, 36525, 65535, 65536, 4294967295):
        yield date_case(number)
    for year, month in ((1979, 12), (2080, 1), (0, 1), (65535, 1), (2000, 0), (2000, 13), (2000, 255)):
        yield month_case(year, month)
        yield day_case(Date(year, month, 1))
        yield next_day_case(Date(year, month, 1))
    for year, month, day in ((2000, 1, 0), (2000, 1, 32), (2000, 1, 255), (1999, 2, 29), (2000, 2, 30), (2000, 4, 31), (2001, 11, 31),
                             (1979, 12, 31), (2000, 13, 32)):
        yield day_case(Date(year, month, day))
        yield next_day_case(Date(year, month, day))


def time_cases():
    """The ends of every minute and hour, and what lies outside."""
    for hour in (*range(25), 255):
        for minute in (0, 1, 58, 59, 60, 255):
            for second in (0, 58, 59, 60, 255):
                yield second_case(Time(hour, minute, second))
                yield next_time_case(Time(hour, minute, second))
                yield time_range_case(Time(hour, minute, second))
