"""Records judged, advanced and counted in seconds."""

import days
import making
import second_60
import unnamed
from cases.one_case import count_case, next_case, rule_case, shift_case, step_case, table_case, utc_case
from cases.writing import bad_records, one_of_each
from layouts import STATUS_AS_5500, STATUS_AS_6021
from records import Dated, TimeOnly

WHOLE_YEARS = (1980, 1999, 2000, 2079)   # of the other years two months


def month_ends():
    """The last second of every February and every December, and of every month of some years. The program `test_months` has that of
    every month."""
    for start in days.MONTH_STARTS[1:] + [days.DAYS]:
        date = days.date_of(start - 1)
        if date.month in (2, 12) or date.year in WHOLE_YEARS:
            yield Dated("6021", "radio", False, False, False, days.weekday_of_number(start - 1), 23, 59, 59,
                        date.day, date.month, date.year)


def one_number_changed():
    """Good records with one number changed to each of the values that the dice change it to."""
    for good in (Dated("6021", "high", True, False, False, 3, 12, 34, 56, 17, 4, 1996),
                 Dated("5050", "radio", False, False, False, 3, 12, 34, 56, 3, 1, 1996), TimeOnly("5500t", 12, 34, 56)):
        for field in ("weekday", "hour", "minute", "second", "day", "month", "year"):
            if field in good._fields:
                yield from (good._replace(**{field: value}) for value in (making.YEARS if field == "year" else making.BYTES))


def advanced(record):
    """A record advanced by a second: as it is, and by the clock's two calls."""
    return [next_case(record), step_case("K", record), step_case("k", record)]


def of_every_kind(record):
    """A record judged, advanced and counted."""
    return [rule_case(record), *advanced(record), count_case(record), utc_case(record)]


def seconds_cases(dice):
    """Records judged, advanced, stepped and counted in seconds: over month ends, out of the calendar, and of any kind."""
    for record in month_ends():
        yield from advanced(record)
    for record in one_number_changed():
        yield rule_case(record)
    for layout in STATUS_AS_6021 + STATUS_AS_5500:
        yield from advanced(Dated(layout, "radio", False, False, True, 7, 23, 59, 59, 31, 12, 2079))
    bad = [*bad_records(), *unnamed.bad_of_each_layout(), *second_60.bad_of_each_layout()]
    for record in [*one_of_each(), *bad] + [making.any_record(dice) for _ in range(100)]:
        yield from of_every_kind(record)
    for layout in STATUS_AS_6021 + STATUS_AS_5500:
        yield table_case(layout)


LAST_SECOND = days.SECONDS_PER_DAY * days.DAYS - 1


def utc_edges(dice):
    """The first hours of the calendar and its last second, in each season and in UTC; and local seconds from before its start in UTC
    to behind its end."""
    for hour, minute, second in ((0, 0, 0), (0, 30, 0), (0, 59, 59), (1, 0, 0), (1, 59, 59), (2, 0, 0), (23, 59, 59)):
        for daylight, utc in ((False, False), (True, False), (False, True), (True, True)):
            for record in (Dated("6021", "radio", daylight, False, utc, 2, hour, minute, second, 1, 1, 1980),
                           Dated("2000", "invalid", daylight, False, utc, 7, hour, minute, second, 31, 12, 2079)):
                yield count_case(record)
                yield utc_case(record)
    edges = [edge + shift + step for edge in (0, LAST_SECOND) for shift in (0, 3600, 7200) for step in (-1, 0, 1)]
    for local in [edge for edge in edges if 0 <= edge] + [4294967295] + [dice.randrange(2 ** 32) for _ in range(30)]:
        for daylight in (False, True):
            yield shift_case(local, daylight)
