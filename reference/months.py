"""What the program `test_months` should print: a line for each month of the calendar, with what becomes of the seconds around a UTC
month's end on its first and its last day.

A line is the month and its groups, each with a space in front. A group is four answers with colons between them: whether the bare 6021
telegram of the time reads (0); its UTC seconds; what a station clock shows one step later; what is written with second advance. A
refusal is ! and its number. The two telegrams are printed without their LF CR.
"""

import collections
import itertools

import days
import records
import telegrams
from records import Dated
from refusals import outcome
from second_60 import MARKS
from telegrams import Setting

TIMES = [(hour, minute, second) for before, after in ((23, 0), (0, 1), (1, 2))
         for hour, minute, second in ((before, 59, 59), (before, 59, 60), (before, 59, 61), (after, 0, 0))]

PLAIN, ADVANCED = Setting(False, False), Setting(False, True)
TRAILER = b"\n\r"
SIZE = 16


# --- one group ---

def answer(value, refusal):
    """A value, or ! and the refusal's number."""
    return value if refusal is None else b"!%d" % refusal


def written(record, setting):
    """The characters of a telegram before its trailer, or its refusal."""
    buffer = bytearray(SIZE)
    _, refusal = outcome(telegrams.write_telegram, record, buffer, setting)
    return answer(bytes(buffer.removesuffix(TRAILER)), refusal)


def read(record):
    """The record that its own telegram reads as, or itself where it does not read; and the first answer."""
    found, refusal = outcome(telegrams.read_telegram, telegrams.telegram_of(record, False), False)
    return record if found is None else found, answer(b"0", refusal)


def utc_seconds(record):
    seconds, refusal = outcome(records.utc_seconds, record)
    return answer(seconds and b"%d" % seconds.count, refusal)


def stepped(record):
    later, refusal = outcome(records.step_clock, record)
    return answer(later and written(later, PLAIN), refusal)


def group(record):
    """The four answers."""
    found, reads = read(record)
    return b":".join([reads, utc_seconds(found), stepped(found), written(found, ADVANCED)])


# --- the lines ---

def records_of(start, end):
    """The records of a month from its first day number and that of the next month."""
    for number in (start, end - 1):
        date, weekday = days.date_of(number), days.weekday_of_number(number)
        for (daylight, utc), time in itertools.product(MARKS, TIMES):
            yield Dated("6021", "radio", daylight, False, utc, weekday, *time, date.day, date.month, date.year)


def months():
    """Each month with its records."""
    for start, end in zip(days.MONTH_STARTS, days.MONTH_STARTS[1:] + [days.DAYS]):
        yield days.date_of(start), list(records_of(start, end))


def lines():
    """Each line."""
    for first, shown in months():
        yield b"%04d-%02d" % (first.year, first.month) + b"".join(b" " + group(record) for record in shown) + b"\n"


# --- what has to occur ---

GOOD, REFUSED, NO_UTC, LAST, LAST_60 = (0, 0, 0, 0), (6, 6, 6, 6), (0, 12, 0, 0), (0, 0, 12, 12), (0, 12, 12, 12)


def refusals_of(text):
    """The refusals of a group, 0 where there is none."""
    return tuple(int(found[1:]) if found.startswith(b"!") else 0 for found in text.split(b":"))


def wanted(daylight, utc):
    """How often each second of a mark has which refusals. Of six seconds 60 in a month one is good, but the one before the calendar is
    not, and the one that ends it is followed by none. The calendar's first hours in local time have no UTC seconds."""
    count, hours = len(days.MONTH_STARTS), 0 if utc else 2 if daylight else 1
    return {
        (60, GOOD): count - 1, (60, LAST_60): int(utc), (60, REFUSED): 5 * count + (not utc), (61, REFUSED): 6 * count,
        (59, GOOD): 6 * count - hours - 1, (59, NO_UTC): hours, (59, LAST): 1, (0, GOOD): 6 * count - hours, (0, NO_UTC): hours,
    }


def check(made):
    """Fails where a line or a group is missing, or where something does not occur just as often as it should."""
    seen = {mark: collections.Counter() for mark in MARKS}
    for text, (_, shown) in zip(made, months(), strict=True):
        for found, record in zip(text.split()[1:], shown, strict=True):
            seen[record.daylight, record.utc][record.second, refusals_of(found)] += 1
    for mark in MARKS:
        if seen[mark] != collections.Counter(wanted(*mark)):
            raise AssertionError(f"months, daylight and UTC {mark}: {dict(seen[mark])}, wanted {wanted(*mark)}")
