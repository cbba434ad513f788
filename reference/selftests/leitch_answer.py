"""The Leitch answer."""

import datetime
import re

import days
import leitch
import leitch_cases
from days import Date
from leitch import Answer
from refusals import outcome
from selftests.checking import same


def leitch_read(text):
    """What an answer carries, or the number."""
    answer, number = outcome(leitch.read_answer, text)
    return number if answer is None else answer


def leitch_by_hand():
    """Answers put together from the manual's table by hand, and the number that each becomes with some characters changed."""
    april = Answer(20, 58, 41, 637, 1996, 4, 17, 108, 3, ord("C"))
    for text, answer in (
            (b"20:58:41.637 17/04/96 108 3 C\r\n", april),
            (b"12:34:56.000 03/01/96 003 3 A\r\n", Answer(12, 34, 56, 0, 1996, 1, 3, 3, 3, ord("A"))),
            (b"07:06:05.004 29/02/00 060 2 F\r\n", Answer(7, 6, 5, 4, 2000, 2, 29, 60, 2, ord("F"))),
            (b"00:00:00.000 01/01/80 001 2 0\r\n", Answer(0, 0, 0, 0, 1980, 1, 1, 1, 2, ord("0"))),
            (b"23:59:59.999 31/12/96 366 2 3\r\n", Answer(23, 59, 59, 999, 1996, 12, 31, 366, 2, ord("3"))),
            (b"23:59:59.999 31/12/79 365 7 B\r\n", Answer(23, 59, 59, 999, 2079, 12, 31, 365, 7, ord("B")))):
        buffer = bytearray(b"?" * 33)
        same("leitch", leitch_read(text), answer)
        same("leitch", (leitch.write_answer(answer, buffer), bytes(buffer)), (31, text + b"??"))
        same("leitch", leitch_read(text[:-2]), 1)
    for text, number in (
            (b"20:58:41.637 17/04/96 108 3 C\n\r", 3), (b"20:58.41.637 17/04/96 108 3 C\r\n", 3),
            (b"20:58:41:637 17/04/96 108 3 C\r\n", 3), (b"20:58:41.637 17.04.96 108 3 C\r\n", 3),
            (b"20:58:41.637 17/04/96 1 8 3 C\r\n", 4), (b"2A:58:41.637 17/04/96 108 0 C\r\n", 4),
            (b"20:58:41.637 17/04/96 108 0 C\r\n", 5), (b"20:58:41.637 17/04/96 108   C\r\n", 5),
            (b"20:58:41.637 17/04/96 108 3 4\r\n", 5), (b"20:58:60.637 17/04/96 108 3 G\r\n", 5),
            (b"30:58:41.637 17/04/96 108 3 C\r\n", 6), (b"23:59:60.000 30/06/97 181 1 C\r\n", 6),
            (b"20:58:41.637 17/13/96 108 3 C\r\n", 6), (b"20:58:41.637 00/04/96 108 3 C\r\n", 6),
            (b"20:58:41.637 31/04/96 122 3 C\r\n", 7), (b"20:58:41.637 29/02/99 060 1 C\r\n", 7),
            (b"20:58:41.637 17/04/96 109 4 C\r\n", 8), (b"20:58:41.637 18/04/96 108 3 C\r\n", 8),
            (b"20:58:41.637 17/04/96 107 3 C\r\n", 17), (b"20:58:41.637 17/04/96 000 3 C\r\n", 17),
            (b"20:58:41.637 17/04/96 999 3 C\r\n", 17), (b"20:58:41.637 31/12/99 366 5 C\r\n", 17)):
        same("leitch", (text, leitch_read(text)), (text, number))
    for changed, room, number in (
            ({}, 31, None), ({}, 30, 13), ({}, 0, 13), ({"status": ord("4")}, 31, 5), ({"weekday": 0}, 0, 5), ({"weekday": 8}, 31, 5),
            ({"millisecond": 1000}, 0, 6), ({"second": 60}, 31, 6), ({"year": 1979}, 31, 6), ({"year": 2080}, 31, 6),
            ({"day": 31}, 30, 7), ({"weekday": 4}, 30, 8), ({"day_of_year": 109}, 31, 17), ({"day_of_year": 109}, 30, 13),
            ({"day_of_year": 109, "weekday": 4}, 31, 8), ({"day_of_year": 65535, "millisecond": 65535}, 31, 6)):
        same("leitch", (changed, outcome(leitch.write_answer, april._replace(**changed), bytearray(room))[1]), (changed, number))


def every_date():
    """Every date of the calendar, in order."""
    for year in leitch_cases.CALENDAR_YEARS:
        for month in range(1, 13):
            yield from (Date(year, month, day) for day in range(1, days.days_in_month(year, month) + 1))


def leitch_every_day(dice):
    """Every day is written and reads back; what stands in a place of them all is what the table lists there."""
    there = [set() for _ in leitch.TABLE]
    for date in every_date():
        answer = leitch_cases.answer_on(dice, date)
        buffer = bytearray(dice.randbytes(40))
        before = bytes(buffer)
        same("leitch days", leitch.write_answer(answer, buffer), 31)
        same("leitch days", bytes(buffer[31:]), before[31:])
        same("leitch days", leitch_read(bytes(buffer[:31])), answer)
        for characters, byte in zip(there, buffer):
            characters.add(byte)
    for number, (characters, line_of_table) in enumerate(zip(there, leitch.TABLE), 1):
        same("leitch days", (number, bytes(sorted(characters))), (number, line_of_table.listed))
    same("leitch days", [number for number, _, _ in leitch.PRINTED], list(range(1, 32)))


PLACED = re.compile(rb"..:..:..\.... ../../.. ... . .\r\n", re.DOTALL)
WITH_DIGITS = re.compile(rb"([0-9]{2}):([0-9]{2}):([0-9]{2})\.([0-9]{3}) ([0-9]{2})/([0-9]{2})/([0-9]{2}) ([0-9]{3}) "
                         rb"(.) (.)\r\n", re.DOTALL)


def leitch_by_pattern(text):
    """What an answer carries, or the number, found without the table and with the calendar of the standard library."""
    if len(text) != 31:
        return 1
    if not PLACED.fullmatch(text):
        return 3
    found = WITH_DIGITS.fullmatch(text)
    if not found:
        return 4
    *digits, weekday, status = found.groups()
    if weekday not in (b"1", b"2", b"3", b"4", b"5", b"6", b"7") or status not in [bytes([byte]) for byte in b"0123ABCDEF"]:
        return 5
    hour, minute, second, millisecond, day, month, year, day_of_year = map(int, digits)
    year += 2000 if year < 80 else 1900
    if hour > 23 or minute > 59 or second > 59 or not 1 <= day <= 31 or not 1 <= month <= 12:
        return 6
    try:
        date = datetime.date(year, month, day)
    except ValueError:
        return 7
    if date.isoweekday() != int(weekday):
        return 8
    if date.timetuple().tm_yday != day_of_year:
        return 17
    return Answer(hour, minute, second, millisecond, year, month, day, day_of_year, int(weekday), status[0])


def leitch_texts(dice, rounds):
    """The bytes of the cases and more that are damaged: reading agrees with the pattern, and what reads is what the writer makes."""
    for text in [*leitch_cases.texts(dice)] + [leitch_cases.damaged_text(dice) for _ in range(rounds)]:
        got, buffer = leitch_read(text), bytearray(31)
        same("leitch texts", (text, got), (text, leitch_by_pattern(text)))
        if not isinstance(got, int):
            leitch.write_answer(got, buffer)
            same("leitch texts", bytes(buffer), text)


def leitch_faults(dice, rounds):
    """Of several faults brought about the lowest number is given, in the bytes and in the values, and a short buffer counts as 13.
    A refused write changes no byte."""
    for _ in range(rounds):
        for numbers, text in leitch_cases.several_faults(dice):
            same("leitch faults", leitch_read(text), min(numbers))
        for numbers, answer in leitch_cases.several_wrong(dice, leitch_cases.SHOWN_WRONG):
            same("leitch faults", leitch_read(leitch.text_of(answer)), min(numbers))
        for numbers, answer in leitch_cases.several_wrong(dice, leitch_cases.WRONG):
            for room in (0, 30, 31, 40):
                buffer = bytearray(dice.randbytes(room))
                before = bytes(buffer)
                wanted = min([*numbers, 13] if room < 31 else numbers)
                same("leitch faults", outcome(leitch.write_answer, answer, buffer), (None, wanted))
                same("leitch faults", bytes(buffer), before)


def leitch_writes(dice):
    """The writes of the cases: done, they read back, and nothing behind changes; refused, no byte changes."""
    for room, answer in leitch_cases.writes(dice):
        buffer = bytearray(dice.randbytes(room))
        before = bytes(buffer)
        used, number = outcome(leitch.write_answer, answer, buffer)
        if number is None:
            same("leitch writes", leitch_read(bytes(buffer[:31])), answer)
        same("leitch writes", (used or 0, bytes(buffer[used or 0:])), (0 if number else 31, before[used or 0:]))
