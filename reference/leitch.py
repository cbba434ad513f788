"""The answer to a Leitch generator: the 31 characters of source document 000, section 6.5.

It has no STX and no ETX, its trailer is CR LF, and nothing of it can be set.
"""

from typing import NamedTuple

import days
from days import Date, Time
from layouts import STATUS, WEEKDAY, Decimal, is_decimal
from refusals import (BUFFER, DAY_OF_YEAR, DECIMAL_PLACE, FIXED_PLACE, LENGTH, NO_SUCH_DAY, RANGE, STATUS_OR_WEEKDAY,
                      WEEKDAY as WEEKDAY_DISAGREES, check)
from telegrams import DIGIT_0, DIGIT_9, full_year


class Answer(NamedTuple):
    hour: int
    minute: int
    second: int
    millisecond: int
    year: int         # all four digits
    month: int
    day: int
    day_of_year: int  # 1 on 1 January
    weekday: int      # 1 Monday to 7 Sunday
    status: int       # the character as it stands, unexplained


# --- the manual's table ---

FIXED = "fixed"


def hundreds(field):
    """The manual's "100th"."""
    return Decimal(field, 100)


def tens(field):
    return Decimal(field, 10)


def unit(field):
    return Decimal(field, 1)


# Character number, meaning, value range. The manual ends the day tens at 32, a slip by document 02, which allows 33; what it calls a
# 100th is a hundred.
PRINTED = (
    (1, tens("hour"), "30-32"),
    (2, unit("hour"), "30-39"),
    (3, FIXED, "3A"),
    (4, tens("minute"), "30-35"),
    (5, unit("minute"), "30-39"),
    (6, FIXED, "3A"),
    (7, tens("second"), "30-35"),
    (8, unit("second"), "30-39"),
    (9, FIXED, "2E"),
    (10, hundreds("millisecond"), "30-39"),
    (11, tens("millisecond"), "30-39"),
    (12, unit("millisecond"), "30-39"),
    (13, FIXED, "20"),
    (14, tens("day"), "30-33"),
    (15, unit("day"), "30-39"),
    (16, FIXED, "2F"),
    (17, tens("month"), "30-31"),
    (18, unit("month"), "30-39"),
    (19, FIXED, "2F"),
    (20, tens("short_year"), "30-39"),
    (21, unit("short_year"), "30-39"),
    (22, FIXED, "20"),
    (23, hundreds("day_of_year"), "30-33"),
    (24, tens("day_of_year"), "30-39"),
    (25, unit("day_of_year"), "30-39"),
    (26, FIXED, "20"),
    (27, WEEKDAY, "31-37"),
    (28, FIXED, "20"),
    (29, STATUS, "30-33, 41-46"),
    (30, FIXED, "0D"),
    (31, FIXED, "0A"),
)


class Character(NamedTuple):
    """A line of the table: what the character means, and the characters that are listed for it."""
    meaning: object   # FIXED, a Decimal, WEEKDAY or STATUS
    listed: bytes


def listed(values):
    """The characters of a value range, or of several with a comma between them; the numbers are hexadecimal."""
    characters = []
    for value in values.split(", "):
        first, last = (int(end, 16) for end in (value[:2], value[-2:]))
        characters += range(first, last + 1)
    return bytes(characters)


TABLE = tuple(Character(meaning, listed(values)) for _, meaning, values in PRINTED)
SIZE = len(TABLE)


def place_of(meaning):
    """Where the one character of a meaning stands, counted from 0."""
    return [character.meaning for character in TABLE].index(meaning)


WEEKDAY_PLACE, STATUS_PLACE = place_of(WEEKDAY), place_of(STATUS)
STATUSES = TABLE[STATUS_PLACE].listed


# --- the refusal rule of an answer ---

def time_of(answer):
    """The time without its milliseconds."""
    return Time(answer.hour, answer.minute, answer.second)


def date_of(answer):
    """The date without its weekday and its day of the year."""
    return Date(answer.year, answer.month, answer.day)


def status_or_weekday_not_allowed(answer):
    """Condition 5: a status that is not listed, or a weekday that is none of 1 to 7."""
    return answer.status not in STATUSES or not 1 <= answer.weekday <= 7


def out_of_range(answer):
    """Condition 6: the time, whose seconds end at 59; the milliseconds, which end at 999; the date."""
    return (days.time_out_of_range(time_of(answer)) or not 0 <= answer.millisecond <= 999
            or days.date_out_of_range(date_of(answer)))


def no_such_day(answer):
    """Condition 7: the month has no such day."""
    return days.no_such_day(date_of(answer))


def weekday_disagrees(answer):
    """Condition 8: the calendar has another weekday for the date."""
    return days.weekday_of(date_of(answer)) != answer.weekday


def day_of_year_disagrees(answer):
    """Condition 17: the calendar has another day of the year for the date."""
    return days.day_of_year(date_of(answer)) != answer.day_of_year


ANSWER_CONDITIONS = (
    (STATUS_OR_WEEKDAY, status_or_weekday_not_allowed),
    (RANGE, out_of_range),
    (NO_SUCH_DAY, no_such_day),
    (WEEKDAY_DISAGREES, weekday_disagrees),
    (DAY_OF_YEAR, day_of_year_disagrees),
)


# --- reading ---

def length_wrong(text):
    """Condition 1: not 31 characters."""
    return len(text) != SIZE


def fixed_place_wrong(text):
    """Condition 3: some colon, point, slash, space, CR or LF is not in its place."""
    return any(byte not in character.listed for character, byte in zip(TABLE, text) if character.meaning == FIXED)


def decimal_place_wrong(text):
    """Condition 4: some decimal place holds no digit. Which digits it may hold is a matter of 6 and 17."""
    return any(not DIGIT_0 <= byte <= DIGIT_9 for character, byte in zip(TABLE, text) if is_decimal(character.meaning))


def status_or_weekday_wrong(text):
    """Condition 5: a status or a weekday character that is not listed."""
    return any(byte not in character.listed for character, byte in zip(TABLE, text) if character.meaning in (STATUS, WEEKDAY))


READING_CONDITIONS = (
    (LENGTH, length_wrong),
    (FIXED_PLACE, fixed_place_wrong),
    (DECIMAL_PLACE, decimal_place_wrong),
    (STATUS_OR_WEEKDAY, status_or_weekday_wrong),
)


def answer_of(text):
    """What 31 characters carry, once none of 1 to 5 holds."""
    numbers = {}
    for character, byte in zip(TABLE, text):
        if is_decimal(character.meaning):
            field, size = character.meaning
            numbers[field] = numbers.get(field, 0) + size * (byte - DIGIT_0)
    numbers["year"] = full_year(numbers.pop("short_year"))
    return Answer(weekday=text[WEEKDAY_PLACE] - DIGIT_0, status=text[STATUS_PLACE], **numbers)


def read_answer(text):
    """What an answer carries, or the lowest of 1, 3 to 8 and 17 that holds."""
    check(READING_CONDITIONS, text)
    answer = answer_of(text)
    check(ANSWER_CONDITIONS, answer)
    return answer


# --- writing ---

def numbers_to_write(answer):
    """The fields by the names the decimal places use, weekday and status among them."""
    return {**answer._asdict(), "short_year": answer.year % 100}


def byte_at(character, numbers):
    """What the writer puts in one place."""
    if character.meaning == FIXED:
        return character.listed[0]
    if character.meaning == STATUS:
        return numbers["status"]
    if character.meaning == WEEKDAY:
        return DIGIT_0 + numbers["weekday"]
    field, size = character.meaning
    return DIGIT_0 + numbers[field] // size % 10


def text_of(answer):
    """The 31 characters of a good answer."""
    numbers = numbers_to_write(answer)
    return bytes(byte_at(character, numbers) for character in TABLE)


def of_the_answer(holds):
    """A condition of an answer, where a buffer is judged with it."""
    return lambda answer, buffer: holds(answer)


def buffer_too_short(answer, buffer):
    """Condition 13: fewer than 31 bytes are lent."""
    return len(buffer) < SIZE


WRITING_CONDITIONS = (*((number, of_the_answer(holds)) for number, holds in ANSWER_CONDITIONS), (BUFFER, buffer_too_short))


def write_answer(answer, buffer):
    """Writes at the buffer's beginning and gives the length, 31.

    Refused with the lowest of 5 to 8, 13 and 17 the buffer stays as it was; otherwise only the 31 bytes change.
    """
    check(WRITING_CONDITIONS, answer, buffer)
    buffer[:SIZE] = text_of(answer)
    return SIZE
