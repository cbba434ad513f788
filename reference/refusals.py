"""Refusal numbers, and the rule that of several that hold the lowest is given."""

import functools

LENGTH = 1             # the length is none of the table's
FRAME = 2              # STX or ETX was wanted and is not at its end
FIXED_PLACE = 3        # a space, colon, point, slash, CR or LF of the layout is not in its place
DECIMAL_PLACE = 4      # a decimal place holds something other than 0 to 9
STATUS_OR_WEEKDAY = 5  # status or weekday that the layout does not allow
RANGE = 6              # hour, minute, second, day, month or year out of range
NO_SUCH_DAY = 7        # the month has no such day
WEEKDAY = 8            # the weekday is not the date's
STX_INSIDE = 9         # line: a telegram begins inside another
TOO_LONG = 10          # line: more bytes than any telegram has
ENDED_INSIDE = 11      # line: the line ended inside a telegram
CALENDAR = 12          # the result lies outside the calendar
BUFFER = 13            # the lent buffer is too short
NO_DATE = 14           # a date is needed and there is none
STATE = 15             # the reader's state is not well formed
SETTING = 16           # the board does not offer the setting, or does not list the switches
DAY_OF_YEAR = 17       # the day of the year is not the date's
REQUEST = 18           # the bytes are no request
WHOLE_BLOCKS = 19      # log: the region is not whole blocks
BAD_BLOCK = 20         # log: the block is bad
NO_FREE_SLOT = 21      # log: no free slot behind the last one used
NO_TELEGRAM = 27       # log: no telegram at that block and slot


class Refused(Exception):
    """A refusal. It carries its number and nothing else."""

    def __init__(self, number):
        super().__init__(number)
        self.number = number


@functools.cache
def rising(conditions):
    """Conditions in the order of their numbers."""
    return sorted(conditions, key=lambda condition: condition[0])


def lowest(conditions, *subject):
    """The lowest number whose condition holds for the subject, or None.

    A condition is a pair (number, test). They are tried in rising order, so a
    test may count on every lower one not holding.
    """
    for number, holds in rising(conditions):
        if holds(*subject):
            return number
    return None


def check(conditions, *subject):
    """Refuses the subject with the lowest number that holds, if there is one."""
    number = lowest(conditions, *subject)
    if number is not None:
        raise Refused(number)


def outcome(function, *arguments):
    """(value, None) where the function answers, (None, number) where it refuses."""
    try:
        return function(*arguments), None
    except Refused as refused:
        return None, refused.number
