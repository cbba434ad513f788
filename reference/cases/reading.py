"""Telegrams to read."""

import itertools

import making
import manual_examples
import trailers
import unnamed
from cases.one_case import read_case
from layouts import AS_PRINTED, LAYOUTS, STATUS, STATUS_AS_5500, STATUS_AS_6021, WEEKDAY
from status import HEX_DIGITS


def without_frame(telegram):
    """A telegram without its STX and ETX, where it has them."""
    return telegram[1:-1] if telegram[:1] == b"\x02" and telegram[-1:] == b"\x03" else telegram


def manual_cases():
    """Every example of the manuals, as printed and without control characters. manual_examples.py says where a manual's
    own explanation of its example is wrong; what is expected here is what the tables say."""
    for example in manual_examples.EXAMPLES:
        yield read_case(example.telegram, True)
        yield read_case(without_frame(example.telegram), False)


def every_code():
    """Each dated layout with every status character and every weekday character that four bits have, and with small letters."""
    for layout, place, byte in itertools.product(STATUS_AS_6021 + STATUS_AS_5500, (STATUS, WEEKDAY), HEX_DIGITS + b"abcdef"):
        telegram = trailers.GOOD[layout] + trailers.PRINTED[layout]
        yield read_case(making.with_byte(telegram, LAYOUTS[layout].index(place), byte), False)


def damaged_cases(dice):
    """Telegrams of every layout, of bad records, whole and damaged, read in both modes."""
    for control in (True, False):
        for telegram in unnamed.shown_ones(control, AS_PRINTED):
            yield read_case(telegram, control)
    for _ in range(200):
        control = dice.random() < 0.5
        yield read_case(making.some_telegram(dice, control), control)
