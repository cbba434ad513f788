"""Telegrams that a log takes or refuses, and the blocks that they make."""

import functools
import itertools

import layouts
import log
import making
import second_60
from log import CHECK_AT, COUNT_AT, SLOT, ZEROS_AT
from log_scripts import kinds


def good_telegram(dice, layout=None):
    """An accepted telegram, of a layout if it is named, now and then with second 60."""
    while True:
        record = (second_60.good_by_dice if dice.random() < 0.1 else making.good_record)(dice)
        if layout in (None, record.layout):
            return making.telegram_of(record, True)


def of_all_layouts(dice, number):
    """So many accepted telegrams, layout after layout."""
    return [good_telegram(dice, layout) for layout in itertools.islice(itertools.cycle(layouts.LAYOUTS), number)]


REFUSED = {
    1: [b"", b"\x02", b"\x02\x03", b"\x02E312345617049\n\r\x03", b"\x02E31234561704966\n\r\x03", b"E3123456170496\n\r", b"\x02" * 31,
        b"\x02E3123456170496\n\r\x03\x00", b"\x02235959\n\x03", b"\x02U\x03"],
    2: [b"\x03E3123456170496\n\r\x03", b"\x02E3123456170496\n\r\x02", b"E312345617041996\n\r", b"\x00235959\n\r\x03",
        b"\x02235959\r\n\x00"],
    3: [b"\x02E3123456170496\r\n\x03", b"\x021 123456 030196 3\n\r\x03", b"\x02235959\n\n\x03", b"\x0223:59:59 \r\n\x03"],
    4: [b"\x02E312345617049A\n\r\x03", b"\x022359 9\r\n\x03", b"\x02C32b345603011996\n\r\x03"],
    5: [b"\x02G3123456170496\n\r\x03", b"\x02E0123456170496\n\r\x03", b"\x02A 123456 030196 3\r\n\x03",
        b"\x02E8123456170496\n\r\x03"],
    6: [b"\x02240000\n\r\x03", b"\x02E3126056170496\n\r\x03", b"\x02C6235960311216\n\r\x03", b"\x02E3123456171396\n\r\x03"],
    7: [b"\x02C6120000290297\n\r\x03", b"\x02C6120000310496\n\r\x03", b"\x02C612000030022000\n\r\x03"],
    8: [b"\x02E4123456170496\n\r\x03", b"\x0212 34 56 03 01 96 14 \r\n\x03", b"\x02C1005960010117\n\r\x03"],
}

# They would fit in no slot.
REFUSED_LONG = [b"\x02" + b"1" * 29 + b"\n\r\x03", b"\x02E3123456170496\n\r\x03" * 2, bytes(255)]


def refused_telegram(dice, number):
    """A telegram that is refused with a number and fits in a slot."""
    if dice.random() < 0.5:
        return dice.choice(REFUSED[number])
    while True:
        telegram = making.some_telegram(dice, True)
        if kinds.refusal_of(telegram) == number and len(telegram) < SLOT:
            return telegram


# --- blocks ---

def slot_of(telegram):
    """A length byte, the telegram, zeros."""
    return (bytes([len(telegram)]) + telegram).ljust(SLOT, b"\0")


def with_check(block):
    """A block with the check that fits."""
    return bytes(block[:CHECK_AT]) + log.check_of(block).to_bytes(2, "little")


def block_of(telegrams):
    """The block that some telegrams make."""
    slots = b"".join(map(slot_of, telegrams)).ljust(COUNT_AT, b"\0")
    return with_check(slots + bytes([len(telegrams)]) + bytes(CHECK_AT - ZEROS_AT))


def changed(block, at, *values):
    """A block with some bytes changed from a place on, and no other check."""
    return block[:at] + bytes(values) + block[at + len(values):]


def fitted(block, at, *values):
    """The same with the check made to fit."""
    return with_check(changed(block, at, *values))


def with_slot(block, slot, content):
    """A block with another slot and the check made to fit."""
    return fitted(block, SLOT * slot, *content)


@functools.cache
def times_by_sum(slot):
    """The times of an hour, each by what it adds to the check in a slot."""
    times = [b"\x0212%02d%02d\n\r\x03" % time for time in itertools.product(range(60), range(60))]
    return {log.check_of(bytes(SLOT * slot) + slot_of(telegram)): telegram for telegram in times}


def with_sum(dice, check, numbers):
    """One of some numbers of telegrams, and one more, whose block has a check. The last one is looked up."""
    while True:
        some = [good_telegram(dice) for _ in range(dice.choice(numbers))]
        rest = log.check_of(block_of([*some, b""]))
        last = times_by_sum(len(some)).get((check - rest) % log.MODULUS)
        if last:
            return [*some, last]
