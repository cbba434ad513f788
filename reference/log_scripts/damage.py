"""Blocks damaged in every way, and whole logs of good and bad ones."""

import itertools

import log
from log import BLOCK, CHECK_AT, COUNT_AT, SLOT, SLOTS, ZEROS_AT
from log_scripts.blocks import block_of, changed, fitted, good_telegram, refused_telegram, slot_of, with_check, with_slot
from log_scripts.kinds import OWN


def wrong_checks(dice, block):
    """Checks that do not fit, among them the right one with its bytes exchanged, and with 65,521 added where two bytes hold it."""
    low, high = block[CHECK_AT:]
    for wrong in ((low ^ 1, high), (low, high ^ 1), (low ^ 128, high), (low, high ^ 128), (low ^ 1, high ^ 1), (high, low),
                  (255, 255), (0, 0)):
        if wrong != (low, high):
            yield changed(block, CHECK_AT, *wrong)
    if log.check_of(block) + log.MODULUS < 65536:
        yield changed(block, CHECK_AT, *(log.check_of(block) + log.MODULUS).to_bytes(2, "little"))


def wrong_counts(dice, block):
    """Numbers that are not that of the used slots."""
    right = block[COUNT_AT]
    for wrong in sorted({0, right - 1, right + 1, 15, 16, 17, 128, 255, dice.randrange(256)} - {right}):
        yield fitted(block, COUNT_AT, wrong)


def wrong_telegrams(dice, block):
    """A used slot with a telegram that is refused: each number, and each slot, in turn."""
    slots = range(block[COUNT_AT])
    for turn in range(max(len(OWN), len(slots))):
        yield with_slot(block, slots[turn % len(slots)], slot_of(refused_telegram(dice, OWN[turn % len(OWN)])))


def wrong_lengths(dice, block):
    """A used slot with another length byte: each slot with a few, and in turn with one of many more."""
    many = itertools.cycle((0, 1, 8, 16, 25, 30, 31, 32, 128, 255, dice.randrange(256)))
    for slot in range(block[COUNT_AT]):
        right = block[SLOT * slot]
        for wrong in sorted({right - 1, right + 1, 33, next(many), next(many)} - {right}):
            yield fitted(block, SLOT * slot, wrong)


def unused_slots(count):
    """The first two unused slots and the last, as far as there are any."""
    return sorted({count, count + 1, SLOTS - 1} & set(range(count, SLOTS)))


def behind_telegram(block, slot):
    """The first two places behind the telegram of a slot, and the last."""
    first = SLOT * slot + 1 + block[SLOT * slot]
    return first, first + 1, SLOT * slot + SLOT - 1


def wrong_zeros(dice, block):
    """Something behind a telegram, in an unused slot, or behind the number. A full block has each used slot, and one with a single
    telegram each unused slot and each place behind the number; any other has some."""
    count = block[COUNT_AT]
    for slot in range(count) if count == SLOTS else sorted({0, count - 1}):
        yield fitted(block, dice.choice(behind_telegram(block, slot)), dice.randrange(1, 256))
    for at in behind_telegram(block, count - 1):
        yield fitted(block, at, dice.randrange(1, 256))
    for slot in range(count, SLOTS) if count == 1 else unused_slots(count):
        yield fitted(block, SLOT * slot + dice.randrange(SLOT), dice.choice([1, 10, 255]))
    for slot, at in itertools.product(unused_slots(count), (0, 15, SLOT - 1)):
        yield fitted(block, SLOT * slot + at, dice.choice([1, 10, 255]))
    for at in range(ZEROS_AT, CHECK_AT) if count == 1 else (ZEROS_AT, CHECK_AT - 1):
        yield fitted(block, at, dice.choice([1, 128, 255, dice.randrange(1, 256)]))


def wrong_slots(dice, block):
    """A gap between used slots, counted or not; a telegram in an unused slot, the next one or another."""
    count = block[COUNT_AT]
    for slot in sorted({0, count // 2, count - 2}):
        yield with_slot(block, slot, bytes(SLOT))
        yield fitted(with_slot(block, slot, bytes(SLOT)), COUNT_AT, count - 1)
    for slot in unused_slots(count):
        yield with_slot(block, slot, slot_of(good_telegram(dice)))


DAMAGES = (wrong_checks, wrong_counts, wrong_telegrams, wrong_lengths, wrong_zeros, wrong_slots)


def damaged_blocks(dice, block):
    """Every kind of damage of a good block with some telegrams."""
    for kind in DAMAGES:
        yield from kind(dice, block)


def damaged_empty_blocks(dice, block):
    """The same of an empty block, which has no used slot."""
    yield from wrong_checks(dice, block)
    yield from (fitted(block, COUNT_AT, wrong) for wrong in (1, 2, 15, 16, 255))
    yield from (fitted(block, SLOT * slot + at, 1) for slot, at in itertools.product((0, 1, 7, 14), (0, 1, 31)))
    yield with_slot(block, 0, slot_of(good_telegram(dice)))
    yield with_slot(block, 14, slot_of(good_telegram(dice)))


def rubbish(dice, block):
    """Blocks that are none at all, with a check that fits and without."""
    telegram = good_telegram(dice)
    for content in (bytes([255]) * BLOCK, dice.randbytes(BLOCK), block[1:] + block[:1], (telegram * 60)[:BLOCK]):
        yield from (content, with_check(content))


# --- whole logs ---

def some_block(dice):
    """A block of any kind."""
    good = block_of([good_telegram(dice) for _ in range(dice.randrange(1, SLOTS + 1))])
    kind = dice.random()
    if kind < 0.6:
        return good
    if kind < 0.7:
        return bytes(BLOCK)
    return dice.choice(list(dice.choice([*DAMAGES, rubbish])(dice, good)))


def some_log(dice, blocks):
    """A log of so many blocks of any kind, now and then with more bytes behind them."""
    kept = b"".join(some_block(dice) for _ in range(blocks))
    return kept + dice.randbytes(dice.choice([0, 0, 1, 100, BLOCK - 1]))
