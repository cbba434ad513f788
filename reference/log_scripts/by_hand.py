"""Scripts that are no matter of dice, but for the telegrams in them."""

import itertools

import log
from log import BLOCK, CHECK_AT, COUNT_AT, SLOT, SLOTS, ZEROS_AT
from log_scripts.blocks import (REFUSED, REFUSED_LONG, block_of, good_telegram, of_all_layouts, refused_telegram, with_check,
                                with_sum)
from log_scripts.damage import damaged_blocks, damaged_empty_blocks, wrong_checks, wrong_counts
from log_scripts.kinds import EDGES, NUMBERS, ODD_LENGTHS, OWN
from log_scripts.script import LONGEST, Script


def fill(script, dice, counts):
    """Puts so many telegrams into each block. An add goes behind all that is used in good blocks, so each block is spoiled until the
    last is done."""
    for number, count in enumerate(counts):
        for telegram in of_all_layouts(dice, count):
            script.add(telegram)
        script.poke(BLOCK * number + ZEROS_AT, 1)
    for number in range(len(counts)):
        script.poke(BLOCK * number + ZEROS_AT, 0)


def filled(dice, counts):
    """A script whose blocks hold so many telegrams."""
    script = Script(BLOCK * len(counts))
    fill(script, dice, counts)
    return script


def to_full(dice):
    """Regions of 0 to 8 blocks: adds until one of up to 4 blocks is full, and some more, or a few; then the last block is damaged."""
    for blocks in range(9):
        script = Script(BLOCK * blocks)
        script.verify()
        script.read_all()
        for telegram in of_all_layouts(dice, SLOTS * blocks if blocks <= 4 else 3):
            script.add(telegram)
        script.verify()
        script.read_all()
        if blocks <= 4:
            for telegram in of_all_layouts(dice, 7):
                script.add(telegram)
        if blocks:
            script.poke(BLOCK * blocks - 1, 255)
            script.verify()
        yield script


def refused_adds(script, dice):
    """Every telegram by hand that is refused, and one by dice for each number."""
    for number in OWN:
        for telegram in [*REFUSED[number], refused_telegram(dice, number)]:
            script.add(telegram)
    for telegram in REFUSED_LONG:
        script.add(telegram)


def filled_odd(dice, counts, more):
    """The same in a region that is so much longer, where adds are refused."""
    script = Script(BLOCK * len(counts) + more)
    for number, count in enumerate(counts):
        script.put(number, block_of(of_all_layouts(dice, count)))
    return script


def of_every_kind(dice):
    """Regions with room, full ones, odd ones, one of no blocks, and ones whose blocks are all bad."""
    for counts in ((), (0,), (15, 3), (15,), (15, 15)):
        yield filled(dice, counts)
    for counts, more in (((), 1), ((), 511), ((2,), 1), ((15,), 100)):
        yield filled_odd(dice, counts, more)
    for counts in ((0,), (15, 3)):
        script = filled(dice, counts)
        for number in range(len(counts)):
            script.poke(BLOCK * number + COUNT_AT, 99)
        yield script


def refused_telegrams(dice):
    """Telegrams that are refused, into regions of every kind, and a good one behind them."""
    for script in of_every_kind(dice):
        refused_adds(script, dice)
        script.add(good_telegram(dice))
        script.verify()
        yield script


def gaps(dice):
    """Free slots before the last one used stay as they are; adds go on behind it until the region is full."""
    for counts in ((0, 1), (0, 0, 14), (3, 1, 0), (1, 14), (14, 15), (7, 0, 13), (0, 15, 0), (15, 0, 12), (0, 0, 0, 2), (5, 15)):
        script = filled(dice, counts)
        script.verify()
        for telegram in of_all_layouts(dice, 18):
            script.add(telegram)
        script.verify()
        script.read_all()
        yield script


# Each block is good with so many telegrams, or bad (None).
BESIDE_BAD_ONES = (
    (None,), (None, None), (None, None, None, None), (None, 0), (0, None), (None, 3), (3, None), (15, None), (15, None, None),
    (15, None, 0), (15, None, None, 0), (15, None, 2), (None, 15), (None, 15, 0), (15, 15, None, 0), (14, None), (14, None, 0),
    (0, None, 0), (None, 0, None, 0), (4, None, 15, None), (4, None, 15, None, 0), (None, 0, None), (2, None, 0, None, 15))


def beside_bad_ones(dice):
    """Adds and reads where some blocks are bad, each in its own way; then all of them are made good again."""
    for counts in BESIDE_BAD_ONES:
        script = filled(dice, [dice.choice([0, 2, 15]) if count is None else count for count in counts])
        spoiled = {}
        for number in (number for number, count in enumerate(counts) if count is None):
            place = BLOCK * number + dice.randrange(BLOCK)
            spoiled[place] = script.region[place]
            script.poke(place, script.region[place] ^ dice.randrange(1, 256))
        script.verify()
        script.read_all()
        for telegram in of_all_layouts(dice, 3):
            script.add(telegram)
        script.verify()
        for place, byte in spoiled.items():
            script.poke(place, byte)
            script.verify()
        for telegram in of_all_layouts(dice, 2):
            script.add(telegram)
        yield script


# --- damage ---

def after_damage(script, dice, number):
    """What is asked once a block is damaged: verify, some slots, and now and then an add, which is taken away again."""
    before = log.blocks_of(script.region)
    script.verify()
    if dice.random() < 0.2:
        script.read_around(number)
    script.read(number, dice.choice([1, 2, 2 ** 64 - 1]))
    place = script.add(good_telegram(dice)) if dice.random() < 0.1 else None
    if place is not None:
        script.put(place.block, before[place.block])


def damaged_in_turn(dice, counts, number, damage):
    """A script whose blocks hold so many telegrams, with one of them damaged in one way after the other, and then good again."""
    script = filled(dice, counts)
    good = log.block_at(script.region, number)
    for damaged in damage(dice, good):
        script.put(number, damaged)
        after_damage(script, dice, number)
    script.put(number, good)
    script.verify()
    return script


def damages(dice):
    """Every kind of damage of a block with some telegrams, of one with a single one, of a full one and of an empty one: the first
    block, a middle one, the last. In a full block elsewhere the number."""
    for counts, number in (((5, 3, 0), 0), ((15, 1, 0), 1), ((1, 1, 15), 2)):
        yield damaged_in_turn(dice, counts, number, damaged_blocks)
    for counts, number in (((15, 1, 0), 0), ((2, 15, 1), 1)):
        yield damaged_in_turn(dice, counts, number, wrong_counts)
    for counts, number in (((0, 1, 0), 0), ((2, 0, 1), 1), ((1, 15, 0), 2)):
        yield damaged_in_turn(dice, counts, number, damaged_empty_blocks)


def beyond_the_modulus(dice):
    """Blocks whose check is small enough to hold 65,521 more: each such check is bad, and so is 65,521 where the check is 0."""
    for some in ([], *(with_sum(dice, check, numbers) for check, numbers in (
            (0, range(3, 14)), (1, [14]), (14, range(3, 14)), (14, [14]), (15, range(3, 14)), (65520, range(3, 14))))):
        block = block_of(some)
        script = Script(2 * BLOCK)
        for telegram in some:
            script.add(telegram)
        script.verify()
        for damaged in wrong_checks(dice, block):
            script.put(0, damaged)
            after_damage(script, dice, 0)
        script.put(0, block)
        script.verify()
        script.read_all()
        yield script


def moved_blocks(dice, block):
    """A block that has moved by a byte, with a check that fits and without."""
    moved = block[1:] + block[:1]
    return moved, with_check(moved)


def any_block(dice, block):
    """Any bytes, with a check that fits."""
    return [with_check(dice.randbytes(BLOCK))]


def rubbish_blocks(dice):
    """Blocks that are none at all, in the middle."""
    for damage in (moved_blocks, any_block):
        script = filled(dice, (2, 6, 1))
        for block in damage(dice, log.block_at(script.region, 1)):
            script.put(1, block)
            after_damage(script, dice, 1)
        yield script


def other_values(dice, at, byte):
    """What a byte is changed to: something else, and at some places each of its bits."""
    yield byte ^ dice.randrange(1, 256)
    if at in EDGES:
        yield from (byte ^ 1 << bit for bit in range(8))


def single_bytes(dice):
    """Every byte of a block is changed and changed back."""
    for counts, number in (((3, 6, 2), 1), ((15, 4), 0), ((2, 0), 1)):
        script = filled(dice, counts)
        script.verify()
        for at in range(BLOCK):
            place = BLOCK * number + at
            right = script.region[place]
            for wrong in other_values(dice, at, right):
                script.poke(place, wrong)
                script.verify()
                if at % SLOT == 0:
                    script.read(number, dice.randrange(SLOTS))
                    script.read(1 - number, dice.randrange(4))
                script.poke(place, right)
                script.verify()
        yield script


# --- regions, numbers and bytes that are out of the ordinary ---

def odd_lengths(dice):
    """Regions that are not whole blocks; whatever is asked, 19 comes first."""
    for length in ODD_LENGTHS:
        script = Script(length)
        script.verify()
        script.add(good_telegram(dice))
        for block, slot in itertools.product((0, length // BLOCK, 2 ** 64 - 1), (0, 15)):
            script.read(block, slot)
        for number in range(min(2, length // BLOCK)):
            script.put(number, block_of(of_all_layouts(dice, number + 1)))
        script.poke(length - 1, 7)
        script.poke(length, 7)
        script.verify()
        script.read_all()
        script.add(good_telegram(dice))
        if length >= BLOCK:
            script.poke(ZEROS_AT, 1)
            script.verify()
            script.read_all()
            script.add(good_telegram(dice))
        yield script


def numbers(dice):
    """Every number of a block with every number of a slot where a block is bad, else some of them; and the numbers around that of the
    blocks."""
    for counts, bad in (((), None), ((15,), None), ((2,), 0), ((15, 15), None), ((0, 3), None), ((15, 1, 0), 1), ((1,) * 8, None)):
        script = filled(dice, counts)
        if bad is not None:
            script.poke(BLOCK * bad + CHECK_AT, script.region[BLOCK * bad + CHECK_AT] ^ 1)
        others = itertools.chain(itertools.product(NUMBERS, (0, 15)), itertools.product((0, len(counts)), NUMBERS))
        for block, slot in others if bad is None else itertools.product(NUMBERS, NUMBERS):
            script.read(block, slot)
        for block, slot in itertools.product(range(max(len(counts) - 1, 0), len(counts) + 2), (0, 1, 2, 3, 13, 14, 15, 16)):
            script.read(block, slot)
        yield script


def pokes(dice):
    """Bytes where the region has none, bytes that are there already, and the whole of a short region."""
    for length in (0, 1, 33, BLOCK, LONGEST):
        script = Script(length)
        for place in (0, length // 2, max(length - 1, 0), length, length + 1, LONGEST - 1, LONGEST, 65535):
            script.poke(place, 0)
            script.poke(place, 170)
            script.poke(place, 170)
        script.verify()
        script.new(length)
        script.verify()
        yield script


def by_hand(dice):
    """All scripts that are no matter of dice, but for the telegrams in them."""
    for kind in (to_full, refused_telegrams, gaps, beside_bad_ones, damages, beyond_the_modulus, rubbish_blocks, single_bytes,
                 odd_lengths, numbers, pokes):
        yield from kind(dice)
