"""The delivery log: accepted telegrams in blocks of 512 bytes, over a region of whole blocks that the caller lends.

A block has 15 slots of 32 bytes, then the number of slots used, zeros, and a check. Blocks and slots are counted from 0. Telegrams
are in as-printed order only.
"""

import functools
import operator
from typing import NamedTuple, Optional

from refusals import BAD_BLOCK, NO_FREE_SLOT, NO_TELEGRAM, WHOLE_BLOCKS, Refused, outcome
from telegrams import read_telegram

BLOCK = 512              # bytes of a block
SLOTS, SLOT = 15, 32     # slots of a block, bytes of a slot
COUNT_AT = 480           # the number of slots used
ZEROS_AT, CHECK_AT = 481, 510
PLACES = range(1, CHECK_AT + 1)   # of the bytes that the check is over, counted from 1
MODULUS = 65521


# --- the parts of a block ---

def slots_of(block):
    """The 15 slots."""
    return [block[SLOT * slot:SLOT * (slot + 1)] for slot in range(SLOTS)]


def used_of(block):
    """The slots that are used by the block's number: always the first ones."""
    return slots_of(block)[:block[COUNT_AT]]


def unused_of(block):
    """The others."""
    return slots_of(block)[block[COUNT_AT]:]


def telegram_in(slot):
    """As many bytes behind the length byte as it says."""
    return slot[1:1 + slot[0]]


def behind_telegram(slot):
    """What is left of the slot."""
    return slot[1 + slot[0]:]


def stored_check(block):
    """The last two bytes, low first."""
    return block[CHECK_AT] + 256 * block[CHECK_AT + 1]


def check_of(block):
    """The sum of each of the first 510 bytes times its place counted from 1, modulo 65,521."""
    return sum(map(operator.mul, block, PLACES)) % MODULUS


# --- the rules of a block ---

def check_fits(block):
    """The check that is stored is the sum, which is below 65,521."""
    return stored_check(block) == check_of(block)


def at_most_15_used(block):
    """There are no more slots to use."""
    return block[COUNT_AT] <= SLOTS


def lengths_fit(block):
    """In a used slot the telegram ends inside the slot."""
    return all(slot[0] < SLOT for slot in used_of(block))


@functools.lru_cache(maxsize=4096)
def reads_well(telegram):
    """A telegram that is accepted, with control characters, as printed."""
    return outcome(read_telegram, telegram, True)[1] is None


def telegrams_read(block):
    """In a used slot whose telegram ends inside it stands one that is accepted."""
    return all(reads_well(telegram_in(slot)) for slot in used_of(block) if slot[0] < SLOT)


def zeros_behind_telegrams(block):
    """In a used slot zeros stand behind the telegram."""
    return not any(any(behind_telegram(slot)) for slot in used_of(block))


def unused_all_zero(block):
    """An unused slot is all zero."""
    return not any(any(slot) for slot in unused_of(block))


def zeros_to_509(block):
    """Bytes 481 to 509 are zero."""
    return not any(block[ZEROS_AT:CHECK_AT])


RULES = (check_fits, at_most_15_used, lengths_fit, telegrams_read, zeros_behind_telegrams, unused_all_zero, zeros_to_509)


@functools.lru_cache(maxsize=4096)
def is_good(block):
    """Whether 512 bytes break none of the rules."""
    return all(holds(block) for holds in RULES)


# --- the region ---

class Place(NamedTuple):
    """Block and slot."""
    block: int
    slot: int


def check_whole(region):
    """19 where the region is not whole blocks."""
    if len(region) % BLOCK != 0:
        raise Refused(WHOLE_BLOCKS)


def block_at(region, block):
    """The bytes of a block."""
    return bytes(region[BLOCK * block:BLOCK * (block + 1)])


def blocks_of(region):
    """The whole blocks, in order."""
    return [block_at(region, block) for block in range(len(region) // BLOCK)]


def places_of(region):
    """Each slot of each good block, in order."""
    return [Place(number, slot) for number, block in enumerate(blocks_of(region)) if is_good(block) for slot in range(SLOTS)]


def is_used(region, place):
    """Whether a slot of a good block is used."""
    return place.slot < region[BLOCK * place.block + COUNT_AT]


def place_for_add(region):
    """The first free slot of a good block behind the last slot used in any good block, where one is used; 21 where there is none."""
    places = places_of(region)
    used = [at for at, place in enumerate(places) if is_used(region, place)]
    behind = places[used[-1] + 1:] if used else places
    if not behind:
        raise Refused(NO_FREE_SLOT)
    return behind[0]


# --- the calls ---

def add(region, telegram):
    """Puts a telegram into the region and gives its place: the telegram's own refusal, then 19, then 21. Refused, the region stays as
    it stood; otherwise one block's slot, number and check change."""
    read_telegram(telegram, True)
    check_whole(region)
    place = place_for_add(region)
    start = BLOCK * place.block
    slot = start + SLOT * place.slot
    region[slot] = len(telegram)
    region[slot + 1:slot + 1 + len(telegram)] = telegram
    region[start + COUNT_AT] += 1
    region[start + CHECK_AT:start + BLOCK] = check_of(block_at(region, place.block)).to_bytes(2, "little")
    return place


def read_back(region, block, slot):
    """The bytes of the telegram at a block and slot: 19, then 20 where that block is bad, then 27 where there is none."""
    check_whole(region)
    blocks = blocks_of(region)
    if block >= len(blocks):
        raise Refused(NO_TELEGRAM)
    if not is_good(blocks[block]):
        raise Refused(BAD_BLOCK)
    used = used_of(blocks[block])
    if slot >= len(used):
        raise Refused(NO_TELEGRAM)
    return telegram_in(used[slot])


class Verified(NamedTuple):
    """19, or 20 with the first bad block, or neither."""
    refusal: Optional[int]
    block: Optional[int]


def verify(region):
    """Whether the region is whole blocks and all of them are good."""
    if len(region) % BLOCK != 0:
        return Verified(WHOLE_BLOCKS, None)
    for number, block in enumerate(blocks_of(region)):
        if not is_good(block):
            return Verified(BAD_BLOCK, number)
    return Verified(None, None)
