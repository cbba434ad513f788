"""What the scripts have to meet, found from the region before each operation and from what came of it."""

import layouts
import log
from telegrams import layout_of

OWN = range(1, 9)   # the refusals of a telegram

# Numbers of a block or a slot. 2^55 blocks are 2^64 bytes, and so are 2^59 slots.
NUMBERS = (0, 1, 14, 15, 16, 255, 256, 2 ** 16, 2 ** 31, 2 ** 32 - 1, 2 ** 32, 2 ** 55 - 1, 2 ** 55, 2 ** 55 + 1, 2 ** 59,
           2 ** 59 + 1, 2 ** 63, 2 ** 64 - 1)
ODD_LENGTHS = (1, 31, 32, 480, 511, 513, 1000, 1023, 1025, 1535, 1537, 4095)

# Places where every bit is changed.
EDGES = (0, 1, 31, 32, 479, 480, 481, 509, 510, 511)


# --- a block ---

STATES = ("empty", "some", "full")


def filled(block):
    """How full a block says it is."""
    count = block[log.COUNT_AT]
    return "full" if count == log.SLOTS else "some" if count else "empty"


def broken(block):
    """The names of the rules that a block breaks."""
    return [rule.__name__ for rule in log.RULES if not rule(block)]


def refusal_of(telegram):
    """What a telegram is refused with, or None."""
    return log.outcome(log.read_telegram, telegram, True)[1]


def slot_holds(slot):
    """A slot with a length byte, a telegram that is accepted, and zeros."""
    return slot[0] < log.SLOT and log.reads_well(log.telegram_in(slot)) and not any(log.behind_telegram(slot))


def faults_of_check(block):
    """How a check differs from the right one."""
    stored, right = log.stored_check(block), log.check_of(block)
    if stored == right + log.MODULUS:
        yield "the sum and 65,521", filled(block)
    elif stored % 256 == right % 256:
        yield "high byte of the check"
    elif stored // 256 == right // 256:
        yield "low byte of the check"
    else:
        yield "both bytes of the check"


def faults_of_count(block):
    """Where the number is not that of the first slots that hold a telegram, and nothing but zeros stands in the others."""
    slots, count = log.slots_of(block), block[log.COUNT_AT]
    held = [slot_holds(slot) for slot in slots]
    first = held.index(False) if False in held else log.SLOTS
    if not any(any(slot) for slot in slots[first:]) and count != first:
        yield "number", count if count > log.SLOTS else count - first


def with_length(slot, length):
    """A slot with another length byte."""
    return bytes([length]) + slot[1:]


def faults_of_slot(slot):
    """What is wrong in a used slot."""
    if slot_holds(slot):
        return
    yield "length byte", slot[0]
    if slot[0] < log.SLOT:
        yield "telegram", refusal_of(log.telegram_in(slot))
    if slot[0] > 0 and slot_holds(with_length(slot, slot[0] - 1)):
        yield "one more"
    if slot[0] < 255 and slot_holds(with_length(slot, slot[0] + 1)):
        yield "one less"
    behind = log.behind_telegram(slot)
    if any(behind):
        yield "behind a telegram", "first" if behind[0] else "last" if behind[-1] else "between"


def faults_of_unused(slots):
    """What stands in the unused slots: the first, the last or another; its first byte, its last or another."""
    for number, slot in enumerate(slots):
        for at, byte in enumerate(slot):
            if byte:
                yield ("unused", "first" if number == 0 else "last" if number == len(slots) - 1 else "between",
                       "first" if at == 0 else "last" if at == log.SLOT - 1 else "between")


def faults_of_gap(block):
    """An unused slot between used ones, with and without its being counted."""
    slots, count = log.slots_of(block), block[log.COUNT_AT]
    there = [at for at, slot in enumerate(slots) if slot_holds(slot)]
    gap = there and len(there) < there[-1] + 1 and not any(any(slot) for at, slot in enumerate(slots) if at not in there)
    if gap and count == len(there):
        yield "gap", "not counted"
    elif gap and count == there[-1] + 1:
        yield "gap", "counted"


def faults_of(block):
    """What is wrong with a block."""
    if not log.check_fits(block):
        yield from faults_of_check(block)
    yield from faults_of_count(block)
    for slot in log.used_of(block):
        yield from faults_of_slot(slot)
    yield from faults_of_unused(log.unused_of(block))
    yield from (("zero", at) for at in range(log.ZEROS_AT, log.CHECK_AT) if block[at])
    yield from faults_of_gap(block)


# --- the region ---

def side(number, block):
    """On which side of a block another stands."""
    return "before" if number < block else "behind"


def state_of(region):
    """What a region has for an add."""
    if len(region) % log.BLOCK:
        return "odd"
    blocks = log.blocks_of(region)
    if not any(map(log.is_good, blocks)):
        return "all bad" if blocks else "no blocks"
    return "full" if log.outcome(log.place_for_add, region)[1] else "room"


def of_add(region, telegram, place, refusal):
    """An add: the region and what came of it; and where an accepted telegram went, or why there was no room."""
    state = state_of(region)
    yield "add", state, refusal or 0
    blocks = log.blocks_of(region)
    good = [number for number, block in enumerate(blocks) if log.is_good(block)]
    used = [number for number in good if blocks[number][log.COUNT_AT]]
    if refusal == 21 and state == "full":
        yield from no_room(blocks, good)
    if refusal is not None:
        return
    yield "layout", layout_of(telegram, True)
    yield from where_of_add(place, used)
    yield from (("gap before", filled(blocks[number])) for number in good if used and number < used[-1])
    yield from (("bad beside an add", side(number, place.block)) for number in range(len(blocks)) if number not in good)


def no_room(blocks, good):
    """Why a region with good blocks has no room: all of it is full, or bad blocks or nothing stand behind the last good one."""
    if all(number in good and filled(block) == "full" for number, block in enumerate(blocks)):
        yield "filled", len(blocks)
    else:
        yield "nothing behind", "bad" if good[-1] + 1 < len(blocks) else "end"


def where_of_add(place, used):
    """The place of an accepted telegram by what is used before it."""
    if not used:
        yield "nothing used", "first block" if place.block == 0 else "bad blocks before"
    elif place.block == used[-1]:
        yield "next slot", place.slot
    else:
        yield "next block", "right behind" if place.block == used[-1] + 1 else "over bad ones"


def slot_kind(block, slot):
    """A slot's number by the block that it is asked of."""
    return "no such slot" if slot >= log.SLOTS else "used" if slot < block[log.COUNT_AT] else "unused"


def of_read(region, block, slot, refusal):
    """A read back: the region, the block, the slot, and what came of it."""
    blocks = log.blocks_of(region)
    is_odd = len(region) % log.BLOCK != 0
    yield from (("numbers", block, slot), ("blocks and", block - len(blocks)))
    if block >= len(blocks):
        yield "read", is_odd, "no such block", refusal
        return
    state = "good" if log.is_good(blocks[block]) else "bad"
    yield "read", is_odd, state, slot_kind(blocks[block], slot), refusal or 0
    if refusal is None:
        yield from (("bad beside a read", side(number, block)) for number, other in enumerate(blocks) if not log.is_good(other))


def of_verify(region, verified):
    """A verification: the region and what came of it; what is wrong with the bad block that it names, alone or with other faults."""
    blocks = log.blocks_of(region)
    bad = [number for number, block in enumerate(blocks) if not log.is_good(block)]
    if verified.refusal == 19:
        yield from (("odd", len(region)), ("odd with", "a bad block" if bad else "good blocks"))
    elif verified.refusal == 20:
        block = blocks[verified.block]
        rules = broken(block)
        yield "bad blocks", min(len(bad), 3)
        if len(blocks) >= 3 and len(rules) == 1:
            yield "bad", rules[0], "first" if verified.block == 0 else "last" if verified.block == len(blocks) - 1 else "middle"
        yield from (("fault", fault, len(rules) == 1) for fault in faults_of(block))
    else:
        yield "good", len(blocks)
    yield "verify", verified.refusal or 0


# --- what has to occur ---

def of_states(own, *last):
    """An add into a region of each kind with each refusal of the telegram, and with none."""
    return {("add", state, number) for state, refusal in last for number in [*own, refusal]}


ADDS = of_states(OWN, ("room", 0), ("odd", 19), ("full", 21), ("no blocks", 21), ("all bad", 21))

ADDED = ({("filled", blocks) for blocks in range(1, 5)} | {("nothing behind", "bad"), ("nothing behind", "end")}
         | {("layout", layout) for layout in layouts.LAYOUTS}
         | {("nothing used", "first block"), ("nothing used", "bad blocks before")}
         | {("next block", "right behind"), ("next block", "over bad ones")}
         | {("next slot", slot) for slot in range(1, log.SLOTS)} | {("gap before", "empty"), ("gap before", "some")}
         | {("bad beside an add", "before"), ("bad beside an add", "behind")})

ASKED = [(state, slot) for state in ("good", "bad") for slot in ("used", "unused", "no such slot")]
ANSWERS = {("good", "used"): 0, ("good", "unused"): 27, ("good", "no such slot"): 27}

READS = ({("read", False, *asked, ANSWERS.get(asked, 20)) for asked in ASKED} | {("read", True, *asked, 19) for asked in ASKED}
         | {("read", False, "no such block", 27), ("read", True, "no such block", 19)})

READ = ({("numbers", block, slot) for block in NUMBERS for slot in NUMBERS} | {("blocks and", more) for more in (-1, 0, 1)}
        | {("bad beside a read", "before"), ("bad beside a read", "behind")})

VERIFIED = ({("verify", 0), ("verify", 19), ("verify", 20)} | {("good", blocks) for blocks in range(9)}
            | {("odd", length) for length in ODD_LENGTHS} | {("odd with", "a bad block"), ("odd with", "good blocks")}
            | {("bad blocks", number) for number in (1, 2, 3)}
            | {("bad", rule.__name__, where) for rule in log.RULES for where in ("first", "middle", "last")})

WHERE = ("first", "between", "last")

ALONE = (["low byte of the check", "high byte of the check", "both bytes of the check"]
         + [("the sum and 65,521", state) for state in STATES]
         + [("number", number) for number in (-1, 1, 16, 17, 255)] + [("telegram", number) for number in OWN]
         + [("length byte", number) for number in (0, 31, 32, 255)] + ["one more", ("gap", "counted")]
         + [("behind a telegram", where) for where in WHERE] + [("unused", slot, byte) for slot in WHERE for byte in WHERE]
         + [("zero", at) for at in range(log.ZEROS_AT, log.CHECK_AT)])

FAULTS = {("fault", fault, True) for fault in ALONE} | {("fault", fault, False) for fault in ("one less", ("gap", "not counted"))}

CHANGES = ({(what, state, at, refusal) for what, refusal in (("changed", 20), ("changed back", 0))
            for state in STATES for at in range(log.BLOCK)}
           | {("bit", at, bit, 20) for at in EDGES for bit in range(8)})

POKES = {("poke", "inside"), ("poke", "beyond"), ("poke", "same")}

WANTED = ADDS | ADDED | READS | READ | VERIFIED | FAULTS | CHANGES | POKES
ALL_OF = {"add": ADDS, "read": READS, "changed": CHANGES, "changed back": CHANGES}   # nothing else may come of these


def check(seen):
    """Fails where something that has to occur has not, or where something came of an add or a read back that cannot."""
    missing = WANTED - seen
    others = {kind for kind in seen if kind not in ALL_OF.get(kind[0], {kind})}
    if missing or others:
        raise AssertionError(f"scripts: {len(missing)} kinds are missing: {sorted(map(repr, missing))[:20]}; not to be had: {others}")
