"""The log: blocks by hand, damaged blocks, adds, whole regions, scripts and listings."""

import log
import log_listing
import making
import sample_logs
from log_scripts.blocks import block_of, good_telegram, of_all_layouts
from log_scripts.by_dice import by_dice
from log_scripts.damage import damaged_blocks, damaged_empty_blocks, rubbish, some_block
from refusals import outcome
from selftests.checking import CR_LF, LF_CR, framed, read, same

PUMP = b"\x02235959\n\r\x03"
PUMP_SLOT = b"\x0a\x02235959\n\r\x03" + bytes(21)

# The check of so many times the same telegram, reckoned by hand: its slot weighs 2055 in the first place and 11488 more in each next
# one, and the number 481 for each.
PUMP_CHECKS = {0: b"\x00\x00", 1: b"\xe8\x09", 2: b"\xb0\x40", 4: b"\xef\x34", 15: b"\x86\xfd"}


def pump_block(number):
    """A block with so many times the same telegram."""
    return PUMP_SLOT * number + bytes(32) * (15 - number) + bytes([number]) + bytes(29) + PUMP_CHECKS[number]


def log_by_hand():
    """Blocks put together by hand are good, and adds make them out of zeros."""
    region = bytearray(512)
    for number in range(16):
        if number in PUMP_CHECKS:
            same("log", (len(pump_block(number)), log.is_good(pump_block(number)), bytes(region)), (512, True, pump_block(number)))
        same("log", outcome(log.add, region, PUMP), ((0, number), None) if number < 15 else (None, 21))
    same("log", bytes(region), pump_block(15))
    for at, byte in ((510, 0xe9), (511, 0x0a), (480, 2), (480, 0), (0, 9), (0, 11), (31, 1), (32, 10), (481, 1), (509, 1), (3, 49)):
        changed = bytearray(pump_block(1))
        changed[at] = byte
        same("log", log.is_good(bytes(changed)), False)
        same("log", outcome(log.read_back, changed + pump_block(4), 1, 3), (PUMP, None))
        for ask, number in (((0, 0), 20), ((0, 15), 20), ((1, 4), 27), ((1, 15), 27), ((2, 0), 27), ((2 ** 55, 0), 27),
                            ((1, 2 ** 59), 27)):
            same("log", outcome(log.read_back, changed + pump_block(4), *ask), (None, number))
        for region, verified in ((changed, (20, 0)), (pump_block(2) + changed, (20, 1)), (changed + b"1", (19, None)),
                                 (b"", (None, None))):
            same("log", log.verify(region), verified)
        same("log", outcome(log.add, changed + pump_block(4), PUMP), ((1, 4), None))
        for more, answer in ((b"", (None, 21)), (bytes(512), ((2, 0), None))):
            same("log", outcome(log.add, bytearray(pump_block(15) + changed + more), PUMP), answer)
    empty_but_more = bytes(510) + (65521).to_bytes(2, "little")
    same("log", (log.is_good(bytes(512)), log.is_good(empty_but_more)), (True, False))
    for telegram, region, number in ((b"", b"1", 1), (PUMP[:-1], b"", 1), (PUMP[1:] + b"1", b"", 2), (PUMP, b"1", 19),
                                     (PUMP, b"", 21)):
        same("log", outcome(log.add, bytearray(region), telegram), (None, number))


def by_places(block):
    """The check as a plain sum, place by place."""
    total = 0
    for k, byte in enumerate(block):
        if k < 510:
            total += byte * (k + 1)
    return total % 65521


def made_again(block):
    """The block that is made by the telegrams in a block, or none where they make none."""
    slots = [block[at:at + 32] for at in range(0, 480, 32)]
    telegrams = [slot[1:1 + slot[0]] for slot in slots[:block[480]]]
    if len(telegrams) != block[480] or not all(len(telegram) < 32 and isinstance(read(telegram), tuple) for telegram in telegrams):
        return None
    block = bytearray(512)
    for at, telegram in enumerate(telegrams):
        block[32 * at] = len(telegram)
        block[32 * at + 1:32 * at + 1 + len(telegram)] = telegram
    block[480] = len(telegrams)
    block[510], block[511] = by_places(block) % 256, by_places(block) // 256
    return bytes(block)


def log_blocks(dice, rounds):
    """A block is good when it is the one that its telegrams make."""
    for _ in range(rounds):
        good = block_of([good_telegram(dice) for _ in range(dice.randrange(1, 16))])
        same("log blocks", (made_again(good), log.is_good(good)), (good, True))
        some = list(damaged_blocks(dice, good)) + list(rubbish(dice, good))
        for block in some + list(damaged_empty_blocks(dice, bytes(512))) + [making.damaged(dice, good).ljust(512, b"0")[:512]]:
            same("log blocks", log.check_of(block), by_places(block))
            same("log blocks", log.is_good(block), made_again(block) == block)


def log_single_bytes(dice):
    """Any single changed byte of a block is noticed: every other value in every place. The check alone tells all of them."""
    block = block_of(of_all_layouts(dice, 7))
    for at in range(512):
        others = (block[:at] + bytes([byte]) + block[at + 1:] for byte in range(256) if byte != block[at])
        same("log bytes", (at, sum(map(log.is_good, others))), (at, 0))
    same("log bytes", any(place * change % 65521 == 0 for place in range(1, 511) for change in range(1, 256)), False)
    same("log bytes", any(65521 % divisor == 0 for divisor in range(2, 256)), False)


def free_by_scan(region):
    """Where an add goes, looked for from the end of the region; or 21."""
    blocks = [bytes(region[at:at + 512]) for at in range(0, len(region), 512)]
    behind = None
    for number in reversed(range(len(blocks))):
        if made_again(blocks[number]) != blocks[number]:
            continue
        count = blocks[number][480]
        if count:
            return (number, count) if count < 15 else behind or 21
        behind = (number, 0)
    return behind or 21


def log_adds(dice):
    """Into k zeroed blocks 15 times k telegrams go, in order, and no more. Each changes its slot, and its block's number and check;
    all of them are read back."""
    for blocks in range(9):
        region = bytearray(512 * blocks)
        there = of_all_layouts(dice, 15 * blocks)
        for number, telegram in enumerate(there):
            before = bytes(region)
            block, slot = log.add(region, telegram)
            same("log adds", (block, slot), divmod(number, 15))
            start = 512 * block
            allowed = {*range(start + 32 * slot, start + 32 * slot + 32), start + 480, start + 510, start + 511}
            same("log adds", {at for at, byte in enumerate(region) if byte != before[at]} <= allowed, True)
        same("log adds", (log.verify(region), outcome(log.add, region, PUMP)), ((None, None), (None, 21)))
        same("log adds", [log.read_back(region, *divmod(number, 15)) for number in range(len(there))], there)


def log_regions(dice, rounds):
    """Regions of blocks of every kind: adds go where a scan from the end finds room, and change nothing else; the first bad block is
    named; good blocks are read back, whatever stands beside them."""
    for _ in range(rounds):
        region = bytearray(b"".join(some_block(dice) for _ in range(dice.randrange(7))))
        blocks = [bytes(region[at:at + 512]) for at in range(0, len(region), 512)]
        bad = [number for number, block in enumerate(blocks) if made_again(block) != block]
        same("log regions", log.verify(region), (20, bad[0]) if bad else (None, None))
        for number, block in enumerate(blocks):
            for slot in range(17):
                telegram = block[32 * slot + 1:32 * slot + 1 + block[32 * slot]] if number not in bad and slot < block[480] else None
                refusal = 20 if number in bad else 27 if telegram is None else None
                same("log regions", outcome(log.read_back, region, number, slot), (telegram, refusal))
        wanted, telegram = free_by_scan(region), good_telegram(dice)
        place, refusal = outcome(log.add, region, telegram)
        same("log regions", place or refusal, wanted)
        if place is not None:
            blocks[place.block] = bytes(region[512 * place.block:512 * place.block + 512])
            same("log regions", made_again(blocks[place.block]), blocks[place.block])
            same("log regions", log.read_back(region, *place), telegram)
        same("log regions", bytes(region), b"".join(blocks))


def replayed(given):
    """What a script prints, operation by operation, from its bytes."""
    at = 0

    def taken(size):
        nonlocal at
        at += size
        return given[at - size:at]

    region, printed = bytearray(), []
    while at < len(given):
        before, letter = bytes(region), taken(1)
        if letter == b"N":
            region = bytearray(int.from_bytes(taken(2), "big"))
            before, line = bytes(region), f"new {len(region)}"
        elif letter == b"P":
            place, line = int.from_bytes(taken(2), "big"), "poke"
            region[place:place + 1] = taken(1)[:max(0, min(1, len(region) - place))]
        elif letter == b"A":
            place, number = outcome(log.add, region, taken(taken(1)[0]))
            line = f"add refused {number}" if number else f"add {place.block} {place.slot}"
        elif letter == b"R":
            telegram, number = outcome(log.read_back, region, int.from_bytes(taken(8), "big"), int.from_bytes(taken(8), "big"))
            line = f"read refused {number}" if number else f"read {telegram.hex()}"
        else:
            number, block = log.verify(region)
            line = "verify good" if number is None else f"verify refused {number}" + (f" at {block}" if number == 20 else "")
        rows = [f" {row} {region[row:row + 32].hex()}" for row in range(0, len(region), 32)
                if region[row:row + 32] != before[row:row + 32]]
        printed += [line, *rows]
    return "".join(text + "\n" for text in printed).encode("ascii")


def log_replayed(dice, rounds):
    """Scripts by dice, taken apart from their bytes again."""
    for _ in range(rounds):
        given, expected = zip(*by_dice(dice).steps)
        same("log scripts", replayed(b"".join(given)), b"".join(expected))


def log_listings():
    """Listings by hand, and what the samples are to show."""
    other = bytearray(pump_block(2))
    other[200] = 1
    kept = pump_block(1) + other + bytes(512) + b"0" * 7
    stamped = bytearray(512)
    for telegram in (framed(b"E3123456170496" + LF_CR), framed(b"120000" + CR_LF)):
        log.add(stamped, telegram)
    same("log listing", log_listing.verify_listing(kept),
         b"block;offset;state;telegrams\n0;0;good;1\n1;512;bad;-\n2;1024;good;0\n3;1536;refused 19\nbad 1\n")
    same("log listing", log_listing.log_listing(kept),
         b"block;slot;kind;date;time;weekday;status\n0;0;6021t;-;23:59:59;-;-\n1;refused 20\n3;refused 19\n")
    same("log listing", log_listing.log_listing(bytes(512) + stamped), log_listing.LOG_HEADER
         + b"1;0;6021;1996-04-17;12:34:56;3;high,daylight\n1;1;5500t;-;12:00:00;-;-\n")
    for size, tail in ((0, b""), (512, b"0;0;good;0\n"), (511, b"0;0;refused 19\n"), (513, b"0;0;good;0\n1;512;refused 19\n")):
        same("log listing", log_listing.verify_listing(bytes(size)), log_listing.VERIFY_HEADER + tail + b"bad 0\n")
    for size, tail in ((0, b""), (512, b""), (511, b"0;refused 19\n"), (513, b"1;refused 19\n")):
        same("log listing", log_listing.log_listing(bytes(size)), log_listing.LOG_HEADER + tail)
    good, damaged = sample_logs.LOGS["month"], sample_logs.LOGS["month-damaged"]
    same("log listing", (log.verify(good), log.verify(damaged)), ((None, None), (20, 1)))
    same("log listing", sum(byte != other for byte, other in zip(good, damaged)), 1)
    same("log listing", b"1;14;6021;2017-01-01;00:59:60;7;high,standard\n" in log_listing.log_listing(good), True)
