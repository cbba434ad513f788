"""States of a reader, well formed ones and others."""

import itertools

import line

# A telegram that has not ended, with a byte for each place.
FULL = b"\x02" + (b"1234567890" * 4)[:37]


def states(dice, order):
    """Reader states of an order: well formed ones with any counts, and each clause of the rule broken."""
    for fed in (0, 1, 38, 39, 4294967295, dice.randrange(2 ** 32)):
        for held in (b"", b"\x02", b"\x02E312345617", FULL[:36], FULL[:37], FULL):
            good = line.with_held(held, fed, dice.choice([0, 7, 4294967295]), order)
            yield good
            yield good._replace(start=(good.start + 1) % line.WRAP)
    for held, size in ((FULL, 39), (FULL, 255), (b"1", 1), (b"\x03", 1), (b"\x02\x02", 2), (b"\x02\x03", 2),
                       (FULL[:37] + b"\x02", 38), (FULL[:37] + b"\x03", 38), (FULL[:24] + b"\x02", 25), (FULL[:24] + b"\x03", 25),
                       (FULL, 37), (FULL[:25], 24), (b"\x021", 1), (b"", 1)):
        yield line.state_of(held.ljust(38, b"\0"), size, 100, 0, (100 - size) % line.WRAP, order)
    for size, at in itertools.product((0, 1, 24), (24, 37)):
        places = bytearray(FULL[:size].ljust(38, b"\0"))
        places[at] = 1
        yield line.state_of(places, size, size, 0, 0, order)


def states_to_judge(dice, order):
    """Reader states by each number that a byte can give for how many are held, with a telegram's bytes in all places, and with zeros
    behind those that are held; and good ones with another byte in each place in turn."""
    for size in range(256):
        for held in (FULL, FULL[:size]) if size < 38 else (FULL,):
            fed = dice.choice([0, size, 4294967295, dice.randrange(2 ** 32)])
            yield line.state_of(held.ljust(38, b"\0"), size, fed, 0, (fed - size) % line.WRAP, order)
    for size, at in itertools.product((0, 24, 37, 38), range(38)):
        places = bytearray(FULL[:size].ljust(38, b"\0"))
        places[at] = dice.choice([2, 3, 4, 255])
        yield line.state_of(places, size, size, 0, 0, order)
