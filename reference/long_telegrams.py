"""Captures with telegrams that are about as long as the reader can hold, for tests.

Each is a good telegram whose inside was lengthened, without its ETX; then comes what ends it. It is counted up to and with its trailer
where it has no ETX of its own, so that each length can be ended in each way.
"""

import collections
import itertools
import re

import layouts
import listing
import making
from refusals import ENDED_INSIDE, LENGTH, STX_INSIDE, TOO_LONG

STX, ETX = b"\x02", b"\x03"

LENGTHS = range(24, 43)
ENDINGS = ("ETX", "STX", "more", "end")   # by its ETX, by another's STX, by further bytes, by the line's end

# The document's own numbers, which the check does not ask the reader for.
MOST_HELD, LONGEST = 38, 39

# Bytes that stand inside telegrams, and bytes that are one bit off an STX or an ETX.
PLAIN = b"0123456789ABCDEF " + bytes(sorted({byte ^ 1 << bit for byte in STX + ETX for bit in range(8)} - {*STX, *ETX, layouts.LF}))


# --- captures ---

def lengthened(dice, size, order):
    """A good telegram up to its trailer, with digits or any plain bytes put in before that until it has so many bytes."""
    telegram = b""
    while not 0 < len(telegram) <= size:
        telegram = bytearray(making.telegram_of(making.good_record(dice), True, order)[:-1])
    put_in = dice.choice([b"0123456789", PLAIN])
    while len(telegram) < size:
        telegram.insert(dice.randrange(1, len(telegram) - 1), dice.choice(put_in))
    return bytes(telegram)


def ended(dice, length, ending, order):
    """A telegram of that length and what ends it."""
    if ending == "ETX":
        return lengthened(dice, length - 1, order) + ETX
    telegram = lengthened(dice, length, order)
    if ending == "STX":
        return telegram + STX + dice.choice([b"", making.some_telegram(dice, True, order)[1:]])
    if ending == "more":
        return telegram + bytes(dice.choices(PLAIN, k=max(LONGEST - length, 1) + dice.choice([0, 0, 1, 5])))
    return telegram


def some_telegram(dice, order):
    """One of any length, ended in any way."""
    return ended(dice, dice.choice(LENGTHS), dice.choice(ENDINGS), order)


def between(dice, order):
    """What stands between two of them."""
    return dice.choice([b"", b"", bytes(dice.choices(PLAIN, k=dice.randrange(1, 50))), ETX, making.some_telegram(dice, True, order)])


def captures(dice, order):
    """As many captures as there are lengths, each ended inside a telegram of one of them, and with one of each before it. How these
    end goes round, so that each length has each ending."""
    for number, last in enumerate(LENGTHS):
        captured = b""
        for length in dice.sample(LENGTHS, len(LENGTHS)):
            captured += between(dice, order) + ended(dice, length, ENDINGS[(number + length) % 3], order)
        yield captured + between(dice, order) + ended(dice, last, "end", order)


# --- what has to occur ---

BEGUN = re.compile(rb"\x02[^\x02\x03]*")
TRAILER = re.compile(rb"\r\n|\n\r")

# How far into a telegram a piece has to end.
INTO = (24, 25, 37, 38, 39)

AT_LEAST = 2   # of each length with each ending, and of each such piece


def found_in(captured):
    """The length of each telegram, whole, cut off or too long, and how it ends; found without the reader."""
    for begun in BEGUN.finditer(captured):
        telegram, following = begun.group(), captured[begun.end():begun.end() + 1]
        trailer = TRAILER.search(telegram)
        if len(telegram) >= LONGEST and trailer and trailer.end() < len(telegram):
            yield trailer.end(), "more"
        elif following == ETX:
            yield len(telegram) + 1, "ETX"
        else:
            yield len(telegram), "STX" if following else "end"


def is_as_wanted(event, length, ending):
    """What should come of a telegram came of it. One of a length that a layout has may be anything that a judged one is."""
    if ending == "more" or length > (LONGEST if ending == "ETX" else MOST_HELD):
        return event[1:] == (LONGEST, TOO_LONG)
    if ending == "ETX" and layouts.layouts_of_length(length, True):
        return event.length == length and event.outcome not in (LENGTH, STX_INSIDE, TOO_LONG, ENDED_INSIDE)
    return event[1:] == (length, {"ETX": LENGTH, "STX": STX_INSIDE, "end": ENDED_INSIDE}[ending])


def length_is_wrong(event):
    """Whether an event has a length that it cannot have: 10 has one byte more than can be held, 9 and 11 at most as many, and no
    judged telegram has more than the longest."""
    if event.outcome == TOO_LONG:
        return event.length != LONGEST
    return event.length > (MOST_HELD if event.outcome in (STX_INSIDE, ENDED_INSIDE) else LONGEST)


def ends_into(a_line):
    """How far into a telegram each piece ends, where nothing ended the telegram before."""
    captured, at = a_line.captured, 0
    for piece in a_line.pieces[:-1]:
        at += len(piece)
        start = captured.rfind(STX, 0, at)
        if start >= 0 and ETX not in captured[start:at - 1]:
            yield at - start


def check(lines):
    """Fails where a telegram gave something else than it should, where a length is rare with an ending, or a cut."""
    pairs, cuts = collections.Counter(), collections.Counter()
    for a_line in lines:
        cuts.update(ends_into(a_line))
        for event, found in zip(listing.events_of(a_line.captured, a_line.order)[0], found_in(a_line.captured), strict=True):
            pairs[found] += 1
            if length_is_wrong(event) or found[0] in LENGTHS and not is_as_wanted(event, *found):
                raise AssertionError(f"a telegram of {found}: {event}")
    rare = [pair for pair in itertools.product(LENGTHS, ENDINGS) if pairs[pair] < AT_LEAST] + [at for at in INTO if cuts[at] < AT_LEAST]
    if rare:
        raise AssertionError(f"long telegrams: too rare {rare}")
