"""Lines for the program `test_lines`: damaged ones, the samples, those with a run of stray bytes of each length, and those with
telegrams about as long as can be held.

The program gets a line in pieces: two bytes that say how long a piece is, the higher first, and the piece. 65535 for a length ends
the line, and what follows is a line of its own. 65534 for a length at a line's beginning says that the line is in exchanged order.
"""

import collections
import itertools
import random
import sys
from typing import List, NamedTuple

sys.dont_write_bytecode = True  # leaves no files behind

import line
import listing
import long_telegrams
import making
import samples
import second_60
import stray_runs
import trailers
import unnamed
from layouts import EXCHANGED, LAYOUTS, ORDERS, other_order

SEED = 6036
LONGEST = 4096   # the program's buffer for a piece
END = b"\xff\xff"
EXCHANGED_LINE = b"\xff\xfe"

STX, ETX = b"\x02", b"\x03"

# In each order there have to be so many bytes, and each layout and each refusal that a line can give has to occur so often.
BYTES = 60_000
AT_LEAST = 4
WANTED = list(LAYOUTS) + [1, 3, 4, 5, 6, 7, 8, 9, 10, 11]

# What has to come so often of telegrams with second 60 or above, accepted ones as 0.
WANTED_60 = [("dated", 0), ("dated", 5), ("dated", 6), ("dated", 8), ("time-only", 0), ("time-only", 6)]

# What has to occur so often among the pieces: see `kinds_of`.
WANTED_PIECES = ["empty", "one byte", "longest", "ends behind STX", "ends before ETX", "ends behind ETX", "ends inside", "ends outside",
                 "32 events", "more than 32 events"]

# What has to come so often of telegrams in the order that the line does not have.
WANTED_MIXED = [3, "6021t", "5500t"]


class Line(NamedTuple):
    """A line's order, and the line in pieces."""
    order: str
    pieces: List[bytes]

    @property
    def captured(self):
        """The whole line."""
        return b"".join(self.pieces)


# --- lines ---

def crowd(dice):
    """Events close together: STX behind STX gives a 9 each, ETX behind STX a 1."""
    return dice.choice([STX, STX + ETX, STX + b"12" + ETX]) * dice.choice([31, 32, 33, 34, 64, 65, dice.randrange(1, 200)])


def damaged_line(dice, size, some=making.some_telegram):
    """A line of about so many bytes, with telegrams of some kind."""
    captured = b""
    while len(captured) < size:
        captured += crowd(dice) if dice.random() < 0.05 else making.random_line(dice, some)
    if dice.random() < 0.5:
        captured += STX + making.telegram_of(making.good_record(dice), True)[1:dice.randrange(2, 10)]
    return captured


# --- cuts ---

def by_length(dice, captured):
    """Cuts anywhere, at most so far apart."""
    widest, at = dice.choice([1, 3, 20, 64, 1000, LONGEST]), 0
    while at < len(captured):
        at += dice.randrange(widest + 1)
        yield at


def around(byte, behind):
    """Cuts before or behind each STX or each ETX."""
    def cuts(dice, captured):
        return [at + behind for at in range(len(captured)) if captured[at:at + 1] == byte]
    return cuts


def into(size):
    """Cuts so many bytes into each telegram."""
    return lambda dice, captured: [at + size for at in around(STX, 0)(dice, captured)]


def behind_32(dice, captured):
    """Cuts behind each thirty-second event."""
    state, at = line.fresh(), 0
    while at < len(captured):
        state, taken, _ = line.use_up(state, captured[at:])
        at += taken
        yield at


def everywhere(dice, captured):
    """Each byte alone."""
    return range(1, len(captured))


def nowhere(dice, captured):
    """As little as the program's buffer allows."""
    return range(LONGEST, len(captured), LONGEST)


# Each kind of cut, for how many lines, and about how many bytes these have.
CUTS = [(by_length, 6, 2500), (around(STX, 0), 2, 2500), (around(STX, 1), 2, 2500), (around(ETX, 0), 2, 2500),
        (around(ETX, 1), 2, 2500), (behind_32, 2, 2500), (everywhere, 1, 2500), (nowhere, 3, 9000)]

# For how many lines with seconds 60.
CUTS_60 = [(by_length, 2), (around(STX, 0), 1), (around(ETX, 1), 1), (everywhere, 1)]

# How lines with long telegrams are cut: in each of these ways, and at some places inside a telegram.
CUTS_LONG = [cuts for cuts, _, _ in CUTS] + [into(size) for size in long_telegrams.INTO]


def pieces_of(dice, captured, cuts):
    """The line in pieces, some of them empty, and none longer than the program's buffer."""
    pieces, start = [], 0
    for end in [*cuts(dice, captured), len(captured)]:
        end = min(end, len(captured))
        while end - start > LONGEST:
            pieces.append(captured[start:start + LONGEST])
            start += LONGEST
        pieces.append(captured[start:end])
        start = end
    return pieces


def handed_over(a_line):
    """A line as the program gets it."""
    beginning = EXCHANGED_LINE if a_line.order == EXCHANGED else b""
    return beginning + b"".join(len(piece).to_bytes(2, "big") + piece for piece in a_line.pieces) + END


# --- what has to occur ---

def kind_of(event):
    """An event's refusal, or its record's layout."""
    return event.outcome if isinstance(event.outcome, int) else event.outcome.layout


def kinds_of(order, pieces):
    """What is worth counting of each piece but the last: its length, what stands on both sides of its end, how many events it has."""
    state = line.fresh(order)
    for piece, following in zip(pieces, pieces[1:]):
        rest, events = piece, 0
        while rest:
            state, taken, some = line.use_up(state, rest)
            rest, events = rest[taken:], events + len(some)
        yield from (kind for kind, holds in (
            ("empty", piece == b""), ("one byte", len(piece) == 1), ("longest", len(piece) == LONGEST),
            ("ends behind STX", piece.endswith(STX)), ("ends before ETX", state.length > 0 and following.startswith(ETX)),
            ("ends behind ETX", piece.endswith(ETX)), ("ends inside", state.length > 0), ("ends outside", state.length == 0),
            ("32 events", events == 32), ("more than 32 events", events > 32)) if holds)


def seconds_60_of(a_line, events):
    """What came of each telegram with second 60 or above, and None for each other event."""
    captured = a_line.captured
    for start, length, result in events:
        refusal = result if isinstance(result, int) else None
        yield second_60.in_telegram(captured[start:start + length], True, refusal, a_line.order)


def check(lines):
    """Fails where there are too few bytes, where something that has to occur does not occur often enough, or where an event has a
    length that it cannot have."""
    size = sum(len(a_line.captured) for a_line in lines)
    found = [listing.events_of(a_line.captured, a_line.order)[0] for a_line in lines]
    events = collections.Counter(kind_of(event) for some in found for event in some)
    cuts = collections.Counter(kind for a_line in lines for kind in kinds_of(*a_line))
    seconds = collections.Counter(kind for a_line, some in zip(lines, found) for kind in seconds_60_of(a_line, some))
    rare = [kind for wanted, there in ((WANTED, events), (WANTED_PIECES, cuts), (WANTED_60, seconds)) for kind in wanted
            if there[kind] < AT_LEAST]
    wrong = {(kind_of(event), event.length) for some in found for event in some if long_telegrams.length_is_wrong(event)}
    if rare or wrong or size < BYTES or set(events) - set(WANTED) or set(seconds) - {None, *WANTED_60}:
        raise AssertionError(f"lines of {size} bytes: too rare {rare}, events {dict(events)}, pieces {dict(cuts)}, "
                             f"seconds 60 {dict(seconds)}, wrong lengths {wrong}")


def changed_by_order(a_line):
    """What each telegram gives that would have given something else on a line of the other order."""
    here, there = (listing.events_of(a_line.captured, order)[0] for order in (a_line.order, other_order(a_line.order)))
    return [kind_of(event) for event, other in zip(here, there, strict=True) if event != other]


def check_mixed(lines):
    """Fails where the order changes too little of what comes of mixed lines, or something that does not depend on it."""
    changed = collections.Counter(kind for a_line in lines for kind in changed_by_order(a_line))
    if any(changed[kind] < AT_LEAST for kind in WANTED_MIXED) or set(changed) & {1, 2, 9, 10, 11}:
        raise AssertionError(f"lines of mixed orders: changed by the order {dict(changed)}")


# --- every line ---

def damaged_lines(order, seed):
    """Damaged lines and samples of an order, one of bad records, and some that end inside a telegram, at each place. The last has no
    piece."""
    dice = random.Random(seed)
    for cuts, lines, size in CUTS:
        for _ in range(lines):
            yield Line(order, pieces_of(dice, damaged_line(dice, size, making.in_order(making.some_telegram, order)), cuts))
    for captured in [*samples.IN_ORDER[order].values(), b"".join(unnamed.shown_ones(True, order))]:
        yield Line(order, pieces_of(dice, captured, by_length))
    longest = max(trailers.good_ones(True, order), key=len)
    yield from (Line(order, [longest[:size]]) for size in range(1, len(longest)))
    for cuts, lines in CUTS_60:
        for _ in range(lines):
            yield Line(order, pieces_of(dice, damaged_line(dice, 2500, making.in_order(second_60.some_telegram, order)), cuts))
    yield Line(order, [])


def mixed_lines(order, seed):
    """Lines of an order whose telegrams, or some of them, are in the other; and the samples of the other."""
    dice, other = random.Random(seed), other_order(order)
    for some in (making.some_telegram, second_60.some_telegram):
        for telegrams in (making.in_order(some, other), making.in_any_order(some)):
            yield Line(order, pieces_of(dice, damaged_line(dice, 2500, telegrams), by_length))
    for captured in samples.IN_ORDER[other].values():
        yield Line(order, pieces_of(dice, captured, by_length))


def lines_with_runs(order, seed):
    """Lines with runs of stray bytes. A piece begins at a multiple of 64, so that a place of the line is one of its piece too."""
    for captured in stray_runs.captures(seed, order):
        yield Line(order, pieces_of(None, captured, nowhere))


def lines_with_long_telegrams(order, seed):
    """Lines with telegrams about as long as can be held, cut in each way in turn."""
    dice = random.Random(seed)
    captured_ones = [*long_telegrams.captures(dice, order), *long_telegrams.captures(dice, order)]
    for captured, cuts in zip(captured_ones, itertools.cycle(CUTS_LONG)):
        yield Line(order, pieces_of(dice, captured, cuts))


# The lines of each order: what makes them, and what checks those that it made.
KINDS = [(damaged_lines, check), (mixed_lines, check_mixed), (lines_with_runs, stray_runs.check),
         (lines_with_long_telegrams, long_telegrams.check)]


def all_lines(seed=SEED):
    """Every line."""
    every = []
    for number, order in enumerate(ORDERS):
        for make, check_made in KINDS:
            made = list(make(order, seed + number))
            check_made(made)
            every += made
    return every
