"""Captures with runs of stray bytes of each length, for tests.

A reader that looks at many stray bytes at once can go wrong by how long a run is, and by where it begins and ends. So each length
stands before, between and behind telegrams: behind them at the place of 64 that its own length names, and between them at places where
it begins or ends about a multiple of 64. A length that is about a multiple of 64 stands at every place between them.

The order of a line is no matter of its runs. So on an exchanged line each length stands between telegrams once.
"""

import itertools
import random
import re

import making
from layouts import AS_PRINTED, ETX, EXCHANGED, STX

LENGTHS = range(201)
PLACES = 64
EDGES = [length for length in LENGTHS if (length + 1) % PLACES < 3]   # about a multiple of the places

# Any byte but STX may be stray. Those that are one bit off an STX, ETX among them, come more often than by chance.
ANY = [byte for byte in range(256) if byte != STX]
ONE_BIT_OFF = [STX ^ 1 << bit for bit in range(8)]
STRAY = ANY + 16 * ONE_BIT_OFF

TELEGRAM = re.compile(rb"\x02[^\x02\x03]*\x03")


# --- captures ---

def run_of(dice, length):
    """A run of stray bytes."""
    return bytes(dice.choices(STRAY, k=length))


def some_telegrams(dice, order):
    """Good telegrams of all layouts, by their lengths."""
    telegrams = {}
    for _ in range(500):
        telegram = making.telegram_of(making.good_record(dice), True, order)
        telegrams.setdefault(len(telegram), []).append(telegram)
    return telegrams


def telegrams_to(dice, telegrams, at, places):
    """As few telegrams as lead from a place of the line to one of these."""
    for count in itertools.count(1):
        ways = [lengths for lengths in itertools.product(telegrams, repeat=count) if (at + sum(lengths)) % PLACES in places]
        if ways:
            return b"".join(dice.choice(telegrams[length]) for length in dice.choice(ways))


def places_of(length, order):
    """Where a run of that length begins between telegrams."""
    if order == EXCHANGED:
        return {-length % PLACES}
    if length in EDGES:
        return set(range(PLACES))
    return {(place + step) % PLACES for place in (0, -length) for step in (-1, 0, 1)}


def capture_of(dice, telegrams, length, order):
    """A run of that length, then telegrams with one at each of its places between them, and one behind them."""
    captured, left = run_of(dice, length), places_of(length, order)
    while left:
        captured += telegrams_to(dice, telegrams, len(captured), left)
        left.remove(len(captured) % PLACES)
        captured += run_of(dice, length)
    captured += telegrams_to(dice, telegrams, len(captured), {length % PLACES})
    return captured + run_of(dice, length)


def captures(seed, order=AS_PRINTED):
    """A capture for each length, with telegrams in that order."""
    dice = random.Random(seed)
    telegrams = some_telegrams(dice, order)
    for length in LENGTHS:
        yield capture_of(dice, telegrams, length, order)


# --- what has to occur ---

def runs_in(captured):
    """The runs before, between and behind the telegrams, each with its first place."""
    start = 0
    for telegram in TELEGRAM.finditer(captured):
        yield start, captured[start:telegram.start()]
        start = telegram.end()
    yield start, captured[start:]


def check(lines):
    """Fails where a length has no capture, where a capture lacks its runs, or where ETX is rare among all of them."""
    made = [a_line.captured for a_line in lines]
    if len(made) != len(LENGTHS):
        raise AssertionError(f"{len(made)} captures with runs, where {len(LENGTHS)} are wanted")
    stray = b""
    for length, captured in zip(LENGTHS, made):
        runs = list(runs_in(captured))
        before, between, behind = runs[0], runs[1:-1], runs[-1]
        places = {start % PLACES for start, run in between if len(run) == length}
        at_all = (len(before[1]), len(behind[1]), behind[0] % PLACES) == (length, length, length % PLACES)
        if not at_all or not places_of(length, lines[0].order) <= places:
            raise AssertionError(f"runs of {length}: not before, behind or at each place between telegrams")
        stray += b"".join(run for _, run in runs)
    if STX in stray or stray.count(ETX) * 32 < len(stray):
        raise AssertionError(f"stray bytes: {stray.count(STX)} STX, {stray.count(ETX)} ETX of {len(stray)}")
