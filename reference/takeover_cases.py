"""Old states, kept from before the bound was raised, for tests: good ones, and ones that break the rule in each way."""

import collections
import itertools

import line
import making
import trailers
from layouts import ETX, STX
from line import WRAP
from refusals import outcome
from takeover import OLD_PLACES, take_over

FEDS = [0, 1, 23, 24, 25, WRAP - 1]
SIZES = [0, 1, 12, 23, 24]   # how many are held, where not every number is tried
PLAIN = [byte for byte in range(256) if byte not in (STX, ETX)]


def full(order):
    """A good 5050 telegram but for its ETX, which has a byte for each place."""
    return bytes([STX]) + trailers.GOOD["5050"] + trailers.trailer_of("5050", order)


def any_count(dice):
    """A count of stray bytes."""
    return dice.choice([0, 7, WRAP - 1, dice.randrange(WRAP)])


def any_fed(dice):
    """A count of bytes fed, around the bound and the wrap more often than by chance."""
    return dice.choice([*FEDS, dice.randrange(WRAP)])


# --- good ones ---

def holding(dice, held, order, fed=None):
    """The good state that holds these bytes."""
    return line.with_held(held, any_fed(dice) if fed is None else fed, any_count(dice), order, OLD_PLACES)


def good_ones(dice, order):
    """Each number of bytes held: of a telegram, and in turn of zeros and of any bytes. Some numbers with each count of bytes fed."""
    for size in range(OLD_PLACES + 1):
        yield holding(dice, full(order)[:size], order)
        rest = bytes(dice.choices(PLAIN, k=OLD_PLACES)) if size % 2 else bytes(OLD_PLACES)
        yield holding(dice, (bytes([STX]) + rest)[:size], order)
    for size, fed in itertools.product(SIZES, FEDS):
        yield holding(dice, full(order)[:size], order, fed)


def left_by(state, piece):
    """What a reader is behind a piece."""
    for byte in piece:
        state, _ = line.take(state, byte)
    return state


def from_a_line(dice, order):
    """What a reader of so many places is behind a damaged line that was cut anywhere."""
    captured = making.random_line(dice, making.in_order(making.some_telegram, order))
    return left_by(line.fresh(order, OLD_PLACES), captured[:dice.randrange(len(captured) + 1)])


# --- wrong ones, and some that are good all the same ---

def wrong_starts(dice, order):
    """Good ones but for the start, which is off by one or by half of all counts."""
    for size, off in itertools.product(SIZES, (1, -1, 2 ** 31)):
        good = holding(dice, full(order)[:size], order)
        yield good._replace(start=(good.start + off) % WRAP)


def saying(dice, places, length, less, order):
    """A state that says how many are held, and whose start is fed less some number."""
    fed = any_fed(dice)
    return line.state_of(places, length, fed, any_count(dice), (fed - less) % WRAP, order)


def every_length(dice, order):
    """Each number that a byte can give for how many are held, with a telegram's bytes in all places; and the small ones with so many
    of them and zeros behind, or zeros only where there are not so many places."""
    telegram = full(order)
    for length in range(256):
        yield saying(dice, telegram, length, length, order)
    for length in (*range(line.PLACES + 2), 64, 128, 255):
        held = telegram[:length] if length <= OLD_PLACES else b""
        yield saying(dice, held.ljust(OLD_PLACES, b"\0"), length, length, order)


def held_by_a_reader_only(dice, order):
    """More held than there are places, and no more than a reader can hold: with any bytes, and with another start."""
    for length in range(OLD_PLACES + 1, line.PLACES + 1):
        plain = bytes([STX, *dice.choices(PLAIN, k=OLD_PLACES - 1)])
        for places, less in ((plain, length), (bytes([STX]).ljust(OLD_PLACES, b"\0"), length), (full(order), OLD_PLACES)):
            yield saying(dice, places, length, less, order)


FAULTS = ("length", "first", "STX", "ETX", "beyond", "start")
SETS_OF_FAULTS = [some for number in range(len(FAULTS) + 1) for some in itertools.combinations(FAULTS, number)]


def with_faults(dice, faults, order):
    """A state with these faults: more held than places, the first no STX, an STX or an ETX behind it, something in a place beyond, a
    wrong start."""
    size = dice.randrange(3, OLD_PLACES)
    places = bytearray([STX, *dice.choices(PLAIN, k=size - 1)]).ljust(OLD_PLACES, b"\0")
    stx, etx = dice.sample(range(1, size), 2)
    if "first" in faults:
        places[0] = dice.choice([*PLAIN, ETX])
    if "STX" in faults:
        places[stx] = STX
    if "ETX" in faults:
        places[etx] = ETX
    if "beyond" in faults:
        places[dice.randrange(size, OLD_PLACES)] = dice.randrange(1, 256)
    length = dice.choice([25, 26, 37, 38, 39, 255]) if "length" in faults else size
    off = dice.choice([1, -1, OLD_PLACES, 2 ** 31]) if "start" in faults else 0
    return saying(dice, places, length, length + off, order)


def changed_bytes(dice, order):
    """Good ones that hold no byte, some or one in each place, with another byte in one place, each place in turn: STX, ETX, any."""
    for size, at in itertools.product((0, 12, OLD_PLACES), range(OLD_PLACES)):
        good = holding(dice, full(order)[:size], order)
        for byte in (STX, ETX) if size == OLD_PLACES else (dice.choice([STX, ETX, *PLAIN]),):
            yield good._replace(places=(*good.places[:at], byte, *good.places[at + 1:]))


# --- all of them ---

def states(dice, order):
    """Old states of an order."""
    yield from good_ones(dice, order)
    yield from (from_a_line(dice, order) for _ in range(15))
    yield from wrong_starts(dice, order)
    yield from every_length(dice, order)
    yield from held_by_a_reader_only(dice, order)
    for faults in SETS_OF_FAULTS:
        yield with_faults(dice, faults, order)
    yield from changed_bytes(dice, order)


def few_states(dice, order):
    """Good ones and each fault alone."""
    yield from (holding(dice, full(order)[:size], order) for size in range(OLD_PLACES + 1))
    yield from (with_faults(dice, (fault,), order) for fault in FAULTS)


AT_LEAST = 100   # of those that are taken over, and of those that are refused


def check(olds):
    """Fails where a number of held bytes is never taken over or never refused, or where either is rare."""
    taken, refused = collections.Counter(), collections.Counter()
    for old in olds:
        (refused if outcome(take_over, old)[1] else taken)[old.length] += 1
    if set(taken) != set(range(25)) or set(refused) != set(range(256)) or min(taken.total(), refused.total()) < AT_LEAST:
        raise AssertionError(f"old states: taken over {dict(taken)}, refused {dict(refused)}")
