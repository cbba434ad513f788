"""Readers that hold about as many bytes as they can; old states to take over."""

import itertools

import line
import making
import takeover
import takeover_cases
from cases.one_case import end_case, feed_case, take_over_case, use_up_case, well_formed_case
from cases.states import FULL, states_to_judge
from layouts import AS_PRINTED, EXCHANGED

AROUND_THE_BOUND = (0, 1, 23, 24, 25, 26, 36, 37, 38)   # how many bytes are held


def pieces_around_the_bound(held):
    """What follows where so many bytes are held: runs of plain bytes that fill the places, leave one free and are one too many, and
    a short and a long one; each without an end, with ETX and with STX."""
    room = line.PLACES - held
    for size in sorted({0, 1, max(room - 1, 0), room, room + 1, 60}):
        for ending in (b"", b"\x03", b"\x02"):
            yield (b"0987654321" * 6)[:size] + ending


def fed_around_the_bound(state):
    """A state that is fed with each of these pieces, and with all of them at once."""
    pieces = list(pieces_around_the_bound(state.length))
    for piece in pieces:
        yield feed_case(state, piece)
    yield use_up_case(state, b"".join(pieces))


def judged_cases(dice):
    """States to judge. Their order is no matter."""
    for state in states_to_judge(dice, AS_PRINTED):
        yield well_formed_case(state)


def every_length_cases():
    """Telegrams of every length that can be held, ended by an ETX and by the next one's STX."""
    for size, ending in itertools.product(range(1, line.PLACES + 1), (b"\x03", b"\x02")):
        yield feed_case(line.fresh(), FULL[:size] + ending)


def bound_cases(dice, order, sizes):
    """Readers of an order that hold so many bytes, judged, ended, fed up to the bound and past it."""
    for size in sizes:
        state = line.with_held(FULL[:size], dice.choice([size, 4294967295, dice.randrange(2 ** 32)]), 7, order)
        yield well_formed_case(state)
        yield end_case(state)
        yield from fed_around_the_bound(state)


def take_over_cases(dice):
    """Old states to take over; of exchanged order, which only comes back, a few."""
    olds = list(takeover_cases.states(dice, AS_PRINTED))
    takeover_cases.check(olds)
    for old in olds + list(takeover_cases.few_states(dice, EXCHANGED)):
        yield take_over_case(old)


def taken_over_cases(dice, order):
    """Readers that go on from old states, judged, ended, fed what their telegram lacks, some also with other telegrams behind it."""
    telegram = takeover_cases.full(order)
    for size in range(takeover.OLD_PLACES + 1):
        reader = takeover.take_over(takeover_cases.holding(dice, telegram[:size], order))
        yield well_formed_case(reader)
        yield end_case(reader)
        yield feed_case(reader, telegram[size:] + b"\x03")
        if size in takeover_cases.SIZES:
            some = making.in_order(making.some_telegram, order)
            yield use_up_case(reader, telegram[size:] + b"\x03" + making.random_line(dice, some))
