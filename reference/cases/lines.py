"""Pieces of a line, fed to readers of many states."""

import itertools

import line
import making
import manual_examples
import stray_runs
import trailers
import unnamed
from cases.one_case import end_case, feed_case, use_up_case, well_formed_case
from cases.states import states
from layouts import AS_PRINTED


def crowded_piece(dice, some):
    """A piece with more events than are handed on at a time, or about as many, between telegrams of some kind: each STX behind another
    gives one, and so does an ETX behind an STX."""
    crowd = dice.choice([b"\x02", b"\x02\x03"]) * dice.choice([*range(30, 36), 64, 65, 66, dice.randrange(100, 300)])
    return making.random_line(dice, some) + crowd + making.random_line(dice, some)


# Nothing, each byte that means something and one that does not, some of them, and more than can be held.
PIECES = (b"", b"\x02", b"\x03", b"x", b"xx\x02", b"1" * 40)


def line_cases(dice, order, rounds):
    """Every state of an order, judged and at the line's end. A refused one takes no piece. A good one is fed each of some pieces and
    telegrams of that order, and uses up two of the pieces, in turn, and telegrams. Then telegrams alone, a good one of each layout
    and wrong ones of each number, and so many by dice; and crowded pieces."""
    some, pieces = making.in_order(making.some_telegram, order), itertools.cycle(PIECES)
    for state in states(dice, order):
        yield well_formed_case(state)
        yield end_case(state)
        if not line.well_formed(state):
            yield feed_case(state, next(pieces))
            yield use_up_case(state, next(pieces))
            continue
        for piece in PIECES:
            yield feed_case(state, piece)
        yield use_up_case(state, next(pieces) + next(pieces))
        yield feed_case(state, making.random_line(dice, some)[:120])
        yield use_up_case(state, making.random_line(dice, some)[:200])
    wrong = [*(telegram for telegram, _ in trailers.wrong_ones(True, order)), *unnamed.shown_ones(True, order)]
    for telegram in [*trailers.good_ones(True, order), *wrong]:
        yield feed_case(line.fresh(order), telegram)
        yield use_up_case(line.fresh(order), telegram)
    for number in range(rounds):
        yield (feed_case if number % 3 else use_up_case)(line.fresh(order), some(dice, True))
    for _ in range(rounds // 10):
        yield use_up_case(line.fresh(order), crowded_piece(dice, some))


def long_pieces():
    """Pieces about as long as the program's buffer, of stray bytes and of events."""
    yield feed_case(line.fresh(), b"x" * 8000)
    yield use_up_case(line.fresh(), b"x" * 4000 + b"\x02" * 4000)


def stray_run_cases(dice, order, lengths):
    """A run of stray bytes of each of these lengths before a telegram's beginning, fed to a reader whose two counts wrap in it or at
    the byte behind it. Around the edges of the blocks in which runs may be looked at: also alone, and around a telegram of an order."""
    for length in lengths:
        run = stray_runs.run_of(dice, length)
        state = line.with_held(b"", *(line.WRAP - 1 - dice.randrange(length + 1) for _ in range(2)), order)
        yield feed_case(state, run + b"\x02")
        if length in stray_runs.EDGES:
            yield feed_case(state, run)
            yield use_up_case(state, run + making.some_telegram(dice, True, order) + run)


def manual_examples_on_lines():
    """Every example of the manuals on a line, with a byte before and behind it. Some of the remote commands among them are longer than
    any layout's telegrams."""
    for example in manual_examples.EXAMPLES:
        yield use_up_case(line.fresh(), b"x" + example.telegram + b"x")


# --- a line cut into pieces ---

def fed_in_turn(pieces, order):
    """A line in pieces from a fresh reader on: each fed until it is used up, every call to the state that the one before has left;
    then the line's end."""
    state = line.fresh(order)
    for piece in pieces:
        while True:
            yield feed_case(state, piece)
            state, taken, event = line.feed(state, piece)
            piece = piece[taken:]
            if event is None:
                break
    yield end_case(state)


def used_up_in_turn(pieces, order):
    """The same pieces with as many events at a call as are handed on at a time."""
    state = line.fresh(order)
    for piece in pieces:
        while piece:
            yield use_up_case(state, piece)
            state, taken, _ = line.use_up(state, piece)
            piece = piece[taken:]


def on_a_line(captured, *cuts, order=AS_PRINTED):
    """A line that is cut at these places, by both calls."""
    pieces = [captured[start:end] for start, end in zip([0, *cuts], [*cuts, len(captured)])]
    yield from fed_in_turn(pieces, order)
    yield from used_up_in_turn(pieces, order)


def cut_everywhere(captured, order=AS_PRINTED):
    """A line whole, and cut at each place."""
    yield from on_a_line(captured, order=order)
    for cut in range(1, len(captured)):
        yield from on_a_line(captured, cut, order=order)
