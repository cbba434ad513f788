"""States kept from before the bound was raised, and readers with either bound."""

import itertools

import line
import takeover
import takeover_cases
from layouts import AS_PRINTED, EXCHANGED, ORDERS
from refusals import outcome
from selftests.checking import ETX, STX, random_line, same
from selftests.lines import events_by_pattern, fed_in_pieces


def take_over_by_hand():
    """Old states written out, and the readers that they become; and old states that are refused."""
    full = b"\x02" + bytes(range(0x31, 0x48))
    for held, counts, order in (
            (b"", (0, 0, 0), AS_PRINTED), (b"", (7, 5, 7), EXCHANGED), (b"\x02", (1, 0, 0), AS_PRINTED),
            (b"\x02", (0, 9, 4294967295), EXCHANGED), (b"\x02E3", (10, 7, 7), EXCHANGED), (b"\x02\0\0", (10, 7, 7), AS_PRINTED),
            (full[:23], (23, 0, 0), AS_PRINTED), (full, (24, 0, 0), EXCHANGED), (full, (5, 4294967295, 4294967277), AS_PRINTED),
            (full, (4294967295, 1, 4294967271), EXCHANGED)):
        old = line.State((*held, *[0] * (24 - len(held))), len(held), *counts, order)
        reader = line.State((*held, *[0] * (38 - len(held))), len(held), *counts, order)
        same("take-over", takeover.answer_of(old), (None, reader, old))
    for places, length, counts in (
            (full, 25, (100, 0, 75)), (full, 26, (100, 0, 74)), (full, 38, (100, 0, 62)), (full, 39, (100, 0, 61)),
            (full, 255, (300, 0, 45)), (full, 25, (100, 0, 76)), (full, 23, (100, 0, 77)), (full, 0, (100, 0, 100)),
            (full, 24, (24, 0, 1)), (full, 24, (24, 0, 2 ** 31)), (full, 24, (0, 0, 0)), (bytes(24), 1, (1, 0, 0)),
            (bytes(24), 25, (25, 0, 0)), (b"\x03" + bytes(23), 1, (1, 0, 0)), (b"1" + full[1:], 24, (24, 0, 0)),
            (full[:23] + b"\x02", 24, (24, 0, 0)), (full[:23] + b"\x03", 24, (24, 0, 0)), (b"\x02\x02" + bytes(22), 2, (2, 0, 0)),
            (b"\x02\x03" + bytes(22), 2, (2, 0, 0)), (b"\x021" + bytes(22), 1, (1, 0, 0)), (bytes(23) + b"1", 0, (0, 0, 0))):
        for order in ORDERS:
            old = line.State(tuple(places), length, *counts, order)
            same("take-over", takeover.answer_of(old), (15, line.State((0,) * 38, 0, 0, 0, 0, order), old))


def take_over_by_dice(dice, rounds):
    """25 to 38 held are refused, whatever stands there. Faults are refused, alone and together; a state without any is taken over."""
    for length, order in itertools.product(range(25, 39), ORDERS):
        for _ in range(rounds):
            places = dice.choice([takeover_cases.full(order), dice.randbytes(24), bytes(24)])
            same("take-over", outcome(takeover.take_over, takeover_cases.saying(dice, places, length, length, order)), (None, 15))
    for faults, order in itertools.product(rounds * takeover_cases.SETS_OF_FAULTS, ORDERS):
        old = takeover_cases.with_faults(dice, faults, order)
        same("take-over", (old, outcome(takeover.take_over, old)[1]), (old, 15 if faults else None))


# --- two bounds ---

def meaning_of(state):
    """What a state says of its line."""
    return bytes(state.places[:state.length]), state.fed, state.stray, state.start, state.order


def goes_on(old, captured):
    """A reader with the old bound and the one that takes its state over, byte by byte: the same events, counts and held bytes, and at
    each byte the latter is what the former is taken over as. Where the former gives its first 10, the latter holds 25 bytes. Tells
    whether it came to that."""
    new = takeover.take_over(old)
    same("two bounds", (line.well_formed(new), meaning_of(new)), (True, meaning_of(old)))
    for byte in captured:
        held = line.held_of(old) + bytes([byte])
        (old, event), (new, other) = line.take(old, byte), line.take(new, byte)
        if event is not None and event.outcome == 10:
            same("two bounds", (event.length, other, new.length, meaning_of(new)),
                 (25, None, 25, (held, old.fed, old.stray, event.start, old.order)))
            return True
        same("two bounds", (other, meaning_of(new), new), (event, meaning_of(old), takeover.take_over(old)))
    (old, event), (new, other) = line.end(old), line.end(new)
    same("two bounds", (other, new), (event, takeover.take_over(old)))
    return False


def two_bounds(dice, rounds):
    """Damaged lines behind old states, until the old bound makes a difference; where it makes none, also by the calls, in any pieces.
    The old bound gives what a pattern says too."""
    too_long = 0
    for order in [*ORDERS] * (rounds // 2):
        old, captured = takeover_cases.from_a_line(dice, order), random_line(dice, order)
        new, differs = takeover.take_over(old), goes_on(old, captured)
        if not differs:
            (state, events), (later, others) = (fed_in_pieces(dice, there, captured) for there in (old, new))
            same("two bounds", (others, later), (events, takeover.take_over(state)))
            same("two bounds", line.use_up(new, captured)[1:], line.use_up(old, captured)[1:])
        state, events = fed_in_pieces(dice, line.fresh(order, 24), captured)
        event = line.end(state)[1]
        same("two bounds", events + ([event] if event else []), events_by_pattern(captured, order, 24)[0])
        too_long += differs
    same("two bounds", rounds < 10 * too_long < 9 * rounds, True)


WORDS = [b"".join(word) for size in range(6) for word in itertools.product((STX, ETX, b"1"), repeat=size)]


def every_word():
    """All short words of STX, ETX and a plain byte, where nothing is held, and where about as many bytes are held as can be, by each
    bound: old states go on as they should, and both bounds give what a pattern says of the held bytes and the word."""
    differs = set()
    for size, word in itertools.product((0, 1, *range(20, 26), *range(34, 39)), WORDS):
        held, order = (STX + 37 * b"1")[:size], ORDERS[size % 2]
        if size <= 24:
            differs.add((size, goes_on(line.with_held(held, size, 0, order, 24), word)))
        for places in (24, 38) if size <= 24 else (38,):
            state, _, events = line.use_up(line.with_held(held, size, 0, order, places), word)
            same("every word", line.well_formed(state), True)
            last, event = line.end(state)
            wanted, stray = events_by_pattern(held + word, order, places)
            same("every word", (held, word, [*events, event] if event else [*events]), (held, word, wanted))
            same("every word", (last.stray, last.fed), (stray, size + len(word)))
    same("every word", differs, {(size, False) for size in (0, 1, *range(20, 25))} | {(size, True) for size in range(20, 25)})
