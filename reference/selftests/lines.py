"""The line: what a pattern finds in it, the reader gives in any pieces."""

import functools
import re

import line
import listing
import making
import takeover
import takeover_cases
from cases.states import states, states_to_judge
from layouts import EXCHANGED, ORDERS, other_order
from refusals import outcome
from selftests.checking import ETX, STX, WRAP, good_record, random_line, read, same, swapped
from selftests.writing import in_the_other_order


@functools.cache
def tokens(places):
    """What a line falls into for a reader with so many places."""
    return re.compile(
        rb"(?P<ended>\x02[^\x02\x03]{0,%d}\x03)|(?P<long>\x02[^\x02\x03]{%d})"
        rb"|(?P<cut>\x02[^\x02\x03]{0,%d}(?=\x02))|(?P<open>\x02[^\x02\x03]{0,%d}\Z)"
        rb"|(?P<stray>[^\x02])" % (places - 1, places, places - 1, places - 1), re.DOTALL)


def events_by_pattern(captured, order, places=38):
    """The events and the stray count of a whole line of an order, found without the reader. An exchanged telegram is swapped and read
    as printed."""
    events, stray = [], 0
    for token in tokens(places).finditer(captured):
        kind, telegram = token.lastgroup, token.group()
        if kind == "stray":
            stray += 1
            continue
        result = {"long": 10, "cut": 9, "open": 11}.get(kind) or read(swapped(telegram) if order == EXCHANGED else telegram)
        events.append(line.Event(token.start(), len(telegram), result))
    return events, stray


def fed_in_pieces(dice, state, captured):
    """Feeds a line cut at random places, piece after piece, the untaken rest again."""
    events = []
    while captured:
        cut = dice.randrange(len(captured) + 1)
        piece, captured = captured[:cut], captured[cut:]
        while True:
            state, taken, event = line.feed(state, piece)
            same("line", line.well_formed(state), True)
            piece = piece[taken:]
            if event is None:
                same("line", piece, b"")
                break
            events.append(event)
    return state, events


def lines(dice, rounds):
    """Lines of both orders."""
    for order in [*ORDERS] * (rounds // 2):
        captured = random_line(dice, order)
        whole, stray = events_by_pattern(captured, order)
        same("line", listing.events_of(captured, order)[0], whole)
        state, events = fed_in_pieces(dice, line.fresh(order), captured)
        same("line", state, fed_in_pieces(dice, line.fresh(order), captured)[0])
        same("line", (state.fed, state.stray, state.order), (len(captured), stray, order))
        same("line", state.fed, sum(event.length for event in events) + stray + state.length)
        last, event = line.end(state)
        same("line", last, line.state_of([0] * 38, 0, state.fed, stray, state.fed, order))
        same("line", events + ([event] if event else []), whole)
        same("line", line.end(last), (last, None))


def used_up(dice, rounds):
    """What a piece gives at one call is what its bytes give one by one, up to the thirty-second event."""
    for order in [*ORDERS] * (rounds // 2):
        piece = random_line(dice, order) + STX * dice.choice([0, 30, 31, 32, 33, 100]) + random_line(dice, order)
        passed = line.use_up(line.fresh(order), piece)
        state, events, taken = line.fresh(order), [], 0
        while taken < len(piece) and len(events) < 32:
            state, more, event = line.feed(state, piece[taken:taken + 1])
            taken += more
            events += [event] if event else []
        same("used up", passed, line.Passed(state, taken, tuple(events)))


def wrapping_counts(dice, rounds):
    """The same line behind counts that are about to wrap gives the same events, moved."""
    for order in [*ORDERS] * (rounds // 2):
        captured = random_line(dice, order)
        fed, stray = (dice.choice([WRAP - 1, dice.randrange(WRAP - 200, WRAP)]) for _ in "ab")
        moved = line.state_of([0] * 38, 0, fed, stray, fed, order)
        state, events = fed_in_pieces(dice, line.fresh(order), captured)
        other, other_events = fed_in_pieces(dice, moved, captured)
        same("wrap", other_events, [event._replace(start=(event.start + fed) % WRAP)
                                    for event in events])
        same("wrap", other, state._replace(fed=(state.fed + fed) % WRAP,
                                           stray=(state.stray + stray) % WRAP,
                                           start=(state.start + fed) % WRAP))


def good_lines(dice, rounds):
    """Demand 3 in each order: good telegrams of a line's order, with any bytes but STX before, between and after, come back as they
    were, wherever the line is cut, with no refusal and the true number of stray bytes. On a line of the other order only time-only
    telegrams of the one length would be read, as each other's."""
    for order in [*ORDERS] * (rounds // 2):
        some = [good_record(dice) for _ in range(dice.randrange(6))]
        captured, wanted, stray = b"", [], 0
        for record in [*some, None]:
            noise = bytes(dice.choice([byte for byte in range(256) if byte != 2]) for _ in range(dice.choice([0, 0, 1, 2, 40])))
            captured, stray = captured + noise, stray + len(noise)
            if record is not None:
                telegram = making.telegram_of(record, True, order)
                wanted.append(line.Event(len(captured), len(telegram), record))
                captured += telegram
        size = len(captured)
        outside = line.state_of([0] * 38, 0, size, stray, size, order)
        same("good lines", fed_in_pieces(dice, line.fresh(order), captured), (outside, wanted))
        same("good lines", line.end(outside), (outside, None))
        same("good lines", line.use_up(line.fresh(order), captured), line.Passed(outside, size, tuple(wanted)))
        same("good lines", len(captured) - stray, sum(event.length for event in wanted))
        there = listing.events_of(captured, other_order(order))[0]
        same("good lines", [event.outcome for event in there], [in_the_other_order(record) for record in some])


def cut_at_each_place(dice, rounds):
    """A damaged line of each order, in two pieces cut at each place, and byte by byte: the same events and the same state."""
    for order in [*ORDERS] * (rounds // 2):
        captured = random_line(dice, order)
        wanted, stray = events_by_pattern(captured, order)
        for pieces in [[captured[:cut], captured[cut:]] for cut in range(len(captured) + 1)] + [[bytes([byte]) for byte in captured]]:
            state, events = line.fresh(order), []
            for piece in pieces:
                while piece:
                    state, taken, some = line.use_up(state, piece)
                    piece = piece[taken:]
                    events += some
            left, event = line.end(state)
            same("cut", events + ([event] if event else []), wanted)
            same("cut", left, line.state_of([0] * 38, 0, len(captured), stray, len(captured), order))
            same("cut", (state.fed, state.order), (sum(event.length for event in events) + stray + state.length, order))


# --- states ---

def states_not_well_formed(order):
    def state(held, length=None, beyond=0, fed=100, start=None):
        places = (list(held) + [0] * 38)[:38]
        length = len(held) if length is None else length
        if beyond:
            places[37] = beyond
        return line.state_of(places, length, fed, 0,
                             (fed - length) % WRAP if start is None else start, order)

    full = b"\x02" + b"1" * 37
    for good in (state(b""), state(b"\x02"), state(full), state(full[:25]), state(full, fed=0), state(b"\x02", fed=0),
                 state(b"\x02\x00\xff")):
        same("states", line.well_formed(good), True)
        same("states", line.feed(good, b""), line.Fed(good, 0, None))
    for bad in (state(full, length=39), state(full, length=255), state(full, length=37), state(full, length=24),
                state(full[:37] + STX), state(full[:37] + ETX), state(b"1"), state(b"\x03"),
                state(b"\x02\x02"), state(b"\x02\x03"), state(b"\x021", beyond=1),
                state(b"", beyond=2), state(b"\x021", length=1), state(b"", start=99),
                state(b"\x02", start=100), state(b"\x02", fed=0, start=0),
                state(b"", length=1)):
        same("states", line.well_formed(bad), False)
        for piece in (b"", b"x", STX, ETX):
            same("states", outcome(line.feed, bad, piece), (None, 15))
        same("states", outcome(line.end, bad), (None, 15))


def well_formed_by_pattern(state, places):
    """The rule for so many places, as one pattern over their bytes."""
    size = state.length
    if size > places:
        return False
    begun = rb"\x02[^\x02\x03]{%d}" % (size - 1) if size else b""
    fits = re.fullmatch(begun + rb"\0{%d}" % (places - size), bytes(state.places))
    return fits is not None and (state.start + size - state.fed) % WRAP == 0


def states_by_pattern(dice):
    """The states of the cases are well formed where the pattern says so. Those kept from before the bound was raised are refused
    where it does not say so for 24 places, and nowhere else."""
    for order in ORDERS:
        for state in [*states(dice, order), *states_to_judge(dice, order)]:
            same("states", (state, line.well_formed(state)), (state, well_formed_by_pattern(state, 38)))
        for old in takeover_cases.states(dice, order):
            same("take-over", (old, outcome(takeover.take_over, old)[1]), (old, None if well_formed_by_pattern(old, 24) else 15))
