"""The line reader, byte by byte, as a value that is handed in and handed back."""

from typing import NamedTuple, Optional, Tuple, Union

from layouts import AS_PRINTED, ETX, STX
from records import Dated, TimeOnly
from refusals import ENDED_INSIDE, STATE, STX_INSIDE, TOO_LONG, Refused
from telegrams import judged

PLACES = 38      # the most bytes that the reader holds; a telegram has at most one more
AT_A_TIME = 32   # the most events that are handed on at a time
WRAP = 2 ** 32


class State(NamedTuple):
    """Byte places of which the first `length` are held, the free running counts, and the line's order. The reader's has PLACES of
    them. The rules take the bound from the state, so they are the same for a reader with any other number of places."""
    places: Tuple[int, ...]
    length: int
    fed: int
    stray: int
    start: int
    order: str


class Event(NamedTuple):
    """Position of the first byte, number of bytes, and a record or a refusal number."""
    start: int
    length: int
    outcome: Union[Dated, TimeOnly, int]


class Fed(NamedTuple):
    """The next state, how many bytes of the piece were taken, and the event if any."""
    state: State
    taken: int
    event: Optional[Event]


class Passed(NamedTuple):
    """The next state, how many bytes of the piece were taken, and the events they gave."""
    state: State
    taken: int
    events: Tuple[Event, ...]


def state_of(places, length, fed, stray, start, order=AS_PRINTED):
    """A state from its parts, well formed or not."""
    return State(tuple(places), length, fed, stray, start, order)


def fresh(order=AS_PRINTED, places=PLACES):
    """Holds nothing, all counts 0."""
    return state_of([0] * places, 0, 0, 0, 0, order)


# --- well formed ---

def held_of(state):
    """The held bytes."""
    return bytes(state.places[:state.length])


def bound_of(state):
    """The most bytes that can be held: one in each place."""
    return len(state.places)


def no_more_held_than_places(state):
    """At most as many bytes are held as the bound says."""
    return 0 <= state.length <= bound_of(state)


def begins_with_its_only_stx(state):
    """Of the held bytes the first is STX, and no other is STX or ETX."""
    held = held_of(state)
    return not held or (held[0] == STX and STX not in held[1:] and ETX not in held[1:])


def zero_beyond(state):
    """The places beyond the held ones are zero."""
    return not any(state.places[state.length:])


def start_is_fed_less_held(state):
    """The start position is fed less held, with the wrap."""
    return state.start == (state.fed - state.length) % WRAP


def well_formed(state):
    """All four clauses, of which the first one names the bound. None is about the order."""
    return (no_more_held_than_places(state) and begins_with_its_only_stx(state)
            and zero_beyond(state) and start_is_fed_less_held(state))


def check_state(state):
    """15 where the state is not well formed."""
    if not well_formed(state):
        raise Refused(STATE)


# --- the moves a reader makes ---

BEGUN = bytes([STX])   # what is held of a telegram that has just begun


def with_held(held, fed, stray, order=AS_PRINTED, places=PLACES):
    """The well formed state of so many places that holds these bytes."""
    return state_of(held.ljust(places, b"\0"), len(held), fed, stray, (fed - len(held)) % WRAP, order)


def moved_on(state, held, fed, stray):
    """The same reader, holding these bytes."""
    return with_held(held, fed, stray, state.order, bound_of(state))


def event_of(state, length, outcome):
    """An event of the telegram that the state has begun."""
    return Event(state.start, length, outcome)


def outcome_of(telegram, order):
    """The record of an ended telegram in the line's order, or the number it is refused with."""
    record, number = judged(telegram, True, order)
    return record if number is None else number


def take_outside(state, byte, fed):
    """Outside a telegram STX begins one, any other byte is stray."""
    if byte == STX:
        return moved_on(state, BEGUN, fed, state.stray), None
    return moved_on(state, b"", fed, (state.stray + 1) % WRAP), None


def take_inside(state, byte, fed):
    """Inside a telegram: ETX ends it, STX cuts it off and begins the next, any other byte
    is held, or is one too many where a byte is held in each place."""
    held = held_of(state)
    if byte == ETX:
        return (moved_on(state, b"", fed, state.stray),
                event_of(state, len(held) + 1, outcome_of(held + bytes([ETX]), state.order)))
    if byte == STX:
        return moved_on(state, BEGUN, fed, state.stray), event_of(state, len(held), STX_INSIDE)
    if len(held) == bound_of(state):
        return moved_on(state, b"", fed, state.stray), event_of(state, len(held) + 1, TOO_LONG)
    return moved_on(state, held + bytes([byte]), fed, state.stray), None


def take(state, byte):
    """One byte: the next state and the event it gives, if any."""
    fed = (state.fed + 1) % WRAP
    return take_inside(state, byte, fed) if state.length else take_outside(state, byte, fed)


# --- the calls ---

def feed(state, piece):
    """Takes bytes up to and with the first that gives an event, or all; 15 takes none."""
    check_state(state)
    for taken, byte in enumerate(piece, start=1):
        state, event = take(state, byte)
        if event is not None:
            return Fed(state, taken, event)
    return Fed(state, len(piece), None)


def end(state):
    """The line's end: the state outside, and 11 for the bytes held if any; or 15."""
    check_state(state)
    event = event_of(state, state.length, ENDED_INSIDE) if state.length else None
    return moved_on(state, b"", state.fed, state.stray), event


def use_up(state, piece):
    """Feeds the rest of a piece again behind each event, until nothing is left of it or so many events
    have come as are handed on at a time; 15 takes none."""
    check_state(state)
    taken, events = 0, []
    while len(events) < AT_A_TIME:
        state, more, event = feed(state, piece[taken:])
        taken += more
        if event is None:
            break
        events.append(event)
    return Passed(state, taken, tuple(events))
