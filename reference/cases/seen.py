"""What the cases have to meet: the refusals of each entry point, what can come of a second 60 there, the layouts that are read."""

import collections

import line
import second_60
import trailers
from layouts import AS_PRINTED, LAYOUTS, ORDERS

RECORD = {5, 6, 7, 8}
READING = {True: {1, 2, 3, 4, 5, 6, 7, 8}, False: {1, 3, 4, 5, 6, 7, 8}}   # with control characters and without
ON_A_LINE = {1, 3, 4, 5, 6, 7, 8, 9, 10, 15}

# How a write is set: without a setting, by one without an order, or by one with an order.
NO_SETTING, NO_ORDER = "no setting", "no order"


def kind_of(setting):
    """How a write is set."""
    return NO_SETTING if setting is None else setting.order or NO_ORDER


# Each entry point by its letter, and the refusals that documents 01 and 02 give to it; each has to occur. Where an order or a mode
# belongs to a case, the letter comes with each of them, and each refusal has to occur there.
OWN_REFUSALS = {
    "D": {6, 7}, "d": {12}, "n": {6, 7, 12}, "M": {6}, "T": {6}, "t": {6}, "h": set(),
    "J": RECORD, "B": set(), "N": RECORD | {12}, "C": RECORD | {12, 14}, "Z": {12}, "U": RECORD | {12, 14},
    "K": RECORD | {12, 14}, "k": RECORD | {12, 14},
    "P": set(), "Q": {16}, "p": {16}, "s": {16},
    "A": {3, 4, 5}, "a": set(), "O": set(), "L": {1}, "I": set(), "i": set(),
    "R": READING[True], "r": READING[False], **{(letter, *mode): READING[mode[0]] for letter in "Yx" for mode in trailers.MODES},
    **{(letter, NO_SETTING): RECORD | {13, 14} for letter in "WS"},
    **{(letter, kind): RECORD | {12, 13} for letter in "WS" for kind in (NO_ORDER, *ORDERS)},
    "f": set(), **{(letter, order): refusals for order in ORDERS for letter, refusals in (
        ("g", set()), ("w", set()), ("F", ON_A_LINE), ("V", ON_A_LINE), ("E", {11, 15}), ("o", {15}))},
    "H": {13}, "G": RECORD | {13}, "X": {13},
    "y": {6, 7}, "l": {1, 3, 4, 17} | RECORD, "e": RECORD | {13, 17}, "q": {18},
}


def dated(*numbers):
    """Outcomes of a second 60 or above with a date; 0 is for an accepted one."""
    return {("dated", number) for number in numbers}


def time_only(*numbers):
    """The same without a date."""
    return {("time-only", number) for number in numbers}


# Each entry point that can get a second 60 or above, and what can come of it there; each has to occur. 7 is in none: such a second
# is good or 6 before the day is looked for.
SECOND_60 = {
    "J": dated(0, 5, 6, 8) | time_only(0, 6), "N": dated(0, 5, 6, 8, 12) | time_only(0, 6),
    **{letter: dated(0, 5, 6, 8, 12) | time_only(6, 14) for letter in "CUKk"},
    **{kind: dated(0, 5, 6, 8) | time_only(0, 6) for kind in (
        "R", "r", *(("Y", *mode) for mode in trailers.MODES), *((letter, order) for letter in "FV" for order in ORDERS))},
    **{(letter, NO_SETTING): dated(0, 5, 6, 8, 13) | time_only(6, 14) for letter in "WS"},
    **{(letter, kind): dated(0, 5, 6, 8, 12, 13) | time_only(0, 6, 13) for letter in "WS" for kind in (NO_ORDER, *ORDERS)},
    "i": dated(0) | time_only(0), "G": dated(0, 5, 6, 8, 13) | time_only(0, 6, 13),
    "l": dated(5, 6), "e": dated(5, 6),
}

# Where each layout has to be read in each order.
READ_IN_ORDERS = [*((letter, *mode) for letter in "Yx" for mode in trailers.MODES),
                  *((letter, order) for letter in "FV" for order in ORDERS)]


class Seen:
    """How many cases each kind had, which refusals have occurred there, which layouts have been read, and what has come of seconds 60
    and above. A kind is an entry point's letter, or begins with it."""

    def __init__(self):
        self.cases = collections.Counter()
        self.numbers = {kind: set() for kind in OWN_REFUSALS}
        self.second_60 = {kind: set() for kind in SECOND_60}
        self.layouts = {kind: set() for kind in READ_IN_ORDERS}

    def note(self, kind, refusal):
        self.cases[kind] += 1
        self.more(kind, refusal)

    def more(self, kind, refusal):
        """A refusal that is no case of its own."""
        if refusal is not None:
            self.numbers[kind].add(refusal)

    def record(self, kind, record, refusal):
        """A record that a case is about, and what came of it."""
        self.second_60[kind] |= {second_60.in_record(record, refusal)} - {None}

    def telegram(self, kind, telegram, control, refusal, order=AS_PRINTED):
        """A telegram that a case is about, and what came of it."""
        self.second_60[kind] |= {second_60.in_telegram(telegram, control, refusal, order)} - {None}

    def events(self, kind, state, piece, events):
        """The telegrams of a piece's events, of which the state may hold the first bytes."""
        there = line.held_of(state) + piece
        for event in events:
            start = (event.start - state.start) % line.WRAP
            refusal = event.outcome if isinstance(event.outcome, int) else None
            self.more(kind, refusal)
            self.telegram(kind, there[start:start + event.length], True, refusal, state.order)
            if refusal is None:
                self.layouts[kind].add(event.outcome.layout)

    def check(self):
        """Fails where a kind has no case, where a refusal never occurred, or one that the entry point does not give did; where
        something that can come of a second 60 never did, or something that cannot did; and where a layout was never read."""
        for kind, wanted in OWN_REFUSALS.items():
            if not self.cases[kind] or self.numbers[kind] != wanted:
                raise AssertionError(f"case {kind}: {self.cases[kind]} cases, refusals {sorted(self.numbers[kind])}, "
                                     f"wanted {sorted(wanted)}")
        for kind, wanted in SECOND_60.items():
            if self.second_60[kind] != wanted:
                raise AssertionError(f"case {kind}: second 60 {sorted(self.second_60[kind])}, wanted {sorted(wanted)}")
        for kind, read in self.layouts.items():
            if read != set(LAYOUTS):
                raise AssertionError(f"case {kind}: layouts {sorted(read)}")


SEEN = Seen()
