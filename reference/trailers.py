"""Telegrams for a line of either order, and every trailer in the place of theirs, for tests."""

import itertools

import making
import telegrams
from layouts import AS_PRINTED, CR, ETX, LF, ORDERS, SPACE, STX, layouts_of_length

# With and without control characters, in each order.
MODES = list(itertools.product((True, False), ORDERS))

LENGTHS = range(41)
LONG = [255, 256, 264, 266, 274, 279, 300, 1000]   # some are a layout's length and 256 more

LF_CR, CR_LF = TRAILERS = bytes([LF, CR]), bytes([CR, LF])
OTHERS = [b"\n\n", b"\r\r", b"\n ", b" \r", b"\r\x0b", b"\x0c\n", b"\x02\x03", b"\x00\x00", b"\xff\xff"]

# What ends a layout's telegram as printed.
PRINTED = {"6021": LF_CR, "6021t": LF_CR, "2000": LF_CR, "5500": CR_LF, "5500t": CR_LF, "5050": CR_LF, "5050t": CR_LF}


def framed(inner, control):
    """Bytes with STX and ETX where they are wanted."""
    return bytes([STX]) + inner + bytes([ETX]) if control else inner


# --- telegrams ---

# What stands before the trailer of a good telegram of each layout.
GOOD = {
    "6021": b"E3123456170496", "6021t": b"235959", "2000": b"E312345617041996", "5500": b"1 123456 030196 3", "5500t": b"000000",
    "5050": b"12 34 56 03 01 96 13 ", "5050t": b"07 08 09 ",
}

# The same with something wrong, and the number that it is refused with where the trailer is right.
WRONG = [
    ("5500", b"1-123456 030196 3", 3), ("5050t", b"07 08:09 ", 3), ("6021", b"E312345617O496", 4), ("6021t", b"2359 9", 4),
    ("2000", b"E012345617041996", 5), ("5050", b"12 34 56 03 01 96 A3 ", 5), ("5500t", b"240000", 6),
    ("5500", b"1 123456 031396 3", 6), ("6021", b"C6120000290297", 7), ("5050", b"12 34 56 31 04 96 13 ", 7),
    ("2000", b"E412345617041996", 8), ("5500", b"1 123456 030196 4", 8),
]

# Frames that are none: what stands for STX and what for ETX.
NO_FRAMES = [(b"\x03", b"\x03"), (b"\x02", b"\x02"), (b"\x00", b"\xff")]


def trailer_of(layout, order):
    """The two bytes that end a layout's telegram on a line of that order."""
    return PRINTED[layout] if order == AS_PRINTED else PRINTED[layout][::-1]


def exchanged(telegram, control):
    """A telegram whose last two bytes between STX and ETX have changed places, where there are two."""
    end = len(telegram) - control
    return telegram[:end - 2] + telegram[end - 2:end][::-1] + telegram[end:] if end - 2 >= control else telegram


def good_ones(control, order):
    """A good telegram of each layout."""
    return [framed(body + trailer_of(layout, order), control) for layout, body in GOOD.items()]


def wrong_ones(control, order):
    """Telegrams with the right trailer that are refused, with the number: 3 to 8, and 2 where control characters are wanted."""
    for layout, body, number in WRONG:
        yield framed(body + trailer_of(layout, order), control), number
    if control:
        for (first, last), layout in zip(NO_FRAMES, ("6021t", "5050", "6021")):
            yield first + GOOD[layout] + trailer_of(layout, order) + last, 2


def filler(dice, size, control):
    """Bytes of that length that no layout need have."""
    inner = size - 2 if control and size >= 2 else size
    return framed(bytes(dice.choice(making.LIKELY) for _ in range(inner)), inner < size)


def of_length(dice, size, control, order):
    """A good telegram of that length where a layout has it, else filler."""
    for layout in layouts_of_length(size, control):
        return framed(GOOD[layout] + trailer_of(layout, order), control)
    return filler(dice, size, control)


def with_every_trailer(dice):
    """What every trailer is put into: bytes of each length in each mode, and telegrams with something else wrong."""
    for control, order in MODES:
        for size in LENGTHS:
            yield of_length(dice, size, control, order), control, order
        for telegram, _ in wrong_ones(control, order):
            yield telegram, control, order


# --- every trailer ---

# A byte that stands in no fixed place is like any other such byte, where a fixed one is wanted. So of every 256 bytes these are told
# apart, and each stands for so many.
TOLD_APART = {LF: 1, CR: 1, SPACE: 1, STX: 1, ETX: 1, 0: 251}


def trailers_in(telegram, control, trailers):
    """A telegram with each of these pairs of bytes in the place of its trailer, the last two bytes between STX and ETX; where there
    are no two the bytes stay as they are. It comes in one buffer again and again, with the pair."""
    buffer, at = bytearray(telegram), len(telegram) - control - 2
    has_place = at >= control
    for first, second in trailers:
        if has_place:
            buffer[at], buffer[at + 1] = first, second
        yield buffer, first, second


def read_with_every_trailer(telegram, control, order, told_apart=TOLD_APART):
    """What becomes of a telegram with each pair of bytes as its trailer: how many are refused with each number, and the pair and the
    layout of each that is read well. Only the bytes that are told apart are tried."""
    refused, read = [0] * 9, []
    for telegram, first, second in trailers_in(telegram, control, itertools.product(told_apart, repeat=2)):
        record, number = telegrams.judged(telegram, control, order)
        if number is None:
            read.append((first, second, record.layout))
        else:
            refused[number] += told_apart[first] * told_apart[second]
    return refused, sorted(read)
