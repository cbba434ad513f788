"""The order of the trailer, read, written, on a line and in the log."""

import itertools
import re

import line
import listing
import log
import log_listing
import long_telegrams
import making
import records
import telegrams
import trailers
import unnamed
from layouts import AS_PRINTED, EXCHANGED, ORDERS
from records import Dated, TimeOnly
from refusals import outcome
from selftests.checking import CR_LF, ETX, LF_CR, STX, framed, good_record, random_line, read, same, swapped
from selftests.writing import in_the_other_order
from telegrams import Setting


def orders_by_hand():
    """Telegrams with their trailers written out, what they are as printed, and what they are in exchanged order."""
    stamp = Dated("6021", "high", True, False, False, 3, 12, 34, 56, 17, 4, 1996)
    january = Dated("5500", "crystal", False, False, False, 3, 12, 34, 56, 3, 1, 1996)
    for inner, as_printed, exchanged in (
            (b"E3123456170496\n\r", stamp, 3), (b"E3123456170496\r\n", 3, stamp),
            (b"E312345617041996\n\r", stamp._replace(layout="2000"), 3), (b"E312345617041996\r\n", 3, stamp._replace(layout="2000")),
            (b"1 123456 030196 3\r\n", january, 3), (b"1 123456 030196 3\n\r", 3, january),
            (b"12 34 56 03 01 96 13 \r\n", january._replace(layout="5050"), 3),
            (b"12 34 56 03 01 96 13 \n\r", 3, january._replace(layout="5050")),
            (b"12 34 56 \r\n", TimeOnly("5050t", 12, 34, 56), 3), (b"12 34 56 \n\r", 3, TimeOnly("5050t", 12, 34, 56)),
            (b"235959\n\r", TimeOnly("6021t", 23, 59, 59), TimeOnly("5500t", 23, 59, 59)),
            (b"235959\r\n", TimeOnly("5500t", 23, 59, 59), TimeOnly("6021t", 23, 59, 59)),
            (b"235959\n\n", 3, 3), (b"235959\r\r", 3, 3), (b"235959\r ", 3, 3), (b"23595A\r\n", 4, 4), (b"23595A\r\r", 3, 3),
            (b"240000\n\r", 6, 6), (b"E3123456170496\n\n", 3, 3), (b"E4123456170496\r\n", 3, 8), (b"E4123456170496\n\r", 8, 3),
            (b"G312345617O496\r\n", 3, 4), (b"G3123456170496\r\n", 3, 5), (b"C6120000290297\r\n", 3, 7), (b"235959\r", 1, 1),
            (b"\r\n", 1, 1), (b"", 1, 1)):
        for order, wanted in ((AS_PRINTED, as_printed), (EXCHANGED, exchanged)):
            same("orders", (inner, order, read(framed(inner), True, order)), (inner, order, wanted))
            same("orders", (inner, order, read(inner, False, order)), (inner, order, wanted))
            same("orders", read(STX + inner + STX, True, order), 1 if wanted == 1 else 2)
        same("orders", (read(framed(inner)), read(inner, False)), (as_printed, as_printed))
    for order, wanted in ((None, b"\x02235959\r\n\x03"), (AS_PRINTED, b"\x02235959\r\n\x03"), (EXCHANGED, b"\x02235959\n\r\x03")):
        buffer = bytearray(10)
        telegrams.write_telegram(TimeOnly("5500t", 23, 59, 59), buffer, Setting(True, False, order))
        same("orders", (order, bytes(buffer)), (order, wanted))
    same("orders", listing.listing(b"x" + framed(b"235959" + LF_CR), EXCHANGED), listing.HEADER + b"1;5500t;-;23:59:59;-;-\nstray 1\n")


def telegrams_of_the_cases():
    """The telegrams that every trailer is put into: good ones are read as their layout, and wrong ones have the number that is said of
    them."""
    for control, order in trailers.MODES:
        for layout, telegram in zip(trailers.GOOD, trailers.good_ones(control, order), strict=True):
            same("orders", read(telegram, control, order).layout, layout)
        for telegram, number in trailers.wrong_ones(control, order):
            same("orders", (telegram, read(telegram, control, order)), (telegram, number))
            same("orders", trailers.exchanged(telegram, control), swapped(telegram, control))


def written_as(record, *setting):
    """What a named setting makes of a record."""
    buffer = bytearray(30)
    used = telegrams.write_telegram(record, buffer, Setting(*setting))
    return bytes(buffer[:used])


def orders_of_writing(dice, rounds):
    """An order that is not named is as printed. The exchanged telegram has its trailer the other way round and is else the same. An
    exchanged 5500t is, byte for byte, an as-printed 6021t of the same time, and the other way round. Without a setting nothing is
    exchanged."""
    for _ in range(rounds):
        record, control = good_record(dice), dice.random() < 0.5
        as_printed, exchanged = (written_as(record, control, False, order) for order in ORDERS)
        same("orders", (written_as(record, control, False), swapped(as_printed, control)), (as_printed, exchanged))
        twin = in_the_other_order(record)
        if twin != 3:
            same("orders", (written_as(twin, control, False, AS_PRINTED), written_as(twin, control, False, EXCHANGED)),
                 (exchanged, as_printed))
        if not records.is_time_only(record):
            same("orders", unnamed.written([record]), written_as(record._replace(layout="6021"), True, False, AS_PRINTED))
            same("orders", outcome(telegrams.read_telegram, unnamed.written([record]), True, EXCHANGED), (None, 3))


READ_AS = [  # length between STX and ETX, what stands before the trailer, the layouts of LF CR and CR LF as printed
    (16, rb"[0-9A-F][1-79A-F][0-9]{12}", "6021", None), (8, rb"[0-9]{6}", "6021t", "5500t"),
    (18, rb"[0-9A-F][1-79A-F][0-9]{14}", "2000", None), (19, rb"[0-9] [0-9]{6} [0-9]{6} [1-7]", None, "5500"),
    (23, rb"([0-9]{2} ){6}[0-9][1-7] ", None, "5050"), (11, rb"([0-9]{2} ){3}", None, "5050t")]


def layout_by_pattern(inner, order):
    """The layout that bytes may be a telegram of, or None, found without the table of layouts."""
    for size, pattern, lf_cr, cr_lf in READ_AS:
        if len(inner) == size and re.fullmatch(pattern, inner[:-2]):
            by_trailer = {LF_CR: lf_cr, CR_LF: cr_lf} if order == AS_PRINTED else {CR_LF: lf_cr, LF_CR: cr_lf}
            return by_trailer.get(inner[-2:])
    return None


def every_length(dice, rounds):
    """Bytes of every length in each mode, with any two bytes for a trailer, likely ones more often: 1 exactly where the length is none
    of the mode's, then 2 exactly where the frame is wrong, the same in both orders; then 3 to 5 exactly where no pattern fits. What is
    read has the pattern's layout, and the writer makes it. Exchanged is as printed with the trailer swapped."""
    lengths = {True: {10, 13, 18, 20, 21, 25}, False: {8, 11, 16, 18, 19, 23}}
    for control, size in itertools.product((True, False), trailers.LENGTHS):
        for _ in range(rounds):
            telegram = bytearray(trailers.of_length(dice, size, control, dice.choice(ORDERS)))
            if dice.random() < 0.3 and telegram:
                telegram = bytearray(making.damaged(dice, telegram)[:size].ljust(size, b"\n"))
            end = size - control
            if end - 2 >= control:
                telegram[end - 2:end] = dice.choice([LF_CR, CR_LF, LF_CR, CR_LF, b"\n\n", dice.randbytes(2), telegram[end - 2:end]])
            telegram = bytes(telegram)
            inner = telegram[1:-1] if control else telegram
            for order in ORDERS:
                got = read(telegram, control, order)
                if size not in lengths[control]:
                    same("every length", got, 1)
                elif control and (telegram[:1], telegram[-1:]) != (STX, ETX):
                    same("every length", got, 2)
                else:
                    layout = layout_by_pattern(inner, order)
                    same("every length", got in (3, 4, 5), layout is None)
                    if not isinstance(got, int):
                        same("every length", (got.layout, making.telegram_of(got, control, order)), (layout, telegram))
            same("every length", read(telegram, control, EXCHANGED), read(swapped(telegram, control), control))


EVERY_BYTE = dict.fromkeys(range(256), 1)


def every_trailer():
    """A good telegram of each layout in each mode with each of the 65,536 trailers: two are read at the length that two layouts have,
    one at any other, and all others are 3. The bytes that the cases tell apart say the same, and so they do of wrong telegrams."""
    for control, order in trailers.MODES:
        for layout, telegram in zip(trailers.GOOD, trailers.good_ones(control, order)):
            refused, found = trailers.read_with_every_trailer(telegram, control, order, EVERY_BYTE)
            same("every trailer", trailers.read_with_every_trailer(telegram, control, order), (refused, found))
            wanted = [(*telegram[len(telegram) - control - 2:][:2], layout)]
            if layout in ("6021t", "5500t"):
                wanted = sorted(wanted + [(*wanted[0][1::-1], {"6021t": "5500t", "5500t": "6021t"}[layout])])
            same("every trailer", (found, refused), (wanted, [0, 0, 0, 65536 - len(wanted), 0, 0, 0, 0, 0]))
    for telegram, number in [*trailers.wrong_ones(True, EXCHANGED)][::4]:
        refused, found = trailers.read_with_every_trailer(telegram, True, EXCHANGED, EVERY_BYTE)
        same("every trailer", trailers.read_with_every_trailer(telegram, True, EXCHANGED), (refused, found))
    for size, control in ((0, True), (3, True), (9, True), (40, True), (1, False), (9, False)):
        refused, found = trailers.read_with_every_trailer(b"\x02" * size, control, EXCHANGED)
        same("every trailer", (found, refused[1]), ([], 65536))


def state_of_either_order(dice, rounds):
    """The order changes nothing but what an ended telegram is: a state of each order takes the same bytes, and keeps its order."""
    for _ in range(rounds):
        piece = random_line(dice, dice.choice(ORDERS))
        begun = dice.choice([making.some_telegram(dice, True), long_telegrams.some_telegram(dice, AS_PRINTED)])
        held = begun[:dice.randrange(39)].rstrip(ETX)
        held = held if line.well_formed(line.with_held(held, 0, 0)) else b""
        as_printed, exchanged = (line.feed(line.with_held(held, 7, 9, order), piece) for order in ORDERS)
        same("orders", (as_printed.state.order, exchanged.state.order), ORDERS)
        same("orders", (as_printed.state._replace(order=EXCHANGED), as_printed.taken), (exchanged.state, exchanged.taken))
        taken = held + piece[:as_printed.taken]
        if as_printed.event is not None and taken.endswith(ETX):
            telegram = taken[-as_printed.event.length:]
            for fed, order in ((as_printed, AS_PRINTED), (exchanged, EXCHANGED)):
                same("orders", fed.event, as_printed.event._replace(outcome=read(telegram, True, order)))
        else:
            same("orders", as_printed.event, exchanged.event)


def log_is_as_printed():
    """The log takes as-printed order only: an exchanged telegram is refused with 3, or is the other time-only layout as printed."""
    for layout, telegram in zip(trailers.GOOD, trailers.good_ones(True, EXCHANGED)):
        region, twin = bytearray(512), {"6021t": b"0;0;5500t;-;23:59:59;-;-\n", "5500t": b"0;0;6021t;-;00:00:00;-;-\n"}.get(layout)
        same("orders", outcome(log.add, region, telegram), ((0, 0), None) if twin else (None, 3))
        same("orders", outcome(log.read_back, region, 0, 0), (telegram, None) if twin else (None, 27))
        same("orders", log_listing.log_listing(bytes(region)), log_listing.LOG_HEADER + (twin or b""))
