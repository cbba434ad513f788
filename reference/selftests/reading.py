"""Damaged telegrams, and every pair of status and weekday characters."""

import making
from layouts import EXCHANGED, ORDERS
from selftests.checking import framed, good_record, read, same, swapped


def what_reads_is_what_the_writer_makes(dice, rounds):
    """In both orders. The reading in exchanged order is that of the bytes with the trailer swapped."""
    for _ in range(rounds):
        control, order = dice.random() < 0.5, dice.choice(ORDERS)
        telegram = making.damaged(dice, making.telegram_of(good_record(dice), control, order))
        got = read(telegram, control, order)
        if isinstance(got, int):
            same("damaged", 1 <= got <= 8, True)
        else:
            same("damaged", making.telegram_of(got, control, order), telegram)
        same("damaged", read(swapped(telegram, control), control), read(telegram, control, EXCHANGED))


def status_and_weekday_characters():
    """Every pair of characters in every dated layout: 5 unless both are allowed, 8 unless
    the weekday is the date's Wednesday, else a telegram the writer makes again; in both orders."""
    characters = sorted(set(range(0x20, 0x50)) | set(b"abfx\x00\x02\x03\x7f\xff"))
    as_6021 = (b"0123456789ABCDEF", b"12345679ABCDEF", b"3B")
    as_5500 = (b"0123456789", b"1234567", b"3")
    for inner, state, weekday, (states, weekdays, wednesday) in (
            (b"??123456030196\n\r", 0, 1, as_6021), (b"??12345603011996\n\r", 0, 1, as_6021),
            (b"? 123456 030196 ?\r\n", 0, 16, as_5500),
            (b"12 34 56 03 01 96 ?? \r\n", 18, 19, as_5500)):
        for first in characters:
            for second in characters:
                telegram = bytearray(framed(inner))
                telegram[state + 1], telegram[weekday + 1] = first, second
                got = read(bytes(telegram))
                if first not in states or second not in weekdays:
                    same("characters", got, 5)
                elif second not in wednesday:
                    same("characters", got, 8)
                else:
                    same("characters", making.telegram_of(got, True), bytes(telegram))
                same("characters", read(swapped(bytes(telegram)), True, EXCHANGED), got)
