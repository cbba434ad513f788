"""Short captures that tell a story each, for samples/."""

from layouts import AS_PRINTED, CR, ETX, EXCHANGED, LF, STX

LF_CR, CR_LF = bytes([LF, CR]), bytes([CR, LF])


def framed(inner):
    """A telegram with its STX and ETX."""
    return bytes([STX]) + inner + bytes([ETX])


def stamp_6021(text):
    """A 6021 telegram."""
    return framed(text + LF_CR)


def stamp_5500(text):
    """A 5500 telegram."""
    return framed(text + CR_LF)


def winter():
    """Quartz time and radio time, one second after another: status 1 is crystal in a 5500, status 4 in a 6021, and status 1 of a
    6021 is no valid time at all."""
    return b"".join([
        stamp_5500(b"0 123456 030196 3"), stamp_5500(b"1 123457 030196 3"), stamp_5500(b"3 123458 030196 3"),
        stamp_6021(b"83123459030196"), stamp_6021(b"43123500030196"), stamp_6021(b"13123501030196"),
    ])


def nine_deliveries():
    """Nine stamps around the midnight at which the price changes, with noise before, between and inside telegrams. The fourth was
    hit twice before it came through, and the sixth was cut off by the next."""
    return b"".join([
        b"\x00\xff", stamp_6021(b"E6235701310896"), b"~~", stamp_6021(b"E6235732310896"), stamp_6021(b"E6235810310896"),
        b"\x02E62358\x00031089", b"\x02E623583031\x0a0896\x0a\x0d\x03", stamp_6021(b"E6235831310896"), b"\x03\x03",
        stamp_6021(b"E6235959310896"), b"\x02E7000000", stamp_6021(b"E7000001010996"), b"zz\x0a", stamp_6021(b"E7000130010996"),
        stamp_6021(b"E7000244010996"), b"\xfe", stamp_6021(b"E7000359010996"), b"\x00",
    ])


def pump_start():
    """A pump start hits the line between two stamps: bytes without a start, a start with nothing but rubbish behind it, more than a
    telegram can have, another with less of it and an end, a start cut off by another. The capture ends inside a telegram."""
    return b"".join([
        stamp_6021(b"E1061459080496"), bytes(range(0x80, 0x90)), b"\x02" + bytes(range(0xa0, 0xd0)), framed(bytes(range(0xd0, 0xf0))),
        b"\x02\x91\x92", stamp_6021(b"E1061503080496"), b"\x02E10615",
    ])


def leap_second_night():
    """Boards on leap second nights, each by its own clock: one in standard time, where the second stands before one o'clock; one in
    daylight time, before two; one in UTC, before midnight. Then a board that puts it before its local midnight, which is wrong."""
    return b"".join([
        stamp_6021(b"C7005958010117"), stamp_6021(b"C7005959010117"), stamp_6021(b"C7005960010117"), stamp_6021(b"C7010000010117"),
        stamp_5500(b"4 015959 010715 3"), stamp_5500(b"4 015960 010715 3"), stamp_5500(b"4 020000 010715 3"),
        stamp_6021(b"CE235959311216"), stamp_6021(b"CE235960311216"), stamp_6021(b"CF000000010117"),
        stamp_6021(b"C6235959311216"), stamp_6021(b"C6235960311216"), stamp_6021(b"C7000000010117"),
    ])


def exchanged():
    """A 6038 that exchanges CR and LF, and other boards set alike: every layout, with bytes between them. Two telegrams in between
    came from a board that was left as printed: a 6021 is refused, and a 6021t passes for a 5500t. One stamp was damaged on the way."""
    return b"".join([
        b"\x00\xfe", framed(b"E3123456170496" + CR_LF), framed(b"123457" + CR_LF), b"\x0a\x0d", framed(b"E312345817041996" + CR_LF),
        framed(b"4 123459 170496 3" + LF_CR), framed(b"123500" + LF_CR), b"~", framed(b"12 35 01 17 04 96 53 " + LF_CR),
        framed(b"12 35 02 " + LF_CR), stamp_6021(b"E3123503170496"), stamp_6021(b"123504"), framed(b"E312350\xb5170496" + CR_LF),
        b"\x03", framed(b"E3123506170496" + CR_LF),
    ])


# The capture whose listing the requirements document prints; selftest.py holds that listing.
PRINTED = b"x" + stamp_6021(b"E3123456170496") + b"\x0212"

SAMPLES = {"winter": winter(), "nine-deliveries": nine_deliveries(), "pump-start": pump_start(),
           "leap-second-night": leap_second_night()}

# By the order of the line.
IN_ORDER = {AS_PRINTED: SAMPLES, EXCHANGED: {"exchanged": exchanged()}}
