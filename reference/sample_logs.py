"""Short delivery logs, for samples/."""

import log
from samples import CR_LF, LF_CR, framed, stamp_5500, stamp_6021


def stamp_2000(text):
    """A 2000 telegram."""
    return framed(text + LF_CR)


def stamp_5050(text):
    """A 5050 telegram."""
    return framed(text + CR_LF)


def log_of(telegrams, blocks):
    """The telegrams added one after the other to so many zeroed blocks."""
    region = bytearray(log.BLOCK * blocks)
    for telegram in telegrams:
        log.add(region, telegram)
    return bytes(region)


def month():
    """Deliveries around the end of 2016, a leap second night, stamped by cabinets with boards of several layouts: on the pier (6021),
    at the workshop (2000), at the jetty (5500, quartz time for an hour), in the old shed (5050), and on hand pumps that print the time
    only. A visitor's board sends UTC."""
    return [
        stamp_6021(b"C6214007311216"), stamp_6021(b"C6214951311216"), stamp_2000(b"C621550231122016"), stamp_6021(b"C6220105311216"),
        stamp_5500(b"1 220312 311216 6"), stamp_5500(b"1 221040 311216 6"), stamp_6021(b"221200"), stamp_5050(b"22 15 30 31 12 16 06 "),
        stamp_6021(b"C6222014311216"), stamp_2000(b"8622300031122016"), stamp_5500(b"1 223645 311216 6"), stamp_6021(b"C6224100311216"),
        stamp_6021(b"C6225218311216"), stamp_5500(b"225555"), stamp_5500(b"0 230001 311216 6"),
        stamp_6021(b"C6230530311216"), stamp_5050(b"23 12 00 31 12 16 06 "), stamp_6021(b"C6233347311216"), stamp_2000(b"C623410931122016"),
        stamp_6021(b"C6235812311216"), stamp_6021(b"C6235959311216"), stamp_6021(b"C7000000010117"), stamp_5500(b"0 000125 010117 7"),
        stamp_5050(b"00 07 41 "), stamp_6021(b"CE231510311216"), stamp_2000(b"C700203001012017"), stamp_6021(b"C7003344010117"),
        stamp_6021(b"C7005901010117"), stamp_6021(b"C7005959010117"), stamp_6021(b"C7005960010117"),
        stamp_6021(b"C7010000010117"), stamp_5500(b"0 010418 010117 7"), stamp_6021(b"011200"), stamp_2000(b"C701254501012017"),
    ]


def damaged():
    """The same with one digit changed in the middle block: a stamp two minutes before the new year says an hour earlier. It would
    still read."""
    return log_of(month(), 3).replace(b"C6235812311216", b"C6225812311216")


LOGS = {"month": log_of(month(), 3), "month-damaged": damaged()}
