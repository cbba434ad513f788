"""The document's own examples, and those of the manuals."""

import listing
import manual_examples
import parameter
import parameter_6038
import records
import samples
from layouts import EXCHANGED
from records import Dated, TimeOnly
from refusals import outcome
from selftests.checking import CR_LF, LF_CR, framed, read, same


def listing_examples():
    same("listing", listing.listing(samples.PRINTED),
         b"start;kind;date;time;weekday;status\n"
         b"1;6021;1996-04-17;12:34:56;3;high,daylight\n"
         b"19;refused 11\n"
         b"stray 1\n")
    same("listing", listing.listing(b""), listing.HEADER + b"stray 0\n")
    same("listing", listing.listing(framed(b"01 02 03 " + CR_LF)),
         listing.HEADER + b"0;5050t;-;01:02:03;-;-\nstray 0\n")
    same("listing", listing.listing(framed(b"DB123456030196" + LF_CR)),
         listing.HEADER + b"0;6021;1996-01-03;12:34:56;3;high,standard,utc,announced\n"
         b"stray 0\n")


def boundary_table():
    january = Dated("5500", "crystal", False, False, False, 3, 12, 34, 56, 3, 1, 1996)
    table = [
        ("P1", b"E3123456170496" + LF_CR,
         Dated("6021", "high", True, False, False, 3, 12, 34, 56, 17, 4, 1996)),
        ("P2", b"E4123456170496" + LF_CR, 8),
        ("P3", b"1 123456 030196 3" + CR_LF, january),
        ("P4", b"3 123456 030196 3" + CR_LF, january._replace(announced=True)),
        ("P5", b"A 123456 030196 3" + CR_LF, 5),
        ("P6", b"C6120000290297" + LF_CR, 7),
        ("P7", b"C2120000290200" + LF_CR,
         Dated("6021", "high", False, False, False, 2, 12, 0, 0, 29, 2, 2000)),
        ("P8", b"235959" + LF_CR, TimeOnly("6021t", 23, 59, 59)),
        ("P9", b"235959" + CR_LF, TimeOnly("5500t", 23, 59, 59)),
        ("P10", b"240000" + LF_CR, 6),
        ("P11", b"CB123456030196" + LF_CR,
         Dated("6021", "high", False, False, True, 3, 12, 34, 56, 3, 1, 1996)),
    ]
    for name, inner, wanted in table:
        same("boundary table", (name, read(framed(inner))), (name, wanted))
        same("boundary table", (name, read(inner, control=False)), (name, wanted))
        exchanged = inner[:-2] + {LF_CR: CR_LF, CR_LF: LF_CR}[inner[-2:]]
        same("boundary table", (name, read(framed(exchanged), True, EXCHANGED)), (name, wanted))
        same("boundary table", (name, read(exchanged, False, EXCHANGED)), (name, wanted))
    same("boundary table", parameter.read_parameter(0xA6),
         parameter.Parameter(False, 8, "none", 2, 600))
    half_past = Dated("6021", "radio", False, False, False, 2, 0, 30, 0, 1, 1, 1980)
    same("boundary table", outcome(records.utc_seconds, half_past), (None, 12))


def examples_of_the_manuals():
    for an_example, got in manual_examples.all_outcomes():
        same("manual examples", manual_examples.in_words(got), an_example.expected)
        if an_example.inside:
            same("manual examples", isinstance(got, Dated), True)
    for _, _, byte in manual_examples.PARAMETER_EXAMPLES:
        same("manual examples", parameter.read_parameter(byte).baud, 600)
    for _, _, byte in manual_examples.PARAMETER_EXAMPLES_6038:
        same("manual examples", parameter_6038.read_parameter(byte), parameter_6038.Parameter(7, "even", 1, 600))
