"""The longest telegram that the reader holds."""

import re

import layouts
import line
import listing
import log
import manual_examples
import samples
from layouts import EXCHANGED, ORDERS
from selftests.checking import ETX, STX, WRAP, same


def the_longest_by_hand():
    """Lines around the bound, what each gives, and how many of its bytes are stray."""
    for captured, events, stray in (
            (STX + 23 * b"1" + ETX, [(0, 25, 3)], 0), (STX + 24 * b"1" + ETX, [(0, 26, 1)], 0), (STX + 24 * b"1", [(0, 25, 11)], 0),
            (STX + 24 * b"1" + STX + b"1", [(0, 25, 9), (25, 2, 11)], 0), (STX + 36 * b"1" + ETX, [(0, 38, 1)], 0),
            (STX + 37 * b"1" + ETX, [(0, 39, 1)], 0), (STX + 38 * b"1" + ETX, [(0, 39, 10)], 1),
            (STX + 39 * b"1" + ETX, [(0, 39, 10)], 2), (STX + 36 * b"1" + STX + ETX, [(0, 37, 9), (37, 2, 1)], 0),
            (STX + 37 * b"1" + STX + ETX, [(0, 38, 9), (38, 2, 1)], 0), (STX + 38 * b"1" + STX + ETX, [(0, 39, 10), (39, 2, 1)], 0),
            (STX + 39 * b"1" + STX + ETX, [(0, 39, 10), (40, 2, 1)], 1), (STX + 36 * b"1", [(0, 37, 11)], 0),
            (STX + 37 * b"1", [(0, 38, 11)], 0), (STX + 38 * b"1", [(0, 39, 10)], 0), (STX + 39 * b"1", [(0, 39, 10)], 1),
            (b"12" + STX + 80 * b"1", [(2, 39, 10)], 44), (2 * (STX + 37 * b"1" + ETX), [(0, 39, 1), (39, 39, 1)], 0),
            (2 * STX + 38 * b"1" + b"\x00" + STX, [(0, 1, 9), (1, 39, 10), (41, 1, 11)], 1)):
        for order in ORDERS:
            there, state = listing.events_of(captured, order)
            same("longest", (captured, there, state.stray), (captured, [line.Event(*event) for event in events], stray))
    full = b"\x02" + bytes(range(0x31, 0x56))
    for fed, start in ((38, 0), (5, 4294967263), (0, 4294967258), (4294967295, 4294967257)):
        held = line.state_of(full, 38, fed, 3, start)
        later = (fed + 1) % WRAP
        same("longest", line.feed(held, b"z1"), line.Fed(line.state_of([0] * 38, 0, later, 3, later), 1, line.Event(start, 39, 10)))
        same("longest", line.feed(held, ETX), line.Fed(line.state_of([0] * 38, 0, later, 3, later), 1, line.Event(start, 39, 1)))
        same("longest", line.feed(held, STX), line.Fed(line.state_of([2] + [0] * 37, 1, later, 3, fed), 1, line.Event(start, 38, 9)))
        same("longest", line.end(held), (line.state_of([0] * 38, 0, fed, 3, fed), line.Event(start, 38, 11)))
    one_less = line.state_of(full[:37] + b"\0", 37, 37, 0, 0)
    same("longest", line.feed(one_less, b"U"), line.Fed(line.state_of(full, 38, 38, 0, 0), 1, None))
    same("longest", line.fresh(EXCHANGED), ((0,) * 38, 0, 0, 0, 0, EXCHANGED))
    same("longest", (max(layouts.length(layout, True) for layout in layouts.LAYOUTS), log.SLOT - 1), (25, 31))


def examples_on_a_line():
    """A framed example of the manuals gives on a line what it reads as, unless it has more than 39 bytes. Some of the remote commands
    have 30, and one is too long."""
    lengths = set()
    for an_example, reads_as in manual_examples.all_outcomes():
        telegram, size = an_example.telegram, len(an_example.telegram)
        if re.fullmatch(rb"\x02[^\x02\x03]*\x03", telegram):
            lengths.add(size)
            wanted = ([line.Event(1, size, reads_as)], 2) if size <= 39 else ([line.Event(1, 39, 10)], size - 37)
            events, state = listing.events_of(b"x" + telegram + b"x")
            same("longest", (telegram, events, state.stray), (telegram, *wanted))
    same("longest", ({25, 30} <= lengths, max(lengths) > 39), (True, True))


def pump_start_by_hand():
    """What the sample is to show."""
    same("longest", listing.listing(samples.pump_start()),
         b"start;kind;date;time;weekday;status\n"
         b"0;6021;1996-04-08;06:14:59;1;high,daylight\n"
         b"34;refused 10\n"
         b"83;refused 1\n"
         b"117;refused 9\n"
         b"120;6021;1996-04-08;06:15:03;1;high,daylight\n"
         b"138;refused 11\n"
         b"stray 26\n")
