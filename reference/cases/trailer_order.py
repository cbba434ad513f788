"""The order of the trailer: reads, writes and lines in each."""

import itertools

import line
import making
import manual_examples
import second_60
import stray_runs
import telegrams
import trailers
import unnamed
from cases.lines import cut_everywhere, line_cases, on_a_line, stray_run_cases
from cases.one_case import (MANY, ONE, every_trailer_case, feed_case, fresh_in_order_case, read_in_order_case, several_case,
                            use_up_case, write_case)
from cases.reading import without_frame
from cases.second_60 import second_60_on_lines
from cases.writing import SETTINGS, one_of_each
from encoding import setting_number
from layouts import EXCHANGED, ORDERS, other_order
from records import Dated


def reads_in_order(dice, control, order):
    """Telegrams for one mode: the examples of the manuals as they are and with their trailers exchanged; good and wrong ones; good
    ones with right and wrong trailers, and with a wrong byte in each place; bytes of every length; damaged ones of this order, and of
    either."""
    for example in manual_examples.EXAMPLES:
        telegram = example.telegram if control else without_frame(example.telegram)
        yield telegram
        yield trailers.exchanged(telegram, control)
    yield from trailers.good_ones(control, order)
    yield from (telegram for telegram, _ in trailers.wrong_ones(control, order))
    yield from unnamed.shown_ones(control, order)
    for body, trailer in itertools.product(trailers.GOOD.values(), (*trailers.TRAILERS, *trailers.OTHERS)):
        yield trailers.framed(body + trailer, control)
    for size in trailers.LENGTHS:
        yield trailers.of_length(dice, size, control, order)
        yield trailers.filler(dice, size, control)
    yield from (trailers.filler(dice, size, control) for size in trailers.LONG)
    for telegram in trailers.good_ones(control, order):
        yield from making.each_place_wrong(telegram)
    yield from (making.some_telegram(dice, control, order) for _ in range(60))
    yield from (making.in_any_order(making.some_telegram)(dice, control) for _ in range(30))
    yield from second_60.shown_ones(control, order)
    yield from (second_60.some_telegram(dice, control, order) for _ in range(30))


def order_reads(dice):
    """Telegrams read in each mode, and with every trailer; good seconds 60 in the modes in turn."""
    for control, order in trailers.MODES:
        for telegram in reads_in_order(dice, control, order):
            yield read_in_order_case(telegram, control, order)
    for record, (control, order) in zip(second_60.good_by_hand(), itertools.cycle(trailers.MODES)):
        yield read_in_order_case(telegrams.telegram_of(record, control, order), control, order)
    for telegram, control, order in trailers.with_every_trailer(dice):
        yield every_trailer_case(telegram, control, order)


def order_writes(dice):
    """Writes with each named setting, of one record and, of every third in turn, of several: good ones, ones with second 60, the
    calendar's last second, bad ones of each number behind a good one; into buffers that are mostly long enough."""
    last = Dated("2000", "radio", False, False, True, 7, 23, 59, 59, 31, 12, 2079)
    shown = [*one_of_each(), *second_60.one_of_each(), last, last._replace(second=60),
             *unnamed.bad_of_each_number(), *second_60.bad_ones()]
    for setting in SETTINGS[1:]:
        for number, record in enumerate(shown):
            yield write_case(record, setting, ONE)
            if number % 3 == setting_number(setting) % 3:
                yield several_case([making.good_record(dice), record, making.good_record(dice)], setting, dice.choice([MANY, MANY, 40]))
        for record in [making.any_record(dice) for _ in range(4)] + [second_60.any_by_dice(dice) for _ in range(4)]:
            yield write_case(record, setting, dice.choice([ONE, ONE, dice.randrange(ONE + 1)]))


def order_lines(dice):
    """What as-printed lines have had, for exchanged ones; a telegram of each layout, whole and cut somewhere, the longest at each
    place; and lines whose telegrams are in either order, or in the order that the line does not have."""
    for order in ORDERS:
        yield fresh_in_order_case(order)
    yield from line_cases(dice, EXCHANGED, 60)
    yield from second_60_on_lines(dice, EXCHANGED)
    yield from stray_run_cases(dice, EXCHANGED, stray_runs.EDGES)
    for telegram in trailers.good_ones(True, EXCHANGED):
        yield from on_a_line(telegram, order=EXCHANGED)
        yield from on_a_line(telegram, dice.randrange(1, len(telegram)), order=EXCHANGED)
    yield from cut_everywhere(max(trailers.good_ones(True, EXCHANGED), key=len), EXCHANGED)
    for order in ORDERS:
        yield from on_a_line(b"".join(trailers.good_ones(True, other_order(order))), order=order)
        for _ in range(25):
            yield feed_case(line.fresh(order), making.some_telegram(dice, True, other_order(order)))
            yield use_up_case(line.fresh(order), making.random_line(dice, making.in_any_order(making.some_telegram)))
    for record in unnamed.METER_RECORDS:
        yield from on_a_line(unnamed.written([record]), order=EXCHANGED)
