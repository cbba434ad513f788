"""The cases of the program `test_cases`, and what it should print for each."""

import random

import stray_runs
from cases.bound import AROUND_THE_BOUND, bound_cases, every_length_cases, judged_cases, take_over_cases, taken_over_cases
from cases.dates_and_times import calendar_cases, time_cases
from cases.leitch_and_requests import leitch_and_request_cases
from cases.lines import line_cases, long_pieces, manual_examples_on_lines, stray_run_cases
from cases.listing_rows import other_row_cases, row_cases
from cases.no_setting import unnamed_cases
from cases.one_case import fresh_case
from cases.parameter_bytes import parameter_6038_cases, parameter_cases
from cases.reading import damaged_cases, every_code, manual_cases
from cases.rows_of_places import layout_cases
from cases.second_60 import second_60_cases, second_60_on_lines, second_60_written
from cases.seconds import seconds_cases, utc_edges
from cases.trailer_order import order_lines, order_reads, order_writes
from cases.writing import (bad_records, one_of_each, several_by_dice, several_in_each_setting, writes_around_the_edge, writes_by_dice,
                           writes_of_bad_records)
from layouts import AS_PRINTED, EXCHANGED, ORDERS

SEED = 1996


def all_cases(seed=SEED):
    """Every case, in the order in which the program gets them."""
    dice = random.Random(seed)
    yield from calendar_cases()
    yield from time_cases()
    yield from seconds_cases(dice)
    yield from utc_edges(dice)
    yield from parameter_cases()
    yield from layout_cases(dice)
    yield from manual_cases()
    yield from every_code()
    yield from damaged_cases(dice)
    yield from writes_around_the_edge(one_of_each())
    yield from writes_of_bad_records(bad_records())
    yield from writes_by_dice(dice)
    yield from several_in_each_setting()
    yield from several_by_dice(dice)
    yield fresh_case()
    yield from line_cases(dice, AS_PRINTED, 100)
    yield from long_pieces()
    yield from row_cases(dice)
    yield from other_row_cases(dice)
    yield from leitch_and_request_cases(dice)
    yield from second_60_cases(dice)
    yield from second_60_written(dice)
    yield from second_60_on_lines(dice, AS_PRINTED)
    yield from stray_run_cases(dice, AS_PRINTED, stray_runs.LENGTHS)
    yield from unnamed_cases(dice)
    yield from parameter_6038_cases()
    yield from order_reads(dice)
    yield from order_writes(dice)
    yield from order_lines(dice)
    yield from judged_cases(dice)
    yield from every_length_cases()
    yield from bound_cases(dice, AS_PRINTED, AROUND_THE_BOUND)
    yield from bound_cases(dice, EXCHANGED, (25, 38))
    yield from take_over_cases(dice)
    for order in ORDERS:
        yield from taken_over_cases(dice, order)
    yield from manual_examples_on_lines()
