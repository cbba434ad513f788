"""Runs the examples of the document and of the manuals, and properties on random data.

    python3 -B selftest.py [seed]

Prints one line that begins with ok, or stops at the first failure and exits with 1.
"""

import random
import sys

sys.dont_write_bytecode = True  # leaves no files behind

from layouts import ORDERS
from selftests import (calendar, document, kept_states, leitch_answer, lines, logs, longest, no_setting, parameter_bytes,
                       places_and_rows, reading, requests, seconds, trailer_order, writing, wrong_rules)
from selftests.checking import counts


def main():
    dice = random.Random(int(sys.argv[1]) if len(sys.argv) > 1 else 6036)
    document.listing_examples()
    document.boundary_table()
    document.examples_of_the_manuals()
    calendar.calendar()
    calendar.months()
    calendar.time_of_day()
    writing.read_back_what_was_written(dice, 5000)
    writing.refusals_of_records(dice, 3000)
    writing.fields_out_of_order()
    writing.several(dice, 1000)
    no_setting.no_setting_named(dice, 3000)
    no_setting.statuses_told_by_a_6021()
    no_setting.meter_programs(dice, 1000)
    no_setting.meter_programs_by_hand()
    seconds.utc_counts()
    seconds.second_60_by_library()
    seconds.second_60_by_hand()
    seconds.second_60_of_the_cases(dice, 2000)
    reading.what_reads_is_what_the_writer_makes(dice, 20000)
    reading.status_and_weekday_characters()
    lines.lines(dice, 1500)
    lines.used_up(dice, 300)
    no_setting.unnamed_on_a_line(dice, 1000)
    lines.wrapping_counts(dice, 300)
    for order in ORDERS:
        lines.states_not_well_formed(order)
    lines.states_by_pattern(dice)
    longest.the_longest_by_hand()
    longest.examples_on_a_line()
    longest.pump_start_by_hand()
    kept_states.take_over_by_hand()
    kept_states.take_over_by_dice(dice, 10)
    kept_states.two_bounds(dice, 400)
    kept_states.every_word()
    wrong_rules.changed_rules(dice)
    wrong_rules.changed_bounds()
    trailer_order.orders_by_hand()
    trailer_order.telegrams_of_the_cases()
    trailer_order.orders_of_writing(dice, 3000)
    trailer_order.every_length(dice, 60)
    trailer_order.every_trailer()
    lines.good_lines(dice, 600)
    lines.cut_at_each_place(dice, 60)
    trailer_order.state_of_either_order(dice, 1000)
    trailer_order.log_is_as_printed()
    parameter_bytes.parameter_bytes()
    parameter_bytes.parameter_bytes_6038()
    places_and_rows.digits_and_places(dice, 1000)
    places_and_rows.rows(dice, 1000)
    calendar.days_of_the_year()
    leitch_answer.leitch_by_hand()
    leitch_answer.leitch_every_day(dice)
    leitch_answer.leitch_texts(dice, 5000)
    leitch_answer.leitch_faults(dice, 2)
    leitch_answer.leitch_writes(dice)
    requests.requests_by_pattern(dice)
    requests.requests_of_the_manuals()
    logs.log_by_hand()
    logs.log_blocks(dice, 6)
    logs.log_single_bytes(dice)
    logs.log_adds(dice)
    logs.log_regions(dice, 100)
    logs.log_replayed(dice, 3)
    logs.log_listings()
    print("ok", sum(counts.values()), "checks:",
          ", ".join(f"{group} {count}" for group, count in counts.items()))


if __name__ == "__main__":
    main()
