"""Second 60 at every entry point that takes a record or a telegram."""

import itertools

import line
import making
import places
import records
import second_60
import telegrams
from cases.listing_rows import COUNTS
from cases.one_case import (MANY, ONE, ROW, count_case, digits_in_case, digits_out_case, feed_case, next_case, read_case, row_case,
                            rule_case, several_case, step_case, use_up_case, utc_case, write_case)
from cases.seconds import of_every_kind
from cases.writing import SETTINGS, writes_of_bad_records
from layouts import ORDERS, length
from telegrams import Setting


def second_60_cases(dice):
    """Good ones at every entry point that takes a record or a telegram; bad ones to judge, and at others in turn; both by dice."""
    for number, record in enumerate(second_60.good_by_hand()):
        yield from of_every_kind(record)
        yield digits_out_case(record)
        yield digits_in_case(record.layout, places.digits_of(record))
        yield spelled_case(record, True)
        yield spelled_case(record, False)
        if number % 4 == 0:
            yield write_case(record, SETTINGS[number // 4 % len(SETTINGS)], ONE)
        if number % 12 == 0:
            yield row_case(COUNTS[number // 12 % len(COUNTS)], record, ROW)
    for record, control in itertools.product(second_60.one_of_each(), (True, False)):
        if not records.is_time_only(record):
            yield read_case(second_60.without_weekday(telegrams.telegram_of(record, control), record.layout, control), control)
    small = [next_case, count_case, utc_case, clock_case("K"), clock_case("k")]
    others = itertools.cycle([*small, any_write(dice), *small, any_row(dice)])
    for _, record in second_60.bad_by_hand():
        yield rule_case(record)
        yield next(others)(record)
        if second_60.can_be_shown(record):
            yield spelled_case(record, dice.random() < 0.5)
    for number, record in enumerate(second_60.any_by_dice(dice) for _ in range(60)):
        yield from of_every_kind(record)
        yield (any_write(dice) if number % 2 else any_row(dice))(record)
    for _ in range(60):
        control = dice.random() < 0.5
        yield read_case(second_60.some_telegram(dice, control), control)


def second_60_written(dice):
    """Written into buffers that are a byte short and long enough, and several one behind another: two into a buffer that is a byte
    short, the calendar's last one, and some by dice."""
    for number, record in enumerate(second_60.one_of_each()):
        for setting in SETTINGS[1 + number % 2::2]:
            size = length(record.layout, setting.control_characters)
            for room in (size - 1, size):
                yield write_case(record, setting, room)
    yield from writes_of_bad_records(second_60.bad_ones())
    for order in (None, *ORDERS):
        for record in second_60.one_of_each():
            yield several_case([record, record], Setting(True, False, order), 2 * length(record.layout, True) - 1)
        yield several_case([second_60.after("2000", (False, True), second_60.LAST_DAYS[-1])], Setting(True, True, order), MANY)
    for _ in range(30):
        some = [second_60.any_by_dice(dice) for _ in range(dice.randrange(1, 4))]
        yield several_case([second_60.good_by_dice(dice), *some], dice.choice(SETTINGS), dice.choice([MANY, dice.randrange(MANY + 1)]))


def second_60_on_lines(dice, order):
    """Telegrams of them in an order, and pieces with some, also behind a state that holds the first bytes."""
    some = making.in_order(second_60.some_telegram, order)
    for telegram in second_60.shown_ones(True, order):
        yield feed_case(line.fresh(order), telegram)
        yield use_up_case(line.fresh(order), telegram)
    for _ in range(20):
        yield feed_case(line.fresh(order), some(dice, True))
    for _ in range(20):
        piece = making.random_line(dice, some)[:200]
        yield use_up_case(line.fresh(order), piece)
        telegram = some(dice, True)
        cut = dice.randrange(1, 9)
        yield use_up_case(line.with_held(telegram[:cut], dice.randrange(2 ** 32), 0, order), telegram[cut:] + piece[:50])


def spelled_case(record, control):
    """The telegram that spells a record, to read."""
    return read_case(telegrams.telegram_of(record, control), control)


def clock_case(letter):
    return lambda record: step_case(letter, record)


def any_write(dice):
    """Writes with any setting, into a buffer that is mostly long enough."""
    return lambda record: write_case(record, dice.choice(SETTINGS), dice.choice([ONE, ONE, dice.randrange(ONE + 1)]))


def any_row(dice):
    """Rows in a buffer that is mostly long enough."""
    return lambda record: row_case(dice.choice(COUNTS), record, dice.choice([ROW, ROW, dice.randrange(ROW + 1)]))
