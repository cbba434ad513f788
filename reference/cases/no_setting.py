"""Writes without a named setting, and what became of them, read from a line."""

import itertools

import line
import records
import second_60
import telegrams
import unnamed
from cases.lines import cut_everywhere, on_a_line, used_up_in_turn
from cases.one_case import MANY, ONE, several_case, write_case
from cases.writing import one_of_each
from layouts import AS_PRINTED


def meter_cases():
    """What the meter programs hand over, and a second 60 of the same layout: bare as they name it, and with no setting named."""
    for record in [*unnamed.METER_RECORDS] + [record for record in second_60.one_of_each() if record.layout == "6021"]:
        for room in (15, 16, 17, ONE):
            yield write_case(record, unnamed.BARE, room)
        for room in (0, *range(15, 21)):
            yield write_case(record, None, room)
    for setting, rooms in ((unnamed.BARE, (15, 16, 31, 32, 33, MANY)), (None, (17, 18, 32, 35, 36, 37, MANY))):
        for room in rooms:
            yield several_case([*unnamed.METER_RECORDS], setting, room)


def unnamed_writes():
    """Every status of every dated layout, told by the 6021's characters. Then what is refused whatever the buffer's length, with some
    lengths in turn: records without a date, and bad ones of every layout."""
    for record in unnamed.with_every_status():
        yield write_case(record, None, ONE)
    rooms = itertools.cycle((0, 16, 17, 18, ONE))
    for record in 2 * [*unnamed.without_date()] + [record for _, record in unnamed.bad_ones()]:
        yield write_case(record, None, next(rooms))
    for record, room in itertools.product([*unnamed.bad_of_each_number(), *second_60.bad_ones()], (0, 18)):
        yield write_case(record, None, room)


# Buffers of no byte, around those of one, two and three telegrams, and the program's longest.
SEVERAL_ROOMS = (0, 16, 17, 18, 35, 36, 37, 53, 54, 55, MANY)


def several_unnamed(dice):
    """Good records one behind another, up to one more than any buffer takes; then with one among them that is refused, some for each
    buffer in turn: behind as many as the buffer takes, where it tells its own number although there is no room; behind one less; and
    behind one more, where 13 comes before it."""
    def good_ones(number):
        return [unnamed.good_by_dice(dice) for _ in range(number)]

    for room, number in itertools.product(SEVERAL_ROOMS, range(5)):
        yield several_case(good_ones(number), None, room)
    refused = itertools.cycle([*unnamed.without_date(), *unnamed.bad_of_each_number(), *second_60.bad_ones()])
    for room in SEVERAL_ROOMS:
        full = room // unnamed.SIZE
        for before, record in itertools.product(sorted({max(full - 1, 0), full, full + 1}), itertools.islice(refused, 4)):
            yield several_case([*good_ones(before), record, *good_ones(1)], None, room)


def unnamed_on_lines(dice):
    """What unnamed writes made, on a line: a telegram alone, whole, one cut at each place and others anywhere; several one behind
    another, whole and cut anywhere, also more than are handed on at a time. Bare telegrams, on lines of their own, are stray bytes all
    through."""
    dated_ones = [record for record in [*one_of_each(), *second_60.one_of_each()] if not records.is_time_only(record)]
    first, second = unnamed.METER_RECORDS
    yield from cut_everywhere(unnamed.written([first]))
    for record in [second, *dated_ones]:
        yield from on_a_line(unnamed.written([record]), dice.randrange(1, unnamed.SIZE))
    for number in (2, 3, 4):
        captured = unnamed.written([unnamed.good_by_dice(dice) for _ in range(number)])
        yield from on_a_line(captured)
        yield from on_a_line(captured, *sorted(dice.sample(range(1, len(captured)), dice.randrange(1, 5))))
    yield from used_up_in_turn([unnamed.written([unnamed.good_by_dice(dice) for _ in range(line.AT_A_TIME + 3)])], AS_PRINTED)
    for record in unnamed.METER_RECORDS:
        yield from on_a_line(telegrams.telegram_of(record, False))


def unnamed_cases(dice):
    """Writes without a named setting: of what the meter programs hand over, of every layout and status, of refused records, of several
    records; and what became of them, read from a line."""
    yield from meter_cases()
    yield from unnamed_writes()
    yield from several_unnamed(dice)
    yield from unnamed_on_lines(dice)
