"""Records to write, one or several, by each setting."""

import itertools

import making
import unnamed
from cases.one_case import MANY, ONE, several_case, write_case
from layouts import LAYOUTS, ORDERS, TIME_ONLY, length
from records import Dated, TimeOnly
from telegrams import Setting

SETTINGS = [None] + [Setting(control, advance, order)
                     for order in (None, *ORDERS) for advance in (False, True) for control in (False, True)]


def one_of_each():
    """A good record of each layout."""
    for layout in LAYOUTS:
        if layout in TIME_ONLY:
            yield TimeOnly(layout, 23, 59, 59)
        else:
            yield Dated(layout, "radio", False, True, False, 7, 23, 59, 59, 29, 2, 2004)


def bad_records():
    """A record for each of 5 to 8, and with two faults, of which the lower number is given."""
    good = Dated("5050", "radio", False, False, False, 3, 12, 34, 56, 3, 1, 1996)
    for changed in ({"reception": "high"}, {"utc": True, "daylight": True}, {"weekday": 0}, {"weekday": 8}, {"hour": 24}, {"minute": 60},
                    {"second": 60}, {"year": 1979}, {"year": 2080}, {"month": 0}, {"month": 13}, {"day": 0}, {"day": 32},
                    {"day": 30, "month": 2}, {"day": 31, "month": 4}, {"weekday": 4}, {"weekday": 4, "day": 31, "month": 4},
                    {"reception": "invalid", "hour": 24}):
        yield good._replace(**changed)
    yield TimeOnly("5050t", 24, 0, 0)


def writes_of_bad_records(bad):
    """Refused with the record's own number, whatever the buffer's length, with every third setting in turn; so behind a good one."""
    for number, record in enumerate(bad):
        for setting in SETTINGS[number % 3::3]:
            yield write_case(record, setting, 0)
            yield write_case(record, setting, ONE)
        yield several_case([TimeOnly("6021t", 1, 2, 3), record], Setting(True, False), MANY)


def writes_around_the_edge(good):
    """Records with each setting, into a buffer that is one byte short and one that is long enough; in turn into none, and into one
    that is a byte longer. With no setting into those from two bytes short to two bytes more."""
    for number, record in enumerate(good):
        for setting in SETTINGS[1:]:
            size = length(record.layout, setting.control_characters)
            for room in (size - 1, size):
                yield write_case(record, setting, room)
        for setting in SETTINGS[1 + number::5]:
            yield write_case(record, setting, 0)
            yield write_case(record, setting, length(record.layout, setting.control_characters) + 1)
        for room in (0, *range(unnamed.SIZE - 2, unnamed.SIZE + 3)):
            yield write_case(record, None, room)


def writes_by_dice(dice):
    """Any record with any setting and any buffer."""
    for _ in range(150):
        yield write_case(making.any_record(dice), dice.choice(SETTINGS), dice.randrange(ONE + 1))


def several_in_each_setting():
    """With each named setting up to three telegrams, and one more that has no room, or that is refused with each number in turn."""
    good, bad = TimeOnly("6021t", 1, 2, 3), itertools.cycle(unnamed.bad_of_each_number())
    for setting, stand in itertools.product(SETTINGS[1:], range(4)):
        size = length(good.layout, setting.control_characters)
        yield several_case((stand + 1) * [good], setting, (stand + 1) * size - 1)
        yield several_case([*stand * [good], next(bad)], setting, MANY)


def several_by_dice(dice):
    """Some records one behind another, one of them sometimes bad, into a buffer that is sometimes short."""
    for _ in range(50):
        some = [making.good_record(dice) for _ in range(dice.randrange(5))]
        if dice.random() < 0.4:
            some.insert(dice.randrange(len(some) + 1), making.any_record(dice))
        yield several_case(some, dice.choice(SETTINGS), dice.randrange(MANY + 1))
