"""Reading one telegram, writing one, writing several one behind another."""

from typing import NamedTuple, Optional

from layouts import (AS_PRINTED, DECIMALS_AT, ETX, FIXED_AT, FIXED_PICKER, LAYOUTS, STATUS, STX, TIME_ONLY, WEEKDAY, layouts_of_length)
from records import Dated, TimeOnly, check_record, flags_of, following, is_time_only, refusal_of
from refusals import (BUFFER, DECIMAL_PLACE, FIXED_PLACE, FRAME, LENGTH, NO_DATE,
                      STATUS_OR_WEEKDAY, Refused, check, lowest)
from status import (character_of, nibble_of, read_status, read_weekday, status_allowed,
                    weekday_allowed, write_status, write_weekday)

DIGIT_0, DIGIT_9 = 0x30, 0x39


# --- reading ---

def between(telegram, control_characters):
    """What stands between STX and ETX, or the whole telegram where both are missing."""
    return telegram[1:-1] if control_characters else telegram


def fixed_places_hold(layout, inner, order):
    """Every space, CR and LF of the layout is in its place, CR and LF in that order's."""
    found_in, belonging = FIXED_PICKER[layout, order]
    return found_in(inner) == belonging


def layout_of(telegram, control_characters, order=AS_PRINTED):
    """The layout of that length whose fixed places hold in that order. At length 10 (8) LF and CR decide
    it: as printed LF CR is a 6021t and CR LF a 5500t, exchanged it is the other way round."""
    inner = between(telegram, control_characters)
    for layout in layouts_of_length(len(telegram), control_characters):
        if fixed_places_hold(layout, inner, order):
            return layout
    return None


def layout_by_length(inner):
    """The layout that bytes between STX and ETX are judged by; 1 where none has their length. Where two
    have it and LF and CR stand as in neither, the last, which then refuses them as 3."""
    check(((LENGTH, length_not_in_table),), inner, False, AS_PRINTED)
    return layout_of(inner, False) or layouts_of_length(len(inner), False)[-1]


def character_at(layout, inner, wanted):
    """The status or the weekday character."""
    return inner[LAYOUTS[layout].index(wanted)]


def length_not_in_table(telegram, control_characters, order):
    """Condition 1: no layout has that length in this mode, whatever the order."""
    return not layouts_of_length(len(telegram), control_characters)


def frame_missing(telegram, control_characters, order):
    """Condition 2: STX and ETX are wanted, and one is not at its end, whatever the order."""
    return control_characters and (telegram[0] != STX or telegram[-1] != ETX)


def fixed_place_wrong(telegram, control_characters, order):
    """Condition 3: no layout of that length has all its spaces, CR and LF in place in that order."""
    return layout_of(telegram, control_characters, order) is None


def decimal_place_wrong(telegram, control_characters, order):
    """Condition 4: some decimal place holds no digit."""
    layout = layout_of(telegram, control_characters, order)
    inner = between(telegram, control_characters)
    return any(not DIGIT_0 <= inner[at] <= DIGIT_9 for at, _ in DECIMALS_AT[layout])


def status_or_weekday_wrong(telegram, control_characters, order):
    """Condition 5: no four bits at all, or four bits the layout does not allow."""
    layout = layout_of(telegram, control_characters, order)
    if layout in TIME_ONLY:
        return False
    inner = between(telegram, control_characters)
    status = nibble_of(character_at(layout, inner, STATUS))
    weekday = nibble_of(character_at(layout, inner, WEEKDAY))
    return (status is None or not status_allowed(layout, status)
            or weekday is None or not weekday_allowed(layout, weekday))


READING_CONDITIONS = (
    (LENGTH, length_not_in_table),
    (FRAME, frame_missing),
    (FIXED_PLACE, fixed_place_wrong),
    (DECIMAL_PLACE, decimal_place_wrong),
    (STATUS_OR_WEEKDAY, status_or_weekday_wrong),
)


def full_year(two_digits):
    """80 to 99 are 1980 to 1999, 00 to 79 are 2000 to 2079."""
    return 1900 + two_digits if two_digits >= 80 else 2000 + two_digits


def numbers_of(layout, inner):
    """The decimal fields of a telegram by name."""
    numbers = {}
    for at, (field, unit) in DECIMALS_AT[layout]:
        numbers[field] = numbers.get(field, 0) + unit * (inner[at] - DIGIT_0)
    if "short_year" in numbers:
        numbers["year"] = full_year(numbers.pop("short_year"))
    return numbers


def record_of(layout, inner):
    """The record a telegram carries, once none of 1 to 5 holds."""
    numbers = numbers_of(layout, inner)
    if layout in TIME_ONLY:
        return TimeOnly(layout=layout, **numbers)
    flags = read_status(layout, nibble_of(character_at(layout, inner, STATUS)))
    weekday, marked = read_weekday(nibble_of(character_at(layout, inner, WEEKDAY)))
    return Dated(layout=layout, reception=flags.reception, daylight=flags.daylight,
                 announced=flags.announced, utc=flags.utc or marked, weekday=weekday, **numbers)


def judged(telegram, control_characters, order=AS_PRINTED):
    """One telegram from a line of that order: its record and None, or None and the lowest of 1 to 8 that holds."""
    number = lowest(READING_CONDITIONS, telegram, control_characters, order)
    if number is not None:
        return None, number
    record = record_of(layout_of(telegram, control_characters, order), between(telegram, control_characters))
    number = refusal_of(record)
    return (record, None) if number is None else (None, number)


def read_telegram(telegram, control_characters, order=AS_PRINTED):
    """The record of one telegram from a line of that order, or refused with the lowest of 1 to 8 that holds."""
    record, number = judged(telegram, control_characters, order)
    if number is not None:
        raise Refused(number)
    return record


# --- writing one ---

class Setting(NamedTuple):
    """A named setting: the record's own layout is written in this way. It may go without an order."""
    control_characters: bool
    second_advance: bool
    order: Optional[str] = None


def order_of(setting):
    """The order that a named setting writes in: as-printed where it names none."""
    return AS_PRINTED if setting.order is None else setting.order


def numbers_to_write(record):
    """The fields by the names the decimal places use."""
    numbers = record._asdict()
    if not is_time_only(record):
        numbers["short_year"] = record.year % 100
    return numbers


def telegram_of(record, control_characters, order=AS_PRINTED):
    """The bytes of a good record in its own layout, for a line of that order."""
    row, numbers = LAYOUTS[record.layout], numbers_to_write(record)
    inner = bytearray(len(row))
    for at, byte in FIXED_AT[record.layout, order]:
        inner[at] = byte
    for at, (field, unit) in DECIMALS_AT[record.layout]:
        inner[at] = DIGIT_0 + numbers[field] // unit % 10
    if not is_time_only(record):
        inner[row.index(STATUS)] = character_of(write_status(record.layout, flags_of(record)))
        inner[row.index(WEEKDAY)] = character_of(write_weekday(record.layout, record.weekday, record.utc))
    return bytes([STX, *inner, ETX]) if control_characters else bytes(inner)


def telegram_as_set(record, setting):
    """What a named setting writes; 5 to 8, and 12 for the advance."""
    check_record(record)
    if setting.second_advance:
        record = following(record)
    return telegram_of(record, setting.control_characters, order_of(setting))


def telegram_without_setting(record):
    """What is written where no setting is named: 6021 whatever the record's layout, with
    control characters, so that a line reader takes it, no advance, as printed; 5 to 8, then
    14 for a time-only record."""
    check_record(record)
    if is_time_only(record):
        raise Refused(NO_DATE)
    return telegram_of(record._replace(layout="6021"), control_characters=True)


def write_telegram(record, buffer, setting=None):
    """Writes at the buffer's beginning and gives the telegram's length.

    Refused with the lowest of 5 to 8, 12, 13, 14 the buffer stays as it was; otherwise
    only the telegram's own bytes change. 14 leaves nothing to write, so 13 never hides it.
    """
    telegram = (telegram_without_setting(record) if setting is None
                else telegram_as_set(record, setting))
    if len(buffer) < len(telegram):
        raise Refused(BUFFER)
    buffer[:len(telegram)] = telegram
    return len(telegram)


# --- writing several ---

class Written(NamedTuple):
    """How many telegrams stand, how many bytes they use, the first refusal if any."""
    stand: int
    used: int
    refusal: Optional[int]


def write_telegrams(records, buffer, setting=None):
    """Each telegram goes into the room after the last; the first refusal ends it."""
    stand, used = 0, 0
    with memoryview(buffer) as whole:
        for record in records:
            try:
                used += write_telegram(record, whole[used:], setting)
            except Refused as refused:
                return Written(stand, used, refused.number)
            stand += 1
    return Written(stand, used, None)
