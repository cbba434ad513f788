"""What is written reads back; the refusals of records; several telegrams one behind another."""

import layouts
import records
import telegrams
from layouts import AS_PRINTED, other_order
from records import Dated, TimeOnly
from refusals import outcome
from selftests.checking import SETTINGS, any_record, good_record, read, same, swapped
from telegrams import Written


def read_back_what_was_written(dice, rounds):
    for _ in range(rounds):
        record, setting = good_record(dice), dice.choice(SETTINGS)
        buffer = bytearray(dice.randbytes(40))
        before = bytes(buffer)
        wanted, number = (outcome(records.next_second, record) if setting.second_advance
                          else (record, None))
        used, refusal = outcome(telegrams.write_telegram, record, buffer, setting)
        same("read back", refusal, number)
        if refusal is not None:
            same("read back", bytes(buffer), before)
            continue
        same("read back", used, layouts.length(record.layout, setting.control_characters))
        same("read back", bytes(buffer[used:]), before[used:])
        control, order = setting.control_characters, setting.order or AS_PRINTED
        telegram, other = bytes(buffer[:used]), other_order(order)
        same("read back", read(telegram, control, order), wanted)
        same("read back", read(telegram, control, other), in_the_other_order(wanted))
        same("read back", read(swapped(telegram, control), control, other), wanted)


def in_the_other_order(record):
    """What a good record's telegram is on a line of the order that it does not have: of the two time-only layouts of the same length
    each is the other, and any other layout is refused with 3."""
    twin = {"6021t": "5500t", "5500t": "6021t"}.get(record.layout)
    return 3 if twin is None else record._replace(layout=twin)


def refusals_of_records(dice, rounds):
    """Writing, stepping and UTC seconds agree on 5 to 8 and differ only behind it. One second later is one UTC second more, but from
    a second 60, which has the number of the second behind it; and no second is made a 60."""
    for _ in range(rounds):
        record = any_record(dice)
        bad = outcome(records.check_record, record)[1]
        time_only = records.is_time_only(record)
        later, number = outcome(records.next_second, record)
        same("records", number in (bad, 12) if bad is None else number == bad, True)
        same("records", outcome(records.step_clock, record),
             (None, 14) if bad is None and time_only else (later, number))
        utc, utc_number = outcome(records.utc_seconds, record)
        if bad is not None or time_only:
            same("records", utc_number, bad or 14)
        elif utc is not None and later is not None:
            same("records", records.utc_seconds(later).count, utc.count + (record.second != 60))
        if utc is not None:
            same("records", utc.count <= 3155759999, True)
        if later is not None:
            same("records", later.second < 60, True)
        for setting in SETTINGS:
            buffer = bytearray(dice.randrange(30))
            room = layouts.length(record.layout, setting.control_characters)
            wanted = number if setting.second_advance else bad
            if wanted is None and len(buffer) < room:
                wanted = 13
            same("records", outcome(telegrams.write_telegram, record, buffer, setting)[1], wanted)


def fields_out_of_order():
    """One good record with one or more fields changed, and the number it then gets."""
    good = Dated("5050", "radio", False, False, False, 3, 12, 34, 56, 3, 1, 1996)
    for changed, wanted in (
            ({}, None), ({"weekday": 0}, 5), ({"weekday": 8}, 5), ({"weekday": 200}, 5),
            ({"weekday": 4}, 8), ({"reception": "invalid"}, 5), ({"reception": "high"}, 5),
            ({"utc": True}, None), ({"utc": True, "daylight": True}, 5),
            ({"utc": True, "announced": True}, 5), ({"daylight": True, "announced": True}, None),
            ({"hour": 24}, 6), ({"hour": 99}, 6), ({"minute": 60}, 6), ({"second": 60}, 6),
            ({"day": 0}, 6), ({"day": 32}, 6), ({"month": 0}, 6), ({"month": 13}, 6),
            ({"year": 1979}, 6), ({"year": 2080}, 6), ({"year": 96}, 6), ({"year": 65535}, 6),
            ({"day": 30, "month": 2}, 7), ({"day": 31, "month": 4}, 7), ({"day": 4}, 8),
            ({"weekday": 0, "hour": 99}, 5), ({"day": 30, "month": 2, "second": 99}, 6),
            ({"layout": "6021", "reception": "invalid", "utc": True, "daylight": True}, None)):
        record = good._replace(**changed)
        same("fields", (changed, outcome(records.check_record, record)[1]), (changed, wanted))
    same("fields", outcome(records.check_record, TimeOnly("6021t", 0, 60, 0))[1], 6)


def several(dice, rounds):
    for _ in range(rounds):
        some = [good_record(dice) for _ in range(dice.randrange(6))]
        if dice.random() < 0.3:
            some.insert(dice.randrange(len(some) + 1), any_record(dice))
        setting = dice.choice(SETTINGS + [None])
        buffer = bytearray(dice.randrange(140))
        room, wanted = bytearray(len(buffer)), Written(0, 0, None)
        for record in some:
            rest = room[wanted.used:]
            used, number = outcome(telegrams.write_telegram, record, rest, setting)
            if number is not None:
                wanted = wanted._replace(refusal=number)
                break
            room[wanted.used:] = rest
            wanted = Written(wanted.stand + 1, wanted.used + used, None)
        same("several", telegrams.write_telegrams(some, buffer, setting), wanted)
        same("several", buffer, room)
