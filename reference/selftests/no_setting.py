"""Writing without a named setting, and the two meter programs that came to rely on what it did."""

import line
import records
import samples
import telegrams
import unnamed
from refusals import Refused, outcome
from selftests.checking import LF_CR, any_record, framed, read, same
from selftests.lines import fed_in_pieces
from telegrams import Setting, Written

UNNAMED_ROOMS = (0, 15, 16, 17, 18, 19, 40)


def no_setting_named(dice, rounds):
    """A good record with a date becomes a 6021 of 18 bytes with control characters, in any buffer that takes it. Each outcome that a
    buffer allows comes about in it; refused, no byte changes, and done, none behind the telegram."""
    some, seen = [*unnamed.without_date(), *unnamed.with_every_status()], set()
    for number, record in unnamed.bad_ones():
        same("no setting", (record, outcome(records.check_record, record)[1]), (record, number))
        some.append(record)
    for record in some + [any_record(dice) for _ in range(rounds)]:
        bad = outcome(records.check_record, record)[1] or (14 if records.is_time_only(record) else None)
        for room in UNNAMED_ROOMS:
            number = 13 if bad is None and room < 18 else bad
            buffer = bytearray(dice.randbytes(room))
            before = bytes(buffer)
            used, refusal = outcome(telegrams.write_telegram, record, buffer)
            same("no setting", (used, refusal), (None, number) if number else (18, None))
            same("no setting", bytes(buffer[used or 0:]), before[used or 0:])
            if refusal is None:
                same("no setting", read(bytes(buffer[:18])), record._replace(layout="6021"))
            seen.add((room, refusal))
    same("no setting", seen, {(room, number) for room in UNNAMED_ROOMS for number in (5, 6, 7, 8, 14, 13 if room < 18 else None)})


def statuses_told_by_a_6021():
    """Each status of each layout on a Wednesday, and the two characters that a 6021 tells it by: reckoned by hand for the layouts that
    have another status table, the same two for those that share it."""
    by_hand = zip(b"0123456789", (b"83", b"43", b"93", b"53", b"A3", b"63", b"B3", b"73", b"8B", b"4B"))
    shown = [(inner % status, two) for status, two in by_hand
             for inner in (b"%c 123456 030196 3\r\n", b"12 34 56 03 01 96 %c3 \r\n")]
    shown += [(inner % two, two) for two in (bytes([status, weekday]) for status in b"0123456789ABCDEF" for weekday in b"3B")
              for inner in (b"%b123456030196\n\r", b"%b12345603011996\n\r")]
    for inner, two in shown:
        buffer = bytearray(18)
        telegrams.write_telegram(read(inner, control=False), buffer)
        same("no setting", (inner, bytes(buffer)), (inner, framed(two + b"123456030196" + LF_CR)))


# --- the meter programs ---

def formerly_unnamed(record, buffer):
    """What a write without a named setting did when two meter programs came to rely on it, in the words of document 01: "6021 whatever
    layout the record has, without control characters, without second advance; a time-only record then gives 14". Its characters are
    put together here, without the tables of layouts and status."""
    records.check_record(record)
    if records.is_time_only(record):
        raise Refused(14)
    if len(buffer) < 16:
        raise Refused(13)
    status = 4 * ["invalid", "crystal", "radio", "high"].index(record.reception) + 2 * record.daylight + record.announced
    weekday = record.weekday + 8 * record.utc
    buffer[:16] = b"%X%X%02d%02d%02d%02d%02d%02d\n\r" % (
        status, weekday, record.hour, record.minute, record.second, record.day, record.month, record.year % 100)
    return 16


def formerly_written(record):
    """The bare bytes that it made of a good record with a date."""
    buffer = bytearray(16)
    formerly_unnamed(record, buffer)
    return bytes(buffer)


def handed_over_by_meter_programs(dice, rounds):
    """6021 records, good and bad."""
    there = [*unnamed.METER_RECORDS, *unnamed.with_every_status()] + [record for _, record in unnamed.bad_ones()]
    there += [any_record(dice) for _ in range(rounds)]
    return [record._replace(layout="6021") for record in there if not records.is_time_only(record)]


def meter_programs(dice, rounds):
    """With the bare setting named, a 6021 record does to a buffer of any length what it formerly did with none: same answer, same
    bytes."""
    seen = set()
    for record in handed_over_by_meter_programs(dice, rounds):
        for room in range(21):
            buffer = bytearray(dice.randbytes(room))
            former = bytearray(buffer)
            answer = outcome(formerly_unnamed, record, former)
            same("meter programs", outcome(telegrams.write_telegram, record, buffer, Setting(False, False)), answer)
            same("meter programs", buffer, former)
            seen.add((room, answer))
    same("meter programs", seen, {(room, (None, number)) for room in range(21) for number in (5, 6, 7, 8)}
         | {(room, (None, 13) if room < 16 else (16, None)) for room in range(21)})


def meter_programs_by_hand():
    """The bytes of P1 and P11, bare and with no setting named. The first of the latter is the telegram of the printed listing."""
    first, second = unnamed.METER_RECORDS
    for record, setting, size, telegram in (
            (first, Setting(False, False), 16, b"E3123456170496\n\r"), (first, None, 18, b"\x02E3123456170496\n\r\x03"),
            (second, Setting(False, False), 16, b"CB123456030196\n\r"), (second, None, 18, b"\x02CB123456030196\n\r\x03")):
        buffer = bytearray(b"?" * 20)
        same("meter programs", (telegrams.write_telegram(record, buffer, setting), bytes(buffer)), (size, telegram.ljust(20, b"?")))
        same("meter programs", read(telegram, control=setting is None), record)
        short = bytearray(b"?" * (size - 1))
        same("meter programs", (outcome(telegrams.write_telegram, record, short, setting), bytes(short)),
             ((None, 13), b"?" * (size - 1)))
    same("meter programs", unnamed.written([first]), samples.PRINTED[1:19])
    buffer = bytearray(b"?" * 33)
    same("meter programs", (telegrams.write_telegrams([first, second], buffer, Setting(False, False)), bytes(buffer)),
         (Written(2, 32, None), b"E3123456170496\n\rCB123456030196\n\r?"))


# --- on a line ---

def unnamed_on_a_line(dice, rounds):
    """What new staff write without asking reaches a line reader: the 6021 forms come back, of one alone and of several one behind
    another, and no byte is stray. What such writes formerly made is nothing but stray bytes."""
    seen = set()
    for _ in range(rounds):
        some = [unnamed.good_by_dice(dice) for _ in range(dice.choice([1, 1, 2, 3, 10]))]
        size = 18 * len(some)
        captured = bytearray(size)
        if len(some) == 1:
            same("unnamed on a line", telegrams.write_telegram(some[0], captured), 18)
        else:
            same("unnamed on a line", telegrams.write_telegrams(some, captured), Written(len(some), size, None))
            same("unnamed on a line", telegrams.write_telegrams(some, bytearray(size - 1)), Written(len(some) - 1, size - 18, 13))
        state, events = fed_in_pieces(dice, line.fresh(), bytes(captured))
        same("unnamed on a line", events, [line.Event(18 * at, 18, record._replace(layout="6021")) for at, record in enumerate(some)])
        same("unnamed on a line", state, line.state_of([0] * 38, 0, size, 0, size))
        same("unnamed on a line", line.end(state), (state, None))
        same("unnamed on a line", line.use_up(line.fresh(), bytes(captured)), line.Passed(state, size, tuple(events)))
        bare = b"".join(formerly_written(record) for record in some)
        same("unnamed on a line", fed_in_pieces(dice, line.fresh(), bare),
             (line.state_of([0] * 38, 0, 16 * len(some), 16 * len(some), 16 * len(some)), []))
        seen |= {(record.layout, record.second == 60) for record in some}
    same("unnamed on a line", seen, {(layout, at_60) for layout in ("6021", "2000", "5500", "5050") for at_60 in (False, True)})
