"""One case of each kind: the bytes that the program gets, and the line that it should print."""

import days
import leitch
import line
import listing
import parameter
import parameter_6038
import places
import records
import request_letters
import takeover
import telegrams
import trailers
from cases.seen import SEEN, kind_of
from encoding import (LAYOUT_NUMBERS, answer_numbers, case, count_numbers, date_bytes, event_numbers, layout_number, leitch_bytes,
                      line as printed, order_number, parameter_bytes, parameter_bytes_6038, parameter_numbers,
                      parameter_numbers_6038, record_bytes, record_numbers, request_numbers, row_bytes, setting_number, state_bytes,
                      state_numbers, trailers_numbers)
from layouts import STATUS_AS_6021
from records import LocalSeconds
from refusals import DECIMAL_PLACE, FIXED_PLACE, LENGTH, outcome

UNTOUCHED = 170   # what a lent buffer holds before
ONE, MANY, ROW = 32, 64, 80   # the program's buffers for one telegram, for several, and for a row


def answered(kind, given, answer, numbers):
    """A case whose outcome is a value or a refusal. Its letter is the kind, or the first part of it."""
    value, refusal = answer
    SEEN.note(kind, refusal)
    return case(kind[0], given), printed(answer_numbers(value, refusal, numbers))


def told(kind, given, numbers):
    """A case whose entry point refuses nothing."""
    SEEN.note(kind, None)
    return case(kind[0], given), printed(numbers)


def one(value):
    """A value that is a number."""
    return [value]


def of_record(letter, record, function, numbers):
    """A case whose outcome is that of a record."""
    answer = outcome(function, record)
    SEEN.record(letter, record, answer[1])
    return answered(letter, record_bytes(record), answer, numbers)


def in_buffer(kind, given, room, size, write, record=None):
    """A case that writes into the first bytes of a buffer, which is printed whole; of a record or an answer, where there is one."""
    buffer = bytearray([UNTOUCHED] * room)
    used, refusal = outcome(write, buffer)
    SEEN.note(kind, refusal)
    if record is not None:
        SEEN.record(kind, record, refusal)
    whole = list(buffer) + [UNTOUCHED] * (size - room)
    return case(kind[0], given), printed(answer_numbers(used, refusal, one) + whole)


# --- dates and times ---

def day_case(date):
    """A date to number, with its weekday."""
    return answered("D", date_bytes(date), outcome(days.day_number, date), lambda number: [number, days.weekday_of_number(number)])


def date_case(number):
    """A day number to date."""
    return answered("d", number.to_bytes(4, "big"), outcome(days.date_of, number), list)


def next_day_case(date):
    """A date whose next day is wanted."""
    return answered("n", date_bytes(date), outcome(days.next_day, date), list)


def month_case(year, month):
    """A month whose length is wanted."""
    return answered("M", year.to_bytes(2, "big") + bytes([month]), outcome(days.days_in_month, year, month), one)


def second_case(time):
    """A time whose second of the day is wanted."""
    return answered("T", bytes(time), outcome(days.second_of_day, time), one)


def next_time_case(time):
    """A time to advance by a second: whether midnight is passed, and the time."""
    return answered("t", bytes(time), outcome(days.next_second, time), lambda later: [later[1], *later[0]])


def time_range_case(time):
    """A time that the day may have."""
    return told("h", bytes(time), [not days.time_out_of_range(time)])


def day_of_year_case(date):
    """A date whose day of the year is wanted."""
    return answered("y", date_bytes(date), outcome(days.day_of_year, date), one)


# --- records and the clock ---

def rule_case(record):
    """A record to judge: its refusal, or 0."""
    return of_record("J", record, records.check_record, lambda _: [])


def table_case(layout):
    """A layout that may have the status table of the 6021."""
    return told("B", bytes([LAYOUT_NUMBERS.index(layout)]), [layout in STATUS_AS_6021])


def next_case(record):
    """A record to advance by a second."""
    return of_record("N", record, records.next_second, record_numbers)


def count_case(record):
    """A record whose own count of seconds is wanted."""
    return of_record("C", record, records.count_of, count_numbers)


def shift_case(local, daylight):
    """Local seconds to put in UTC."""
    given = bytes([daylight]) + local.to_bytes(4, "big")
    return answered("Z", given, outcome(records.to_utc, LocalSeconds(local), daylight), lambda seconds: [seconds.count])


def utc_case(record):
    """A record to put in UTC seconds."""
    return of_record("U", record, records.utc_seconds, lambda seconds: [seconds.count])


def step_case(letter, record):
    """A clock to step: what it answers, and what it then shows."""
    later, refusal = outcome(records.step_clock, record)
    SEEN.note(letter, refusal)
    SEEN.record(letter, record, refusal)
    left = record if later is None else later
    return case(letter, record_bytes(record)), printed([refusal or 0] + record_numbers(left))


# --- the parameter bytes ---

def parameter_case(byte):
    """A parameter byte of the 6036 to read."""
    return told("P", bytes([byte]), parameter_numbers(parameter.read_parameter(byte)))


def setting_case(setting):
    """A parameter byte of the 6036 to write."""
    return answered("Q", parameter_bytes(setting), outcome(parameter.write_parameter, setting), one)


def parameter_6038_case(byte):
    """A parameter byte of the 6038 to read."""
    return answered("p", bytes([byte]), outcome(parameter_6038.read_parameter, byte), parameter_numbers_6038)


def setting_6038_case(setting):
    """A parameter byte of the 6038 to write."""
    return answered("s", parameter_bytes_6038(setting), outcome(parameter_6038.write_parameter, setting), one)


# --- places and layouts ---

def scan_case(row, found):
    """Bytes to take apart by a row."""
    return answered("A", row_bytes(row) + found, outcome(places.scan, row, found), list)


def render_case(row, digits, room):
    """Digits to lay over the first bytes of a buffer by a row."""
    buffer = bytearray([UNTOUCHED] * room)
    places.render(row, digits, buffer)
    return told("a", row_bytes(row) + bytes(digits) + bytes([room]), list(buffer) + [UNTOUCHED] * (ONE - room))


def row_of_case(layout):
    """A layout whose row is wanted."""
    return told("O", bytes([LAYOUT_NUMBERS.index(layout)]), list(row_bytes(places.row_of(layout)))[1:])


def layout_case(inner):
    """Bytes without STX and ETX whose layout is wanted."""
    return answered("L", inner, outcome(telegrams.layout_by_length, inner), lambda layout: [layout_number(layout)])


def digits_in_case(layout, digits):
    """Digits that make a record."""
    return told("I", bytes([LAYOUT_NUMBERS.index(layout)]) + bytes(digits), record_numbers(places.record_of(layout, digits)))


def digits_out_case(record):
    """A record whose digits are wanted."""
    SEEN.record("i", record, None)
    return told("i", record_bytes(record), places.digits_of(record))


# --- telegrams ---

def read_case(telegram, control):
    """A telegram to read."""
    letter, answer = "R" if control else "r", outcome(telegrams.read_telegram, telegram, control)
    SEEN.telegram(letter, telegram, control, answer[1])
    return answered(letter, telegram, answer, record_numbers)


def read_in_order_case(telegram, control, order):
    """A telegram to read in a named order."""
    kind, answer = ("Y", control, order), outcome(telegrams.read_telegram, telegram, control, order)
    SEEN.telegram(kind, telegram, control, answer[1], order)
    if answer[0] is not None:
        SEEN.layouts[kind].add(answer[0].layout)
    return answered(kind, bytes([control, order_number(order)]) + telegram, answer, record_numbers)


def every_trailer_case(telegram, control, order):
    """A telegram to read in a named order with every trailer."""
    kind, (refused, read) = ("x", control, order), trailers.read_with_every_trailer(telegram, control, order)
    for number, count in enumerate(refused):
        SEEN.more(kind, number if count else None)
    SEEN.layouts[kind] |= {layout for _, _, layout in read}
    return told(kind, bytes([control, order_number(order)]) + telegram, trailers_numbers(refused, read))


def write_case(record, setting, room):
    """A record to write into a buffer of so many bytes."""
    kind, given = ("W", kind_of(setting)), bytes([setting_number(setting), room]) + record_bytes(record)
    return in_buffer(kind, given, room, ONE, lambda buffer: telegrams.write_telegram(record, buffer, setting), record)


def several_case(some, setting, room):
    """Records to write one behind another."""
    kind, buffer = ("S", kind_of(setting)), bytearray([UNTOUCHED] * room)
    written = telegrams.write_telegrams(some, buffer, setting)
    SEEN.note(kind, written.refusal)
    for number, record in enumerate(some[:written.stand + 1]):
        SEEN.record(kind, record, written.refusal if number == written.stand else None)
    whole = list(buffer) + [UNTOUCHED] * (MANY - room)
    given = case("S", bytes([setting_number(setting), room]) + b"".join(record_bytes(record) for record in some))
    return given, printed([written.stand, written.used, written.refusal or 0] + whole)


# --- the line ---

def fresh_case():
    """A fresh reader."""
    return told("f", b"", state_numbers(line.fresh()))


def fresh_in_order_case(order):
    """A fresh reader of a named order."""
    return told(("g", order), bytes([order_number(order)]), state_numbers(line.fresh(order)))


def well_formed_case(state):
    """A state that may be well formed."""
    return told(("w", state.order), state_bytes(state), [line.well_formed(state)])


def take_over_case(old):
    """An old state to take over: the refusal, the reader and the old state."""
    refusal, reader, back = takeover.answer_of(old)
    SEEN.note(("o", old.order), refusal)
    return case("o", state_bytes(old)), printed([refusal or 0] + state_numbers(reader) + state_numbers(back))


def feed_case(state, piece):
    """A reader to feed. A state that is refused takes nothing and comes back."""
    fed, refusal = outcome(line.feed, state, piece)
    SEEN.note(("F", state.order), refusal)
    given = case("F", state_bytes(state) + piece)
    if refusal is not None:
        return given, printed([0, 2, refusal] + state_numbers(state))
    SEEN.events(("F", state.order), state, piece, [fed.event] if fed.event else [])
    return given, printed([fed.taken] + event_numbers(fed.event) + state_numbers(fed.state))


def use_up_case(state, piece):
    """A piece to use up: the refusal of the state, the bytes taken, the events, the state that is left."""
    passed, refusal = outcome(line.use_up, state, piece)
    SEEN.note(("V", state.order), refusal)
    given = case("V", state_bytes(state) + piece)
    if refusal is not None:
        return given, printed([refusal, 0, 0] + state_numbers(state))
    SEEN.events(("V", state.order), state, piece, passed.events)
    numbers = [0, passed.taken, len(passed.events)]
    for event in passed.events:
        numbers += event_numbers(event)
    return given, printed(numbers + state_numbers(passed.state))


def end_case(state):
    """A line to end."""
    ended, refusal = outcome(line.end, state)
    SEEN.note(("E", state.order), refusal)
    if refusal is not None:
        return case("E", state_bytes(state)), printed([2, refusal] + state_numbers(state))
    left, event = ended
    SEEN.more(("E", state.order), event.outcome if event else None)
    return case("E", state_bytes(state)), printed(event_numbers(event) + state_numbers(left))


# --- the listing ---

def header_case(room):
    """The header of the listing to write."""
    return in_buffer("H", bytes([room]), room, ROW, listing.write_header)


def row_case(start, answer, room):
    """A row of the listing to write: of a record, or of a refusal's number."""
    handed = bytes([answer]) if isinstance(answer, int) else b"\0" + record_bytes(answer)
    event = line.Event(start, 0, answer)
    given = start.to_bytes(4, "big") + bytes([room]) + handed
    record = None if isinstance(answer, int) else answer
    return in_buffer("G", given, room, ROW, lambda buffer: listing.write_row(event, buffer), record)


def stray_case(stray, room):
    """The last row of the listing to write."""
    return in_buffer("X", stray.to_bytes(4, "big") + bytes([room]), room, ROW, lambda buffer: listing.write_stray(stray, buffer))


# --- the Leitch answer, the request letters ---

def leitch_read_case(text):
    """Bytes to read as a Leitch answer."""
    answer = outcome(leitch.read_answer, text)
    if answer[1] not in (LENGTH, FIXED_PLACE, DECIMAL_PLACE):
        SEEN.record("l", leitch.answer_of(text), answer[1])
    return answered("l", text, answer, list)


def leitch_write_case(answer, room):
    """A Leitch answer to write into a buffer of so many bytes."""
    given = bytes([room]) + leitch_bytes(answer)
    return in_buffer("e", given, room, ONE, lambda buffer: leitch.write_answer(answer, buffer), answer)


def request_case(text):
    """Bytes to read as a request."""
    return answered("q", text, outcome(request_letters.read_request, text), request_numbers)
