"""How a case is handed to the program `test_cases`, and how the program prints an outcome.

A case is a letter, a length of two bytes, the higher first, and that many bytes. An outcome is a line of numbers, each with a space
behind it: a refusal is its number, and anything else is 0 and its values. The heads of the program's files say the same.
"""

from layouts import ORDERS, TIME_ONLY
from places import CODE, DECIMAL, FIXED
from records import UtcSeconds, is_time_only
from request_letters import TIME, TIME_AND_DATE, UTC_TIME_AND_DATE

RECEPTIONS = ["invalid", "crystal", "radio", "high"]
LAYOUT_NUMBERS = ["6021", "2000", "5500", "5050", "6021t", "5500t", "5050t"]
PARITY_NUMBERS = ["none", "even", "odd"]
ASKED_NUMBERS = [TIME, TIME_AND_DATE, UTC_TIME_AND_DATE]
FIRST_PLACE = {FIXED: 0, DECIMAL: 128, CODE: 160}


# --- what goes in ---

LONGEST = 8192   # the program's buffer


def case(letter, payload):
    """A case as the program reads it."""
    assert len(payload) <= LONGEST
    return letter.encode("ascii") + len(payload).to_bytes(2, "big") + payload


def date_bytes(date):
    """Four bytes: the year has two."""
    return date.year.to_bytes(2, "big") + bytes([date.month, date.day])


def row_bytes(row):
    """How many places a row has, and each as one number: a fixed character is itself, then come the decimal slots, then the codes."""
    return bytes([len(row)] + [FIRST_PLACE[place.kind] + place.number for place in row])


def record_bytes(record):
    """Thirteen bytes: layout, status, weekday, date, time. What a time-only record lacks is 0."""
    head = [LAYOUT_NUMBERS.index(record.layout)]
    time = [record.hour, record.minute, record.second]
    if is_time_only(record):
        return bytes(head + [0] * 9 + time)
    flags = [RECEPTIONS.index(record.reception), record.daylight, record.utc, record.announced]
    return bytes(head + flags + [record.weekday]) + date_bytes(record) + bytes(time)


def order_number(order):
    """0 as printed, 1 exchanged."""
    return ORDERS.index(order)


def setting_number(setting):
    """0 for no setting; else one more than the control characters in bit 0 and the advance in bit 1; 4 more where the order is named
    as printed, 8 more where it is exchanged."""
    if setting is None:
        return 0
    named = 0 if setting.order is None else 4 + 4 * order_number(setting.order)
    return 1 + setting.control_characters + 2 * setting.second_advance + named


def state_bytes(state):
    """52 bytes: the places, how many are held, fed, stray, start, the order. An old state has 24 places, so 38 bytes."""
    counts = b"".join(count.to_bytes(4, "big") for count in (state.fed, state.stray, state.start))
    return bytes(state.places) + bytes([state.length]) + counts + bytes([order_number(state.order)])


def parameter_bytes_6038(parameter):
    """Seven bytes: data bits, parity, stop bits, baud."""
    parity = PARITY_NUMBERS.index(parameter.parity)
    return bytes([parameter.data_bits, parity, parameter.stop_bits]) + parameter.baud.to_bytes(4, "big")


def parameter_bytes(parameter):
    """Eight bytes: UTC, and what the 6038 has too."""
    return bytes([parameter.utc]) + parameter_bytes_6038(parameter)


def leitch_bytes(answer):
    """Thirteen bytes: time, milliseconds, date, day of the year, weekday, status. The milliseconds, the year and the day of the year
    have two."""
    time = bytes([answer.hour, answer.minute, answer.second]) + answer.millisecond.to_bytes(2, "big")
    return time + date_bytes(answer) + answer.day_of_year.to_bytes(2, "big") + bytes([answer.weekday, answer.status])


# --- what comes out ---

def line(numbers):
    """Numbers as the program prints them."""
    return "".join("%d " % number for number in numbers).encode("ascii") + b"\n"


def layout_number(layout):
    """6021 for 6021 and 16021 for 6021t."""
    return 10000 + int(layout[:-1]) if layout in TIME_ONLY else int(layout)


def record_numbers(record):
    """A record's layout and fields."""
    time = [record.hour, record.minute, record.second]
    if is_time_only(record):
        return [layout_number(record.layout)] + time
    flags = [RECEPTIONS.index(record.reception), record.daylight, record.utc, record.announced]
    return [layout_number(record.layout)] + flags + [record.weekday, record.year, record.month, record.day] + time


def answer_numbers(value, refusal, numbers):
    """0 and the numbers of a value, or the refusal."""
    return [0] + numbers(value) if refusal is None else [refusal]


def count_numbers(count):
    """Seconds: 1 where they are UTC, and how many."""
    return [isinstance(count, UtcSeconds), count.count]


def event_numbers(event):
    """An event: 1, its position, its length and its outcome; no event is 0."""
    if event is None:
        return [0]
    outcome = [event.outcome] if isinstance(event.outcome, int) else [0] + record_numbers(event.outcome)
    return [1, event.start, event.length] + outcome


def state_numbers(state):
    """A reader's places, how many are held, fed, stray, start, and the order."""
    return list(state.places) + [state.length, state.fed, state.stray, state.start, order_number(state.order)]


def parameter_numbers_6038(parameter):
    """The fields of a parameter byte of the 6038."""
    return [parameter.data_bits, PARITY_NUMBERS.index(parameter.parity), parameter.stop_bits, parameter.baud]


def parameter_numbers(parameter):
    """The fields of one of the 6036: UTC, and what the 6038 has too."""
    return [parameter.utc] + parameter_numbers_6038(parameter)


def trailers_numbers(refused, read):
    """What became of every trailer: how many had each of the refusals 1 to 8, and the two bytes and the layout of each that was
    read."""
    return [refused[number] for number in range(1, 9)] + [part for first, second, layout in read
                                                          for part in (first, second, layout_number(layout))]


def request_numbers(request):
    """What is asked for, and the delay in milliseconds."""
    return [ASKED_NUMBERS.index(request.asked), request.delay]
