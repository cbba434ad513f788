"""The listing of a captured line. Run as a program it lists its standard input, with --exchanged as a line of exchanged order."""

import sys

sys.dont_write_bytecode = True  # leaves no files behind

import line
from layouts import AS_PRINTED, EXCHANGED
from records import check_record, is_time_only
from refusals import BUFFER, Refused

HEADER = b"start;kind;date;time;weekday;status\n"


def status_words(record):
    """Reception; standard or daylight; then utc; then announced."""
    words = [record.reception, "daylight" if record.daylight else "standard"]
    if record.utc:
        words.append("utc")
    if record.announced:
        words.append("announced")
    return ",".join(words)


def columns_of(start, record):
    """The six columns of a record; a time-only one has three of them empty as -."""
    time = f"{record.hour:02}:{record.minute:02}:{record.second:02}"
    if is_time_only(record):
        return [str(start), record.layout, "-", time, "-", "-"]
    date = f"{record.year:04}-{record.month:02}-{record.day:02}"
    return [str(start), record.layout, date, time, str(record.weekday), status_words(record)]


def row(event):
    """The row of one event: a record, or two columns with the refusal's number."""
    if isinstance(event.outcome, int):
        columns = [str(event.start), f"refused {event.outcome}"]
    else:
        columns = columns_of(event.start, event.outcome)
    return (";".join(columns) + "\n").encode("ascii")


def stray_row(stray):
    """The last row."""
    return f"stray {stray}\n".encode("ascii")


# --- rows in a lent buffer ---

def lay(text, buffer):
    """A text at a buffer's beginning, giving its length; 13 where the buffer is too short."""
    if len(buffer) < len(text):
        raise Refused(BUFFER)
    buffer[:len(text)] = text
    return len(text)


def write_header(buffer):
    """The first row."""
    return lay(HEADER, buffer)


def write_row(event, buffer):
    """The row of an event. A record that no telegram could carry has none: 5 to 8, then 13."""
    if not isinstance(event.outcome, int):
        check_record(event.outcome)
    return lay(row(event), buffer)


def write_stray(stray, buffer):
    """The last row."""
    return lay(stray_row(stray), buffer)


# --- a whole line ---


def events_of(captured, order=AS_PRINTED):
    """All events of a whole line of that order, the end's with them, and the state after it."""
    state, events, rest = line.fresh(order), [], memoryview(bytes(captured))
    while rest:
        state, taken, event = line.feed(state, rest)
        rest = rest[taken:]
        if event is not None:
            events.append(event)
    state, event = line.end(state)
    if event is not None:
        events.append(event)
    return events, state


def listing(captured, order=AS_PRINTED):
    """The whole listing of a captured line of that order."""
    events, state = events_of(captured, order)
    return HEADER + b"".join(row(event) for event in events) + stray_row(state.stray)


if __name__ == "__main__":
    if sys.argv[1:] not in ([], ["--exchanged"]):
        sys.exit("usage: listing.py [--exchanged]")
    sys.stdout.buffer.write(listing(sys.stdin.buffer.read(), EXCHANGED if sys.argv[1:] else AS_PRINTED))
