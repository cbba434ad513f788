"""Records, telegrams and lines made by dice, for tests: good ones, and ones that were damaged."""

import days
import layouts
import records
import status
import telegrams
from layouts import AS_PRINTED, ORDERS
from records import Dated, TimeOnly

STX = b"\x02"

# Bytes that stand somewhere in some telegram, and some that stand in none.
LIKELY = b"0123456789ABCDEF \r\n\x02\x03G/:af"


# --- records ---

BYTES = [0, 1, 7, 8, 12, 13, 23, 24, 28, 29, 30, 31, 32, 59, 60, 99, 200, 255]
YEARS = [0, 96, 1900, 1979, 1980, 2000, 2079, 2080, 65535]


def good_record(dice):
    """Any good record of any layout, with midnights and year ends more often than by chance."""
    layout = dice.choice(list(layouts.LAYOUTS))
    late = dice.random() < 0.3
    time = (23, 59, 59) if late else (dice.randrange(24), dice.randrange(60), dice.randrange(60))
    if layout in layouts.TIME_ONLY:
        return TimeOnly(layout, *time)
    number = dice.choice([dice.randrange(days.DAYS), 0, days.DAYS - 1])
    date = days.date_of(number)
    record = Dated(layout, dice.choice(status.RECEPTIONS), dice.random() < 0.5,
                   dice.random() < 0.5, dice.random() < 0.5, days.weekday_of_number(number),
                   *time, date.day, date.month, date.year)
    if records.status_not_allowed(record):
        record = record._replace(reception="crystal", utc=False)
    return record


def any_record(dice):
    """A good record, mostly with fields put out of order."""
    record = good_record(dice)
    for _ in range(dice.randrange(4)):
        field = dice.choice(record._fields[1:])
        if field == "reception":
            value = dice.choice(status.RECEPTIONS)
        elif field in ("daylight", "announced", "utc"):
            value = dice.random() < 0.5
        else:
            value = dice.choice(YEARS if field == "year" else BYTES)
        record = record._replace(**{field: value})
    return record


# --- telegrams ---

def telegram_of(record, control, order=AS_PRINTED):
    """A good record as it is written."""
    buffer = bytearray(layouts.length(record.layout, control))
    telegrams.write_telegram(record, buffer, telegrams.Setting(control, False, order))
    return bytes(buffer)


def with_byte(telegram, at, byte):
    """A telegram with one byte changed."""
    return telegram[:at] + bytes([byte]) + telegram[at + 1:]


def each_place_wrong(telegram):
    """A telegram with a neighbour of the digits or of the letters, or a byte that is one bit off, in each place in turn."""
    for at, right in enumerate(telegram):
        yield from (with_byte(telegram, at, byte) for byte in (*b"/:@G", right ^ 1) if byte != right)


def damaged(dice, telegram):
    """A telegram with some bytes changed, dropped or put in."""
    telegram = bytearray(telegram)
    for _ in range(dice.randrange(4)):
        place, kind = dice.randrange(len(telegram)), dice.random()
        if kind < 0.8:
            telegram[place] = dice.choice(LIKELY)
        elif kind < 0.9:
            telegram.insert(place, dice.choice(LIKELY))
        elif len(telegram) > 1:
            del telegram[place]
    return bytes(telegram)


def with_a_late_day(dice, telegram, layout, control):
    """A telegram with the 28th to the 31st for its day, which the month may lack."""
    telegram = bytearray(telegram)
    day = dice.randrange(28, 32)
    for at, place in enumerate(layouts.LAYOUTS[layout]):
        if place == layouts.Decimal("day", 10):
            telegram[at + control] = 48 + day // 10
        elif place == layouts.Decimal("day", 1):
            telegram[at + control] = 48 + day % 10
    return bytes(telegram)


def some_telegram(dice, control, order=AS_PRINTED):
    """A telegram of any layout: whole, damaged, or with a late day."""
    record = good_record(dice)
    telegram, kind = telegram_of(record, control, order), dice.random()
    if kind < 0.6:
        return damaged(dice, telegram)
    return with_a_late_day(dice, telegram, record.layout, control) if kind < 0.75 else telegram


def in_order(some, order):
    """Telegrams of some kind in that order."""
    return lambda dice, control: some(dice, control, order)


def in_any_order(some):
    """Telegrams of some kind, each in either order."""
    return lambda dice, control: some(dice, control, dice.choice(ORDERS))


# --- lines ---

def random_line(dice, some=some_telegram):
    """Telegrams of some kind with bytes between them; now and then a start with rubbish behind it."""
    parts = []
    for _ in range(dice.randrange(8)):
        telegram = some(dice, dice.random() < 0.9)
        if dice.random() < 0.1:
            telegram = STX + dice.randbytes(dice.randrange(60))
        parts.append(telegram)
        parts.append(bytes(dice.choice(LIKELY) for _ in range(dice.choice([0, 0, 1, 30]))))
    return b"".join(parts)
