"""What the cases of the day of the year, of the Leitch answer and of the request letters are made of.

Dates, answers and bytes, good ones and wrong ones. Where nothing is said of a value it comes from the dice.
"""

import itertools

import days
import leitch
import making
import manual_examples
from days import Date
from layouts import is_decimal
from leitch import Answer
from making import with_byte
from status import HEX_DIGITS

CALENDAR_YEARS = range(days.FIRST_YEAR, days.LAST_YEAR + 1)
LEAP_AND_COMMON = (1980, 1996, 1999, 2000, 2001, 2004, 2079)


# --- dates ---

def year_edges(year):
    """The days around which the day of the year can go wrong."""
    yield from (Date(year, 1, 1), Date(year, 1, 31), Date(year, 2, 28), Date(year, 3, 1), Date(year, 12, 31))
    if days.is_leap(year):
        yield Date(year, 2, 29)


def wrong_dates():
    """Dates for 6, for 7, and for both."""
    for year in (0, 79, 1979, 2080, 2100, 65535):
        yield from (Date(year, 1, 1), Date(year, 12, 31), Date(year, 2, 30))
    for year in (1980, 2000, 2079):
        for month in (0, 13, 255):
            yield from (Date(year, month, 1), Date(year, month, 31))
        for month in range(1, 13):
            yield from (Date(year, month, 0), Date(year, month, 32), Date(year, month, 255))
    for year in LEAP_AND_COMMON:
        for month in (2, 4, 6, 9, 11):
            yield from (Date(year, month, day) for day in range(days.days_in_month(year, month) + 1, 32))


def whole_years():
    """Every day of a leap year, of the leap year of a full century, and of the last year."""
    for year in (1996, 2000, 2079):
        start = days.day_number(Date(year, 1, 1))
        yield from (days.date_of(start + day) for day in range(days.days_in_year(year)))


def dates(dice):
    """The edges of every year, every day of some, wrong ones, and some by dice."""
    for year in CALENDAR_YEARS:
        yield from year_edges(year)
    yield from whole_years()
    yield from wrong_dates()
    for _ in range(30):
        yield days.date_of(dice.randrange(days.DAYS))


# --- good answers ---

TIMES = [(hour, *rest) for hour in range(24) for rest in ((0, 0, 0), (59, 59, 999))]
TIMES += [(12, number, 59 - number, 17 * number) for number in range(60)]
TIMES += [(1, 2, 3, millisecond) for millisecond in (1, 9, 10, 90, 99, 100, 101, 110, 900, 990, 998)]


def any_time(dice):
    """Hour, minute, second and millisecond."""
    return dice.randrange(24), dice.randrange(60), dice.randrange(60), dice.randrange(1000)


def answer_on(dice, date):
    """A good answer of a date."""
    return Answer(*any_time(dice), *date, days.day_of_year(date), days.weekday_of(date), dice.choice(leitch.STATUSES))


def good_answer(dice):
    """Any good answer."""
    return answer_on(dice, days.date_of(dice.randrange(days.DAYS)))


def good_answers(dice):
    """The edges of some years, every time of the list, every status on every weekday."""
    for year in LEAP_AND_COMMON:
        yield from (answer_on(dice, date) for date in year_edges(year))
    for time in TIMES:
        yield good_answer(dice)._replace(**dict(zip(Answer._fields, time)))
    for status, weekday in itertools.product(leitch.STATUSES, range(7)):
        yield answer_on(dice, days.date_of(7 * dice.randrange(days.DAYS // 7) + weekday))._replace(status=status)


# --- answers with wrong values ---

def others(dice, right, number):
    """A number of 1 to the given one that is not the right one."""
    return dice.choice([other for other in range(1, number + 1) if other != right])


# For each refusal of the values, ways to bring it about in a good answer that a text can show. None of them brings about a lower one.
SHOWN_WRONG = {
    5: [
        lambda dice, good: good._replace(weekday=dice.choice([0, 8, 9, 200])),
        lambda dice, good: good._replace(status=dice.choice(b"4/9:@GaZ \x00\x02\xff")),
    ],
    6: [
        lambda dice, good: good._replace(hour=dice.choice([24, 25, 29, 30, 99])),
        lambda dice, good: good._replace(minute=dice.choice([60, 61, 99])),
        lambda dice, good: good._replace(second=dice.choice([60, 61, 62, 99])),
        lambda dice, good: good._replace(month=dice.choice([0, 13, 19, 20, 99])),
        lambda dice, good: good._replace(day=dice.choice([0, 32, 39, 40, 99])),
    ],
    7: [
        lambda dice, good: good._replace(month=dice.choice([2, 4, 6, 9, 11]), day=31),
        lambda dice, good: good._replace(month=2, day=30),
        lambda dice, good: good._replace(year=dice.choice([1981, 1999, 2001, 2078, 2079]), month=2, day=29),
    ],
    8: [
        lambda dice, good: good._replace(weekday=others(dice, good.weekday, 7)),
    ],
    17: [
        lambda dice, good: good._replace(day_of_year=dice.choice([0, 367, 399, 400, 500, 999])),
        lambda dice, good: good._replace(day_of_year=others(dice, good.day_of_year, 366)),
        lambda dice, good: good._replace(day_of_year=good.day_of_year + dice.choice([-1, 1])),
    ],
}

# And those that no text can show.
WRONG = {**SHOWN_WRONG, 6: SHOWN_WRONG[6] + [
    lambda dice, good: good._replace(millisecond=dice.choice([1000, 1001, 9999, 65535])),
    lambda dice, good: good._replace(year=dice.choice([0, 96, 1979, 2080, 65535])),
]}


def made_wrong(dice, ways):
    """A good answer that is made wrong in some ways, one after the other."""
    answer = good_answer(dice)
    for way in ways:
        answer = way(dice, answer)
    return answer


def several_wrong(dice, wrong):
    """The numbers brought about, and an answer: every way alone, with every way of every higher number, and some by dice."""
    every = [(number, way) for number, ways in wrong.items() for way in ways]
    for number, way in every:
        yield (number,), made_wrong(dice, [way])
    for (low, first), (high, second) in itertools.product(every, every):
        if low < high:
            yield (low, high), made_wrong(dice, [second, first])
    for _ in range(20):
        numbers = sorted(dice.sample(list(wrong), dice.randrange(3, 6)))
        yield tuple(numbers), made_wrong(dice, [dice.choice(wrong[number]) for number in reversed(numbers)])


def day_of_year_neighbours(dice):
    """The edges of leap and common years with the right day of the year, with its neighbours, and with the ends of the range."""
    for date in itertools.chain.from_iterable(year_edges(year) for year in (1999, 2000, 2079)):
        right = days.day_of_year(date)
        for number in (right, right - 1, right + 1, right + 10, right + 100, 0, 1, 59, 60, 61, 365, 366, 367, 999):
            yield answer_on(dice, date)._replace(day_of_year=number)


def leap_seconds(dice):
    """Second 60 where a leap second stands, in UTC and in each season, and where none does; and the second before it."""
    for date in (Date(1997, 6, 30), Date(1998, 12, 31), Date(2016, 12, 31), Date(1999, 1, 1), Date(1997, 7, 1), Date(2017, 1, 1),
                 Date(1980, 1, 1), Date(2079, 12, 31), Date(2000, 2, 29)):
        for hour, minute in ((23, 59), (0, 59), (1, 59), (12, 59), (12, 34), (0, 0)):
            for second in (59, 60):
                yield answer_on(dice, date)._replace(hour=hour, minute=minute, second=second, millisecond=dice.choice([0, 999]))


def late_days(dice):
    """The 28th to the 31st of every month, right in a month that has the day; else with any weekday and any day of the year."""
    for year in (1996, 1999, 2000, 2079):
        for month, day in itertools.product(range(1, 13), range(28, 32)):
            if day <= days.days_in_month(year, month):
                yield answer_on(dice, Date(year, month, day))
            else:
                yield good_answer(dice)._replace(year=year, month=month, day=day)


def all_wrong(dice, wrong):
    """The answers with wrong values, for reading or for writing."""
    for _, answer in several_wrong(dice, wrong):
        yield answer
    yield from day_of_year_neighbours(dice)
    yield from leap_seconds(dice)


# --- bytes to read as an answer ---

# Characters that stand in answers, their neighbours, and some others; and those of them that every place is tried with.
CHARACTERS = b"0123456789ABCDEF:./ \r\n\x02\x03\x00@Gaf-,\x1f;\x7f\xff"
TELLING = b"09:/. \r\nA-"


def good_text(dice):
    """Any good answer's text."""
    return leitch.text_of(good_answer(dice))


def single_bytes(dice):
    """Every place with each of some characters; the status and the weekday with every byte."""
    for place, byte in itertools.product(range(leitch.SIZE), TELLING):
        yield with_byte(good_text(dice), place, byte)
    for place, byte in itertools.product((leitch.WEEKDAY_PLACE, leitch.STATUS_PLACE), range(256)):
        yield with_byte(good_text(dice), place, byte)


def lengths(dice):
    """Every length up to 40, and some long ones: cut off or gone on with, and with bytes missing in front."""
    for size in [*range(41), 255, 256, 287, 300]:
        yield (good_text(dice) * 10)[:size]
        yield (good_text(dice) * 10)[-size:] if size else b""


def trailers_and_frames(dice):
    """Other trailers than CR LF, of its length and of others; STX and ETX around an answer and in it."""
    for trailer in (b"\n\r", b"\r\r", b"\n\n", b"\r ", b" \n", b"", b"\r", b"\n", b"\r\n\r\n", b"\n\r\n", b"\r\n\x03"):
        yield good_text(dice)[:-2] + trailer
    for before, behind in ((b"\x02", b"\x03"), (b"\x02", b""), (b"", b"\x03"), (b" ", b""), (b"T", b"")):
        text = good_text(dice)
        yield before + text + behind
        yield before + text[len(before):leitch.SIZE - len(behind)] + behind
        yield before + text[:leitch.SIZE - len(before + behind)] + behind


FIXED_PLACES = [place for place, character in enumerate(leitch.TABLE) if character.meaning == leitch.FIXED]
DECIMAL_PLACES = [place for place, character in enumerate(leitch.TABLE) if is_decimal(character.meaning)]

# For each refusal of the bytes, ways to bring it about in a text.
WRONG_BYTES = {
    1: [
        lambda dice, text: text[:-1],
        lambda dice, text: text[1:],
        lambda dice, text: text + b"\n",
        lambda dice, text: b"\x02" + text + b"\x03",
    ],
    3: [
        lambda dice, text: with_byte(text, dice.choice(FIXED_PLACES), dice.choice(b"0;,-\t\x0b\x00\xff")),
        lambda dice, text: text[:-2] + b"\n\r",
    ],
    4: [
        lambda dice, text: with_byte(text, dice.choice(DECIMAL_PLACES), dice.choice(b"/:A \xff")),
    ],
}


def several_faults(dice):
    """The numbers brought about, and bytes: every fault of the bytes alone, with every higher one of the bytes, and with every way of
    the values, which are then wrong too."""
    every = [(number, fault) for number, faults in WRONG_BYTES.items() for fault in faults]
    ways = [(number, way) for number, some in SHOWN_WRONG.items() for way in some]
    for low, first in every:
        yield (low,), first(dice, good_text(dice))
        for high, second in every:
            if low < high:
                yield (low, high), first(dice, second(dice, good_text(dice)))
        for high, way in ways:
            yield (low, high), first(dice, leitch.text_of(made_wrong(dice, [way])))


def damaged_text(dice):
    """A good answer's text with some bytes changed, dropped or put in; or one with a wrong value, now and then damaged too."""
    if dice.random() < 0.5:
        return making.damaged(dice, good_text(dice))
    text = leitch.text_of(made_wrong(dice, [dice.choice(SHOWN_WRONG[dice.choice([6, 7, 8, 17])])]))
    return making.damaged(dice, text) if dice.random() < 0.3 else text


def texts(dice):
    """All that is read as an answer."""
    for answer in itertools.chain(good_answers(dice), all_wrong(dice, SHOWN_WRONG), late_days(dice)):
        yield leitch.text_of(answer)
    yield from single_bytes(dice)
    yield from lengths(dice)
    yield from trailers_and_frames(dice)
    for _, text in several_faults(dice):
        yield text
    for example in manual_examples.EXAMPLES:
        yield example.telegram
    for _ in range(100):
        yield damaged_text(dice)
    for _ in range(10):
        yield dice.randbytes(leitch.SIZE)


# --- answers to write, each with the length of the buffer ---

LONGEST_BUFFER = 32


def values_out_of_range(dice):
    """Each field at the ends of its range and behind them, alone; the status with each character that is listed, and beside it."""
    for field, values in (("hour", (0, 23, 24, 255)), ("minute", (0, 59, 60, 255)), ("second", (0, 59, 60, 61, 255)),
                          ("millisecond", (0, 1, 998, 999, 1000, 1001, 9999, 65535)),
                          ("year", (0, 80, 96, 1979, 1980, 2079, 2080, 2100, 65535)), ("month", (0, 13, 255)), ("day", (0, 32, 255)),
                          ("day_of_year", (0, 1, 366, 367, 1000, 65535))):
        for value in values:
            yield good_answer(dice)._replace(**{field: value})
    for byte in (*range(11), 15, 16, 48, 49, 55, 56, 127, 128, 255):
        yield good_answer(dice)._replace(weekday=byte)
    for byte in sorted({byte + step for byte in leitch.STATUSES for step in (-1, 0, 1)} | {0, 3, 10, 128, 255}):
        yield good_answer(dice)._replace(status=byte)


def any_answer(dice):
    """A good answer, mostly with fields put out of order."""
    answer = good_answer(dice)
    for _ in range(dice.randrange(4)):
        field = dice.choice(Answer._fields)
        if field in ("millisecond", "day_of_year"):
            value = dice.choice([0, 1, 59, 60, 365, 366, 367, 999, 1000, 65535])
        else:
            value = dice.choice(making.YEARS if field == "year" else making.BYTES)
        answer = answer._replace(**{field: value})
    return answer


def every_room(dice):
    """Every buffer with a good answer; the shortest, the longest and those about as long as an answer with each refusal of the
    values."""
    for room in range(LONGEST_BUFFER + 1):
        yield room, good_answer(dice)
    for room, ways in itertools.product((0, leitch.SIZE - 1, leitch.SIZE, LONGEST_BUFFER), WRONG.values()):
        yield room, made_wrong(dice, [dice.choice(ways)])


def writes(dice):
    """All that is written."""
    yield from every_room(dice)
    for answer in good_answers(dice):
        yield dice.choice([leitch.SIZE, LONGEST_BUFFER]), answer
    for answer in itertools.chain((answer for _, answer in several_wrong(dice, WRONG)), values_out_of_range(dice)):
        yield dice.choice([0, leitch.SIZE - 1, leitch.SIZE, LONGEST_BUFFER, LONGEST_BUFFER]), answer
    for _ in range(60):
        yield dice.choice([dice.randrange(LONGEST_BUFFER + 1), leitch.SIZE, LONGEST_BUFFER]), any_answer(dice)


# --- bytes to read as a request ---

REQUEST_CHARACTERS = b"UDGudgTt0123456789ABCDEFabcdef@`/: \r\n\x02\x03"


def counts():
    """Every count with each small letter, and with each capital one, which has none."""
    for letter in b"udg":
        yield from (bytes([letter, *digits]) for digits in itertools.product(HEX_DIGITS, HEX_DIGITS))
    for letter in b"UDG":
        yield from (bytes([letter, digit, digit]) for digit in HEX_DIGITS)


def wrong_lengths():
    """Small letters with less or more than two digits, and capital ones with something behind."""
    for letter in (b"u", b"d", b"g"):
        yield letter
        yield from (letter + bytes([digit]) for digit in HEX_DIGITS)
        yield from (letter + digits for digits in (b"005", b"FFF", b"0505", b"05\r", b"05\n", b"05\r\n", b"05 ", b" 05"))
    for letter in (b"U", b"D", b"G"):
        yield from (letter + more for more in (b"0", b"05", b"\r", b"\n", b"\r\n", b" ", b"\x00", letter, letter.lower()))
        yield from (before + letter for before in (b" ", b"\x02", b"\r\n"))
        yield b"\x02" + letter + b"\x03"
        yield from (letter * size for size in (31, 255, 256, 257))
    yield from (b"u05" * size for size in (2, 86))


def every_byte(dice):
    """Every byte alone, as a letter before a count, and in each place of a count."""
    for byte in range(256):
        digit = dice.choice(HEX_DIGITS)
        yield bytes([byte])
        yield bytes([byte, digit, dice.choice(HEX_DIGITS)])
        yield bytes([dice.choice(b"udg"), byte, digit])
        yield bytes([dice.choice(b"udg"), digit, byte])


def requests(dice):
    """All that is read as a request; the manuals' own are among their examples."""
    yield b""
    for example in manual_examples.EXAMPLES:
        yield example.telegram
    yield from every_byte(dice)
    yield from counts()
    yield from wrong_lengths()
    for _ in range(50):
        yield dice.randbytes(dice.randrange(6))
    for _ in range(150):
        yield bytes(dice.choice(REQUEST_CHARACTERS) for _ in range(dice.randrange(6)))
