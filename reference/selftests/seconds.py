"""UTC seconds at the ends of the calendar, and second 60."""

import datetime

import days
import listing
import records
import samples
import second_60
import telegrams
from days import Time
from records import Dated, TimeOnly
from refusals import outcome
from selftests.calendar import DAY
from selftests.checking import CR_LF, LF_CR, framed, read, same
from telegrams import Setting


def utc_counts():
    """The ends of the calendar in each season."""
    first = Dated("6021", "invalid", False, True, False, 2, 0, 59, 59, 1, 1, 1980)
    last = Dated("2000", "radio", False, False, True, 7, 23, 59, 59, 31, 12, 2079)
    for record, wanted in (
            (first, (None, 12)), (first._replace(hour=1, minute=0, second=0), (0,)),
            (first._replace(hour=1, daylight=True), (None, 12)),
            (first._replace(hour=2, minute=0, second=0, daylight=True), (0,)),
            (first._replace(utc=True), (3599,)),
            (first._replace(utc=True, daylight=True), (3599,)),
            (last, (3155759999,)), (last._replace(utc=False), (3155756399,)),
            (last._replace(daylight=True), (3155759999,)),
            (last._replace(layout="5050", daylight=True), (None, 5)),
            (TimeOnly("5050t", 23, 59, 59), (None, 14)), (TimeOnly("5050t", 24, 0, 0), (None, 6))):
        utc, number = outcome(records.utc_seconds, record)
        same("utc", (None, number) if utc is None else (utc.count,), wanted)
    same("utc", outcome(records.step_clock, last), (None, 12))
    for local, daylight, wanted in (
            (0, False, None), (3599, False, None), (3600, False, 0), (7199, True, None), (7200, True, 0),
            (3155763599, False, 3155759999), (3155763600, False, None),
            (3155767199, True, 3155759999), (3155767200, True, None), (2 ** 32 - 1, True, None)):
        utc, number = outcome(records.to_utc, records.LocalSeconds(local), daylight)
        same("utc", (utc, number), (None, 12) if wanted is None else (records.UtcSeconds(wanted), None))
    same("utc", records.count_of(last), records.UtcSeconds(3155759999))
    same("utc", records.count_of(last._replace(utc=False)), records.LocalSeconds(3155759999))
    same("utc", outcome(records.count_of, TimeOnly("5050t", 23, 59, 59)), (None, 14))


# --- second 60 ---

SECOND = datetime.timedelta(seconds=1)
FIRST_MOMENT = datetime.datetime(1980, 1, 1)
SHIFTS = {(False, False): datetime.timedelta(hours=1), (True, False): datetime.timedelta(hours=2), (False, True): 0 * SECOND,
          (True, True): 0 * SECOND}


def ends_a_month(moment):
    """Whether the second behind a UTC moment of the calendar is a month's first."""
    behind = moment + SECOND
    return moment >= FIRST_MOMENT and (behind.day, behind.hour, behind.minute, behind.second) == (1, 0, 0, 0)


ENDS = [datetime.timedelta(hours=hour, minutes=59, seconds=59) for hour in range(24)]


def second_60_by_library():
    """Every day of the calendar in each season and in UTC, around the ends of months every hour's end, else those of the hours that
    matter and of one that goes round: 60 is out of range but where the second before it ends a UTC month. A good one is followed by
    what the standard library has behind the 59, and shares its UTC second."""
    for (daylight, utc), wanted_ones in (((False, False), 1199), ((True, False), 1199), ((False, True), 1200)):
        shift, good_ones = SHIFTS[daylight, utc], 0
        for number in range(days.DAYS):
            there = FIRST_MOMENT + number * DAY
            date = there.isoweekday(), there.day, there.month, there.year
            hours = range(24) if (there - DAY).month != (there + DAY).month else sorted({0, 1, number % 24, 23})
            wanted = [hour for hour in hours if ends_a_month(there + ENDS[hour] - shift)]
            same("second 60", (there, hours_of_60(hours, daylight, utc, *date)), (there, wanted))
            for hour in wanted:
                followed_by_library((daylight, utc), there + datetime.timedelta(hours=hour))
            good_ones += len(wanted)
        same("second 60", good_ones, wanted_ones)


def hours_of_60(hours, daylight, utc, weekday, day, month, year):
    """Of some hours of a day those whose minute 59 has a second 60 that is in range."""
    return [hour for hour in hours
            if not records.out_of_range(Dated("6021", "radio", daylight, False, utc, weekday, hour, 59, 60, day, month, year))]


def followed_by_library(mark, hour):
    """The second 60 that ends an hour, in every layout that can say it."""
    behind = hour + datetime.timedelta(hours=1)
    utc = int((behind - SHIFTS[mark] - FIRST_MOMENT).total_seconds())
    for layout in ("6021", "2000", "5500", "5050"):
        record = Dated(layout, "crystal", mark[0], False, mark[1], hour.isoweekday(), hour.hour, 59, 60,
                       hour.day, hour.month, hour.year)
        later = record._replace(weekday=behind.isoweekday(), hour=behind.hour, minute=0, second=0, day=behind.day, month=behind.month,
                                year=behind.year)
        last = behind.year == 2080
        for step in (records.next_second, records.step_clock):
            same("second 60", outcome(step, record), (None, 12) if last else (later, None))
        same("second 60", outcome(records.utc_seconds, record), (None, 12) if last else (records.UtcSeconds(utc), None))
        same("second 60", outcome(records.count_of, record), (None, 12) if last else outcome(records.count_of, later))
        written, advanced = bytearray(40), bytearray(40)
        used = telegrams.write_telegram(record, written, Setting(True, False))
        same("second 60", read(bytes(written[:used])), record)
        used, number = outcome(telegrams.write_telegram, record, advanced, Setting(True, True))
        same("second 60", number if used is None else read(bytes(advanced[:used])), 12 if last else later)


def second_60_by_hand():
    """Telegrams around second 60, and the number that each is refused with or 0."""
    for inner, number in (
            (b"C7005960010117", 0), (b"C7005961010117", 6), (b"C7005860010117", 6), (b"C7015960010117", 6), (b"C7235960010117", 6),
            (b"C1005960020117", 6), (b"C6005960311216", 6), (b"C6235960311216", 6), (b"E7005960010117", 6), (b"E7015960010117", 0),
            (b"E6235960311216", 6), (b"CE235960311216", 0), (b"EE235960311216", 0), (b"CE225960311216", 6), (b"CF005960010117", 6),
            (b"CD235960301216", 6), (b"C1005960010117", 8), (b"C0005960010117", 5), (b"CF235960311216", 8), (b"C8235960311216", 5),
            (b"C7005999010117", 6), (b"C7005959010117", 0), (b"C7006060010117", 6), (b"C7245960010117", 6), (b"C2005960010180", 6),
            (b"E2015960010180", 6), (b"C5005960010280", 0), (b"CC235960310180", 0), (b"CF235960311279", 0), (b"C7235960311279", 6),
            (b"C9235960290299", 6), (b"CF235960280299", 0), (b"CA235960290200", 0), (b"CB235960300200", 6), (b"CF235960310423", 6)):
        got = read(framed(inner + LF_CR))
        same("second 60", (inner, got if isinstance(got, int) else 0), (inner, number))
    for inner, number in (
            (b"0 005960 010117 7" + CR_LF, 0), (b"5 015960 010117 7" + CR_LF, 0), (b"8 235960 311216 6" + CR_LF, 0),
            (b"A 235960 311216 6" + CR_LF, 5), (b"4 005960 010117 7" + CR_LF, 6), (b"00 59 60 01 01 17 07 " + CR_LF, 0),
            (b"23 59 60 31 12 16 86 " + CR_LF, 0), (b"23 59 60 31 12 16 06 " + CR_LF, 6), (b"EE23596031122016" + LF_CR, 0),
            (b"CF23596031122079" + LF_CR, 0), (b"CF23596031122080" + LF_CR, 6), (b"C200596001011980" + LF_CR, 6),
            (b"005960" + LF_CR, 0), (b"235960" + CR_LF, 0), (b"12 59 60 " + CR_LF, 0), (b"245960" + LF_CR, 6), (b"125860" + CR_LF, 6),
            (b"235961" + LF_CR, 6), (b"23 59 99 " + CR_LF, 6)):
        got = read(inner, control=False)
        same("second 60", (inner, got if isinstance(got, int) else 0), (inner, number))
    for hour, later in ((0, 1), (12, 13), (23, 0)):
        record = TimeOnly("5050t", hour, 59, 60)
        same("second 60", records.next_second(record), TimeOnly("5050t", later, 0, 0))
        for ask in (records.step_clock, records.count_of, records.utc_seconds):
            same("second 60", outcome(ask, record), (None, 14))
    for ask in (days.second_of_day, days.next_second):
        same("second 60", outcome(ask, Time(23, 59, 60)), (None, 6))
    for row in (b"36;6021;2017-01-01;00:59:60;7;high,standard\n", b"93;5500;2015-07-01;01:59:60;3;radio,daylight\n",
                b"153;6021;2016-12-31;23:59:60;6;high,standard,utc\n", b"207;refused 6\n"):
        same("second 60", row in listing.listing(samples.leap_second_night()), True)


def second_60_of_the_cases(dice, rounds):
    """The records of the cases: the good ones are good, and the bad ones have the number that is said of them."""
    for record in [*second_60.good_by_hand()] + [second_60.good_by_dice(dice) for _ in range(rounds)]:
        same("second 60", (record, record.second, outcome(records.check_record, record)[1]), (record, 60, None))
    for number, record in second_60.bad_by_hand():
        same("second 60", (record, outcome(records.check_record, record)[1]), (record, number))
