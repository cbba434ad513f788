"""The example telegrams of the manuals, as they stand on the line, and what they read as.

Sources: 000 and 004 the 6036 (English, German), 001 the 6039, 002 the 7201/7221, 003 the
6038. Run as a program it prints one line for each example.

How print becomes bytes: (STX), (ETX), (LF), (CR), (SOH) and bare STX, ETX, CR, LF stand
for control bytes. Every other blank around them is typographic unless the character table
of the string has a space there; each such case has a remark. An underscore stands for a
space. The marks > and < around the setting strings are not sent.
"""

import sys
from typing import NamedTuple, Optional

sys.dont_write_bytecode = True  # leaves no files behind

import listing
import telegrams
from line import Event
from refusals import Refused

CONTROLS = {"(SOH)": "\x01", "(STX)": "\x02", "(ETX)": "\x03", "(LF)": "\n", "(CR)": "\r",
            "(NUL)": "\x00", "_": " "}

INSIDE, OUTSIDE = True, False

# How an example got into the list.
PRINTED = "printed"          # the manual prints it as an example
SPELLED_OUT = "spelled out"  # the manual gives every byte of it, but not as an example
BUILT = "built"              # the manual has a character table only; this one is built from it


class Example(NamedTuple):
    source: str
    section: str
    kind: str
    telegram: bytes
    inside: bool              # one of the seven layouts
    says: str                 # what the manual says it means, in short
    right: Optional[bool]     # whether that fits bit table and calendar; None: nothing said
    note: str                 # what is wrong, or other remarks
    expected: str             # number, or the row without start, as reads_as gives it
    origin: str


def on_the_line(text):
    """The bytes of a telegram written with the marks above."""
    for mark, character in CONTROLS.items():
        text = text.replace(mark, character)
    return text.encode("latin-1")


def example(source, section, kind, text, says, right, note, expected, *, inside=OUTSIDE,
            origin=PRINTED):
    """One example, its telegram written with the marks above."""
    return Example(source, section, kind, on_the_line(text), inside, says, right, note,
                   expected, origin)


HIGH_JANUARY = "6021;1996-01-03;12:34:56;3;high,daylight"
HIGH_APRIL = "6021;1996-04-17;12:34:56;3;high,daylight"
HIGH_2000 = "2000;1996-01-03;12:34:56;3;high,daylight"
CRYSTAL_5500 = "5500;1996-01-03;12:34:56;3;crystal,standard"
RADIO_5050 = "5050;1996-01-03;12:34:56;3;radio,standard"

SUMMER_IN_JANUARY = "daylight bit in January; the bit table says so and no season is checked"
BLANK_5050 = "blank behind STX is typographic, blank before CR is place 22"

# --- the seven layouts ---

IN_LAYOUTS = [
    example("000", "6.1.4", "6021", "(STX)E3123456030196(LF)(CR)(ETX)",
            "high accuracy, summer, not announced, Wednesday 3.1.96 12:34:56", True,
            SUMMER_IN_JANUARY, HIGH_JANUARY, inside=INSIDE),
    example("000", "6.2.4", "5500", "(STX)3_123456_030196_3(CR)(LF)(ETX)",
            "crystal, not announced, winter, Wednesday 3.1.96 12:34:56", False,
            "status 3 has b1 set: announced", CRYSTAL_5500 + ",announced", inside=INSIDE),
    example("000", "6.3.4", "5050", "(STX)12_34_56_03_01_96_03_(CR)(LF)(ETX)",
            "radio, not announced, winter, Wednesday 3.1.96 12:34:56", True,
            BLANK_5050, RADIO_5050, inside=INSIDE),
    example("001", "6.1.3.2", "6021", "(STX)E3123456170496(LF)(CR)(ETX)",
            "high accuracy, daylight, not announced, Wednesday 17.4.96 12:34:56", True,
            "", HIGH_APRIL, inside=INSIDE),
    example("001", "6.1.4.2", "2000", "(STX)E312345603011996(LF)(CR)(ETX)",
            "high accuracy, summer, not announced, Wednesday 3.1.1996 12:34:56", True,
            SUMMER_IN_JANUARY, HIGH_2000, inside=INSIDE),
    example("002", "3.1.4", "6021", "(STX)E3123456030196(LF)(CR)(ETX)",
            "high accuracy, daylight, not announced, Wednesday 3.1.96 12:34:56", True,
            SUMMER_IN_JANUARY, HIGH_JANUARY, inside=INSIDE),
    example("002", "3.2.4", "5500", "(STX)1_123456_030196_3(CR)(LF)(ETX)",
            "crystal, not announced, standard, Wednesday 3.1.96 12:34:56", True,
            "", CRYSTAL_5500, inside=INSIDE),
    example("002", "3.3.4", "5050", "(STX)12_34_56_03_01_96_03_(CR)(LF)(ETX)",
            "radio, not announced, standard, Wednesday 3.1.96 12:34:56", True,
            BLANK_5050, RADIO_5050, inside=INSIDE),
    example("002", "3.11.3", "2000", "(STX)E312345603011996(LF)(CR)(ETX)",
            "high accuracy, daylight, not announced, Wednesday 3.1.1996 12:34:56", True,
            SUMMER_IN_JANUARY, HIGH_2000, inside=INSIDE),
    example("003", "5.3", "6021", "(STX)E3123456170496(LF)(CR)(ETX)",
            "high accuracy, summer, not announced, Wednesday 17.4.96 12:34:56", True,
            "", HIGH_APRIL, inside=INSIDE),
    example("004", "6.1.4", "6021", "(STX)E3123456030196(LF)(CR)(ETX)",
            "high accuracy, summer, not announced, Wednesday 3.1.96 12:34:56", True,
            SUMMER_IN_JANUARY, HIGH_JANUARY, inside=INSIDE),
    example("004", "6.2.4", "5500", "(STX)1_123456_030196_3(CR)(LF)(ETX)",
            "crystal, not announced, winter, Wednesday 3.1.96 12:34:56", True,
            "000 prints status 3 at this place", CRYSTAL_5500, inside=INSIDE),
    example("004", "6.3.4", "5050", "(STX)12_34_56_03_01_96_03_(CR)(LF)(ETX)",
            "radio, not announced, winter, Wednesday 3.1.96 12:34:56", True,
            BLANK_5050, RADIO_5050, inside=INSIDE),
]

# --- other time strings ---

NOT_TUESDAY = "7.8.94 was a Sunday"

OTHER_STRINGS = [
    example("001", "6.1.5.2", "SINEC H1", "(STX)D:03.01.96;T:3;U:12.34.56;____(ETX)",
            "radio, not announced, standard, Wednesday 3.1.96 12:34:56", True,
            "blanks between the underscores are typographic", "1"),
    example("001", "6.1.6.1", "T-String", "T:96:01:03:03:12:34:56(CR)(LF)",
            "Wednesday 3.1.96 12:34:56", True, "", "1"),
    example("001", "6.1.7.2", "Master/Slave", "(STX)831234560301968230(LF)(CR)(ETX)",
            "radio, not announced, standard, Wednesday 3.1.96 12:34:56, difference +2.30",
            True, "", "1"),
    example("002", "3.5.2", "SINEC H1", "(STX)D:03.01.96;T:3;U:12.34.56;____(ETX)",
            "radio, not announced, standard, Wednesday 3.1.96 12:34:56", True,
            "blank before the underscores is typographic", "1"),
    example("002", "3.6.2", "DCF-Slave", "(STX)83123456030196(LF)(CR)(ETX)",
            "radio, not announced, standard, Wednesday 3.1.96 12:34:56", True,
            "nothing tells it from a 6021 and it is read as one; its own status table has "
            "b3 radio and b2 leap second announced",
            "6021;1996-01-03;12:34:56;3;radio,standard"),
    example("002", "3.8.1", "T-String", "T:96:01:03:03:12:34:56(CR)(LF)",
            "Wednesday 3.1.96 12:34:56", True, "", "1"),
    example("002", "3.9.2", "Date/Time", "(STX)960103123456(ETX)",
            "daylight, not announced, Wednesday 3.1.96 12:34:56", False,
            "the string has neither status nor weekday; blanks are typographic", "1"),
    example("002", "3.10.2", "SINEC H1 Extended", "(STX)D:03.01.96;T:3;U:12.34.56;____(ETX)",
            "radio, not announced, standard, Wednesday 3.1.96 12:34:56", True,
            "prints three underscores where the table has four places; blanks between them "
            "are typographic", "1"),
    example("002", "3.12.2", "Sysplex Timer", "(SOH)050:12:34:56_(CR)(LF)",
            "radio, 12:34:56, 50th day of the year", True,
            "the table names SOH but prints hex 02; blanks around the underscore are "
            "typographic", "1"),
    example("002", "3.16.2", "H&B", "(STX)12_34_56_03_01_96_03(CR)(LF)",
            "crystal, not announced, standard, Wednesday 3.1.96 12:34:56", False,
            "status 0 has b0 clear: radio; the table has no STX, without it 1 as well; blank "
            "behind STX is typographic", "1"),
    example("002", "3.17.2", "Master/Slave", "(STX)831234560301968230(LF)(CR)(ETX)",
            "radio, not announced, standard, Wednesday 3.1.96 12:34:56, difference +2.30",
            True, "", "1"),
    example("002", "3.28.1", "IRIG J-1x", "(SOH)034:12:34:56(CR)(LF)",
            "34th day of the year, 12:34:56", True, "blank before CR is typographic", "1"),
    example("002", "3.31.2", "BEXBACH", "(STX)D:03.01.96;T:3;U:12:34:56;____(ETX)",
            "radio, not announced, standard, Wednesday 3.1.96 12:34:56", True,
            "blank before the underscores is typographic", "1"),
    example("002", "3.32.2", "NGTS", "T0401293123401(CR)(LF)",
            "Wednesday 29.1.04 12:34 local, synchronous", False,
            "29.1.04 was a Thursday", "1"),
    example("002", "3.33.4", "SAT 1703", "(STX)18.07.02/4/02:34:45UTC___(CR)(LF)(ETX)",
            "Thursday 18.7.02 02:34:45 UTC, synchronous", True,
            "blank behind STX is typographic; the one before CR stands for places 24 to 26",
            "1"),
]

# Left out, because they are no telegrams: the pattern of the NMEA string (002 3.25), the
# difference times 90.00 and 01.30 (001 6.1.7, 002 3.17), the status characters 4 and 2
# (003 7.1.1).

# --- setting strings and requests of the boards ---

BOARD_COMMANDS = [
    example("000", "7", "set", "S1234560708942(CR)", "Tuesday 7.8.94 12:34:56", False,
            NOT_TUESDAY, "1"),
    example("000", "7", "set", "S123456070894250(CR)", "Tuesday 7.8.94 12:34:56, summer",
            False, NOT_TUESDAY + "; hex 50 is standard by the bit table in 003 7.1.1", "1"),
    example("003", "6", "set", "S1234561704963(CR)", "Wednesday 7.8.94 12:34:56", False,
            "the string carries 17.4.96, which was a Wednesday", "1"),
    example("003", "6", "set", "S123456170496348(CR)",
            "Wednesday 7.8.94 12:34:56, daylight", False,
            "the string carries 17.4.96, which was a Wednesday", "1"),
    example("004", "7", "set", "S1234560708942(CR)", "Tuesday 7.8.94 12:34:56", False,
            NOT_TUESDAY, "1"),
    example("004", "7", "set", "S123456070894248(CR)", "Tuesday 7.8.94 12:34:56, summer",
            False, NOT_TUESDAY, "1"),
    example("000", "6", "request", "u05", "time only after 50 ms", True, "", "1"),
    example("000", "6", "request", "gFF", "UTC time and date after 2550 ms", True, "", "1"),
    example("002", "2.6", "request", "u05", "time only after 50 ms", True, "", "1"),
    example("002", "2.6", "request", "gFF", "UTC time and date after 2550 ms", True, "", "1"),
    example("003", "3", "request", "u05", "local time only after 50 ms", True, "", "1"),
    example("003", "3", "request", "gFF", "UTC time and date after 2550 ms", True, "", "1"),
]


# The other manuals spell out the same strings; only what differs is listed again.

def spelled_out(source, section, kind, text, says, right=None, note=""):
    """One string that a manual spells out; none has a length of the table."""
    return example(source, section, kind, text, says, right, note, "1", origin=SPELLED_OUT)


SPELLED_OUT_COMMANDS = [
    spelled_out("000", "6", "request", "U", "time"),
    spelled_out("000", "6", "request", "D", "time and date"),
    spelled_out("000", "6", "request", "G", "UTC time and date"),
    spelled_out("000", "6", "request", ":ZSYS:", "MADAM-S answer"),
    spelled_out("000", "6", "request", ":WILA:", "MADAM-S answer"),
    spelled_out("000", "6.5", "request", "T", "Leitch answer"),
    spelled_out("000", "8", "reset", "r(CR)", "reset", True),
    spelled_out("000", "9", "master/slave", "M00(CR)", "master operation"),
    spelled_out("000", "9", "master/slave", "M80(CR)", "slave operation"),
    spelled_out("000", "10", "antenna", "A(CR)", "alignment"),
    spelled_out("000", "10", "antenna", "a(CR)", "alignment with values"),
    spelled_out("000", "10", "antenna", "e(CR)", "values stop"),
    spelled_out("002", "2.6", "request", "C", "Sysplex Timer starts"),
    spelled_out("002", "3.5.3", "request", "?", "SINEC H1 answer"),
    spelled_out("004", "8", "reset", "r(CR)", "reset", False,
                "prints the letter R beside hex 72, which is r"),
]

# --- remote functions of the 6038 ---
# All blanks in these strings are typographic: command, status and data follow one another,
# as the character tables and the examples of PAR, MOD, MO1 and ADR show.

NOT_SUNDAY_99 = "7.8.99 was a Saturday"
NOT_SUNDAY_96 = "23.9.96 was a Monday"
BIT_3 = "hex %s has bit 3 set, which the bit table calls daylight"
FALLS_IN_5500T = "ten bytes with CR LF: judged as 5500t, its letters are no digits"
FALLS_IN_5500 = "21 bytes: judged as 5500, no space in place 3"

REMOTE_COMMANDS = [
    example("003", "7.1.2", "TIM set", "(STX)TIM:48,12,34,56,07,08,99,7(CR)(LF)(ETX)",
            "set standard, Sunday 7.8.99 12:34:56", False,
            NOT_SUNDAY_99 + "; " + BIT_3 % "48", "1"),
    example("003", "7.1.2", "TIM answer", "(STX)TIM:48,12,34,56,07,08,99,7(CR)(LF)(ETX)",
            "the same, taken over", False, NOT_SUNDAY_99 + "; " + BIT_3 % "48", "1"),
    example("003", "7.1.3", "TIM request", "(STX)TIM:40(CR)(LF)(ETX)",
            "UTC wanted", True, FALLS_IN_5500T, "4"),
    example("003", "7.1.3", "TIM answer", "(STX)TIM:40,10,34,56,07,08,99,7(CR)(LF)(ETX)",
            "Sunday 7.8.99 10:34:56 UTC", False, NOT_SUNDAY_99, "1"),
    example("003", "7.1.4", "TIM set", "(STX)TIM:4A,02,00,00,23,09,96,7(CR)(LF)(ETX)",
            "standard changeover, Sunday 23.9.96 02:00:00", False,
            NOT_SUNDAY_96 + "; " + BIT_3 % "4A", "1"),
    example("003", "7.1.4", "TIM answer", "(STX)TIM:4B,02,00,00,23,09,96,7(CR)(LF)(ETX)",
            "standard changeover, taken over", False,
            NOT_SUNDAY_96 + "; " + BIT_3 % "4B" + "; bit 0 set means carried out in it", "1"),
    example("003", "7.1.5", "TIM request", "(STX)TIM:52(CR)(LF)(ETX)",
            "standard changeover wanted", True, FALLS_IN_5500T, "4"),
    example("003", "7.1.5", "TIM answer", "(STX)TIM:53,02,00,00,23,09,96,7(CR)(LF)(ETX)",
            "standard changeover still to come, Sunday 23.9.96 02:00:00", False,
            NOT_SUNDAY_96 + "; bit 0 set means carried out in the bit table", "1"),
    example("003", "7.1.6", "DIF set", "(STX)DIF:-01,00(CR)(LF)(ETX)",
            "difference local to UTC of 1 hour", True, "", "1"),
    example("003", "7.1.6", "DIF request", "(STX)DIF:(CR)(LF)(ETX)", "difference wanted",
            True, "", "1"),
    example("003", "7.1.6", "DIF answer", "(STX)DIF:-01,00(CR)(LF)(ETX)",
            "the new difference", True, "", "1"),
    example("003", "7.1.6", "DIF request", "(STX)DIF:(CR)(LF)(ETX)", "difference wanted",
            True, "printed twice", "1"),
    example("003", "7.1.6", "DIF answer", "(STX)DIF:+02,00(CR)(LF)(ETX)",
            "the new difference", True, "", "1"),
    example("003", "7.1.7", "POS set", "(STX)POS:E:007,33,34,N:53,12,21(CR)(LF)(ETX)",
            "set position", True, "", "1"),
    example("003", "7.1.8", "SAT request", "(STX)SAT:(CR)(LF)(ETX)", "satellites wanted",
            True, "", "1"),
    example("003", "7.1.8", "SAT answer",
            "(STX)SAT:08,S:07/143,S:12/145,S:23/034,S:14/145,S:03/123,S:19/047(CR)(LF)(ETX)",
            "satellites and signal ratios", None,
            "the table has T: and one digit where the example has two digits", "1"),
    example("003", "7.1.9", "RES", "(STX)RES:(CR)(LF)(ETX)", "reset", True, "", "1"),
    example("003", "7.1.9", "RES answer", "(STX)RES:(CR)(LF)(ETX)", "reset follows", True,
            "", "1"),
    example("003", "7.1.10", "PAR set", "(STX)PAR:09600,N,8,1,N(CR)(LF)(ETX)",
            "9600 baud, no parity, 8 data bits, 1 stop bit", True, FALLS_IN_5500, "3"),
    example("003", "7.1.11", "MOD set", "(STX)MOD:1,1,1,1,1,0,0,0,(CR)(LF)(ETX)",
            "every second, control characters, ETX at once, 6021, no advance, with date",
            True, "the table has 14 characters of data, the example 16", "1"),
    example("003", "7.1.12", "MO1 set", "(STX)MO1:1,1,0,0,0,0,0,0,(CR)(LF)(ETX)",
            "local time, CR before LF", True,
            "the table has 14 characters of data, the example 16", "1"),
    example("003", "7.1.13", "ADR set", "(STX)ADR:0280(CR)(LF)(ETX)", "port address 0x280",
            True, "", "1"),
]

# --- kinds with a character table and no printed example ---
# The Leitch and slave strings, and those whose length is one of the table's.


def built(source, section, kind, text, note, expected):
    """One string built from its character table."""
    return example(source, section, kind, text, "", None, note, expected, origin=BUILT)


BUILT_FROM_TABLES = [
    built("000", "6.4", "MADAM-S ZSYS", "(STX):ZSYS:(NUL)03960103123456(CR)(LF)(ETX)",
          "25 bytes: judged as 5050, no space in place 4", "3"),
    built("000", "6.4", "MADAM-S WILA", "(STX):WILA:(NUL)03960103123456(CR)(LF)(ETX)",
          "25 bytes: judged as 5050, no space in place 4", "3"),
    built("000", "6.5", "Leitch", "12:34:56.000_03/01/96_003_3_A(CR)(LF)",
          "31 bytes", "1"),
    built("002", "3.7", "UTC-Slave", "(STX)8B1234560301968100(LF)(CR)(ETX)",
          "22 bytes", "1"),
    built("002", "3.23", "Clockmouse with o", "o(CR)123456303019643(CR)",
          "18 bytes without STX", "2"),
    built("002", "3.27", "OMS Synchro", "\\G123456200207180400",
          "20 bytes without STX; the way its check is made is not given, 00 stands for it",
          "2"),
]

EXAMPLES = (IN_LAYOUTS + OTHER_STRINGS + BOARD_COMMANDS + SPELLED_OUT_COMMANDS
            + REMOTE_COMMANDS + BUILT_FROM_TABLES)

# The one example of a parameter byte: printed for the 6036 in 000 and 004, section 2, and for
# the 6038, whose switches mean something else, in 003, section 1.1.
PARAMETER_EXAMPLES = [("000", "2", 0xA6), ("004", "2", 0xA6)]
PARAMETER_EXAMPLES_6038 = [("003", "1.1", 0xA6)]


# --- what they read as ---

def reads_as(an_example):
    """The record of an example with control characters wanted, or the number."""
    try:
        return telegrams.read_telegram(an_example.telegram, True)
    except Refused as refused:
        return refused.number


def in_words(outcome):
    """A number as it is, a record as its listing row without the start."""
    if isinstance(outcome, int):
        return str(outcome)
    return listing.row(Event(0, 0, outcome)).decode("ascii").strip().split(";", 1)[1]


def all_outcomes():
    """Every example with its outcome."""
    return [(an_example, reads_as(an_example)) for an_example in EXAMPLES]


def print_all():
    """One line for each example."""
    for an_example, outcome in all_outcomes():
        right = {True: "right", False: "wrong", None: "-"}[an_example.right]
        place = "inside" if an_example.inside else "outside"
        print(an_example.source, an_example.section, an_example.kind, place, an_example.origin,
              in_words(outcome), right, an_example.note, sep=" | ")


if __name__ == "__main__":
    print_all()
