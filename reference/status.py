"""The status and weekday characters: four bits each, and the two bit tables."""

from typing import NamedTuple

from layouts import STATUS_AS_6021

HEX_DIGITS = b"0123456789ABCDEF"

RECEPTIONS = ("invalid", "crystal", "radio", "high")  # b3 b2 of 6021 and 2000: 00 01 10 11


class Flags(NamedTuple):
    """What a status character says. UTC is told by it in 5500 and 5050 only."""
    reception: str
    daylight: bool
    announced: bool
    utc: bool


def nibble_of(character):
    """The four bits of a character 0 to 9 or A to F, None for any other byte."""
    return HEX_DIGITS.index(character) if character in HEX_DIGITS else None


def character_of(nibble):
    """The character of four bits."""
    return HEX_DIGITS[nibble]


def bit(nibble, number):
    """Whether bit b0 to b3 is set."""
    return nibble >> number & 1 == 1


# --- status ---

def status_allowed(layout, nibble):
    """All sixteen in 6021 and 2000; in 5500 and 5050 b3 allows neither b2 nor b1."""
    if layout in STATUS_AS_6021:
        return True
    return not (bit(nibble, 3) and (bit(nibble, 2) or bit(nibble, 1)))


def read_status(layout, nibble):
    """The flags of an allowed status."""
    if layout in STATUS_AS_6021:
        return Flags(reception=RECEPTIONS[nibble >> 2], daylight=bit(nibble, 1),
                     announced=bit(nibble, 0), utc=False)
    return Flags(reception="crystal" if bit(nibble, 0) else "radio", daylight=bit(nibble, 2),
                 announced=bit(nibble, 1), utc=bit(nibble, 3))


def flags_allowed(layout, flags):
    """Whether the layout's status can say this: 5500 and 5050 know crystal and radio
    only, and UTC only without summer and announcement."""
    if layout in STATUS_AS_6021:
        return True
    return flags.reception in ("crystal", "radio") and not (
        flags.utc and (flags.daylight or flags.announced))


def write_status(layout, flags):
    """The status of allowed flags."""
    if layout in STATUS_AS_6021:
        return 4 * RECEPTIONS.index(flags.reception) + 2 * flags.daylight + flags.announced
    return (8 * flags.utc + 4 * flags.daylight + 2 * flags.announced
            + (flags.reception == "crystal"))


# --- weekday ---

def weekday_allowed(layout, nibble):
    """1 to 7 in the low three bits; b3 may be set in 6021 and 2000 only."""
    if nibble % 8 == 0:
        return False
    return layout in STATUS_AS_6021 or not bit(nibble, 3)


def read_weekday(nibble):
    """Weekday 1 to 7, and whether b3 marks UTC."""
    return nibble % 8, bit(nibble, 3)


def write_weekday(layout, weekday, utc):
    """The weekday character's bits; UTC goes in b3 in 6021 and 2000 only."""
    return weekday + (8 if utc and layout in STATUS_AS_6021 else 0)
