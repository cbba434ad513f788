"""What the parameter bytes of the boards have in common: eight switches, and tables of what their positions mean.

Switch 1 is the lowest bit, switch 8 the highest.
"""

from refusals import SETTING, Refused

ON, OFF = True, False

NONE, EVEN, ODD = "none", "even", "odd"

BAUD = {                      # three switches, in the order in which the board's manual prints them
    (ON, ON, ON): 150,
    (ON, ON, OFF): 300,
    (ON, OFF, ON): 600,
    (ON, OFF, OFF): 1200,
    (OFF, ON, ON): 2400,
    (OFF, ON, OFF): 4800,
    (OFF, OFF, ON): 9600,
    (OFF, OFF, OFF): 19200,
}


def switches_of(byte):
    """The eight switches, switch 1 first."""
    return [byte >> place & 1 == 1 for place in range(8)]


def byte_of(switches):
    """The byte of eight switches, switch 1 first."""
    return sum(switch << place for place, switch in enumerate(switches))


def meaning_of(table, positions):
    """What some switches mean; 16 where the table does not list their positions."""
    if positions not in table:
        raise Refused(SETTING)
    return table[positions]


def positions_of(table, meaning):
    """The first positions of some switches that mean it; 16 where the board does not offer it."""
    for positions, listed in table.items():
        if listed == meaning:
            return positions
    raise Refused(SETTING)
