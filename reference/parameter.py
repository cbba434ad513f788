"""The parameter byte of the 6036."""

from typing import NamedTuple

from switches import BAUD, EVEN, NONE, ODD, OFF, ON, byte_of, meaning_of, positions_of, switches_of

DATA_BITS = {ON: 8, OFF: 7}   # switch 2
STOP_BITS = {ON: 1, OFF: 2}   # switch 5

PARITY = {                    # switches 3, 4; none is written on and on
    (ON, ON): NONE,
    (ON, OFF): NONE,
    (OFF, ON): EVEN,
    (OFF, OFF): ODD,
}


class Parameter(NamedTuple):
    utc: bool
    data_bits: int
    parity: str
    stop_bits: int
    baud: int


def read_parameter(byte):
    """Every byte has a meaning. The baud rate has switches 6, 7, 8 in that order."""
    s1, s2, s3, s4, s5, s6, s7, s8 = switches_of(byte)
    return Parameter(utc=s1, data_bits=meaning_of(DATA_BITS, s2), parity=meaning_of(PARITY, (s3, s4)),
                     stop_bits=meaning_of(STOP_BITS, s5), baud=meaning_of(BAUD, (s6, s7, s8)))


def write_parameter(parameter):
    """The byte of a setting; 16 where the board does not offer it."""
    return byte_of([parameter.utc, positions_of(DATA_BITS, parameter.data_bits), *positions_of(PARITY, parameter.parity),
                    positions_of(STOP_BITS, parameter.stop_bits), *positions_of(BAUD, parameter.baud)])
