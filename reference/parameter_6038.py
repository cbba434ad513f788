"""The parameter byte of the 6038, by the tables of 003, section 1.2. Switch 1 is not used."""

from typing import NamedTuple

from switches import BAUD, EVEN, NONE, ODD, OFF, ON, byte_of, meaning_of, positions_of, switches_of

DATA_BITS = {OFF: 8, ON: 7}   # switch 2
STOP_BITS = {OFF: 1, ON: 2}   # switch 5

PARITY = {                    # switches 3, 4; off and on is not listed
    (ON, ON): ODD,
    (ON, OFF): EVEN,
    (OFF, OFF): NONE,
}


class Parameter(NamedTuple):
    data_bits: int
    parity: str
    stop_bits: int
    baud: int


def read_parameter(byte):
    """The setting of a byte; 16 where switches 3 and 4 are off and on. Switch 1 says nothing. The baud rate has switches 8, 7, 6 in
    that order."""
    _, s2, s3, s4, s5, s6, s7, s8 = switches_of(byte)
    return Parameter(data_bits=meaning_of(DATA_BITS, s2), parity=meaning_of(PARITY, (s3, s4)),
                     stop_bits=meaning_of(STOP_BITS, s5), baud=meaning_of(BAUD, (s8, s7, s6)))


def write_parameter(parameter):
    """The byte of a setting, switch 1 off; 16 where the board does not offer it."""
    s2, s5 = positions_of(DATA_BITS, parameter.data_bits), positions_of(STOP_BITS, parameter.stop_bits)
    s3, s4 = positions_of(PARITY, parameter.parity)
    s8, s7, s6 = positions_of(BAUD, parameter.baud)
    return byte_of([OFF, s2, s3, s4, s5, s6, s7, s8])
