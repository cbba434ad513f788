"""The parameter bytes of the 6036 and the 6038."""

import itertools

import parameter
import parameter_6038
from cases.one_case import parameter_6038_case, parameter_case, setting_6038_case, setting_case
from encoding import PARITY_NUMBERS


def parameter_cases():
    """The 6036: all 256 bytes, each setting that they make, and settings that the board does not offer."""
    for byte in range(256):
        yield parameter_case(byte)
        yield setting_case(parameter.read_parameter(byte))
    good = parameter.read_parameter(0x9F)
    for changed in ({"data_bits": 0}, {"data_bits": 6}, {"data_bits": 9}, {"data_bits": 255}, {"stop_bits": 0}, {"stop_bits": 3},
                    {"stop_bits": 255}, {"baud": 0}, {"baud": 110}, {"baud": 151}, {"baud": 19201}, {"baud": 38400},
                    {"baud": 4294967295}, {"data_bits": 9, "baud": 38400}):
        yield setting_case(good._replace(**changed))


RATES = [150, 300, 600, 1200, 2400, 4800, 9600, 19200]
OTHER_RATES = [0, 1, 75, 110, 38400, 57600, 115200, 65535, 65536, 2 ** 31, 2 ** 32 - 1] + [
    other for rate in RATES for other in (rate - 1, rate + 1, rate + 65536, rate + 2 ** 24)]


def parameter_6038_cases():
    """The 6038: all 256 bytes; every setting that the board offers; and some that it does not, with each field wrong by itself and
    together with others."""
    for byte in range(256):
        yield parameter_6038_case(byte)
    for fields in itertools.product((7, 8), PARITY_NUMBERS, (1, 2), RATES + OTHER_RATES):
        yield setting_6038_case(parameter_6038.Parameter(*fields))
    wrong_bits = itertools.product((0, 1, 2, 3, 5, 6, 7, 8, 9, 255), PARITY_NUMBERS, (0, 1, 2, 3, 5, 7, 8, 9, 255), (9600,))
    with_wrong_rates = itertools.product((6, 7, 9), PARITY_NUMBERS, (0, 2, 3), (9601, 0, 2 ** 32 - 1, 150))
    for fields in itertools.chain(wrong_bits, with_wrong_rates):
        yield setting_6038_case(parameter_6038.Parameter(*fields))
