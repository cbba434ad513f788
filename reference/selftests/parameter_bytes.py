"""The parameter bytes of the 6036 and the 6038."""

import itertools

import parameter
import parameter_6038
from refusals import outcome
from selftests.checking import same


def parameter_bytes():
    for byte in range(256):
        setting = parameter.read_parameter(byte)
        same("parameter", parameter.write_parameter(setting), byte | 8 if byte & 4 else byte)
    same("parameter", parameter.read_parameter(0x20).baud, 1200)
    good = parameter.read_parameter(0)
    for field, value in (("data_bits", 6), ("data_bits", 9), ("stop_bits", 0), ("stop_bits", 3),
                         ("baud", 0), ("baud", 110), ("baud", 38400), ("parity", "mark")):
        same("parameter", outcome(parameter.write_parameter, good._replace(**{field: value})),
             (None, 16))


# --- the 6038 ---

# The tables of 003, sections 1.2.2 to 1.2.5, as printed: the switches as they head the columns, and each row.
PRINTED_6038 = [
    ("data_bits", (2,), [("off", 8), ("on", 7)]),
    ("parity", (3, 4), [("on on", "odd"), ("on off", "even"), ("off off", "none")]),
    ("stop_bits", (5,), [("off", 1), ("on", 2)]),
    ("baud", (8, 7, 6), [("on on on", 150), ("on on off", 300), ("on off on", 600), ("on off off", 1200), ("off on on", 2400),
                         ("off on off", 4800), ("off off on", 9600), ("off off off", 19200)]),
]


def value_of(row, switches):
    """The bits of a printed row, by the valence of each switch."""
    return sum(2 ** (switch - 1) for switch, position in zip(switches, row.split(), strict=True) if position == "on")


def printed_meaning(byte):
    """What the printed rows say of a byte, or 16 where a table has no row for it."""
    found = {}
    for field, switches, rows in PRINTED_6038:
        mask = value_of(" ".join("on" for _ in switches), switches)
        found[field] = [meaning for row, meaning in rows if byte & mask == value_of(row, switches)]
    if any(len(meanings) != 1 for meanings in found.values()):
        return 16
    return parameter_6038.Parameter(**{field: meaning for field, (meaning,) in found.items()})


def parameter_bytes_6038():
    """All 256 bytes, held to the printed rows; each printed row by itself; every setting, offered or not."""
    offered = set()
    for byte in range(256):
        setting, number = outcome(parameter_6038.read_parameter, byte)
        same("6038", (byte, setting or number), (byte, printed_meaning(byte)))
        same("6038", (byte, number), (byte, 16 if byte & 0x0C == 0x08 else None))
        same("6038", outcome(parameter_6038.read_parameter, byte ^ 1), (setting, number))
        if setting is not None:
            offered.add(setting)
            same("6038", parameter_6038.write_parameter(setting), byte & 0xFE)
    same("6038", len(offered), 96)
    plain = parameter_6038.Parameter(8, "none", 1, 19200)
    same("6038", (parameter_6038.read_parameter(0), parameter_6038.write_parameter(plain)), (plain, 0))
    for field, switches, rows in PRINTED_6038:
        for row, meaning in rows:
            setting, byte = plain._replace(**{field: meaning}), value_of(row, switches)
            same("6038", (row, parameter_6038.read_parameter(byte)), (row, setting))
            same("6038", (row, parameter_6038.write_parameter(setting)), (row, byte))
    same("6038", (parameter_6038.read_parameter(0x20).baud, parameter.read_parameter(0x20).baud), (9600, 1200))
    same("6038", (parameter_6038.read_parameter(0x80).baud, parameter.read_parameter(0x80).baud), (1200, 9600))
    for byte, setting in ((0x20, (8, "none", 1, 9600)), (0xA6, (7, "even", 1, 600)), (0xFF, (7, "odd", 2, 150)),
                          (0x01, (8, "none", 1, 19200)), (0x40, (8, "none", 1, 4800)), (0x60, (8, "none", 1, 2400)),
                          (0xC0, (8, "none", 1, 300))):
        same("6038", (byte, parameter_6038.read_parameter(byte)), (byte, parameter_6038.Parameter(*setting)))
    bauds = [0, 110, 149, 150, 300, 600, 1200, 2400, 4800, 9600, 19200, 38400, 2 ** 32 - 1]
    for fields in itertools.product(range(12), ("none", "even", "odd", "mark"), range(5), bauds):
        setting = parameter_6038.Parameter(*fields)
        byte, number = outcome(parameter_6038.write_parameter, setting)
        same("6038", (setting, number), (setting, None if setting in offered else 16))
        if byte is not None:
            same("6038", (parameter_6038.read_parameter(byte), byte & 1, byte & 0x0C == 0x08), (setting, 0, False))
