"""What the program `measured` should print for its input: a letter and what is to be worked on."""

import line
import log
import telegrams
from refusals import outcome

TELEGRAM = b"\x02E3123456170496\n\r\x03"
SIZE = len(TELEGRAM)
ROOM = 64512   # bytes that are worked on at a time: whole telegrams and whole blocks

# A telegram whose record can be written, one whose weekday is wrong, and so on.
GIVEN = b"w" + (TELEGRAM + TELEGRAM.replace(b"E3", b"E4")) * 5


def reads(telegram):
    """A telegram reads well."""
    return outcome(telegrams.read_telegram, telegram, True)[1] is None


def written(telegram):
    """The record of a 6021 telegram of 1980 to 1999, taken as radio time in winter without judging it, written anew; nothing where it
    is refused."""
    record = telegrams.record_of("6021", telegram[1:-1])
    plain = record._replace(reception="radio", daylight=False, utc=False, announced=False, year=1900 + record.year % 100)
    buffer = bytearray(SIZE)
    refusal = outcome(telegrams.write_telegram, plain, buffer, telegrams.Setting(True, False))[1]
    return bytes(buffer) if refusal is None else b""


def whole_telegrams(piece):
    """The telegrams of a piece, without what is left behind the last whole one."""
    return [piece[at:at + SIZE] for at in range(0, len(piece) - SIZE + 1, SIZE)]


def events_of(captured):
    """How many events a line has before its end."""
    state, events = line.fresh(), 0
    while captured:
        state, taken, some = line.use_up(state, captured)
        captured, events = captured[taken:], events + len(some)
    return events


def good_blocks(region):
    """The number of the first bad block, or of all blocks; 0 where the region is not whole blocks."""
    verdict = log.verify(region)
    return len(region) // log.BLOCK if verdict.refusal is None else verdict.block or 0


def added(region):
    """How often the telegram can be added."""
    count = 0
    while outcome(log.add, region, TELEGRAM)[1] is None:
        count += 1
    return count


def number_of(letter, piece):
    """What the work of a letter on one piece is counted as."""
    if letter == b"l":
        return events_of(piece)
    if letter == b"v":
        return good_blocks(piece)
    if letter == b"a":
        return added(bytearray(piece))
    return sum(map(reads, whole_telegrams(piece)))


def printed(given):
    """What the program prints: the telegrams that were written, or the sum of the pieces' numbers."""
    letter, rest = given[:1], given[1:]
    pieces = [rest[at:at + ROOM] for at in range(0, len(rest), ROOM)]
    if letter == b"w":
        return b"".join(written(telegram) for piece in pieces for telegram in whole_telegrams(piece))
    return b"%d\n" % sum(number_of(letter, piece) for piece in pieces)
