"""What the lister prints of a log: with --verify a row for each block, with --log a row for each telegram. Run as a program with one
of the two words it lists its standard input."""

import sys

sys.dont_write_bytecode = True  # leaves no files behind

import log
from listing import columns_of
from log import BLOCK, COUNT_AT
from refusals import BAD_BLOCK, WHOLE_BLOCKS
from telegrams import read_telegram

VERIFY_HEADER = b"block;offset;state;telegrams\n"
LOG_HEADER = b"block;slot;kind;date;time;weekday;status\n"


def row(*columns):
    """A row of columns."""
    return (";".join(map(str, columns)) + "\n").encode("ascii")


def refused(number):
    """The last column of what is refused."""
    return f"refused {number}"


def is_whole(kept):
    """No bytes stand behind the last whole block."""
    return len(kept) % BLOCK == 0


# --- each block ---

def state_row(number, block):
    """A whole block. The number of telegrams that a bad one says is not to be trusted."""
    state = ("good", block[COUNT_AT]) if log.is_good(block) else ("bad", "-")
    return row(number, BLOCK * number, *state)


def verify_listing(kept):
    """The states of a log's blocks."""
    blocks = log.blocks_of(kept)
    rows = [state_row(number, block) for number, block in enumerate(blocks)]
    if not is_whole(kept):
        rows.append(row(len(blocks), BLOCK * len(blocks), refused(WHOLE_BLOCKS)))
    bad = sum(not log.is_good(block) for block in blocks)
    return VERIFY_HEADER + b"".join(rows) + b"bad %d\n" % bad


# --- each telegram ---

def telegram_rows(number, block):
    """The rows of a whole block: where the line's listing has the start, its rows have block and slot."""
    if not log.is_good(block):
        return row(number, refused(BAD_BLOCK))
    telegrams = map(log.telegram_in, log.used_of(block))
    return b"".join(row(number, *columns_of(slot, read_telegram(telegram, True))) for slot, telegram in enumerate(telegrams))


def log_listing(kept):
    """The telegrams of a log."""
    blocks = log.blocks_of(kept)
    rows = [telegram_rows(number, block) for number, block in enumerate(blocks)]
    if not is_whole(kept):
        rows.append(row(len(blocks), refused(WHOLE_BLOCKS)))
    return LOG_HEADER + b"".join(rows)


LISTINGS = {"--verify": verify_listing, "--log": log_listing}


if __name__ == "__main__":
    if len(sys.argv) != 2 or sys.argv[1] not in LISTINGS:
        sys.exit("usage: log_listing.py --verify | --log")
    sys.stdout.buffer.write(LISTINGS[sys.argv[1]](sys.stdin.buffer.read()))
