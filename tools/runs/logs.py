"""Logs that are listed to their end: the samples, named and on standard input, in pieces, many times over, and beginnings of one."""
import os
import pathlib
import subprocess
import time

from runs import program
from runs.program import BLOCK, LOG_WORDS

MANY_BLOCKS = 70_000


def listed_log(what, log, word, wanted):
    """A log that has to be listed, named and on standard input."""
    program.listed(f"{what}, {word}", os.devnull, wanted, [word, str(log)])
    program.listed(f"{what} on standard input, {word}", log, wanted, [word])


def parts_of(rows):
    """What is listed of a log: the header, the rows of its blocks, and the last line, which the telegrams' listing does not have."""
    header, *others = rows.splitlines(keepends=True)
    last = [row for row in others if row.startswith(b"bad ")]
    return header, [row for row in others if row not in last], last


def of_whole_blocks(rows, size):
    """What is listed of a good log whose first bytes alone can be read, from what is listed of the whole: no last line."""
    header, others, _ = parts_of(rows)
    return b"".join([header, *(row for row in others if int(row.split(b";")[0]) < size // BLOCK)])


def of_beginning(rows, size):
    """What is listed of the first bytes of a good log: the rows of the blocks that are left, and a row for the bytes behind them."""
    header, _, last = parts_of(rows)
    whole, more = divmod(size, BLOCK)
    offset = b";%d" % (BLOCK * whole) if header.startswith(b"block;offset;") else b""
    tail = b"%d%s;refused 19\n" % (whole, offset) if more else b""
    return of_whole_blocks(rows, size) + tail + b"".join(b"bad 0\n" for _ in last)


def repeated(rows, blocks, times):
    """What is listed of a log with so many blocks that stands so many times in a file."""
    header, others, last = parts_of(rows)
    made = [header]
    for before in range(0, blocks * times, blocks):
        for row in others:
            columns = row.split(b";")
            columns[0] = b"%d" % (int(columns[0]) + before)
            if last:
                columns[1] = b"%d" % (int(columns[1]) + BLOCK * before)
            made.append(b";".join(columns))
    return b"".join(made + [b"bad %d\n" % (int(row.split()[1]) * times) for row in last])


def check_in_pieces(log, word, wanted):
    """A log that comes in pieces which end anywhere in a block."""
    kept = log.read_bytes()
    for piece in (1000, 511, 513, 97):
        what = f"a log in pieces of {piece}, {word}"
        with program.start([word], stdin=subprocess.PIPE, bufsize=0) as made:
            for at in range(0, len(kept), piece):
                try:
                    made.stdin.write(kept[at:at + piece])
                except BrokenPipeError:
                    program.fail(f"{what}: the program ends before the log does")
                time.sleep(0.02)
            got = program.end_of(made, what)
        program.same_outputs(what, got, (wanted, b""))


def check_samples(folder):
    """The sample logs, each also in pieces and many times over."""
    made = pathlib.Path(folder) / "made.log"
    for log in program.samples_of(".log"):
        kept = log.read_bytes()
        made.write_bytes(kept * 300)
        for word, suffix in LOG_WORDS.items():
            wanted = log.with_suffix(suffix).read_bytes()
            listed_log(log.name, log, word, wanted)
            check_in_pieces(log, word, wanted)
            listed_log(f"{log.name} 300 times", made, word, repeated(wanted, len(kept) // BLOCK, 300))


def check_beginnings(folder):
    """A good log that ends anywhere in a block, and one of no bytes."""
    made = pathlib.Path(folder) / "beginning.log"
    good = program.ROOT / "samples" / "month.log"
    for size in (0, 1, 511, 512, 513, 1000, 1024):
        made.write_bytes(good.read_bytes()[:size])
        for word, suffix in LOG_WORDS.items():
            listed_log(f"{size} bytes of {good.name}", made, word, of_beginning(good.with_suffix(suffix).read_bytes(), size))


def check_many_blocks(folder):
    """A long log that is empty but for its last blocks: they are listed too."""
    good = program.ROOT / "samples" / "month.log"
    made = pathlib.Path(folder) / "many.log"
    with open(made, "wb") as opened:
        opened.truncate(BLOCK * MANY_BLOCKS)
        opened.seek(0, os.SEEK_END)
        opened.write(good.read_bytes())
    for word, suffix in LOG_WORDS.items():
        header, others, last = parts_of(good.with_suffix(suffix).read_bytes())
        empty = [b"%d;%d;good;0\n" % (block, BLOCK * block) for block in range(MANY_BLOCKS) if last]
        behind = repeated(b"".join([header, *others, *last]), MANY_BLOCKS, 2)
        rows = behind.splitlines(keepends=True)[1 + len(others):]
        program.listed(f"{MANY_BLOCKS} blocks, {word}", made, b"".join([header, *empty, *rows]), [word])
