#!/usr/bin/env python3
"""Measures the proved programs beside C programs of the same rules, and prints tables: instructions, and on an x86-64 nanoseconds.

    python3 -B bench/measure.py

It needs the kit (`rt`); for the instructions what bench/counting.py says. First it holds the programs to the second implementation. The
plain C reader is what one writes without a thought of speed; the tuned C lister is what a good C programmer makes of the listing.
"""

import sys
import tempfile

sys.dont_write_bytecode = True  # leaves no files behind

import agree
import counting
import timing
from programs import IS_NATIVE, Programs

TELEGRAM = b"\x02E3123456170496\n\r\x03"
SLOTS, SLOT = 15, 32


def block(used):
    """A block of the log with so many slots used."""
    slots = bytes([len(TELEGRAM)]) + TELEGRAM.ljust(SLOT - 1, b"\0")
    body = (slots * used).ljust(SLOTS * SLOT, b"\0") + bytes([used]) + bytes(29)
    return body + (sum(byte * place for place, byte in enumerate(body, 1)) % 65521).to_bytes(2, "little")


# How many units of work the two runs have whose instructions are counted.
TELEGRAMS, BLOCKS = (1000, 2000), (50, 100)

# Stray bytes: in one long run of whole blocks of 64; in runs between telegrams that fill no such block, as the difference of two
# lengths, which the proved reader takes by a loop over bytes; and in a capture of several of the lister's buffers.
LONG = 300 * 64, 600 * 64
SHORT = 8, 40
CAPTURE = 4 * 65536, 8 * 65536


def telegram_work(made):
    """What is done with a telegram, and the programs that do it: the proved one, the plain one and, where there is one, the tuned one;
    each with what stands in front of its input."""
    for name, letter in (("read", b"r"), ("on a line, found and read", b"l"), ("written", b"w")):
        yield f"a 6021 telegram {name}", [(made.measured, letter), (made.plain, letter)]
    yield "a 6021 telegram listed", [(made.dialspark, b""), (made.plain, b"p"), (made.tuned, b"")]


# --- tables ---

def head(*columns):
    print("| " + " | ".join(columns) + " |")
    print("|" + "---|" * len(columns))


def cell(cost):
    return f"{cost:,.0f}" if cost >= 100 else f"{cost:.1f}" if cost >= 10 else f"{cost:.2f}"


def show(name, proved, *others):
    """A row: the proved program, and each other with the ratio to it. A row without a tuned program has two empty cells."""
    cells = [cell(proved)] + [text for other in others for text in (cell(other), f"{proved / other:.1f}")]
    print("| " + " | ".join([name] + cells + [""] * (5 - len(cells))) + " |")


def same(name, costs):
    """The costs, of programs that print the same."""
    if any(printed != costs[0][1] for _, printed in costs):
        sys.exit(f"{name}: the programs print different things")
    return [cost for cost, _ in costs]


# --- instructions ---

def adds(counter, command):
    """Instructions for one of the 15 adds that fill a region of one block: a full one takes none of them."""
    first, less = counter.counted(command, b"a" + block(SLOTS))
    second, more = counter.counted(command, b"a" + block(0))
    return (more - less) / SLOTS, (first, second)


def show_instructions(counter, made):
    """The table of all work but stray bytes."""
    head("instructions for", "proved", "plain C", "ratio", "tuned C", "ratio")
    for name, programs in telegram_work(made):
        show(name, *same(name, [counter.cost(command, start, TELEGRAM, *TELEGRAMS) for command, start in programs]))
    both = made.measured, made.plain
    for name, used in (("an empty block of a log verified", 0), ("a full one, with 15 telegrams", SLOTS)):
        show(name, *same(name, [counter.cost(command, b"v", block(used), *BLOCKS) for command in both]))
    name = "an add to a region of one block, on the average of its 15 slots"
    show(name, *same(name, [adds(counter, command) for command in both]))


def in_a_long_run(counter, command, processor=counting.PROCESSOR):
    """Instructions for a stray byte in a long run."""
    return counter.cost(command, b"l", b"x", *LONG, processor)


def in_a_short_run(counter, command, processor=counting.PROCESSOR):
    """Instructions for a stray byte in a short run between telegrams."""
    shorter, longer = (counter.cost(command, b"l", TELEGRAM + b"x" * length, 100, 200, processor) for length in SHORT)
    return (longer[0] - shorter[0]) / (SHORT[1] - SHORT[0]), (shorter[1], longer[1])


def show_stray_bytes(counter, made):
    """The table of stray bytes."""
    head("instructions for a stray byte", "proved", "plain C", "with `memchr`", "with `memchr` and AVX2")
    runs = (("in a long run", in_a_long_run), ("in a run that fills no block of 64 bytes, by the loop over bytes", in_a_short_run))
    for name, cost in runs:
        costs = same(name, [cost(counter, made.measured), cost(counter, made.plain), cost(counter, made.searching),
                            cost(counter, made.searching, counting.WITH_AVX2)])
        print(f"| {name} | " + " | ".join(map(cell, costs)) + " |")
    listed, _ = counter.cost(made.dialspark, b"", b"x", *CAPTURE)
    print(f"| in a capture of stray bytes that `dialspark` lists | {cell(listed)} | | | |")


# --- times ---

def show_times(made):
    """The table of nanoseconds."""
    head("nanoseconds for", "proved", "plain C", "ratio", "tuned C", "ratio")
    for name, programs in telegram_work(made):
        show(name, *timing.nanoseconds(TELEGRAM, programs))


def main():
    with tempfile.TemporaryDirectory() as folder:
        made = Programs(folder)
        agree.check_all(made)
        lacking = counting.lacking()
        if lacking:
            print(f"No instructions are counted, as {lacking}.")
        else:
            counter = counting.Counter(folder)
            show_instructions(counter, made)
            print()
            show_stray_bytes(counter, made)
        print()
        if IS_NATIVE:
            show_times(made)
        else:
            print("No times are taken, as this machine is no x86-64.")


if __name__ == "__main__":
    main()
