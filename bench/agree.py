#!/usr/bin/env python3
"""Holds the programs that are measured to what the second implementation says: a C program that does less is no yardstick.

    python3 -B bench/agree.py

bench/measure.py does so first. The first difference ends the run.
"""

import concurrent.futures
import os
import pathlib
import sys
import tempfile

sys.dont_write_bytecode = True  # leaves no files behind

import programs

sys.path.insert(0, str(programs.ROOT / "reference"))

import listing
import measured
from layouts import AS_PRINTED, EXCHANGED

SAMPLES = programs.ROOT / "samples"
LINES = programs.ROOT / "crates" / "test_lines"
WORDS = {AS_PRINTED: [], EXCHANGED: ["--exchanged"]}

# In the input of `test_lines`: what stands for a length where a line ends, and where one of exchanged order begins.
END_OF_LINE, EXCHANGED_LINE = 65535, 65534

# More telegrams than a read or a piece holds, and now and then one with a wrong weekday.
LONG = (measured.TELEGRAM * 6 + measured.TELEGRAM.replace(b"E3", b"E4")) * 1100
BLOCKS = bytes(512 * 200)


def damaged_lines():
    """The lines of `test_lines`, whole, each with its order."""
    given, at, captured, order = (LINES / "stdin").read_bytes(), 0, b"", AS_PRINTED
    while at < len(given):
        length = int.from_bytes(given[at:at + 2], "big")
        at += 2
        if length == END_OF_LINE:
            yield captured, order
            captured, order = b"", AS_PRINTED
        elif length == EXCHANGED_LINE:
            order = EXCHANGED
        else:
            captured += given[at:at + length]
            at += length


def listings_of_lines():
    """The listings of those lines, which stand one behind another."""
    return [listing.HEADER + rows for rows in (LINES / "stdout").read_bytes().split(listing.HEADER)[1:]]


def sample_listings():
    """The samples with their listings."""
    for path in sorted(SAMPLES.glob("*.capture")):
        yield path.name, path.read_bytes(), EXCHANGED if path.stem == "exchanged" else AS_PRINTED, path.with_suffix(".listing").read_bytes()


def all_listings():
    """What is listed: a name, the capture, its order and its listing."""
    yield from sample_listings()
    for number, ((captured, order), rows) in enumerate(zip(damaged_lines(), listings_of_lines(), strict=True)):
        yield f"line {number} of {LINES.name}", captured, order, rows
    yield "a long capture", LONG, AS_PRINTED, listing.listing(LONG)


def check(name, program, printed, wanted):
    """Ends the run at the first line that differs."""
    for ours, theirs in zip(printed.splitlines(), wanted.splitlines()):
        if ours != theirs:
            sys.exit(f"{program} on {name}: {ours} where the second implementation has {theirs}")
    if printed != wanted:
        sys.exit(f"{program} on {name}: {len(printed)} bytes where the second implementation has {len(wanted)}")


def check_listing(made, name, captured, order, wanted):
    """The C listers on one capture; the plain one has no exchanged order. Damaged lines fit into one read, so the tuned lister is
    compiled once more with reads so short that every telegram lies across them."""
    check(name, "the tuned lister", made.printed(made.tuned + WORDS[order], captured), wanted)
    check(name, "the tuned lister in short reads", made.printed(made.in_short_reads + WORDS[order], captured), wanted)
    if order == AS_PRINTED:
        check(name, "the plain reader", made.printed(made.plain, b"p" + captured), wanted)


def check_listers(made):
    """All captures, several at a time."""
    with concurrent.futures.ThreadPoolExecutor(os.cpu_count()) as pool:
        list(pool.map(lambda each: check_listing(made, *each), all_listings()))
    check("a long capture", "dialspark", made.printed(made.dialspark, LONG), listing.listing(LONG))


def check_readers(made):
    """The proved program and the plain readers, on more than one piece of each kind of work."""
    for given in (b"r" + LONG, b"w" + LONG, b"l" + LONG, b"v" + BLOCKS, b"a" + BLOCKS[:512]):
        wanted = measured.printed(given)
        for program in (made.measured, made.plain, made.searching):
            check(f"the letter {given[:1].decode()}", pathlib.Path(program[-1]).name, made.printed(program, given), wanted)


def check_all(made):
    """Ends the run where a program does not do what it is measured for."""
    check_listers(made)
    check_readers(made)


if __name__ == "__main__":
    with tempfile.TemporaryDirectory() as folder:
        check_all(programs.Programs(folder))
    print("the C programs agree with the second implementation")
