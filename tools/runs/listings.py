"""Lines that are listed to their end: the samples, captures longer than the program's buffer and than its counts, and a live line."""
import os
import pathlib
import select
import subprocess

from runs import program
from runs.program import COLUMNS, EXCHANGED, EXCHANGED_WORD, HEADER, TELEGRAM

REFUSED = b";refused 3\n"   # the row of a telegram that is read in the other order

BUFFER = 65536     # how many bytes the program reads at once
WRAP = 2 ** 32     # where positions and counts begin again


def listing(starts, stray):
    """What is listed of that telegram at these positions, and so many stray bytes."""
    return HEADER + b"".join(b"%d" % (start % WRAP) + COLUMNS for start in starts) + b"stray %d\n" % (stray % WRAP)


def check_samples():
    """What can be listed is listed, and nothing is said on standard error."""
    crate = program.ROOT / "crates" / program.NAME
    program.listed("the program's own input", crate / "stdin", (crate / "stdout").read_bytes())
    printed, exchanged = program.captures()
    for capture in printed:
        program.listed(capture.name, capture, program.listing_of(capture))
    for capture in exchanged:
        program.listed(capture.name, capture, program.listing_of(capture), [EXCHANGED_WORD])
    program.listed("an empty input", os.devnull, HEADER + b"stray 0\n")
    program.listed("an empty input, exchanged", os.devnull, HEADER + b"stray 0\n", [EXCHANGED_WORD])


def check_long_captures(folder):
    """A telegram behind so many stray bytes that the end of a read comes at each of its places."""
    capture = pathlib.Path(folder) / "long.capture"
    for before in range(2 * BUFFER - len(TELEGRAM) - 1, 2 * BUFFER + 2):
        capture.write_bytes(b"x" * before + TELEGRAM + b"x" * BUFFER)
        program.listed(f"a telegram behind {before} stray bytes", capture, listing([before], before + BUFFER))


def check_orders(folder):
    """The telegram in both orders, each listed in both, by name and on standard input."""
    capture = pathlib.Path(folder) / "both.capture"
    capture.write_bytes(TELEGRAM + EXCHANGED)
    second = b"%d" % len(TELEGRAM)
    for words, rows in (([], b"0" + COLUMNS + second + REFUSED), ([EXCHANGED_WORD], b"0" + REFUSED + second + COLUMNS)):
        wanted = HEADER + rows + b"stray 0\n"
        program.listed(f"both orders, {words}", capture, wanted, words)
        for place in range(len(words) + 1):
            program.listed(f"both orders, {words}, a file", os.devnull, wanted, [*words[:place], str(capture), *words[place:]])


def check_wrap():
    """A capture in whose telegram the position comes to 4,294,967,296, and another telegram behind it."""
    what = "a capture of more than 4 GiB"
    zeros = bytes(16 * BUFFER)
    first, more = WRAP - 9, 100
    with program.start(stdin=subprocess.PIPE, bufsize=0) as made:
        try:
            for _ in range(first // len(zeros)):
                made.stdin.write(zeros)
            made.stdin.write(zeros[:first % len(zeros)] + TELEGRAM + zeros[:more] + TELEGRAM)
        except BrokenPipeError:
            program.fail(f"{what}: the program ends before the capture does")
        got = program.end_of(made, what)
    program.same_outputs(what, got, (listing([first, first + len(TELEGRAM) + more], first + more), b""))


def check_live(capture):
    """On a line that goes on each row stands there before the next byte comes."""
    rows = program.listing_of(capture).splitlines(keepends=True)
    out = b""
    with program.start(stdin=subprocess.PIPE, stderr=None, bufsize=0) as made:
        for at, byte in enumerate(capture.read_bytes()):
            made.stdin.write(bytes([byte]))
            if byte == 3 and len(rows) > out.count(b"\n") and select.select([made.stdout], [], [], 0.5)[0]:
                out += made.stdout.read(65536)
                program.same(f"a live line after {at + 1} bytes", out, b"".join(rows[:out.count(b"\n")]))
        if out.count(b"\n") < 2:
            program.fail("a live line: no row comes before the line ends")
        out += program.end_of(made, "a live line")[0]
    program.same("a live line", out, b"".join(rows))
