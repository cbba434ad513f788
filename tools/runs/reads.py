"""Reads that fail, that a signal breaks off, and very many of them: none is taken for the end of the input."""
import fcntl
import os
import pathlib
import signal
import socket
import struct
import subprocess
import sys
import tempfile
import termios
import time

from runs import listings, logs, program
from runs.program import BLOCK, CAPTURE_UNREAD, COLUMNS, EXCHANGED, EXCHANGED_WORD, HEADER, LOG_UNREAD, LOG_WORDS, TELEGRAM

# More than a million, and more than 2 to the 20.
MANY_READS = 2 ** 20 + 1000

# How often each wait for the next piece is broken off.
BREAKS = 3


class Way:
    """A way to list: its words, an input with what is listed of it, places where the input breaks off, each with what is listed of the
    bytes before it, and what is then told."""

    def __init__(self, words, told, given, listing, unfinished):
        self.words, self.told, self.given, self.listing, self.unfinished = words, told, given, listing, unfinished
        self.header = listing[:listing.index(b"\n") + 1]


def ways():
    """A line in both orders, and both listings of a log. The input breaks off inside a telegram or a block, and where one ends."""
    for words, telegram in ([], TELEGRAM), ([EXCHANGED_WORD], EXCHANGED):
        rows = [b"%d" % (place * len(telegram)) + COLUMNS for place in range(3)]
        two = b"".join([HEADER, *rows[:2]])
        yield Way(words, CAPTURE_UNREAD, 3 * telegram, b"".join([HEADER, *rows, b"stray 0\n"]), {2 * len(telegram) + 9: two, 2 * len(telegram): two})
    log = program.ROOT / "samples" / "month.log"
    for word, suffix in LOG_WORDS.items():
        rows = log.with_suffix(suffix).read_bytes()
        cuts = BLOCK + 100, BLOCK, 2 * BLOCK
        yield Way([word], LOG_UNREAD, log.read_bytes(), rows, {cut: logs.of_whole_blocks(rows, cut) for cut in cuts})


def check_unreadable(way):
    """A closed input, a directory, which also has a name, and a pipe that does not wait: the header alone is listed, and why is told."""
    folder = os.open(program.ROOT, os.O_RDONLY)
    empty, writer = os.pipe2(os.O_NONBLOCK)
    for what, why, words, streams in (
        ("a closed input", b"Bad file descriptor\n", [], {"before": lambda: os.close(0)}),
        ("a directory as input", b"Is a directory\n", [], {"stdin": folder}),
        ("a directory by its name", b"Is a directory\n", [str(program.ROOT)], {"stdin": subprocess.DEVNULL}),
        ("a pipe that does not wait", b"Resource temporarily unavailable\n", [], {"stdin": empty}),
    ):
        got = program.run([*way.words, *words], **streams)
        program.same_outputs(f"{what}, {way.words}", got, (way.header, way.told + why))
    for opened in folder, empty, writer:
        os.close(opened)


def wait_until_taken(ours, made):
    """Until the other end has read all that was sent, or has ended."""
    limit = time.monotonic() + program.TIMEOUT
    while struct.unpack("i", fcntl.ioctl(ours, termios.TIOCOUTQ, bytes(4)))[0] and made.poll() is None:
        if time.monotonic() > limit:
            program.fail("a process does not read its input")
        time.sleep(0.001)


def check_broken_line(way, cut, reads):
    """A connection that is reset behind so many bytes, which came in so many reads: what came is listed, and nothing says that it is all."""
    what = f"a line that is reset at {cut} behind {reads} reads, {way.words}"
    ours, theirs = socket.socketpair()
    theirs.send(b"x")          # what is never read: closing our end then resets theirs
    with program.start(way.words, stdin=theirs) as made:
        theirs.close()
        for read in range(reads):
            ours.send(way.given[cut * read // reads:cut * (read + 1) // reads])
            wait_until_taken(ours, made)
        ours.close()
        got = program.end_of(made, what)
    program.same_outputs(what, got, (way.unfinished[cut], way.told + b"Connection reset by peer\n"))


def state_of(made):
    """A letter: S sleeps, T is stopped, Z has ended."""
    return pathlib.Path(f"/proc/{made.pid}/stat").read_text().rpartition(")")[2].split()[0]


def wait_until(made, letter):
    limit = time.monotonic() + program.TIMEOUT
    while state_of(made) not in (letter, "Z"):
        if time.monotonic() > limit:
            program.fail(f"a process does not come to state {letter}")
        time.sleep(0.001)


def break_off(made):
    """A read of a socket that has a time limit fails with EINTR where its process is stopped and goes on, though no handler is there
    (signal(7), "Interruption of system calls and library functions by stop signals")."""
    wait_until(made, "S")
    os.kill(made.pid, signal.SIGSTOP)
    wait_until(made, "T")
    os.kill(made.pid, signal.SIGCONT)
    wait_until(made, "S")


def limited_socket():
    """Our end, and the other, whose reads have a time limit that no run comes to."""
    ours, theirs = socket.socketpair()
    theirs.setsockopt(socket.SOL_SOCKET, socket.SO_RCVTIMEO, struct.pack("ll", 10 * program.TIMEOUT, 0))
    return ours, theirs


# A reader that does not try again: it tells how its one read ended.
ONE_READ = """
import ctypes, errno, os
libc = ctypes.CDLL(None, use_errno=True)
os.write(1, b"-")
got = libc.read(0, ctypes.create_string_buffer(1), 1)
os.write(1, errno.errorcode[ctypes.get_errno()].encode() if got < 0 else b"read")
"""


def check_breaking_off():
    """That a read can be broken off here so, without which the next check would say nothing."""
    ours, theirs = limited_socket()
    with subprocess.Popen([sys.executable, "-c", ONE_READ], stdin=theirs, stdout=subprocess.PIPE) as made:
        made.stdout.read(1)
        time.sleep(0.05)
        break_off(made)
        ours.close()
        program.same("a reader that does not try again", made.stdout.read(), b"EINTR")
    theirs.close()


def check_interrupted(way):
    """A read that a signal breaks off is made again: the first one, one inside a telegram or a block, and the last."""
    what = f"reads that are broken off, {way.words}"
    ours, theirs = limited_socket()
    with program.start(way.words, stdin=theirs, bufsize=0) as made:
        theirs.close()
        out = made.stdout.read(1)
        inside = next(iter(way.unfinished))
        for piece in way.given[:inside], way.given[inside:], b"":
            time.sleep(0.02)
            for _ in range(BREAKS):
                break_off(made)
            try:
                ours.sendall(piece)
            except ConnectionError:
                pass           # the program has ended; what it wrote tells
        ours.close()
        more, err = program.end_of(made, what)
    program.same_outputs(what, (out + more, err), (way.listing, b""))


def check_in_packets(what, words, pieces, wanted):
    """Each piece is a packet, so that each read gives one of them. The rows go to a file, as nobody reads a pipe meanwhile."""
    ours, theirs = socket.socketpair(socket.AF_UNIX, socket.SOCK_SEQPACKET)
    with tempfile.TemporaryFile() as rows, program.start(words, stdin=theirs, stdout=rows) as made:
        theirs.close()
        try:
            for piece in pieces:
                ours.send(piece)
        except ConnectionError:
            made.kill()
            program.fail(f"{what}: the program ends before its input does")
        ours.close()
        _, err = program.end_of(made, what)
        rows.seek(0)
        program.same_outputs(what, (rows.read(), err), (wanted, b""))


def check_many_reads():
    """More than a million reads of one stray byte, and then a telegram: the program goes on to the end."""
    def pieces():
        for _ in range(MANY_READS):
            yield b"x"
        yield TELEGRAM
    check_in_packets("more than a million reads", [], pieces(), listings.listing([MANY_READS], MANY_READS))


def check_log_in_bytes():
    """A log that comes byte by byte, more than 65,536 of them."""
    log, times = program.ROOT / "samples" / "month.log", 50
    kept = log.read_bytes()
    for word, suffix in LOG_WORDS.items():
        wanted = logs.repeated(log.with_suffix(suffix).read_bytes(), len(kept) // BLOCK, times)
        check_in_packets(f"a log byte by byte, {word}", [word], (bytes([byte]) for byte in kept * times), wanted)


def check_each_way():
    check_breaking_off()
    for way in ways():
        check_unreadable(way)
        for cut in way.unfinished:
            for reads in 1, 3:
                check_broken_line(way, cut, reads)
        check_interrupted(way)
