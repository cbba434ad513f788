"""Outputs that fail: each is told once, and nothing is written after that."""
import fcntl
import os
import pathlib
import resource
import select
import signal
import tempfile

from runs import program
from runs.program import CANNOT_WRITE, HEADER

SET_PIPE_SIZE = 1031


def check_outputs(capture):
    """An output that takes nothing is told once; so is one that takes no help and no version."""
    for words in [], ["--help"], ["--version"]:
        told = CANNOT_WRITE if not words else b"dialspark: this text cannot be written: "
        with open(capture, "rb") as given:
            _, err, _ = program.run(words, stdin=given, stdout=None, before=lambda: os.close(1))
        program.same(f"a closed output, {words}, standard error", err, told + b"Bad file descriptor\n")
        with open(capture, "rb") as given, open("/dev/full", "wb") as full:
            _, err, _ = program.run(words, stdin=given, stdout=full)
        program.same(f"a full output, {words}, standard error", err, told + b"No space left on device\n")


def check_first_write():
    """Where the header does not go out, the program ends at once: it does not wait for an input that is still open."""
    reader, writer = os.pipe()
    with open("/dev/full", "wb") as full:
        _, err, _ = program.run(stdin=reader, stdout=full, limit=20)
    os.close(reader)
    os.close(writer)
    program.same("a full output with an open input, standard error", err, CANNOT_WRITE + b"No space left on device\n")


def check_broken_pipe(capture):
    """A program whose reader has gone says so, whether it was started with the signal ignored or not: it ignores the signal itself."""
    for ignored in (False, True):
        reader, writer = os.pipe()
        os.close(reader)
        with open(capture, "rb") as given:
            _, err, status = program.run(stdin=given, stdout=writer, restore_signals=not ignored)
        os.close(writer)
        program.same(f"a broken pipe, its signal ignored: {ignored}, standard error", err, CANNOT_WRITE + b"Broken pipe\n")
        if status != 0:
            program.fail(f"a broken pipe: status {status}")


def check_file_limit(capture, listing):
    """A file that may grow no further: what stands is the beginning of the listing. The first write goes through, a later one does not."""
    for limit in (len(HEADER), len(HEADER) + 1, len(HEADER) + 100, len(listing) - 1):
        for ignored in (True, False):
            def before():
                signal.signal(signal.SIGXFSZ, signal.SIG_IGN if ignored else signal.SIG_DFL)
                resource.setrlimit(resource.RLIMIT_FSIZE, (limit, limit))
            with open(capture, "rb") as given, tempfile.TemporaryFile() as kept:
                _, err, _ = program.run(stdin=given, stdout=kept, restore_signals=False, before=before)
                kept.seek(0)
                program.same(f"a file of at most {limit} bytes", kept.read(), listing[:limit])
            program.same(f"a file of at most {limit} bytes, standard error", err, CANNOT_WRITE + b"File too large\n" if ignored else b"")


def check_full_pipe(capture, listing):
    """A pipe that is full for a while and does not wait: after the write that fails nothing is written, though there is room again."""
    reader, writer = os.pipe()
    try:
        fcntl.fcntl(writer, SET_PIPE_SIZE, 4096)
    except OSError:
        pass
    os.set_blocking(writer, False)
    with open(capture, "rb") as given:
        made = program.start(stdin=given, stdout=writer)
    os.close(writer)
    if not select.select([made.stderr], [], [], program.TIMEOUT)[0]:
        made.kill()
        program.fail("a full pipe: nothing is told")
    with open(reader, "rb") as opened:
        out = opened.read()
    _, err = program.end_of(made, "a full pipe")
    program.same("a full pipe, standard error", err, CANNOT_WRITE + b"Resource temporarily unavailable\n")
    program.same("a full pipe, the beginning of the listing", out, listing[:len(out)])
    if not len(HEADER) <= len(out) < len(listing):
        program.fail(f"a full pipe took {len(out)} of {len(listing)} bytes, so no later write failed")


def check_later_writes(sample, folder):
    """A listing that is longer than what one write takes."""
    capture = pathlib.Path(folder) / "many.capture"
    capture.write_bytes(sample.read_bytes() * 400)
    with open(capture, "rb") as given:
        listing, err, _ = program.run(stdin=given)
    program.same("a long capture, standard error", err, b"")
    check_file_limit(capture, listing)
    check_full_pipe(capture, listing)
