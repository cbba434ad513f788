"""How the lister is run, and how what it writes is compared."""
import os
import pathlib
import platform
import subprocess
import sys

ROOT = pathlib.Path(__file__).resolve().parent.parent.parent
NAME = "dialspark"
TIMEOUT = 120

# The fixed texts. What the system says of the failure stands behind the last three.
HEADER = b"start;kind;date;time;weekday;status\n"
CANNOT_WRITE = b"dialspark: the listing cannot be written: "
CAPTURE_UNREAD = b"dialspark: the capture cannot be read: "
LOG_UNREAD = b"dialspark: the log cannot be read: "

# A telegram, and its row behind the start, as document 01 prints them; the same telegram with CR and LF exchanged.
TELEGRAM = b"\x02E3123456170496\n\r\x03"
COLUMNS = b";6021;1996-04-17;12:34:56;3;high,daylight\n"
EXCHANGED = TELEGRAM.replace(b"\n\r", b"\r\n")

# The word for a line whose trailers are exchanged, and the two words that list a log, with the end of the file's name that holds what
# they print for a sample.
EXCHANGED_WORD = "--exchanged"
LOG_WORDS = {"--verify": ".verify", "--log": ".rows"}
BLOCK = 512


def fail(what):
    print(f"outputs: {what}", file=sys.stderr)
    sys.exit(1)


def binary():
    """The program that is run: the one that is named, or the one that `rt run` leaves in its crate's folder."""
    return pathlib.Path(sys.argv[1]).resolve() if len(sys.argv) > 1 else ROOT / "crates" / NAME / "out" / NAME


def emulated():
    """What stands before the program's name on this machine."""
    if platform.machine() in ("x86_64", "AMD64"):
        return []
    kit = pathlib.Path(subprocess.run(["rt", "doc"], check=True, capture_output=True, text=True).stdout.strip()).parent.parent
    tools = kit / "on" / platform.machine() / "toolchain"
    return [str(tools / "bin" / "qemu-x86_64"), str(tools / "lib" / "ld-linux-x86-64.so.2"), "--library-path", str(tools / "lib")]


def command():
    """How the program is called."""
    if not binary().exists():
        fail(f"{binary()} is not built: rt run in {ROOT / 'crates' / NAME} builds it")
    return [*emulated(), str(binary())]


CALL = command()


def start(words=(), **streams):
    """The program, with a pipe at each output that is not named."""
    return subprocess.Popen(CALL + list(words), **{"stdout": subprocess.PIPE, "stderr": subprocess.PIPE, **streams})


def end_of(made, what, limit=TIMEOUT):
    """What it wrote to each output that is a pipe, once it has ended."""
    try:
        return made.communicate(timeout=limit)
    except subprocess.TimeoutExpired:
        made.kill()
        fail(f"{what}: the program does not end")


def run(words=(), limit=TIMEOUT, before=None, **streams):
    """One run to its end: what it wrote, and its status."""
    with start(words, preexec_fn=before, **streams) as made:
        out, err = end_of(made, f"{list(words)} {streams}", limit)
    return out, err, made.returncode


def same(what, got, wanted):
    """Fails where two outputs differ, and shows them from shortly before the place."""
    if got != wanted:
        at = max(0, len(os.path.commonprefix([got, wanted])) - 20)
        fail(f"{what}: from byte {at} on {got[at:at + 80]!r} where {wanted[at:at + 80]!r} is wanted")


def same_outputs(what, got, wanted):
    """Standard output and standard error."""
    same(f"{what}, standard output", got[0], wanted[0])
    same(f"{what}, standard error", got[1], wanted[1])


def listed(what, given, wanted, words=()):
    """What can be listed, on standard input: nothing is said on standard error."""
    with open(given, "rb") as opened:
        out, err, status = run(words, stdin=opened)
    same_outputs(what, (out, err), (wanted, b""))
    if status != 0:
        fail(f"{what}: status {status}")


def samples_of(suffix):
    """The samples whose names end so; there is one at least."""
    found = sorted((ROOT / "samples").glob(f"*{suffix}"))
    if not found:
        fail(f"there is no sample {suffix}")
    return found


def captures():
    """The samples of a line as printed, and those of an exchanged one."""
    exchanged = [capture for capture in samples_of(".capture") if capture.name.startswith(EXCHANGED_WORD.strip("-"))]
    printed = [capture for capture in samples_of(".capture") if capture not in exchanged]
    if not exchanged or not printed:
        fail("there is no sample of one order")
    return printed, exchanged


def listing_of(capture):
    """What is listed of a sample of a line."""
    return capture.with_suffix(".listing").read_bytes()
