"""Makes the input and the expected output of the repository's programs, and the samples with their listings.

Run with --write it writes them; with --check it fails where a committed file is not what it makes.
"""

import pathlib
import sys

sys.dont_write_bytecode = True  # leaves no files behind

import captures
import cases
import listing
import log_listing
import log_scripts
import measured
import months
import sample_logs
import samples
from cases.seen import SEEN

ROOT = pathlib.Path(__file__).resolve().parent.parent


def made():
    """Each file with its content."""
    every = list(cases.all_cases())
    SEEN.check()
    yield "crates/test_cases/stdin", b"".join(given for given, _ in every)
    yield "crates/test_cases/stdout", b"".join(expected for _, expected in every)
    lines = captures.all_lines()
    yield "crates/test_lines/stdin", b"".join(map(captures.handed_over, lines))
    yield "crates/test_lines/stdout", b"".join(listing.listing(a_line.captured, a_line.order) for a_line in lines)
    scripts = list(log_scripts.all_scripts())
    log_scripts.check(scripts)
    steps = log_scripts.steps_of(scripts)
    yield "crates/test_logs/stdin", b"".join(given for given, _ in steps)
    yield "crates/test_logs/stdout", b"".join(expected for _, expected in steps)
    every_month = list(months.lines())
    months.check(every_month)
    yield "crates/test_months/stdout", b"".join(every_month)
    yield "crates/measured/stdin", measured.GIVEN
    yield "crates/measured/stdout", measured.printed(measured.GIVEN)
    yield "crates/dialspark/stdin", samples.PRINTED
    yield "crates/dialspark/stdout", listing.listing(samples.PRINTED)
    for order, captured_ones in samples.IN_ORDER.items():
        for name, captured in captured_ones.items():
            yield f"samples/{name}.capture", captured
            yield f"samples/{name}.listing", listing.listing(captured, order)
    for name, kept in sample_logs.LOGS.items():
        yield f"samples/{name}.log", kept
        yield f"samples/{name}.verify", log_listing.verify_listing(kept)
        yield f"samples/{name}.rows", log_listing.log_listing(kept)


def main(mode):
    wrong = []
    for name, content in made():
        path = ROOT / name
        if mode == "--write":
            path.write_bytes(content)
        elif not path.exists() or path.read_bytes() != content:
            wrong.append(name)
    for name in wrong:
        print(name, "is not what the second implementation makes")
    return 1 if wrong else 0


if __name__ == "__main__":
    if sys.argv[1:] not in (["--write"], ["--check"]):
        sys.exit("usage: make.py --write | --check")
    sys.exit(main(sys.argv[1]))
