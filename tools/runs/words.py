"""The words of the command line: which are taken, what is said of the others, and that the help names each."""
import itertools
import os
import re
import subprocess

from runs import program
from runs.program import EXCHANGED_WORD, LOG_WORDS

USAGE = b"usage: dialspark [--help | --version] [--exchanged | --verify | --log] [FILE]\n"
TWO_FILES = b"one file at a time"
TWO_LISTINGS = b"one of --exchanged, --verify and --log, once"
LONG_NAME = b"the name of a file has at most 4095 bytes"
HELP_WORDS = ["--help", "-h"]
LISTING_WORDS = [EXCHANGED_WORD, *LOG_WORDS]
NAME_LIMIT = 4095
WIDTH = 17   # of the help's column of words

# The heading of a note in docs/CHANGES.md: its version, and what the note is of. The newest stands first.
NOTE = re.compile(r"^## (\d[\d.]*): ", re.M)

# The definition's rows of options, as ("--help", Help).
OPTION = re.compile(r'\("(-[-\w]+)", ')


def refused(what, words, told):
    """Words that the program does not take: that is told with the usage line, and nothing is listed."""
    got = program.run(words, stdin=subprocess.DEVNULL)
    program.same_outputs(what, got, (b"", b"dialspark: " + told + b"\n" + USAGE))


def no_such(option):
    """An option is told as far as the program keeps a word: one byte more than the longest name has."""
    return b"no such option: " + option.encode()[:NAME_LIMIT + 1]


def not_there(name):
    return name.encode() + b": No such file or directory"


def printed(words):
    """What is printed where nothing is listed."""
    out, err, _ = program.run(words, stdin=subprocess.DEVNULL)
    program.same(f"{words}, standard error", err, b"")
    return out


def check_files(sample):
    """With no word standard input is listed, with a file that file."""
    listing = program.listing_of(sample)
    program.listed("no word", sample, listing)
    program.listed("a word that is a file", os.devnull, listing, [str(sample)])
    got = program.run([str(sample)], before=lambda: os.close(0))
    program.same_outputs("a file with a closed input", got, (listing, b""))
    refused("two files", [str(sample), str(sample)], TWO_FILES)
    missing = str(program.ROOT / "target" / "no such capture")
    refused("a file that is not there", [missing], not_there(missing))
    refused("an empty word", [""], not_there(""))


def check_long_names():
    """The longest name is opened, here that of a directory; a longer one is told to be too long, however long it is."""
    longest = "/." * (NAME_LIMIT // 2) + "/"
    program.same("a name of 4,095 bytes", program.run([longest], stdin=subprocess.DEVNULL)[1], program.CAPTURE_UNREAD + b"Is a directory\n")
    for length in NAME_LIMIT + 1, NAME_LIMIT + 2, 100_000:
        refused(f"a name of {length} bytes", ["--log", "x" * length], LONG_NAME)


def check_options(sample):
    """An option that there is not, and one that says what is listed a second time, are told."""
    for words in ["--no-such-option"], ["--"], [str(sample), "--no-such-option"]:
        refused(f"{words}", words, no_such(words[-1]))
    long = "--" + "x" * 100_000
    refused("a long option", [long], no_such(long))
    missing = str(program.ROOT / "target" / "no such file")
    for word in LISTING_WORDS:
        refused(f"{word} and an unknown option", [word, "--no-such-option"], no_such("--no-such-option"))
        refused(f"{word}, a file and an unknown option", [word, str(sample), "--no-such-option"], no_such("--no-such-option"))
        refused(f"{word} and two files", [word, str(sample), str(sample)], TWO_FILES)
        refused(f"{word} and a file that is not there", [word, missing], not_there(missing))
        for near in word[:-1], word.replace(word[2], word[2].upper()), word + "=":
            refused(f"a word that is nearly {word}", [near], no_such(near))
    for words in itertools.product(LISTING_WORDS, repeat=2):
        refused(f"two words for what is listed, {words}", words, TWO_LISTINGS)
        refused(f"two words for what is listed, {words}, and a file", [*words, str(sample)], TWO_LISTINGS)


def options_in(text):
    return set(re.findall(r"(?<![\w-])--?\w+", text))


def check_help(sample):
    """Each word that is defined has its line in the help, and no other has."""
    text = printed(["--help"])
    program.same("--help, the usage line", text[:len(USAGE)], USAGE)
    for words in [*([word] for word in HELP_WORDS), [str(sample), "--help"], ["--help", str(sample)], ["--log", "-h"], ["--exchanged", str(sample), "-h"]]:
        program.same(f"{words}", printed(words), text)
    lines = [line for line in text.decode().splitlines() if line.startswith("  ")]
    explained = set().union(*(options_in(line[:WIDTH]) for line in lines))
    defined = set(OPTION.findall((program.ROOT / "crates" / "command_line" / "specs" / "Words.antt").read_text(encoding="utf-8")))
    if not explained == defined == {"--version", *HELP_WORDS, *LISTING_WORDS}:
        program.fail(f"--help explains {sorted(explained)} where {sorted(defined)} are defined")
    if options_in(USAGE.decode()) != defined - {"-h"}:
        program.fail(f"the usage line does not name the words that are defined, {sorted(defined)}")


def check_version(sample):
    """The name and the version that heads the newest note, whatever else is asked for behind it."""
    newest = NOTE.search((program.ROOT / "docs" / "CHANGES.md").read_text(encoding="utf-8"))[1]
    for words in ["--version"], ["--version", "--help"], [str(sample), "--version"]:
        program.same(f"{words}", printed(words), f"dialspark {newest}\n".encode())


def check(sample):
    check_files(sample)
    check_long_names()
    check_options(sample)
    check_help(sample)
    check_version(sample)
