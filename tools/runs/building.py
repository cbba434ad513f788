"""The command that builds the program first, tools/list: it takes the program's words, says what the program says, and gives a status.

It is run in a folder of its own, with an `rt` before the kit's on the path that proves nothing and puts the program there.
"""
import os
import pathlib
import shutil
import subprocess

from runs import program
from runs.program import EXCHANGED_WORD, LOG_WORDS

GOOD, DAMAGED, TOLD, NOT_BUILT = 0, 1, 2, 3

BUILDING = b"tools/list: proves and builds dialspark first, which takes a few minutes\n"

RT = """#!/bin/sh
[ "$1" = run ] || exec {rt} "$@"
{check}
"""
BUILT = "mkdir -p out && cp {program} out/dialspark"
REFUSED = "echo refused; exit 1"


class Lister:
    """A folder with the command and an `rt` that does what it is told."""

    def __init__(self, folder, check):
        self.root = pathlib.Path(folder)
        (self.root / "tools").mkdir(parents=True)
        (self.root / "crates" / program.NAME).mkdir(parents=True)
        shutil.copy(program.ROOT / "tools" / "list", self.root / "tools" / "list")
        tool = self.root / "bin" / "rt"
        tool.parent.mkdir()
        tool.write_text(RT.format(rt=shutil.which("rt"), check=check))
        tool.chmod(0o755)

    def run(self, words, stdout=subprocess.PIPE, **streams):
        """What it wrote, and its status."""
        path = f"{self.root / 'bin'}{os.pathsep}{os.environ['PATH']}"
        call = ["sh", str(self.root / "tools" / "list"), *words]
        done = subprocess.run(call, stdout=stdout, stderr=subprocess.PIPE, env={**os.environ, "PATH": path}, timeout=program.TIMEOUT, **streams)
        return done.stdout, done.stderr, done.returncode

    def gives(self, words, status, before=b""):
        """It says what the program says of the same words, and gives this status."""
        what = f"tools/list {' '.join(words)}"
        out, err, _ = program.run(words, stdin=subprocess.DEVNULL)
        got = self.run(words, stdin=subprocess.DEVNULL)
        program.same_outputs(what, got, (out, before + err))
        if got[2] != status:
            program.fail(f"{what}: status {got[2]} where {status} is wanted")


def check_listings(lister, folder):
    """The first run says that it builds. A word may stand behind the file, and what cannot be listed is said as the program says it."""
    printed, exchanged = program.captures()
    lister.gives([str(printed[0])], GOOD, BUILDING)
    lister.gives([str(exchanged[0]), EXCHANGED_WORD], GOOD)
    for words in [["--help"], ["-h"], ["--version"]]:
        lister.gives(words, GOOD)
    for words in [["no such file"], [folder], ["--verify", folder], ["--no-such-option"], [str(printed[0]), "another"]]:
        lister.gives(words, TOLD)


def check_logs(lister, folder):
    """A damaged log gives a status of its own, wherever the word stands; so does one that ends inside a block."""
    good, damaged = (program.ROOT / "samples" / name for name in ("month.log", "month-damaged.log"))
    cut = pathlib.Path(folder) / "cut.log"
    cut.write_bytes(good.read_bytes()[:1000])
    for word in LOG_WORDS:
        for log, status in (good, GOOD), (damaged, DAMAGED), (cut, DAMAGED):
            lister.gives([str(log), word], status)


def check_failures(lister):
    """Writes that fail: to a full output, and to a pipe whose reader has gone."""
    sample, log = program.captures()[0][0], program.ROOT / "samples" / "month.log"
    for words in [str(sample)], ["--verify", str(log)]:
        with open("/dev/full", "wb") as full:
            _, err, status = lister.run(words, stdout=full)
        if status != TOLD or not err:
            program.fail(f"tools/list {words} with a full output: status {status}, {err!r}")
    reader, writer = os.pipe()
    os.close(reader)
    _, err, status = lister.run([str(sample)], stdout=writer)
    os.close(writer)
    if status != TOLD or not err:
        program.fail(f"tools/list with a broken pipe: status {status}, {err!r}")


def check(folder):
    lister = Lister(pathlib.Path(folder) / "built", BUILT.format(program=program.binary()))
    check_listings(lister, folder)
    check_logs(lister, folder)
    check_failures(lister)
    got = Lister(pathlib.Path(folder) / "refused", REFUSED).run(["--help"])
    if got != (b"", BUILDING + b"refused\n", NOT_BUILT):
        program.fail(f"tools/list where nothing is built: {got}")
