"""The programs that are measured: the proved ones, and the C programs beside them, compiled by the kit's clang for the same target."""

import pathlib
import platform
import subprocess
import sys

HERE = pathlib.Path(__file__).resolve().parent
ROOT = HERE.parent
TARGET = "x86_64-unknown-linux-gnu"
IS_NATIVE = platform.machine() in ("x86_64", "AMD64")


def run(*command, cwd=ROOT, stdin=None):
    """Runs a command, and shows what it said where it failed."""
    done = subprocess.run(command, cwd=cwd, stdin=stdin, capture_output=True)
    if done.returncode != 0:
        sys.exit(done.stdout.decode(errors="replace") + done.stderr.decode(errors="replace"))
    return done.stdout


def proved(name):
    """A proved program as it now stands: `rt run` proves and builds it, and runs it on the input of its folder."""
    crate = ROOT / "crates" / name
    with open(crate / "stdin", "rb") as given:
        run("rt", "run", cwd=crate, stdin=given)
    return crate / "out" / name


class Programs:
    """Commands that run the programs on an x86-64, as lists of words. Those that use the C library run with the kit's."""

    def __init__(self, folder):
        guide = pathlib.Path(run("rt", "doc").decode().strip())
        self.kit = guide.parent / "toolchain"
        self.folder, self.library = pathlib.Path(folder), self.kit / "lib"
        self.measured = self.with_library(proved("measured"))
        self.dialspark = self.with_library(proved("dialspark"))
        self.plain = [self.alone("plain")]
        self.searching = self.with_library(self.alone("searching", "-DMEMCHR"))
        self.tuned = self.with_library(self.hosted("tuned"))
        self.in_short_reads = self.with_library(self.hosted("in_short_reads", "-DINPUT=7"))

    def with_library(self, program):
        """The command of a program that is linked with the C library."""
        return [self.library / "ld-linux-x86-64.so.2", "--library-path", self.library, program]

    def compiled(self, source, name, *words):
        """A C source as an object file."""
        made = self.folder / f"{name}.o"
        run(self.kit / "bin" / "clang", f"--target={TARGET}", "-c", *words, "-o", made, HERE / source)
        return made

    def linked(self, name, *words):
        run(self.kit / "bin" / "ld.lld", "-o", self.folder / name, *words)
        return self.folder / name

    def alone(self, name, *words):
        """The plain reader, which needs nothing of the C library but, compiled so, its memchr."""
        made = self.compiled("reader.c", name, "-O2", "-ffreestanding", "-fno-stack-protector", *words)
        return self.linked(name, made, self.library / "libc.so.6") if words else self.linked(name, "-static", made)

    def hosted(self, name, *words):
        """The tuned lister, as any C program is linked."""
        made = self.compiled("tuned.c", name, "-O3", "-fPIE", *words)
        before, behind = (["Scrt1.o", "crti.o", "crtbeginS.o"], ["libc.so.6", "libc_nonshared.a", "crtendS.o", "crtn.o"])
        return self.linked(name, "-pie", *(self.library / part for part in before), made, *(self.library / part for part in behind))

    def printed(self, command, given):
        """What a program prints for an input. On another processor it runs under the emulator that counts."""
        emulator = [] if IS_NATIVE else ["qemu-x86_64"]
        done = subprocess.run([*emulator, *command], input=given, capture_output=True)
        if done.returncode != 0 or done.stderr:
            sys.exit(f"{command[-1]}: exit status {done.returncode}, {done.stderr.decode(errors='replace')}")
        return done.stdout
