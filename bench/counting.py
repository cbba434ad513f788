"""Counts instructions on an emulated processor, as differences of two runs of a program.

A count is the same on every machine and every run: the emulated processor is fixed, as the C library picks its forms by it, and inputs
are files, as a pipe is read in pieces of chance. It needs an emulator with plugins on the path, Debian's package qemu-user, and a C
compiler for this machine (cc).
"""

import shutil
import subprocess
import sys
import tempfile

from programs import HERE, run

EMULATOR = "qemu-x86_64"

# The emulated processor: an x86-64 without AVX, as the programs are compiled for any x86-64. And one with AVX2, for which the C library
# has another memchr.
PROCESSOR, WITH_AVX2 = "qemu64", "Haswell"


def lacking():
    """What this machine lacks for a count, or nothing."""
    for command in (EMULATOR, "cc"):
        if shutil.which(command) is None:
            return f"no {command} is on the path"
    if b"-plugin" not in subprocess.run([EMULATOR, "-help"], capture_output=True).stdout:
        return f"the {EMULATOR} on the path takes no plugins"
    return None


class Counter:
    """Runs programs on the emulated processor, and counts."""

    def __init__(self, folder):
        self.plugin = f"{folder}/count.so"
        run("cc", "-O2", "-shared", "-fPIC", "-o", self.plugin, HERE / "count.c")

    def counted(self, command, given, processor=PROCESSOR):
        """What a program prints for an input, and how many instructions it takes."""
        with tempfile.TemporaryFile() as handed:
            handed.write(given)
            handed.seek(0)
            done = subprocess.run([EMULATOR, "-cpu", processor, "-plugin", self.plugin, *command], stdin=handed, capture_output=True)
        told = done.stderr.split()
        if done.returncode != 0 or not told or not told[-1].isdigit():
            sys.exit(f"{EMULATOR} gives no count: {done.stderr.decode(errors='replace').strip()}")
        return done.stdout, int(told[-1])

    def cost(self, command, start, unit, few, many, processor=PROCESSOR):
        """Instructions for one unit of work, and what the two runs print."""
        first, less = self.counted(command, start + unit * few, processor)
        second, more = self.counted(command, start + unit * many, processor)
        return (more - less) / (many - few), (first, second)
