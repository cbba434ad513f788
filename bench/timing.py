"""Takes times where the machine is an x86-64: of several runs the least, and the programs that are compared by turns, so that all of them
see the same machine. What is told is the difference of two lengths of input, so that the start of a program falls out."""

import os
import subprocess
import sys
import tempfile

ROUNDS = 9
FEW, MANY = 1_000_000, 5_000_000


def seconds(command, path):
    """The processor's time that a program takes for a file, its own and the system's."""
    with open(path, "rb") as given:
        started = subprocess.Popen(command, stdin=given, stdout=subprocess.DEVNULL)
        _, status, spent = os.wait4(started.pid, 0)
        started.returncode = os.waitstatus_to_exitcode(status)
    if started.returncode != 0:
        sys.exit(f"{command[-1]}: exit status {started.returncode}")
    return spent.ru_utime + spent.ru_stime


def inputs(folder, start, unit):
    """Two files: what stands in front, and few or many units of work."""
    paths = []
    for units in (FEW, MANY):
        paths.append(f"{folder}/{start.decode()}{units}")
        with open(paths[-1], "wb") as made:
            made.write(start + unit * units)
    return paths


def least_seconds(runs):
    """Of each run, a command and a file, the least that several rounds take."""
    least = [float("inf")] * len(runs)
    for _ in range(ROUNDS):
        least = [min(taken, seconds(*each)) for taken, each in zip(least, runs)]
    return least


def nanoseconds(unit, programs):
    """For one unit of work, of each program: a command and what stands in front of its input."""
    with tempfile.TemporaryDirectory() as folder:
        files = {start: inputs(folder, start, unit) for _, start in programs}
        least = least_seconds([(command, path) for command, start in programs for path in files[start]])
    return [1e9 * (more - less) / (MANY - FEW) for less, more in zip(least[::2], least[1::2])]
