"""Scripts for the program `test_logs`: operations on a region, and what it should print for each.

An operation is a letter and what stands behind it, numbers with the higher byte first. Behind its line stands a line for each row of
32 bytes that it has changed.
"""

import random

from log_scripts import kinds
from log_scripts.by_dice import by_dice
from log_scripts.by_hand import by_hand

SEED = 512
SCRIPTS = 6   # by dice


def all_scripts(seed=SEED):
    """Every script."""
    dice = random.Random(seed)
    yield from by_hand(dice)
    yield from (by_dice(dice) for _ in range(SCRIPTS))


def steps_of(scripts):
    """What is handed over and what is printed, operation by operation."""
    return [step for script in scripts for step in script.steps]


def check(scripts):
    """Fails where something that has to occur has not."""
    kinds.check(set().union(*(script.kinds for script in scripts)))
