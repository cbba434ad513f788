"""Scripts by dice."""

import log
import making
from log import BLOCK, CHECK_AT, COUNT_AT, SLOT, SLOTS, ZEROS_AT
from log_scripts.blocks import good_telegram, with_check
from log_scripts.kinds import NUMBERS
from log_scripts.script import LONGEST, Script


def some_place(script, dice):
    """A byte of the region, or behind it; more often one at the ends of a block's parts."""
    if dice.random() < 0.1 or not script.region:
        return dice.randrange(65536)
    start = BLOCK * dice.randrange(len(script.region) // BLOCK + 1)
    if dice.random() < 0.5:
        return start + dice.choice([0, 1, SLOT * dice.randrange(SLOTS), COUNT_AT, ZEROS_AT, CHECK_AT - 1, CHECK_AT, CHECK_AT + 1])
    return start + dice.randrange(BLOCK)


class Dealer:
    """Operations by dice on a script, and what its pokes have changed, so that it can be repaired."""

    def __init__(self, script, dice):
        self.script, self.dice, self.undo = script, dice, []

    def poke(self, place, value):
        if place < len(self.script.region):
            self.undo.append((place, self.script.region[place]))
        self.script.poke(place, value)

    def damage(self):
        self.poke(some_place(self.script, self.dice), self.dice.choice([0, 1, 255, self.dice.randrange(256)]))

    def count(self):
        """One slot more or less, or another number."""
        place = BLOCK * self.dice.randrange(8) + COUNT_AT
        if place < len(self.script.region):
            self.poke(place, (self.script.region[place] + self.dice.choice([1, -1, self.dice.randrange(256)])) % 256)

    def fit(self):
        """Makes some block's check fit, which may make the block good."""
        blocks = log.blocks_of(self.script.region)
        if blocks:
            number = self.dice.randrange(len(blocks))
            for at, byte in enumerate(with_check(blocks[number])[CHECK_AT:], BLOCK * number + CHECK_AT):
                if self.script.region[at] != byte:
                    self.poke(at, byte)

    def repair(self):
        """Takes back the last pokes, one or all."""
        for _ in range(self.dice.choice([1, len(self.undo)])):
            if self.undo:
                self.script.poke(*self.undo.pop())

    def clear(self):
        """Zeroes a block."""
        blocks = len(self.script.region) // BLOCK
        if blocks:
            self.script.put(self.dice.randrange(blocks), bytes(BLOCK))

    def add(self):
        for _ in range(self.dice.choice([1, 1, 3, 20])):
            self.script.add(good_telegram(self.dice))

    def add_some(self):
        self.script.add(making.some_telegram(self.dice, self.dice.random() < 0.9))

    def read(self):
        blocks = len(self.script.region) // BLOCK
        block = self.dice.choice([self.dice.randrange(blocks + 1), self.dice.randrange(blocks + 1), self.dice.choice(NUMBERS)])
        slot = self.dice.choice([self.dice.randrange(SLOTS + 1), self.dice.randrange(SLOTS + 1), self.dice.choice(NUMBERS)])
        self.script.read(block, slot)

    def verify(self):
        self.script.verify()

    def one(self):
        """One operation or some."""
        chances = {self.damage: 6, self.count: 3, self.fit: 6, self.repair: 8, self.clear: 0.3, self.add: 14, self.add_some: 8,
                   self.read: 16, self.verify: 12}
        self.dice.choices(list(chances), chances.values())[0]()


def by_dice(dice):
    """A script of a region of 0 to 8 blocks, seldom of another length."""
    length = BLOCK * dice.randrange(9)
    if dice.random() < 0.1:
        length = dice.randrange(LONGEST + 1)
    script = Script(length)
    dealer = Dealer(script, dice)
    for _ in range(dice.randrange(20, 120)):
        dealer.one()
    script.verify()
    script.read_all()
    return script
