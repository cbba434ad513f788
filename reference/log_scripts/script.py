"""A script: operations on a region of a log, and what the program should print for each."""

from typing import NamedTuple

import log
from log import BLOCK, COUNT_AT, SLOTS
from log_scripts import kinds
from refusals import outcome

LONGEST = 4096   # the program's region
ROW = 32


def rows_changed(before, after):
    """A line for each row that is not what it was."""
    if before == after:
        return b""
    return b"".join(b" %d %s\n" % (at, after[at:at + ROW].hex().encode("ascii")) for at in range(0, len(after), ROW)
                    if before[at:at + ROW] != after[at:at + ROW])


def told(what, value, refusal):
    """The line of an operation that may be refused."""
    return b"%s refused %d\n" % (what, refusal) if refusal is not None else b"%s %s\n" % (what, value)


class Change(NamedTuple):
    """A single byte changed in a good region, or changed back: the region as it was, how full its block was, where in it, and which
    bits."""
    what: str
    before: bytes
    state: str
    at: int
    bits: int


class Script:
    """Operations on a region, each with what it prints; and the kinds of them that were met."""

    def __init__(self, length):
        self.steps, self.kinds = [], set()
        self.change = None   # what the last poke was, if it was that
        self.new(length)

    def step(self, given, line, before):
        self.steps.append((given, line + rows_changed(before, self.region)))

    def new(self, length):
        self.region = bytearray(length)
        self.step(b"N" + length.to_bytes(2, "big"), b"new %d\n" % length, self.region)

    def poke(self, place, value):
        before = bytes(self.region)
        if place < len(before):
            self.region[place] = value
        self.step(b"P" + place.to_bytes(2, "big") + bytes([value]), b"poke\n", before)
        self.kinds.add(("poke", "beyond" if place >= len(before) else "same" if before[place] == value else "inside"))
        self.note_change(before, place)

    def note_change(self, before, place):
        """Whether a poke has changed a byte of a good region, or changed it back."""
        last, self.change = self.change, None
        if log.verify(before) == log.Verified(None, None) and self.region != before:
            number, at = divmod(place, BLOCK)
            block = log.block_at(before, number)
            self.change = Change("changed", before, kinds.filled(block), at, block[at] ^ self.region[place])
        elif last and self.region == last.before:
            self.change = last._replace(what="changed back", bits=0)

    def add(self, telegram):
        before = bytes(self.region)
        place, refusal = outcome(log.add, self.region, telegram)
        self.step(b"A" + bytes([len(telegram)]) + telegram, told(b"add", place and b"%d %d" % place, refusal), before)
        self.kinds.update(kinds.of_add(before, telegram, place, refusal))
        if refusal is None:
            self.change = None
        return place

    def read(self, block, slot):
        telegram, refusal = outcome(log.read_back, self.region, block, slot)
        given = b"R" + block.to_bytes(8, "big") + slot.to_bytes(8, "big")
        self.step(given, told(b"read", telegram and telegram.hex().encode("ascii"), refusal), self.region)
        self.kinds.update(kinds.of_read(self.region, block, slot, refusal))

    def verify(self):
        verified = log.verify(self.region)
        at = b" at %d" % verified.block if verified.refusal == 20 else b""
        line = b"verify good\n" if verified.refusal is None else b"verify refused %d%s\n" % (verified.refusal, at)
        self.step(b"V", line, self.region)
        self.kinds.update(kinds.of_verify(self.region, verified))
        if self.change:
            what, _, state, at, bits = self.change
            self.kinds.add((what, state, at, verified.refusal or 0))
            self.kinds.update(("bit", at, bit, verified.refusal or 0) for bit in range(8) if bits == 1 << bit)

    # What several operations do.

    def put(self, number, block):
        """Makes a block what is wanted, byte by byte."""
        for at, byte in enumerate(block):
            if self.region[BLOCK * number + at] != byte:
                self.poke(BLOCK * number + at, byte)

    def read_around(self, number):
        """The first and the last slot of a block and the one behind; the first slot of each other block."""
        for slot in (0, SLOTS - 1, SLOTS):
            self.read(number, slot)
        for other in range(len(self.region) // BLOCK):
            if other != number:
                self.read(other, 0)

    def read_all(self):
        """Every used slot of a good block and the next one; the first and the last slot of a bad one, and the one behind; and the
        block behind the last."""
        blocks = log.blocks_of(self.region)
        for number, block in enumerate(blocks):
            for slot in range(block[COUNT_AT] + 1) if log.is_good(block) else (0, SLOTS - 1, SLOTS):
                self.read(number, slot)
        self.read(len(blocks), 0)
