"""What the self tests have in common: one check, and telegrams, records and lines to check."""

import sys

import line
import long_telegrams
import making
import second_60
import telegrams
from layouts import AS_PRINTED, ORDERS
from refusals import outcome
from telegrams import Setting

STX, ETX = b"\x02", b"\x03"
LF_CR, CR_LF = b"\n\r", b"\r\n"
WRAP = line.WRAP
SETTINGS = [Setting(control, advance, order) for control in (False, True) for advance in (False, True) for order in (None, *ORDERS)]

counts = {}


def same(group, got, wanted):
    """One check: counts it, or stops."""
    counts[group] = counts.get(group, 0) + 1
    if got != wanted:
        print(f"failed in {group}: got {got!r}, wanted {wanted!r}")
        sys.exit(1)


# --- telegrams, records and lines ---

def read(telegram, control=True, order=AS_PRINTED):
    """A record, or the number."""
    record, number = outcome(telegrams.read_telegram, telegram, control, order)
    return number if record is None else record


def framed(inner):
    return STX + inner + ETX


def swapped(telegram, control=True):
    """A telegram with the last two bytes between STX and ETX in the other order, where there are two."""
    inner = telegram[1:-1] if control else telegram
    if len(inner) < 2:
        return telegram
    inner = inner[:-2] + inner[-1:] + inner[-2:-1]
    return telegram[:1] + inner + telegram[-1:] if control else inner


def good_record(dice):
    """A good record, now and then one with second 60."""
    return (second_60.good_by_dice if dice.random() < 0.2 else making.good_record)(dice)


def any_record(dice):
    """A record, good or not, now and then one with second 60."""
    return (second_60.any_by_dice if dice.random() < 0.2 else making.any_record)(dice)


def random_line(dice, order=AS_PRINTED):
    """A damaged line of an order, now and then one of telegrams with second 60, now and then with some of the other order, now and
    then with a long one behind them."""
    some = second_60.some_telegram if dice.random() < 0.2 else making.some_telegram
    captured = making.random_line(dice, making.in_order(some, order) if dice.random() < 0.9 else making.in_any_order(some))
    return captured + (long_telegrams.some_telegram(dice, order) if dice.random() < 0.2 else b"")
