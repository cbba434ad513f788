"""Taking over a reader's state that was kept from before the bound was raised."""

from line import PLACES, check_state, fresh
from refusals import outcome

OLD_PLACES = 24   # the most bytes that were held at that time


def take_over(old):
    """The reader that goes on where the old state stands: the same but for more places, which are zero. 15 where the old state is not
    well formed at its own bound."""
    check_state(old)
    return old._replace(places=old.places + (0,) * (PLACES - OLD_PLACES))


def answer_of(old):
    """The whole answer: the refusal, if any; the reader, which beside a refusal is a fresh one of the same order; the old state as it
    was."""
    reader, refusal = outcome(take_over, old)
    return refusal, reader or fresh(old.order), old
