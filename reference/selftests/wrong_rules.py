"""Wrong rules for states, wrong take-overs and wrong bounds are noticed by what the cases are made of."""

import line
import takeover
import takeover_cases
from cases.bound import AROUND_THE_BOUND, pieces_around_the_bound
from cases.states import FULL, states, states_to_judge
from layouts import AS_PRINTED, EXCHANGED, ORDERS
from selftests.checking import WRAP, same
from selftests.kept_states import meaning_of

CLAUSES = (line.no_more_held_than_places, line.begins_with_its_only_stx, line.zero_beyond, line.start_is_fed_less_held)


def without(clause):
    """The rule without one of its clauses."""
    return lambda state: all(other(state) for other in CLAUSES if other is not clause)


def overlooking(at):
    """The rule without a look at one place."""
    def well_formed(state):
        fitting = 0 if at >= state.length else 0x31 if at else 2
        return line.well_formed(state._replace(places=(*state.places[:at], fitting, *state.places[at + 1:])))
    return well_formed


def wrong_rules(places):
    """Rules for states of so many places that are not quite the right one."""
    yield from map(without, CLAUSES)
    yield from map(overlooking, range(places))
    yield lambda state: line.well_formed(state) and state.length < places
    yield lambda state: state.length <= places + 1 and without(line.no_more_held_than_places)(state)
    yield lambda state: line.well_formed(state) and state.start <= state.fed
    yield lambda state: line.well_formed(state) and state.length > 0
    yield lambda state: line.well_formed(with_more_places(state))


def with_more_places(state):
    """A state with 14 places more."""
    return state._replace(places=state.places + (0,) * 14)


def changed_field(name, change):
    """A reader with another count."""
    return lambda old, new: new._replace(**{name: change(getattr(new, name))})


# What an old state that is taken over might become and does not.
WRONG_READERS = [
    lambda old, new: line.fresh(old.order), lambda old, new: new._replace(order=AS_PRINTED),
    lambda old, new: new._replace(order=EXCHANGED), lambda old, new: new._replace(places=(0,) * 14 + old.places),
    lambda old, new: new._replace(places=old.places + (255,) * 14), lambda old, new: new._replace(places=old.places + old.places[:14]),
    lambda old, new: new._replace(places=old.places[:23] + (0,) * 15), lambda old, new: new._replace(fed=old.stray, stray=old.fed),
    lambda old, new: new._replace(length=len(bytes(old.places).rstrip(b"\0"))), lambda old, new: new._replace(start=old.fed),
    lambda old, new: new._replace(start=max(old.fed - old.length, 0)), lambda old, new: new._replace(start=(old.fed - 24) % WRAP),
    *(changed_field(name, lambda count: 0) for name in ("length", "fed", "stray", "start")),
    *(changed_field(name, lambda count: count + 1) for name in ("length", "fed", "stray", "start"))]

# What might be handed back of a refused one and is not.
WRONG_REFUSALS = [
    with_more_places, lambda old: line.fresh(old.order), lambda old: line.fresh(old.order, 24),
    lambda old: old._replace(length=min(old.length, 24)), lambda old: old._replace(start=(old.fed - old.length) % WRAP),
    lambda old: old._replace(order=AS_PRINTED), lambda old: old._replace(places=bytes(old.places[:old.length]).ljust(24, b"\0"))]


def changed_rules(dice):
    """Another rule for states, and another take-over, are noticed by the states of the cases."""
    judged = [state for order in ORDERS for state in (*states(dice, order), *states_to_judge(dice, order))]
    olds = [old for order in ORDERS for old in takeover_cases.states(dice, order)]
    for places, some in ((38, judged), (24, olds)):
        right = [line.well_formed(state) for state in some]
        for number, rule in enumerate(wrong_rules(places)):
            same("changed rules", (places, number, [rule(state) for state in some] != right), (places, number, True))
    taken = [(old, takeover.take_over(old)) for old in olds if line.well_formed(old)]
    refused = [old for old in olds if not line.well_formed(old)]
    for number, change in enumerate(WRONG_READERS):
        same("changed rules", (number, any(change(old, new) != new for old, new in taken)), (number, True))
    for number, change in enumerate(WRONG_REFUSALS):
        same("changed rules", (number, any(change(old) != old for old in refused)), (number, True))


def fed_with_bound(places, size, piece):
    """What a reader with so many places, which holds so many bytes, does with a piece."""
    state, *answer = line.feed(line.with_held(FULL[:size], size, 0, AS_PRINTED, places), piece)
    return meaning_of(state), answer


def changed_bounds():
    """A reader with any other bound is noticed by what the cases feed around the bound."""
    fed = [(size, piece) for size in AROUND_THE_BOUND for piece in pieces_around_the_bound(size)]
    for places in (24, 25, 36, 37, 39, 40, 255):
        noticed = any(fed_with_bound(places, *there) != fed_with_bound(38, *there) for there in fed if there[0] <= places)
        same("changed rules", (places, noticed), (places, True))
