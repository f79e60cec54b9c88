"""The modes, which say how standard sends behave, and those that cases are drawn in.

In the mode `rendezvous` no send is buffered, in the mode `buffered` each standard one is. In a mode `slots:K` a standard send is buffered as
it is issued where its sender then has fewer than K buffered sends that are not matched, and it stays what it was then.
"""

import re

MODES = RENDEZVOUS, BUFFERED = 'rendezvous', 'buffered'

MOST_SLOTS = 65536
SLOTS = re.compile('slots:([0-9]{1,5})')
# Whether there are modes `slots:K`. A program that has none of them is compared with a model that has none either (`--two-modes` of the
# runs that compare a program).
KNOWN = {'slots'}
# Of so many cases that stand side by side one is in a mode of slots, and so many such modes come in turn.
SLOTS_EVERY, SLOTS_DRAWN = 5, 4


def slots_of(mode):
    """How many slots each sender has in a mode; None where that isn't one of slots."""
    found = SLOTS.fullmatch(mode) if KNOWN else None
    return int(found[1]) if found and int(found[1]) <= MOST_SLOTS else None


def is_mode(word):
    """Whether a word names a mode."""
    return word in MODES or slots_of(word) is not None


def is_turn_of_slots(turn):
    """Whether the case of a number is in a mode of slots."""
    return bool(KNOWN) and turn % SLOTS_EVERY == SLOTS_EVERY - 1


def by_turns(mode, turn):
    """The mode of the case of a number: now and then one of slots in place of the one that was drawn, with all else as it is drawn."""
    return f'slots:{turn // SLOTS_EVERY % SLOTS_DRAWN}' if is_turn_of_slots(turn) else mode


def know_modes(slots):
    """Has the model know modes of slots, or the modes `rendezvous` and `buffered` alone."""
    KNOWN.clear()
    KNOWN.update({'slots'} if slots else ())


def has_slots(chosen):
    """Whether the program has modes of slots by the words that a run was begun with: one that knows version 1 alone has none."""
    return not chosen.two_modes and chosen.version > 1
