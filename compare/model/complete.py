"""All interleavings of a small script, the walk that sleeps, and what is wrong with a walk or a report beside all interleavings.

compare/runs/complete.py checks it on random scripts.
"""

from collections import Counter
from itertools import combinations, islice
from typing import NamedTuple, Optional

from model import debugger, policy, walks
from model.debugger import next_world, outcome, step_text
from model.walks import CUT, Leaf
from model.wide import shares_call

# A script is small where it has so many worlds at most, and so many leaves; its runs are followed so far.
MOST_WORLDS, MOST_LEAVES, MOST_STEPS = 800, 150, 60


def left(rank):
    """What is left to run of a rank: the statements, each of which is one object of the script."""
    rest, places = rank.rest, []
    while rest is not None:
        statement, rest = rest
        places.append(id(statement))
    return tuple(places)


def key(world):
    """What tells worlds apart, but for the order of their match sets."""
    return tuple((left(rank), *rank[1:]) for rank in world.ranks), frozenset(Counter(world.records).items())


def apart(one, other):
    """Whether either of two steps leaves the other one enabled."""
    return not shares_call(one, other)


class Tried(NamedTuple):
    """All interleavings: the outcome of each end, and the number of steps of the longest run, which is None where that is too long."""
    ends: dict
    longest: Optional[int]


class TooMany(Exception):
    """A script has more worlds than are tried."""


def joined_wrong(one, other, behind):
    """What is wrong with two steps that are enabled in one world, by the worlds behind each."""
    first, second = next_world(behind[one], other), next_world(behind[other], one)
    if first is None or second is None or key(first) != key(second):
        return [f'{step_text(one)} beside {step_text(other)}']
    return []


def beside_wrong(world, behind, met):
    """What is wrong with the steps that are enabled in a world, two and two."""
    wrong = []
    for one, other in combinations(behind, 2):
        if apart(one, other):
            wrong += joined_wrong(one, other, behind)
        else:
            met['matches of one call'] += 1
    return wrong


def tried(start, met, wrong_beside=beside_wrong):
    """All interleavings from a world, and what is wrong with steps beside one another, as it is told of each world."""
    level, ends, seen, wrong, depth = {key(start): start}, {}, 0, [], 0
    while level and depth <= MOST_STEPS:
        seen, after = seen + len(level), {}
        if seen > MOST_WORLDS:
            raise TooMany
        for place, world in level.items():
            behind = {step: next_world(world, step) for step in debugger.enabled_steps(world)}
            met.update(step.kind for step in behind)
            if not behind:
                ends[place] = outcome(world)
            wrong += wrong_beside(world, behind, met)
            for reached in behind.values():
                other = after.setdefault(key(reached), reached)
                met['worlds that sets alone tell apart'] += other.records != reached.records
        level, depth = after, depth + 1
    return Tried(ends, None if level else depth - 1), wrong


# ---- the walk that sleeps


def asleep_walk(world, fuel, asleep=(), choices=(), steps=()):
    """The leaves of a walk that takes two steps that share no call in one order alone: what was tried is asleep below later candidates."""
    decided = walks.decision(world)
    ended = walks.ending(decided, fuel)
    if ended is not None:
        yield Leaf(choices, steps, ended)
    elif isinstance(decided, policy.Forced):
        yield from asleep_walk(next_world(world, decided.step), fuel - 1, asleep, choices, (*steps, decided.step))
    else:
        for number, step in enumerate(decided.steps):
            if not is_asleep(asleep, step):
                yield from asleep_walk(next_world(world, step), fuel - 1, asleep, (*choices, number), (*steps, step))
            asleep = falling_asleep(asleep, step)


def is_asleep(asleep, step):
    """Whether a candidate is passed over."""
    return step in asleep


def falling_asleep(asleep, step):
    """What is asleep below the candidates behind one."""
    return (*asleep, step)


# ---- a walk against all interleavings


class Walked(NamedTuple):
    """The leaves of a walk, and the key of the world that each leads to."""
    leaves: list
    keys: list


def is_whole(leaves):
    """Whether no leaf is cut."""
    return not any(leaf.outcome == CUT for leaf in leaves)


def end_of(start, steps):
    """Where steps lead."""
    for step in steps:
        start = next_world(start, step)
    return start


def walked(leaves, start):
    """A walk with its ends."""
    found = list(islice(leaves, MOST_LEAVES + 1))
    if len(found) > MOST_LEAVES:
        raise TooMany
    return Walked(found, [key(end_of(start, leaf.steps)) for leaf in found])


def ends_wrong(name, found, every):
    """What is wrong with the leaves of a walk that is nowhere cut: an end that is missing, one that is none, or another outcome."""
    there = {place: leaf.outcome for place, leaf in zip(found.keys, found.leaves)}
    wrong = [f'{name} has no run that ends {every.ends[place]}' for place in every.ends.keys() - there.keys()]
    wrong += [f'{name} has a run that is none: {there[place]}' for place in there.keys() - every.ends.keys()]
    return wrong + [f'{name} says {there[place]} for {every.ends[place]}' for place in there.keys() & every.ends.keys()
                    if there[place] != every.ends[place]]


def is_enough(every, fuel):
    """Whether no run has more steps than there is fuel."""
    return every.longest is not None and every.longest <= fuel


def walk_wrong(name, found, every, fuel):
    """What is wrong with a walk."""
    whole, enough = is_whole(found.leaves), is_enough(every, fuel)
    if whole != enough:
        return [f'{name} is {"whole" if whole else "cut"} with fuel {fuel}, and the longest run has {every.longest} steps']
    return ends_wrong(name, found, every) if whole else []


def report_wrong(found, every, fuel):
    """What is wrong with a report that says that it is whole: no leaf is cut and there are no more."""
    if found.more or not is_whole(found.leaves):
        return []
    missing = set(every.ends.values()) - {leaf.outcome for leaf in found.leaves}
    wrong = [f'a whole report does not list {outcome}' for outcome in sorted(missing)]
    return wrong + ([] if is_enough(every, fuel) else ['a whole report of runs that are longer than its fuel'])


def twice_wrong(found):
    """What is wrong with a walk that must have no end twice, cut or not."""
    twice = [leaf.outcome for place, leaf in zip(found.keys, found.leaves) if found.keys.count(place) > 1]
    return [f'an end twice: {twice[0]}'] if twice else []


def others_wrong(found, plain):
    """What is wrong with a walk that sleeps if it has a run that the same walk hasn't where nothing sleeps."""
    return [] if set(found.leaves) <= set(plain.leaves) else ['a run that only the walk has that sleeps']


def asleep_wrong(found, plain):
    """What is wrong with a walk that sleeps beside the one that doesn't: an end twice, cut or not, or a run that the other hasn't."""
    return twice_wrong(found) + others_wrong(found, plain)
