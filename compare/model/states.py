"""What is told of the runs behind a state, each once, in the model: in what ways they end, with how many of them end so, and the first of each.

The runs are those of the wide walk in which nothing sleeps (wide.py), in its order. By definition they are listed one after another
(`of_leaves`). The *search* comes to each state once: it tells of all runs behind a state how they end, and keeps that by what tells states
apart that may go on otherwise (`key`). Where it has come to as many states as it may, or to the first run that ends as it is asked, it stops,
and tells of the first runs of the walk.

`check --outcomes` tells of it (outcomes.py), the step that decides is sought by it (deciding.py), and so are a deadlock and a trap in the
console. compare/runs/outcomes.py compares both ways.
"""

from collections import Counter
from typing import NamedTuple

from model import walks, wide
from model.collectives import calls_of_open_rounds
from model.complete import left
from model.debugger import find_call, last_call, partner, received_writes
from model.policy import Forced
from model.walks import CUT, ending
from model.worlds import CallId

# How many states a search comes to, and how many it keeps: at most, and where no number is asked for.
MOST_COME_TO, MOST_STATES, USUAL_STATES = 20000000, 16000000, 1000000


class Way(NamedTuple):
    """How many runs end in one way, and the choices of the first of them."""
    runs: int
    first: tuple


class Told(NamedTuple):
    """What is told of runs: the way of each outcome, in the order of the first run of each, and how many steps the longest of them has; one
    that is cut has one more than it was given fuel for."""
    ways: dict
    longest: int


class Found(NamedTuple):
    """The way of each outcome, in the order of the first run of each, and whether there are more runs."""
    ways: dict
    more: bool


def word_of(outcome):
    """How a run ends, without the calls and ranks of that."""
    return outcome.split()[0]


# ---- by definition

def of_leaves(leaves, more=False):
    """What is found of runs that are listed one after another."""
    ways = {}
    for leaf in leaves:
        way = ways.get(leaf.outcome, Way(0, leaf.choices))
        ways[leaf.outcome] = way._replace(runs=way.runs + 1)
    return Found(ways, more)


def up_to_first(leaves, stops_at):
    """What is found of runs that are listed one after another, up to the first that ends by one of some words; there are more where some are
    behind that."""
    place = next((place for place, leaf in enumerate(leaves) if word_of(leaf.outcome) in stops_at), len(leaves))
    return of_leaves(leaves[:place + 1], place + 1 < len(leaves))


# ---- what tells states apart

def unread(rank):
    """The cells that are written before anything reads them: those of the receive on which a rank is blocked."""
    # (reading: those of a collective or a probe aren't counted here, since nothing is said of them)
    if rank.mode != 'blocked' or rank.calls[-1].kind != 'recv':
        return ()
    return (rank.calls[-1].cell, *(rank.calls[-1].status or ()))


def variables(rank):
    """The variables of a rank that something may read."""
    if rank.rest is None or rank.mode == 'trapped':
        return ()
    return tuple(None if cell in unread(rank) else value for cell, value in enumerate(rank.cells))


def activity(rank):
    """Whether a rank runs, is blocked or is trapped, and by what."""
    return rank.mode, rank.trap


def call_count(rank):
    return len(rank.calls)


def asked_by_call(call):
    """What a call asks for, and not where it stands in the script."""
    return call._replace(line=0)


def place_of(call):
    """Where the statement begins that issued a call, which an end tells."""
    return call.line.place


def free(rank):
    """What the calls of a rank ask for that are free, and where they were issued."""
    return tuple((number, place_of(rank.calls[number]), asked_by_call(rank.calls[number])) for number in rank.free)


def asked_in_round(call):
    """What a collective call asks for and gives. Where it stands and what it writes counts for the one alone on which a rank is blocked."""
    return (call.kind,) if call.kind == 'barrier' else (call.kind, call.root, call.operation, call.values)


def open_collectives(world):
    """The collective calls of each rank, in their order, of those rounds that some rank hasn't left: who comes to a round later gets what was given
    then. How many rounds there were isn't asked: these calls tell how far a rank is ahead."""
    return tuple(tuple(map(asked_in_round, calls)) for calls in calls_of_open_rounds(world))


def will_write(world, call_id):
    """The cells that a call writes when its rank goes on, with their values."""
    return tuple(received_writes(world, call_id))


def waited_for(world, call_id):
    """What is told of a call that its rank waits for, or may come to wait for: what it is where it isn't paired, and what it will write."""
    call, is_paired = find_call(world, call_id), partner(world, call_id) is not None
    return is_paired, None if is_paired else (call.kind, asked_by_call(call)), will_write(world, call_id)


def requests(world, number):
    """The requests of a rank, each with what is told of its call."""
    return tuple(None if handle is None else (handle, waited_for(world, CallId(number, handle))) for handle in world.ranks[number].handles)


def blocked_on(world, number):
    """Where the call was issued on which a rank is blocked, what is told of it, and of that which it waits for."""
    rank = world.ranks[number]
    if rank.mode != 'blocked':
        return ()
    targets = [rank.calls[-1].target] if rank.calls[-1].kind == 'wait' else []
    calls = [last_call(world, number), *(CallId(number, target) for target in targets if target is not None)]
    return place_of(rank.calls[-1]), tuple(waited_for(world, call_id) for call_id in calls)


def rank_key(world, number):
    """What is told of a rank."""
    rank = world.ranks[number]
    return left(rank), variables(rank), activity(rank), call_count(rank), free(rank), requests(world, number), blocked_on(world, number)


def mode_of(world):
    return world.mode


def key(world):
    """What tells a state apart from others whose runs may end otherwise."""
    return mode_of(world), tuple(rank_key(world, number) for number in range(len(world.ranks))), open_collectives(world)


# ---- what is told of runs

def ended(outcome):
    """What is told where no step is taken any more."""
    return Told({outcome: Way(1, ())}, int(outcome == CUT))


def behind_step(told):
    """What is told of the runs that take a step, and then go on so."""
    return told._replace(longest=told.longest + 1)


def chosen(told, number):
    """What is told of the runs whose choices have this number in front."""
    return told._replace(ways={outcome: way._replace(first=(number, *way.first)) for outcome, way in told.ways.items()})


def joined(told, later):
    """What is told of runs, and of later ones."""
    ways = dict(told.ways)
    for outcome, way in later.ways.items():
        ways[outcome] = ways[outcome]._replace(runs=ways[outcome].runs + way.runs) if outcome in ways else way
    return Told(ways, max(told.longest, later.longest))


NO_RUNS = Told({}, 0)


# ---- the search

class Kept(NamedTuple):
    """What was told of the runs behind a state, with the fuel that there was."""
    fuel: int
    told: Told


def serves(kept, fuel):
    """Whether what was told of a state is so with this fuel, too."""
    return kept.fuel == fuel or kept.told.longest <= min(kept.fuel, fuel)


def put(kept, most, place, found):
    """Keeps what was told of a state. Where so many are kept, the half whose longest runs are the shortest goes first, and with it what has as
    long ones."""
    if kept and len(kept) >= most:
        longest = sorted(it.told.longest for it in kept.values())[(len(kept) - 1) // 2]
        for other in [other for other, it in kept.items() if it.told.longest <= longest]:
            del kept[other]
    if len(kept) < most:
        kept[place] = found


def decided(world):
    """What comes next."""
    return wide.wide_decision(world)


class Search:
    """A search for how runs end: what it has kept, how many states it has come to, how often it came to one again with what fuel, whether it
    has stopped, and whether it has left out runs. It stops behind the first run that ends by one of some words."""

    def __init__(self, states=USUAL_STATES, most=MOST_COME_TO, stops_at=()):
        self.states, self.most, self.stops_at = states, most, stops_at
        self.kept, self.come_to, self.again, self.has_stopped, self.left_out = {}, 0, Counter(), False, False

    def behind(self, world, fuel):
        """What is told of the runs behind a world; what it asks for is told of those behind another one."""
        place = key(world)
        if (kept := self.kept.get(place)) is not None:
            self.again['same fuel' if kept.fuel == fuel else 'other fuel' if serves(kept, fuel) else 'fuel that it does not serve'] += 1
            if serves(kept, fuel):
                return kept.told
        if self.come_to == self.most:
            self.has_stopped = self.left_out = True
            return NO_RUNS
        self.come_to += 1
        told = yield from self.told_behind(world, fuel)
        self.keep(place, Kept(fuel, told))
        return told

    def told_behind(self, world, fuel):
        """The same, where nothing that was kept serves."""
        next_one = decided(world)
        outcome = ending(next_one, fuel)
        if outcome is not None:
            self.has_stopped = self.has_stopped or word_of(outcome) in self.stops_at
            return ended(outcome)
        if isinstance(next_one, Forced):
            return behind_step((yield self.behind(walks.next_world(world, next_one.step), fuel - 1)))
        told = NO_RUNS
        for number, step in enumerate(next_one.steps):
            told = joined(told, chosen(behind_step((yield self.behind(walks.next_world(world, step), fuel - 1))), number))
            if self.has_stopped:
                self.left_out = self.left_out or number + 1 < len(next_one.steps)
                break
        return told

    def keep(self, place, kept):
        """Keeps what is told of all runs behind a state."""
        if not self.has_stopped:
            put(self.kept, self.states, place, kept)


def answered(asking):
    """What is told at last where each one that is asked for may ask for another, however deep."""
    asked, said = [asking], None
    while asked:
        try:
            asked.append(asked[-1].send(said))
            said = None
        except StopIteration as over:
            asked.pop()
            said = over.value
    return said


def searched(begun, states=USUAL_STATES, most=MOST_COME_TO, stops_at=()):
    """What a search finds of the runs behind one, up to the first that ends by one of some words."""
    search = Search(states, most, stops_at)
    told = answered(search.behind(begun.world, begun.fuel))
    return Found(told.ways, search.left_out)
