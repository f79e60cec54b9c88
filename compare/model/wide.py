"""The wide walk, in the model: it takes a step for forced only if no other order of steps could take something from it.

A walk along decisions (policy.py) takes a match that names its source before a wait for any goes on, and the lowest rank's wait for any before
another's. So of a script with such waits, or in a mode of slots, it may lack an end. The wide walk goes along *wide decisions*:

- A step that is enabled is *quiet* if nothing that can come before it conflicts with it: a local step, unless it issues a standard send though
  its rank holds as many slots as the mode has, which has one at least; a release; a wake; a match whose receive names its source and whose
  send holds no slot. A wake by one of some handles or from a probe of any source is never quiet, nor is a match of a receive of any source.
- The first quiet step is forced, in the order in which the enabled ones are listed. If none is quiet, all enabled ones are candidates, in
  that order. If none is enabled, that is a leaf.
- Two steps *conflict* if they are matches that share a call; if one is a local step that lacks a slot, and the other a match that gives one
  back to that rank; or if they are no matches, and of one rank, where a release is of all ranks.

With sleep sets a candidate that was tried is asleep below the later ones of its choice. After each step, forced or chosen, those wake that
conflict with it in the world where it is taken. What is asleep isn't taken; if all that a run could take is asleep, it is a *dead way* and no
leaf. Choices are numbers among all candidates, also those that are asleep.

`check --ends` and the console's search go along the walk with sleep sets, `check --sample` draws from the one without (explorer.py, samples.py).

The *sharper* rule takes two more steps as quiet: a match that names its source and gives a slot back to a rank that has ended or is trapped,
which sends nothing any more; and the wake of a rank by the only request that is left of those that it waits for.

compare/rows/worked_wide.py has rows of it, and compare/runs/wide.py compares it with all interleavings of small scripts.
"""

from functools import partial

from model import policy
from model.debugger import enabled_steps, find_call, last_call, next_world, outcome, slots_used
from model.modes import slots_of
from model.policy import Choice, Forced, names_source
from model.walks import Run, candidates, leaves_behind, taken

# How a dead way ends.
ASLEEP = 'asleep'


# ---- slots

def lacks_slot(world, step):
    """Whether a local step issues a standard send though its rank holds all slots that it has, and has one at least."""
    slots, number = slots_of(world.mode), step.first
    if step.kind != 'local' or not slots or slots_used(world, number) < slots:
        return False
    after = next_world(world, step)
    call = find_call(after, last_call(after, number))
    return len(after.ranks[number].calls) > len(world.ranks[number].calls) and call.kind == 'send' and not call.synchronous


def slot_given_back(world, step):
    """The rank that gets a slot back by a step: the sender of a match whose send holds one; None if there is none."""
    if step.kind != 'match' or slots_of(world.mode) is None:
        return None
    sender, number = step.first
    return sender if number in world.ranks[sender].slots else None


# ---- wide decisions

def is_over(rank):
    """Whether a rank takes no step any more: it has ended, or is trapped."""
    return rank.mode == 'trapped' or rank.mode == 'running' and rank.rest is None


def requests_left(world, number):
    """How many requests are left of those that a rank waits for any of; none where it is at a probe, which may be told of more than is there."""
    rank = world.ranks[number]
    call = rank.calls[-1]
    if call.kind == 'probe':
        return 0
    return sum(handle is not None for handle in rank.handles[call.first:call.first + call.count])


def is_quiet(world, step, sharper=False):
    """Whether nothing that can come before an enabled step conflicts with it."""
    if step.kind == 'local':
        return not lacks_slot(world, step)
    if step.kind == 'match':
        sender = slot_given_back(world, step)
        return names_source(world, step) and (sender is None or sharper and is_over(world.ranks[sender]))
    return step.kind != 'wakeany' or sharper and requests_left(world, step.first) == 1


def wide_decision(world, sharper=False):
    """What a wide walk does in a world."""
    steps = enabled_steps(world)
    quiet = next((step for step in steps if is_quiet(world, step, sharper)), None)
    if quiet is not None:
        return Forced(quiet)
    return Choice(tuple(steps)) if steps else policy.Leaf(outcome(world))


# ---- conflicts

def shares_call(one, other):
    """Whether two steps are matches of one call."""
    return one.kind == other.kind == 'match' and (one.first == other.first or one.second == other.second)


def takes_slot_of(world, match, step):
    """Whether a step lacks the slot that a match gives back to its rank."""
    return lacks_slot(world, step) and slot_given_back(world, match) == step.first


def ranks_of(world, step):
    """The ranks that a step other than a match is of."""
    return set(range(len(world.ranks))) if step.kind == 'release' else {step.first}


def in_conflict(world, one, other):
    """Whether two different steps that are enabled in a world conflict."""
    if one.kind == 'match' and other.kind == 'match':
        return shares_call(one, other)
    if 'match' in (one.kind, other.kind):
        return takes_slot_of(world, *((one, other) if one.kind == 'match' else (other, one)))
    return bool(ranks_of(world, one) & ranks_of(world, other))


# ---- what sleeps

def is_asleep(asleep, step):
    """Whether a step is one of those that are asleep, if there are any; a run that has taken one itself has none any more."""
    return bool(asleep) and step in asleep


def falling_asleep(asleep, step):
    """What is asleep below the candidates after one that was tried."""
    return (*asleep, step)


def asleep_below(asleep, steps):
    """What is asleep below each candidate of a choice: what was before it, and what was tried there; None if it is asleep itself."""
    for step in steps:
        sleeps = asleep is None or is_asleep(asleep, step)
        yield None if sleeps else asleep
        if not sleeps:
            asleep = falling_asleep(asleep, step)


def still_asleep(run, step):
    """What is still asleep after a step of a run: what doesn't conflict with it."""
    return run.asleep and tuple(other for other in run.asleep if not in_conflict(run.world, step, other))


# ---- the walk

def passed(run, step, *choice):
    """The run after a step, which has a number if it was chosen among candidates."""
    return taken(run, step, *choice)._replace(asleep=still_asleep(run, step))


def awake(run, steps):
    """The runs after the candidates of a choice that are awake; one that was tried is asleep below the later ones."""
    for number, (step, asleep) in enumerate(zip(steps, asleep_below(run.asleep, steps))):
        if asleep is not None:
            yield passed(run._replace(asleep=asleep), step, number)


def awake_or_not(run, steps):
    """The runs after all candidates of a choice, each with what is asleep there; what has taken a step that is asleep has None."""
    for number, (step, asleep) in enumerate(zip(steps, asleep_below(run.asleep, steps))):
        yield passed(run._replace(asleep=asleep), step, number)


def is_dead(run, decided):
    """Whether all that a run could take is asleep."""
    if isinstance(decided, policy.Leaf):
        return False
    return all(is_asleep(run.asleep, step) for step in (decided.steps if isinstance(decided, Choice) else [decided.step]))


def followed(run, sharper=False):
    """A run as far as its steps are forced and awake and its fuel lasts, and what is decided there: a dead way ends."""
    decided = wide_decision(run.world, sharper)
    while run.fuel and isinstance(decided, Forced) and not is_asleep(run.asleep, decided.step):
        run = passed(run, decided.step)
        decided = wide_decision(run.world, sharper)
    return run, policy.Leaf(ASLEEP) if run.fuel and is_dead(run, decided) else decided


def followed_asleep(run):
    """A run as far as its steps are forced, awake or not, and its fuel lasts, and what is decided there: where pieces are cut."""
    while isinstance(decided := wide_decision(run.world), Forced) and run.fuel:
        run = passed(run._replace(asleep=None) if is_asleep(run.asleep, decided.step) else run, decided.step)
    return run, decided


def wide_walk(world, fuel, sharper=False):
    """The leaves of the wide walk from a world, of so many steps at most."""
    return leaves_behind(Run(world, fuel), candidates, partial(followed, sharper=sharper))


def ways_behind(begun, sharper=False):
    """The leaves of the runs with sleep sets behind one, and its dead ways, which end `asleep`."""
    return leaves_behind(begun, awake, partial(followed, sharper=sharper))


def wide_ways(world, fuel, sharper=False):
    """The same from a world, of so many steps at most."""
    return ways_behind(Run(world, fuel), sharper)
