"""Runs on their way, and the leaves that they come to along what comes next in each world, in the model.

The *walk* lists all runs along decisions (policy.py). The wide walk (wide.py) has another function for what comes next, and lets some of
what was tried sleep; both go by `leaves_behind`.
"""

from typing import NamedTuple, Optional

from model import policy
from model.debugger import next_world
from model.policy import Forced, decision

CUT = 'cut'


class Leaf(NamedTuple):
    """Where a run ended: the numbers of the candidates that it took, its steps, its outcome, or `cut`, and the lines that explain it."""
    choices: tuple
    steps: tuple
    outcome: str
    explained: tuple = ()


class Run(NamedTuple):
    """A run on its way; its steps are None at the start, else (those before, the last one).

    What is asleep are the steps that the walk of ends doesn't take behind it; it is None where the run has taken one of these itself.
    """
    world: object
    fuel: int
    choices: tuple = ()
    steps: Optional[tuple] = None
    asleep: Optional[tuple] = ()


def taken(run, step, *choice):
    """The run behind a step, which has a number where it was chosen among candidates."""
    return Run(next_world(run.world, step), run.fuel - 1, run.choices + choice, (run.steps, step), run.asleep)


def listed(steps):
    """The steps of a run, the first one first."""
    found = []
    while steps is not None:
        steps, step = steps
        found.append(step)
    return tuple(reversed(found))


def followed(run):
    """A run as far as its steps are forced and its fuel lasts, and what is decided there."""
    while isinstance(decided := decision(run.world), Forced) and run.fuel:
        run = taken(run, decided.step)
    return run, decided


def candidates(run, steps):
    """The runs behind a choice, one after the other; each is begun when it is asked for."""
    for number, step in enumerate(steps):
        yield taken(run, step, number)


def ending(decided, fuel):
    """How a run ends where this is decided and so much fuel is left; None where it goes on."""
    if isinstance(decided, policy.Leaf):
        return decided.outcome
    return None if fuel else CUT


def leaves_behind(begun, behind, follow=followed):
    """The leaves of the runs behind one, by their choices, each sought when it is asked for; `behind` gives the runs behind a choice, and
    `follow` a run as far as nothing is to be chosen, with what is decided there."""
    ahead = [iter([begun])]
    while ahead:
        found = next(ahead[-1], None)
        if found is None:
            ahead.pop()
            continue
        run, decided = follow(found)
        ended = ending(decided, run.fuel)
        if ended is None:
            ahead.append(behind(run, decided.steps))
        else:
            yield Leaf(run.choices, listed(run.steps), ended)


def walk(world, fuel):
    """The leaves of all runs from a world, of so many steps at most."""
    return leaves_behind(Run(world, fuel), candidates)
