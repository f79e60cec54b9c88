"""All ends that a small script has, whatever steps are taken in whatever order, beside those that a report of a program lists.

It knows nothing of a walk that lets sleep what was tried: worlds are tried breadth first, step by step, where two that differ in the order of
their match sets alone count as one. Scripts are of both versions and in all kinds of modes; without a wait for any, and in no mode of slots, no
end may come twice. compare/runs/ends.py uses it, and compare/runs/outcomes.py, which asks too whether some interleaving from a world ends well.
"""

from random import Random
from typing import NamedTuple, Optional

from cases.ends_cases import RACES
from cases.explore_cases import kind_of, script_of
from cases.small_cases import SMALL, SMALL_OF_2, SMALL_OF_SLOTS
from model import debugger
from model.complete import end_of, key
from model.debugger import first_world, next_world, outcome
from model.explorer import MOST_FUEL, Asked, tells_all
from model.language import Fault, read_script
from model.modes import MODES
from model.report_lines import NoReport, must_be, read_report
from model.run_words import BadChoices, run_by
from model.walks import Run

# A script is small where it has so many worlds at most, none behind more steps than so many.
MOST_WORLDS, MOST_STEPS = 1000, 70
# As many runs of each piece as there may be.
ALL = 65536
# Kinds of scripts, and their modes, in turn.
IN_TURN = ((SMALL | RACES, MODES), (SMALL_OF_2, (*MODES, 'slots:1')), (SMALL | SMALL_OF_SLOTS, ('slots:1', 'slots:2')))


class Small(NamedTuple):
    """A script in a mode: its text, its first world, its ends, each a world that is told by what tells worlds apart, with its outcome, and
    whether each of these must come once."""
    name: str
    text: bytes
    mode: str
    start: object
    ends: dict
    is_once: bool

    def asked(self):
        """How a program is asked for all of them: by some number of choices, the same each time."""
        split = Random(self.name).randrange(4)
        return Asked(self.mode, runs=ALL, split=split, ends=True, complete=True)


def ends_of(start):
    """The ends behind a world, with their outcomes; None where there are too many worlds, or a run doesn't end soon."""
    level, seen, ends = {key(start): start}, 0, {}
    for _ in range(MOST_STEPS):
        seen, after = seen + len(level), {}
        if seen > MOST_WORLDS:
            return None
        for place, world in level.items():
            steps = debugger.enabled_steps(world)
            if not steps:
                ends[place] = outcome(world)
            for reached in (next_world(world, step) for step in steps):
                after.setdefault(key(reached), reached)
        level = after
        if not level:
            return ends
    return None


class EndingWell:
    """Whether some interleaving from a world ends done or with leftovers; each world is looked at once."""

    def __init__(self):
        self.known = {}

    def __call__(self, world):
        place = key(world)
        if place not in self.known:
            self.known[place] = self.looked_at(world)
        return self.known[place]

    def looked_at(self, world):
        """The same of a world that isn't known."""
        steps = debugger.enabled_steps(world)
        if not steps:
            return outcome(world).split()[0] in ('done', 'leftovers')
        return any([self(next_world(world, step)) for step in steps])


def small(seed, number, kinds, mode) -> Optional[Small]:
    """The script of a number in a mode; None where it isn't small, or is none."""
    random = Random(f'every-end/{seed}/{number}')
    name = kind_of(random, kinds)
    text = script_of(random, kinds[name])
    try:
        script = read_script(text)
    except Fault:
        return None
    start = first_world(script, mode)
    ends = ends_of(start)
    return None if ends is None else Small(f'{name}-{seed}-{number}-{mode}', text, mode, start, ends, tells_all(script, mode, is_wide=False))


def told_of(script, result):
    """What is wrong with the report that lists all ends of a script: the first thing; None where nothing is."""
    try:
        must_be(result.errors == b'', f'standard error has {result.errors[:80]!r}')
        return ends_wrong(script, read_report(result.output), result.status)
    except NoReport as why:
        return str(why)


def ends_wrong(script, told, status):
    """The same of what the report says."""
    must_be(not told.more, 'there are more')
    choices = [leaf.choices for leaf in told.leaves]
    must_be(all(one < other for one, other in zip(choices, choices[1:])), 'leaves are not in the order of their choices')
    reached = {}
    for leaf in told.leaves:
        try:
            run = run_by(Run(script.start, MOST_FUEL), leaf.choices, ends=True)
        except BadChoices as bad:
            return f'{leaf.choices} is no run, by its choice {bad.place}'
        must_be(run.outcome == leaf.outcome, f'{leaf.choices} ends {run.outcome}, and not {leaf.outcome}')
        place = key(end_of(script.start, run.steps))
        must_be(place not in reached or not script.is_once, f'{leaf.choices} ends as {reached.get(place)} does')
        reached[place] = leaf.choices
    missing = script.ends.keys() - reached.keys()
    must_be(not missing, f'no leaf ends {script.ends[next(iter(missing), None)] if missing else ""}')
    must_be(reached.keys() <= script.ends.keys(), 'a leaf ends where no interleaving does')
    must_be(all(script.ends[place] == told.leaves[choices.index(at)].outcome for place, at in reached.items()), 'an end has another outcome')
    is_bad = any(end.split()[0] in ('deadlock', 'trap') for end in script.ends.values())
    must_be(status == is_bad, f'status {status}')
    return None


def smalls(seed, number):
    """A script in some modes, as far as it is small."""
    kinds, modes = IN_TURN[number % len(IN_TURN)]
    found = [small(seed, number, kinds, mode) for mode in modes]
    return [one for one in found if one is not None]
