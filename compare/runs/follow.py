"""Decisions, breakpoints and runs: what must hold of them on walks of the model, told in other words than compare/model/policy.py does.

    python3 compare/runs/follow.py             300 walks of scripts of all kinds and of worked rows, in all modes, and 150 of scripts with
                                               waits for any, and 75 of scripts with many sends, in modes of slots
    python3 compare/runs/follow.py --broken    faults of the model (policy_faults.py, waitany_faults.py), each of which these walks must notice

Behind each step of a walk it is checked that the decision is what the calls, the match sets and the ranks' places say, that every
step of it can be taken, and that it is a leaf exactly where no step is enabled. At some of these places a copy of the debugger runs,
with breakpoints drawn at random: it must make the steps that the decisions say one by one, stop where the first cause of them stands,
and keep the steps that a trail keeps; and behind that it runs back, from one hit to the one before, to the start. What hits
a step is told by the texts of `show` and the worlds of the trail alone. The status is 0 where all of that holds, and was seen.
"""

import os
import sys
from collections import Counter
from itertools import chain
from random import Random
from typing import NamedTuple, Optional
from unittest import mock

sys.path.insert(0, os.path.dirname(os.path.dirname(os.path.abspath(__file__))))

from cases.walks import USUAL, trace_lines
from faults import waitany_faults
from faults.policy_faults import breakages, late_breakages, late_breakages_of_2
from model import debugger, policy
from model.debugger import Debugger, Step, eligible, enabled_steps, find_call, free_calls, next_world, rank_state
from model.language import read_script
from model.policy import (BREAK, CHOICE, FULL, LEAF, MAX, START, Breaks, ChangeBreak, Choice, Condition, Forced, HandleBreak, Leaf, LineBreak, MatchBreak,
                          RankBreak, Stop)
from model.policy_words import decision_text, stop_text
from rows import worked_slots, worked_waitany
from rows.worked_runs import RUNS
from runs import driving
from runs.order import CHOSEN, LATER, all_calls, all_walks, steps_due

KINDS = CHOSEN + LATER + ('trails', 'messages')
# Worlds with more calls are not looked at, and runs are no longer than so many steps.
MOST_CALLS = 40
LONGEST_RUN = 60
MUST_MEET = (
    'worlds', 'forced local', 'forced release', 'forced wake', 'forced match', 'choice of one', 'choice of more', 'choice of receives',
    'leaf done', 'leaf leftovers', 'leaf deadlock', 'leaf trap', 'match passed over', 'match behind a release', 'runs', 'runs back', 'undone kept',
    'undone dropped', 'stop leaf', 'stop choice', 'stop full', 'stop max', 'stop break', 'stop start', 'line by local', 'line by wake',
    'line by release', 'rank by local', 'rank by wake', 'rank by release', 'change by local', 'change by wake', 'match by match', 'two hits', 'break at the last step',
    'break at the last depth', 'break before a leaf', 'break at the start', 'leaf at the last step', 'places', 'choice of one wake',
    'choice of wakes', 'wakes of two ranks', 'wake before any source', 'line by wakeany', 'change by wakeany', 'handle by local',
    'handle by wake', 'handle by wakeany', 'runs on', 'match of one passed', 'wake of one passed', 'break behind one', 'another call of a handle')


def place_of(rank):
    """The line that a rank is at, as `show` tells it; None where it is at none."""
    word, *line = rank_state(rank).split()
    return int(line[0]) if word == 'at' else None


def matches_of(world):
    """All matches of two free calls that are eligible, sought among all pairs of them."""
    free = [call_id for number in range(len(world.ranks)) for call_id, _ in free_calls(world, number)]
    return {(one, two) for one in free for two in free if eligible(world, one, two)}


def ending_of(world):
    """The word of how a world ended."""
    states = [rank_state(rank).split()[0] for rank in world.ranks]
    if 'trapped' in states:
        return 'trap'
    if 'blocked' in states:
        return 'deadlock'
    return 'leftovers' if any(rank.free for rank in world.ranks) else 'done'


def due(world):
    """The decision as the ranks' places, the calls and the match sets say it; of a leaf its first word alone."""
    running = [number for number, rank in enumerate(world.ranks) if place_of(rank) is not None]
    if running:
        return Forced(Step('local', min(running)))
    others = steps_due(world)
    wakes = sorted(step.first for step in others if step.kind == 'wake')
    if Step('release') in others:
        return Forced(Step('release'))
    if wakes:
        return Forced(Step('wake', wakes[0]))
    pairs = sorted((two, one) for one, two in matches_of(world))
    named = [(two, one) for two, one in pairs if find_call(world, two).other is not None]
    if named:
        return Forced(Step('match', named[0][1], named[0][0]))
    by_handles = sorted((step.first, step.second) for step in others if step.kind == 'wakeany')
    if by_handles:
        lowest = by_handles[0][0]
        return Choice(tuple(Step('wakeany', lowest, place) for number, place in by_handles if number == lowest))
    return Choice(tuple(Step('match', one, two) for two, one in pairs)) if pairs else Leaf(ending_of(world))


def steps_of(decided):
    """The steps that somebody may take who follows a decision."""
    return {Forced: lambda: (decided.step,), Choice: lambda: decided.steps, Leaf: tuple}[type(decided)]()


def decided_wrong(world):
    """What the decision of a world says otherwise than it must."""
    decided, wanted = policy.decision(world), due(world)
    said = Leaf(decided.outcome.split()[0]) if isinstance(decided, Leaf) else decided
    wrong = [] if said == wanted else [f'decided {decision_text(said)}, and not {decision_text(wanted)}']
    if any(next_world(world, step) is None for step in steps_of(decided)):
        wrong.append(f'a step of {decision_text(decided)} is not enabled')
    if isinstance(decided, Leaf) != (not enabled_steps(world)):
        wrong.append(f'{decision_text(decided)}, though steps are enabled or are not')
    return wrong if steps_of(decided) or isinstance(decided, Leaf) else [*wrong, 'a choice of nothing']


def met_in(world):
    """What a decision of a world may tell wrongly."""
    wanted = due(world)
    if isinstance(wanted, Leaf):
        return [f'leaf {wanted.outcome}']
    if isinstance(wanted, Choice) and wanted.steps[0].kind == 'wakeany':
        return met_in_wakes(world, wanted.steps)
    if isinstance(wanted, Choice):
        receives = len({step.second for step in wanted.steps})
        return ['choice of one' if len(wanted.steps) == 1 else 'choice of more'] + ['choice of receives'] * (receives > 1)
    others = any(step.kind == 'match' for step in enabled_steps(world)) and wanted.step.kind != 'match'
    return [f'forced {wanted.step.kind}'] + ['match passed over'] * others + ['match behind a release'] * (
        others and wanted.step.kind == 'release')


def met_in_wakes(world, wakes):
    """The same where a rank goes on by one of some handles."""
    others = enabled_steps(world)
    return (['choice of one wake' if len(wakes) == 1 else 'choice of wakes']
            + ['wakes of two ranks'] * any(step.kind == 'wakeany' and step.first != wakes[0].first for step in others)
            + ['wake before any source'] * any(step.kind == 'match' for step in others))


def line_of_call(worlds, call_id):
    """The line that the rank of a call was at as it made it."""
    before = next(place for place, world in enumerate(worlds) if len(world.ranks[call_id.rank].calls) > call_id.number) - 1
    return place_of(worlds[before].ranks[call_id.rank])


# Whether an operator holds of a value that is the number, above it, and below it.
FITTING = {
    '==': (True, False, False), '!=': (False, True, True), '<': (False, False, True), '<=': (True, False, True),
    '>': (False, True, False), '>=': (True, True, False)}


def is_hit(stop, worlds, step):
    """Whether the step hits a breakpoint, between the last two worlds."""
    before, after = worlds[-2], worlds[-1]
    if isinstance(stop, MatchBreak):
        calls = step[1:] if step.kind == 'match' else ()
        return any(line_of_call(worlds, call_id) == stop.line and is_meant(stop, call_id.rank) for call_id in calls)
    if isinstance(stop, ChangeBreak):
        ranks = list(zip(before.ranks, after.ranks))[stop.rank:stop.rank + 1]
        cells = [pair for was, now in ranks for pair in list(zip(was.cells, now.cells))[stop.cell:stop.cell + 1]]
        return any(was != now for was, now in cells)
    if isinstance(stop, HandleBreak):
        return held_by(before, stop) != held_by(after, stop)
    moved = {'match': [], 'release': range(len(after.ranks))}.get(step.kind, [step.first])
    if isinstance(stop, RankBreak):
        return any(number == stop.rank and not rank_state(after.ranks[number]).startswith('blocked') for number in moved)
    return any(place_of(after.ranks[number]) == stop.line and is_meant(stop, number) and fits(stop, after.ranks[number]) for number in moved)


def is_meant(stop, number):
    """Whether a breakpoint is of a rank, or of any."""
    return stop.rank is None or stop.rank == number


def fits(stop, rank):
    """Whether what must hold of a rank holds, told by whether the cell lies below the number, at it or above."""
    if stop.condition is None:
        return True
    cells = rank.cells[stop.condition.cell:stop.condition.cell + 1]
    return any(FITTING[stop.condition.operator][(cell > stop.condition.value) - (cell < stop.condition.value)] for cell in cells)


def held_by(world, stop):
    """What the handle of a breakpoint holds, as `show` lists it; nothing where it isn't there."""
    lines = [line for line in debugger.show(world, 0, 0).split('\n') if line.startswith('handles')]
    return [word for line in lines[stop.rank:stop.rank + 1] for word in line.split()[1:][stop.handle:stop.handle + 1]]


def hits_of(there, worlds, step):
    """The numbers of the breakpoints that the step hits between the last two worlds."""
    return sorted(number for number, stop in there.items() if is_hit(stop, worlds, step))


class Path(NamedTuple):
    """Where forced steps lead: the steps, the worlds from the first one of the trail on, and what stands at the end, if it was seen."""
    steps: list
    worlds: list
    ending: Optional[str]


def step_due(world, is_on):
    """The one step that a run takes, one that runs on past single candidates or another; None where it takes none."""
    steps = steps_of(due(world))
    return steps[0] if len(steps) == 1 and (is_on or isinstance(due(world), Forced)) else None


def path_of(walked, longest, is_on=False):
    """The steps of a run from where a debugger is, so many at most."""
    steps, worlds = [], list(walked.worlds)
    while (step := step_due(worlds[-1], is_on)) is not None:
        if len(steps) == longest:
            return Path(steps, worlds, None)
        steps.append(step)
        worlds.append(next_world(worlds[-1], step))
    wanted = due(worlds[-1])
    return Path(steps, worlds, LEAF if isinstance(wanted, Leaf) else CHOICE)


def stop_due(path, there, depth, most):
    """Where a run must stop that goes along a path: the nearest cause of all, and of those at one place the first in their order."""
    hits = [hits_of(there, path.worlds[:depth + made + 1], step) for made, step in enumerate(path.steps, 1)]
    hit = next((made for made, numbers in enumerate(hits, 1) if numbers), None)
    bounds = [(hit, 0, BREAK), (len(path.steps) if path.ending else None, 1, path.ending),
              (debugger.MOST_STEPS - depth, 2, FULL), (most, 3, MAX)]
    steps, _, cause = min(bound for bound in bounds if bound[0] is not None)
    return Stop(steps, cause, hits[steps - 1][0] if cause == BREAK else None), hits[:steps]


def kept_due(walked, steps):
    """The steps that a trail keeps that takes these steps."""
    kept, depth = list(walked.steps), walked.depth
    for step in steps:
        if kept[depth:depth + 1] != [step]:
            kept[depth:] = [step]
        depth += 1
    return kept


def copy_of(walked):
    copied = Debugger.__new__(Debugger)
    copied.worlds, copied.steps = list(walked.worlds), list(walked.steps)
    return copied


def breaks_for(random, walked):
    """Breakpoints at random, mostly on lines and cells that are there, in places that were taken and freed; and what they are."""
    ranks = walked.world.ranks
    lines = sorted({place_of(rank) or 0 for world in walked.worlds for rank in world.ranks})
    breaks, there, wrong = Breaks(), {}, []
    for _ in range(random.choice([0, 1, 1, 2, 3, 5])):
        line = random.choice(lines) + random.choice([0, 0, 0, 1, 2])
        cell = ChangeBreak(random.randint(0, len(ranks)), random.randint(0, min(5, len(ranks[0].cells))))
        handle = HandleBreak(random.randint(0, len(ranks)), random.randint(0, min(5, len(ranks[0].handles))))
        rank = random.choice([None, None, None, random.randint(0, len(ranks))])
        stop = random.choice([
            LineBreak(line, rank, condition_for(random, walked)), LineBreak(line), MatchBreak(line, rank), MatchBreak(line), cell, cell, handle, handle,
            RankBreak(random.randint(0, len(ranks)))])
        place = min(set(range(64)) - set(there))
        wrong += [] if breaks.add(stop) == place else ['the place of a breakpoint']
        there[place] = stop
        if random.random() < 0.3:
            gone = random.randint(0, 3)
            wrong += [] if breaks.remove(gone) == (there.pop(gone, None) is not None) else ['a breakpoint that is removed']
    return breaks, there, wrong


def condition_for(random, walked):
    """A condition about a value that stands somewhere in the trail, or one beside it, or none."""
    rank = random.choice(random.choice(walked.worlds).ranks)
    if not rank.cells or random.random() < 0.4:
        return None
    cell = random.randrange(len(rank.cells))
    return Condition(cell, random.choice(tuple(FITTING)), rank.cells[cell] + random.choice([-1, 0, 0, 1]))


def ran_wrong(random, walked, met):
    """What a run from here does otherwise than it must, and what runs back behind it do."""
    breaks, there, wrong = breaks_for(random, walked)
    ran, most, is_on = copy_of(walked), random.choice([0, 1, 2, 3, 5, 10, LONGEST_RUN]), random.random() < 0.5
    path = path_of(walked, most + 1, is_on)
    most = random.choice([most, most, max(0, len(path.steps) - random.choice([0, 0, 1]))])
    room = random.choice([LONGEST_RUN + 1, LONGEST_RUN + 1, len(path.steps), random.randint(0, 6)])
    with mock.patch.object(debugger, 'MOST_STEPS', walked.depth + room):
        wanted, hits = stop_due(path, there, walked.depth, most)
        said = (policy.run_on if is_on else policy.run)(ran, breaks, most)
    steps = path.steps[:wanted.steps]
    if said != wanted:
        wrong.append(f'ran to {stop_text(said, ran.depth)}, and not {stop_text(wanted, walked.depth + wanted.steps)}')
    if ran.worlds != path.worlds[:walked.depth + wanted.steps + 1]:
        wrong.append('a run to another world')
    if ran.steps != kept_due(walked, steps):
        wrong.append('other steps behind a run')
    met.update(met_by(walked, path, wanted, hits, most, room))
    met.update(met_on(walked, path, wanted) if is_on else [])
    return wrong or back_wrong(ran, breaks, there, met)


def met_by(walked, path, stop, hits, most, room):
    """What a run may do wrongly."""
    found = ['runs', f'stop {stop.cause}']
    undone = walked.steps[walked.depth:]
    taken = path.steps[:stop.steps]
    if taken and undone:
        found.append('undone kept' if undone[:len(taken)] == taken[:len(undone)] else 'undone dropped')
    if stop.cause == BREAK:
        found += ['break at the last step'] * (stop.steps == most) + ['break at the last depth'] * (stop.steps == room)
        found += ['break before a leaf'] * (path.ending == LEAF and stop.steps == len(path.steps))
        found += ['two hits'] * (len(hits[-1]) > 1)
    return found + ['leaf at the last step'] * (stop.cause == LEAF and stop.steps in (most, room))


def met_on(walked, path, stop):
    """What a run on may do wrongly at choices of a single candidate."""
    singles = [steps_of(due(world)) for world in path.worlds[walked.depth:walked.depth + stop.steps] if isinstance(due(world), Choice)]
    is_behind = stop.cause == BREAK and isinstance(due(path.worlds[walked.depth + stop.steps - 1]), Choice)
    return ['runs on', *(f'{"match" if step.kind == "match" else "wake"} of one passed' for step, in singles)] + ['break behind one'] * is_behind


def back_wrong(ran, breaks, there, met):
    """What runs back to the start do otherwise than they must."""
    worlds, steps, wrong = list(ran.worlds), list(ran.steps), []
    hits = [hits_of(there, worlds[:place + 2], step) for place, step in enumerate(steps[:ran.depth])]
    met.update(f'{kind_of(there[numbers[0]])} by {step.kind}' for numbers, step in zip(hits, steps) if numbers)
    firsts = [(there[numbers[0]], place) for place, numbers in enumerate(hits) if numbers and isinstance(there[numbers[0]], HandleBreak)]
    met['another call of a handle'] += any(['-'] not in (held_by(worlds[place], stop), held_by(worlds[place + 1], stop)) for stop, place in firsts)
    while ran.depth and not wrong:
        depth = ran.depth
        hit = [place for place in range(depth) if hits[place]]
        to = hit[-1] if hit else 0
        wanted = Stop(depth - to, BREAK, hits[to][0]) if hit else Stop(depth, START)
        said = policy.run_back(ran, breaks)
        met.update(['runs back', f'stop {wanted.cause}'] + ['break at the start'] * (wanted.cause == BREAK and not to))
        if said != wanted:
            wrong.append(f'ran back to {stop_text(said, ran.depth)}, and not {stop_text(wanted, to)}')
        if (ran.worlds, ran.steps) != (worlds[:to + 1], steps):
            wrong.append('another world or other steps behind a run back')
    if not wrong and policy.run_back(ran, breaks) != Stop(0, START):
        wrong.append('a run back from the start')
    return wrong


def kind_of(stop):
    return {LineBreak: 'line', ChangeBreak: 'change', MatchBreak: 'match', HandleBreak: 'handle', RankBreak: 'rank'}[type(stop)]


def places_wrong(random, met):
    """What breakpoints that come and go do otherwise than numbered places."""
    breaks, there, wrong = Breaks(), {}, []
    for _ in range(random.choice([10, 100, 200])):
        if random.random() < 0.7:
            free = sorted(set(range(64)) - set(there))
            stop = LineBreak(random.randint(1, 9))
            wrong += [] if breaks.add(stop) == (free[0] if free else None) else ['a place']
            met['places'] += not free
            there.update({number: stop for number in free[:1]})
        else:
            number = random.choice([0, 1, 5, 62, 63, 64, 65, 999999999])
            wrong += [] if breaks.remove(number) == (there.pop(number, None) is not None) else ['a place that is freed']
    wrong += [] if {number: breaks.get(number) for number in range(70) if breaks.get(number)} == there else ['what stands in a place']
    return wrong


def walks_of_rows(seed, rows):
    """Walks of the scripts of worked rows, as `walks` gives them."""
    for number, (script, mode) in enumerate(dict.fromkeys((row.script, row.mode) for row in rows)):
        text = script.encode()
        lines = trace_lines(Random(f'follow/rows/{seed}/{number}'), text, 40, USUAL, mode)
        yield text, Debugger(read_script(text), mode), [line.encode('latin-1') for line in lines]


def every_walk(seed, count):
    """Those of rows, so many walks, and then those of version 2."""
    return chain(walks_of_rows(seed, RUNS), all_walks(seed, count, KINDS), walks_of_rows(seed, worked_waitany.RUNS + worked_slots.RUNS))


def check(seed, count, to_end=True):
    """Checks so many walks, or those up to the first that is wrong; gives what was met, and what is wrong."""
    met, wrong = Counter(), []
    for number, (_, walked, lines) in enumerate(every_walk(seed, count)):
        if wrong and not to_end:
            break
        random = Random(f'follow/{seed}/{number}')
        rate = random.choice([0.02, 0.1, 0.3])
        wrong += places_wrong(random, met)
        for line in lines:
            if not (walked.answer(line) or '').startswith('ok') or len(all_calls(walked.world)) > MOST_CALLS:
                continue
            found = decided_wrong(walked.world)
            met.update(['worlds', *met_in(walked.world)])
            if not found and random.random() < rate and walked.depth < 150:
                found = ran_wrong(random, walked, met)
            wrong += [f'walk {number}, depth {walked.depth}: {what}' for what in found]
    return met, wrong


def faults():
    """All faults of the model that must be noticed."""
    return [*breakages(), *late_breakages(), *late_breakages_of_2(), *waitany_faults.decision_faults(), *waitany_faults.hit_faults()]


def main():
    chosen = driving.rule_parser(__doc__, 'walks', 300, 'another seed gives other walks (1)').parse_args()
    return driving.holds(chosen, check, MUST_MEET, faults)


if __name__ == '__main__':
    sys.exit(main())
