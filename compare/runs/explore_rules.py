"""The explorer: what must hold of its reports and of witnesses, told in other words than compare/model/explorer.py does.

    python3 compare/runs/explore_rules.py             300 random scripts (explore_cases.py), in all modes, and 75 with waits for any
    python3 compare/runs/explore_rules.py --broken    faults of the model (explore_faults.py, piece_faults.py, waitany_faults.py), each of which
                                                      these must notice

Of each script it is checked that the choices of its leaves rise and none begins another's, that each list is the very next behind
that before it, by how many candidates there are where the steps are followed anew, and that the last one is the last where it is said
so; that the steps of a leaf and its outcome are what its choices lead to; that a report of fewer runs is the beginning of one of more,
that one of less fuel has the same runs, cut, and one from a place along the steps the leaves behind that place; that no more is
explored than is asked for; that text and status say what the report does; that pieces are the beginnings of the leaves' choices, a part
has the leaves that begin so, and the texts of all parts joined are that of the whole; and that witnesses are accepted, and changed ones
refused for what was changed. What is enabled and decided, and how a run ended, is told by the ranks' places, the calls and the texts of
`show` (follow.py). The status is 0 where all of that holds, and was seen.
"""

import os
import re
import sys
from collections import Counter
from itertools import groupby
from os.path import commonprefix
from random import Random
from typing import NamedTuple
from unittest import mock

sys.path.insert(0, os.path.dirname(os.path.dirname(os.path.abspath(__file__))))

from cases.explore_cases import Beside, kind_of, kinds_by, script_of
from cases.kinds import BESIDE
from faults import waitany_faults
from faults.explore_faults import breakages
from faults.piece_faults import report_breakages
from model import explorer, policy, walks
from model.debugger import CallId, Debugger, Step, first_world, free_calls, next_world, rank_state, step_of, step_text
from model.explorer import MOST_SPLIT, NO_SUCH_STEP, NOT_STUCK, WRONG_BLOCKED, Asked, Refusal, Report, Witness
from model.language import Fault, read_script
from model.modes import MODES, by_turns
from model.policy import Choice
from model.remembered import steps_remembered
from model.walks import CUT, Leaf, Run
from runs import driving
from runs.follow import due

RUNS = (5, 20, 40, 40)
FUELS = (0, 4, 12, 25, 40, 60, 80, 100, 100, 120)
# The witnesses of so many leaves of a script are looked at.
MOST_WITNESSES = 4
NUMBER = r'(?:0|[1-9][0-9]*)'
LEAF_LINE = re.compile(fr'leaf ({NUMBER}) \[((?:{NUMBER}(?: {NUMBER})*)?)\] (\S.*)')
WITNESS_LINE = re.compile(fr'witness ({NUMBER}): (.*)')
LAST_LINE = re.compile(fr'leaves ({NUMBER}) more (yes|no)')
MUST_MEET = (
    'scripts', 'done', 'leftovers', 'deadlock', 'trap', 'cut', 'cut at a choice', 'cut at the start', 'ended as the fuel did', 'more',
    'no more', 'just so many', 'one candidate', 'more than ten candidates', 'two receives', 'choices of another length',
    'cut by less fuel', 'not cut by less fuel', 'a place behind a choice', 'a place with undone steps', 'accepted',
    'another order accepted', 'refused 32', 'refused 33', 'refused 34', 'refused behind the end', 'status 0', 'status 1',
    'status 0 though more', 'witness lines', 'several pieces', 'a piece of several leaves', 'a run that ends before its last choice',
    'more of a piece', 'more of one piece alone', 'up to a leaf that is not the last', 'up to the last leaf', 'one wake by a handle',
    'wakes by a handle')


class Path(NamedTuple):
    """Where choices lead: the steps, the number of steps before each choice, the candidates there, the last world, what is due there.

    It is whole where no choice is missing and none is left over.
    """
    steps: tuple
    places: tuple
    candidates: tuple
    world: object
    due: object
    is_whole: bool


def path_of(world, choices, fuel):
    """What candidates of these numbers lead to, in so many steps at most."""
    steps, places, candidates = [], [], []
    while not isinstance(wanted := due(world), policy.Leaf) and len(steps) < fuel:
        if isinstance(wanted, Choice):
            if len(places) == len(choices) or choices[len(places)] >= len(wanted.steps):
                break
            step = wanted.steps[choices[len(places)]]
            places.append(len(steps))
            candidates.append(wanted.steps)
        else:
            step = wanted.step
        steps.append(step)
        world = next_world(world, step)
    is_whole = len(places) == len(choices) and (isinstance(wanted, policy.Leaf) or len(steps) == fuel)
    return Path(tuple(steps), tuple(places), tuple(candidates), world, wanted, is_whole)


def blocked_of(world):
    """The calls that ranks are blocked on, as `show` tells these ranks."""
    states = [(number, rank_state(rank).split()) for number, rank in enumerate(world.ranks)]
    return tuple(CallId(number, int(state[1])) for number, state in states if state[0] == 'blocked')


def ending_text(path):
    """How a path ended, with the calls or the ranks."""
    if not isinstance(path.due, policy.Leaf):
        return CUT
    if path.due.outcome == 'trap':
        states = [f'{number} {rank_state(rank).split()[1]}' for number, rank in enumerate(path.world.ranks) if rank.mode == 'trapped']
    elif path.due.outcome == 'deadlock':
        states = map(str, blocked_of(path.world))
    else:
        states = [str(call_id) for number in range(len(path.world.ranks)) for call_id, _ in free_calls(path.world, number)]
    return ' '.join([path.due.outcome, *states])


def next_choices(choices, candidates):
    """How the list of choices begins that is the very next one, and has only zeros behind that; None where there is none."""
    for place in reversed(range(len(choices))):
        if choices[place] + 1 < len(candidates[place]):
            return choices[:place] + (choices[place] + 1,)
    return None


def follows(choices, beginning):
    """Whether choices are the first ones that begin so."""
    return choices[:len(beginning)] == beginning and not any(choices[len(beginning):])


class Seen(NamedTuple):
    """A script in a mode: the report of so many runs with so much fuel, and the path of each of its leaves, followed anew."""
    script: object
    mode: str
    runs: int
    fuel: int
    found: Report
    paths: list

    def report(self, runs, fuel=None):
        return explorer.report(self.script, self.mode, runs, self.fuel if fuel is None else fuel)


def seen_of(script, mode, runs, fuel):
    """What is seen of a script."""
    found = explorer.report(script, mode, runs, fuel)
    start = first_world(script, mode)
    return Seen(script, mode, runs, fuel, found, [path_of(start, leaf.choices, fuel) for leaf in found.leaves])


def order_wrong(seen):
    """What is wrong with which leaves there are."""
    leaves, paths = seen.found.leaves, seen.paths
    if not leaves or not follows(leaves[0].choices, ()):
        return ['the first leaf']
    for one, other, path in zip(leaves, leaves[1:], paths):
        if not one.choices < other.choices or other.choices[:len(one.choices)] == one.choices:
            return [f'{one.choices} before {other.choices}']
        beginning = next_choices(one.choices, path.candidates)
        if beginning is None or not follows(other.choices, beginning):
            return [f'{other.choices} right behind {one.choices}']
    if seen.found.more != (next_choices(leaves[-1].choices, paths[-1].candidates) is not None):
        return [f'more {seen.found.more}']
    return [f'{len(leaves)} leaves and more'] if seen.found.more and len(leaves) < seen.runs else []


def leaves_wrong(seen):
    """What is wrong with the leaves that there are."""
    wrong = []
    for leaf, path in zip(seen.found.leaves, seen.paths):
        if not path.is_whole or leaf.steps != path.steps:
            wrong.append(f'the steps of {leaf.choices}')
        elif leaf.outcome != ending_text(path):
            wrong.append(f'{leaf.choices} ended {leaf.outcome}, and not {ending_text(path)}')
    return wrong


def met_in(seen):
    """What the leaves may tell wrongly."""
    yield 'more' if seen.found.more else 'no more'
    for leaf, path in zip(seen.found.leaves, seen.paths):
        yield leaf.outcome.split()[0]
        if leaf.outcome == CUT and isinstance(path.due, Choice):
            yield 'cut at a choice'
        if leaf.outcome == CUT and not leaf.steps:
            yield 'cut at the start'
        for steps in path.candidates:
            yield from ['one candidate'] * (len(steps) == 1) + ['more than ten candidates'] * (len(steps) > 10)
            yield from ['two receives'] * (steps[0].kind == 'match' and len({step.second for step in steps}) > 1)
            yield from [f'{"one wake" if len(steps) == 1 else "wakes"} by a handle'] * (steps[0].kind == 'wakeany')
    if len({len(leaf.choices) for leaf in seen.found.leaves}) > 1:
        yield 'choices of another length'


def fewer_wrong(random, seen, met):
    """What reports of fewer runs say otherwise than the beginning of the one that there is, and some of more."""
    leaves, more = seen.found
    wrong = []
    for runs in {1, len(leaves) - 1, len(leaves), len(leaves) + 1, random.randint(1, seen.runs)} - {0}:
        if more and runs > len(leaves):
            continue
        met['just so many'] += runs == len(leaves) and not more
        if seen.report(runs) != Report(leaves[:runs], more or runs < len(leaves)):
            wrong.append(f'a report of {runs} runs')
    return wrong


def is_lazy(random, seen):
    """Whether no step is taken that doesn't lead to one of so many leaves, or to the next one."""
    leaves, more = seen.found
    if more and len(leaves) == 1:
        return True
    runs = random.randint(1, len(leaves) - more)
    sought = [leaf.steps for leaf in leaves[:runs + 1]]
    most = sum(len(steps) - len(commonprefix([before, steps])) for before, steps in zip([(), *sought], sought))
    steps = []

    def taken(world, step):
        steps.append(step)
        return next_world(world, step)

    with mock.patch.object(walks, 'next_world', taken):
        seen.report(runs)
    return len(steps) <= most


def shortened(leaf, path, fuel):
    """What a leaf is where there is so much fuel."""
    if len(path.steps) <= fuel:
        return leaf
    return Leaf(leaf.choices[:sum(place < fuel for place in path.places)], path.steps[:fuel], CUT)


def less_fuel_wrong(random, seen, met):
    """What reports with less fuel say otherwise than the same runs, cut."""
    wrong = []
    lengths = [len(leaf.steps) for leaf in seen.found.leaves]
    for fuel in {0, random.choice(lengths), random.choice(lengths) - 1, random.randint(0, max(lengths))} - {-1}:
        if fuel > seen.fuel:
            continue
        wanted = tuple(dict.fromkeys(shortened(leaf, path, fuel) for leaf, path in zip(seen.found.leaves, seen.paths)))
        met.update('not cut by less fuel' if leaf in seen.found.leaves else 'cut by less fuel' for leaf in wanted)
        met['ended as the fuel did'] += any(leaf.outcome != CUT and len(leaf.steps) == fuel for leaf in wanted)
        if seen.report(seen.runs, fuel) != Report(wanted, False):
            wrong.append(f'a report with fuel {fuel}')
    return wrong


def walked_to(random, seen, leaf, depth):
    """A debugger behind so many steps of a leaf, with some of the steps behind them undone, or none."""
    walked = Debugger(seen.script, seen.mode)
    for step in leaf.steps[:random.choice([depth, random.randint(depth, len(leaf.steps))])]:
        walked.take(step)
    walked.goto(depth)
    return walked


def place_wrong(random, seen, met):
    """What is explored otherwise from a place along the steps than the leaves behind it, which are without the choices before it."""
    leaf, path = random.choice(list(zip(seen.found.leaves, seen.paths)))
    depth = random.choice([len(leaf.steps), *path.places, random.randint(0, len(leaf.steps)), random.randint(0, len(leaf.steps))])
    chosen = sum(place < depth for place in path.places)
    behind = [other for other in seen.found.leaves if other.steps[:depth] == leaf.steps[:depth]]
    wanted = Report(tuple(other._replace(choices=other.choices[chosen:]) for other in behind), False)
    walked = walked_to(random, seen, leaf, depth)
    before = list(walked.worlds), list(walked.steps)
    met['a place behind a choice'] += chosen > 0
    met['a place with undone steps'] += depth < len(walked.steps)
    wrong = [] if explorer.explored(walked, seen.runs, seen.fuel - depth) == wanted else [f'what is explored from depth {depth}']
    return wrong + ([] if (walked.worlds, walked.steps) == before else ['a debugger that is not left as it was'])


def lines_due(found, witnesses):
    """What the lines of a report tell, one by one."""
    for number, leaf in enumerate(found.leaves):
        yield 'leaf', number, leaf.choices, leaf.outcome
        if witnesses and leaf.outcome.startswith(('deadlock', 'trap')):
            yield 'witness', number, leaf.steps
    yield 'leaves', len(found.leaves), found.more


def told_by(line):
    """What a line of a report tells; None where it is none."""
    if match := LEAF_LINE.fullmatch(line):
        return 'leaf', int(match[1]), tuple(map(int, match[2].split())), match[3]
    if match := LAST_LINE.fullmatch(line):
        return 'leaves', int(match[1]), match[2] == 'yes'
    if match := WITNESS_LINE.fullmatch(line):
        steps = tuple(step_of(step.encode().split()) for step in match[2].split(', '))
        return ('witness', int(match[1]), steps) if None not in steps and ', '.join(map(step_text, steps)) == match[2] else None
    return None


def is_bad(leaves):
    """Whether one of the leaves is a deadlock or a trap."""
    return any(leaf.outcome.startswith(('deadlock', 'trap')) for leaf in leaves)


def text_wrong(random, seen, text, met):
    """What a check writes, or its status, says otherwise than the report."""
    wrong, (leaves, more) = [], seen.found
    for runs in (random.randint(1, len(leaves)), len(leaves)):
        found, witnesses = Report(leaves[:runs], more or runs < len(leaves)), random.random() < 0.5
        said = explorer.answer(text, Asked(seen.mode, runs, seen.fuel, witnesses, split=0, traps=witnesses))
        wanted = int(is_bad(found.leaves))
        *lines, behind = said.output.decode().split('\n')
        if behind or [told_by(line) for line in lines] != list(lines_due(found, witnesses)):
            wrong.append('the text of a report')
        if (said.errors, said.status) != (b'', wanted):
            wrong.append('the status of a report')
        met.update([f'status {wanted}'] + ['witness lines'] * (b'witness' in said.output))
        met['status 0 though more'] += not wanted and is_bad(leaves)
    return wrong


def parts_due(leaves, split, runs):
    """The parts of a report that has all leaves: for each beginning of so many choices at most, the first leaves that begin so."""
    for _, behind in groupby(leaves, lambda leaf: leaf.choices[:split]):
        found = tuple(behind)
        yield Report(found[:runs], len(found) > runs)


def joined_texts(texts):
    """The text of a report whose parts have these: leaves are numbered on, and the last line is that of all."""
    count, lines, more = 0, [], 'no'
    for text in texts:
        *leaves, last = text.splitlines()
        for line in leaves:
            word, number, rest = re.fullmatch(r'(leaf|witness) (\d+)(.*)', line).groups()
            lines.append(f'{word} {int(number) + count}{rest}')
        count += int(last.split()[1])
        more = 'yes' if last.endswith('yes') else more
    return ''.join(f'{line}\n' for line in [*lines, f'leaves {count} more {more}'])


def up_to_bad_due(leaves, is_whole):
    """What a report has up to its first deadlock or trap, where it would have these leaves, and these are all or not."""
    good = [number for number, leaf in enumerate(leaves) if not is_bad(leaves[:number])]
    kept = leaves[:good[-1] + 1] if good else ()
    return Report(kept, not is_whole or len(kept) < len(leaves))


def pieces_wrong(random, seen, text, met):
    """What is wrong with the pieces by some number of choices, with their parts, and with what a check says of these."""
    split, runs, leaves = random.choice([1, 1, 2, random.randint(0, MOST_SPLIT)]), random.choice([1, 1, 2, 3, seen.runs]), seen.found.leaves
    parts = list(parts_due(leaves, split, runs))
    begun = Run(explorer.first_world(seen.script, seen.mode), seen.fuel)
    cut = list(explorer.pieces(begun, split))
    wrong = [] if [piece.choices for piece in cut] == list(dict.fromkeys(leaf.choices[:split] for leaf in leaves)) else [f'the pieces by {split}']
    if [explorer.part(piece, runs) for piece in cut] != parts:
        wrong.append(f'a part of the pieces by {split}')
    listed = tuple(leaf for found in parts for leaf in found.leaves)
    asked = Asked(seen.mode, runs, seen.fuel, random.random() < 0.5, split=split, until=random.random() < 0.5)
    is_whole = not any(found.more for found in parts)
    due_report = up_to_bad_due(listed, is_whole) if asked.until else Report(listed, not is_whole)
    said = explorer.answer(text, asked._replace(workers=random.randint(1, 16)))
    if said.output.decode() != explorer.report_text(due_report, explorer.witnesses_of(asked)) or said.status != is_bad(due_report.leaves):
        wrong.append(f'a check by {split}, {asked}')
    alone = [explorer.answer(text, asked._replace(until=False, piece=number)).output.decode() for number in range(len(cut))]
    if alone != [explorer.report_text(found, explorer.witnesses_of(asked._replace(until=False))) for found in parts]:
        wrong.append(f'the text of a part by {split}')
    one = random.randrange(len(parts))
    ended = explorer.answer(text, asked._replace(until=True, piece=one)).output.decode()
    if ended != explorer.report_text(up_to_bad_due(parts[one].leaves, not parts[one].more), explorer.witnesses_of(asked._replace(until=True))):
        wrong.append(f'piece {one} by {split} up to its first deadlock')
    if joined_texts(alone) != explorer.answer(text, asked._replace(until=False)).output.decode():
        wrong.append(f'the parts by {split}, joined')
    if explorer.answer(text, asked._replace(pieces=True)).output.decode() != f'pieces {len(parts)}\n':
        wrong.append(f'the number of pieces by {split}')
    met.update(met_in_pieces(leaves, split, parts, asked, due_report))
    return wrong


def met_in_pieces(leaves, split, parts, asked, told):
    """What pieces may tell wrongly."""
    yield from ['several pieces'] * (len(parts) > 1) + ['a piece of several leaves'] * any(len(found.leaves) > 1 for found in parts[1:])
    yield from ['a run that ends before its last choice'] * any(len(leaf.choices) < split for leaf in leaves)
    yield from ['more of a piece'] * any(found.more for found in parts)
    yield from ['more of one piece alone'] * (len(parts) > 1 and [found.more for found in parts].count(True) == 1)
    if asked.until and is_bad(told.leaves):
        yield 'up to a leaf that is not the last' if told.more else 'up to the last leaf'


def said_by_show(seen, steps, blocked):
    """What must be said of a witness, as trace words and `show` tell it."""
    walked = Debugger(seen.script, seen.mode)
    for place, step in enumerate(steps):
        if walked.answer(step_text(step).encode()) != f'ok {place + 1}':
            return Refusal(NO_SUCH_STEP, place)
    outcomes = [line for line in walked.answer(b'show').split('\n') if line.startswith('outcome deadlock')]
    if not outcomes:
        return Refusal(NOT_STUCK)
    return None if outcomes == [' '.join(['outcome deadlock', *map(str, blocked)])] else Refusal(WRONG_BLOCKED)


def absent_step(random, script):
    """A step that is never enabled."""
    ranks = script.ranks
    if script.version > 1 and random.random() < 0.3:
        return random.choice([Step('wakeany', ranks, 0), Step('wakeany', 0, script.handles), Step('wakeany', 0, 999999999)])
    return random.choice([Step('local', ranks), Step('wake', ranks), Step('match', CallId(0, 0), CallId(0, 0)),
                          Step('match', CallId(ranks, 0), CallId(0, 0)), Step('match', CallId(0, 999999999), CallId(0, 0))])


def with_other_steps(random, seen, steps, blocked):
    """A witness with other steps, with why it must be refused, if it must; where that hangs on the script, `show` says it."""
    place, other, absent = random.randrange(len(steps)), random.randrange(len(steps)), absent_step(random, seen.script)
    doubled, left_out, exchanged = steps[:place + 1] + steps[place:], steps[:place] + steps[place + 1:], list(steps)
    exchanged[place], exchanged[other] = steps[other], steps[place]
    for calls in (blocked, blocked[1:]):
        yield steps[:-1], calls, Refusal(NOT_STUCK)
        yield steps[:place], calls, Refusal(NOT_STUCK)
        yield (Step('wake', 0),) + steps, calls, Refusal(NO_SUCH_STEP, 0)
        yield (Step('wake', 0),) + steps[1:], calls, Refusal(NO_SUCH_STEP, 0)
        yield steps + (steps[place],), calls, Refusal(NO_SUCH_STEP, len(steps))
        yield steps[:place] + (absent,) + steps[place:], calls, Refusal(NO_SUCH_STEP, place)
        if steps[place].kind != 'local':
            yield doubled, calls, Refusal(NO_SUCH_STEP, place + 1)
    for others in (doubled, left_out, tuple(exchanged), tuple(sorted(steps, key=lambda step: step.kind != 'local'))):
        yield others, blocked, said_by_show(seen, others, blocked)


def with_other_calls(random, seen, steps, blocked):
    """A witness with other calls, which is refused for these."""
    there, more = random.choice(blocked), CallId(random.randint(0, seen.script.ranks), random.randint(0, 2))
    later = there._replace(number=there.number + 1)
    for calls in ((), blocked[:-1], blocked[1:], blocked[::-1], blocked + (there,), blocked + (more,), tuple(sorted(blocked + (more,))),
                  (later,), tuple(later if call == there else call for call in blocked)):
        if calls != blocked:
            yield steps, calls, Refusal(WRONG_BLOCKED)


def witness_rows(random, seen, leaf, path):
    """What may be taken for a witness of a leaf, with why it must be refused, if it must."""
    blocked = blocked_of(path.world)
    if not leaf.outcome.startswith('deadlock'):
        return [(path.steps, blocked, Refusal(NOT_STUCK)), (path.steps, (), Refusal(NOT_STUCK))]
    return [(path.steps, blocked, None), *with_other_steps(random, seen, path.steps, blocked),
            *with_other_calls(random, seen, path.steps, blocked)]


def trapped_in(world):
    """The ranks that trap in a world, each with its trap, as `show` tells them one by one."""
    states = [rank_state(rank).split() for rank in world.ranks]
    return tuple(f'{rank} {state[1]}' for rank, state in enumerate(states) if state[0] == 'trapped')


def witness_wanted(leaf, path):
    """The witness of a run, by the world that it has come to; None where that is neither a deadlock nor a trap."""
    ranks = trapped_in(path.world)
    if ranks:
        return Witness(path.steps, ranks, 'trap')
    return Witness(path.steps, blocked_of(path.world)) if leaf.outcome.startswith('deadlock') else None


def trap_rows(random, leaf, path):
    """What may be taken for a witness of a trap, with why it must be refused, if it must."""
    ranks, steps = trapped_in(path.world), path.steps
    if not ranks:
        return [(steps, ('0 assert',), Refusal(NOT_STUCK))] if leaf.outcome != 'cut' else []
    rank, name = ranks[0].split()
    other = random.choice([it for it in ('overflow', 'zero-divisor', 'bad-rank', 'bad-tag', 'bad-index', 'assert') if it != name])
    changed = [ranks[1:], ranks + ranks[:1], (f'{rank} {other}', *ranks[1:]), (f'{int(rank) + 1} {name}', *ranks[1:]), (*ranks, '16 assert')]
    return [(steps, ranks, None), *((steps, it, Refusal(WRONG_BLOCKED)) for it in changed), ((Step('wake', 0),) + steps, ranks, Refusal(NO_SUCH_STEP, 0)),
            (steps + (steps[-1],), ranks, Refusal(NO_SUCH_STEP, len(steps)))]


def witnesses_wrong(random, seen, met):
    """What is wrong with the witnesses of the leaves, and with what is said of them and of changed ones."""
    wrong = []
    for leaf, path in random.sample(list(zip(seen.found.leaves, seen.paths)), min(MOST_WITNESSES, len(seen.paths))):
        is_deadlock = leaf.outcome.startswith('deadlock')
        if explorer.witness(leaf) != witness_wanted(leaf, path):
            wrong.append(f'the witness of {leaf.choices}, {leaf.outcome}')
        for steps, calls, wanted in witness_rows(random, seen, leaf, path):
            said = explorer.verify(seen.script, seen.mode, steps, calls)
            if said != wanted:
                wrong.append(f'{said}, and not {wanted}, of {", ".join(map(step_text, steps))}: {" ".join(map(str, calls))}')
            met[f'refused {wanted.number}' if wanted else 'accepted'] += 1
            met['another order accepted'] += wanted is None and steps != path.steps
            met['refused behind the end'] += is_deadlock and wanted == Refusal(NO_SUCH_STEP, len(path.steps))
        for steps, ranks, wanted in trap_rows(random, leaf, path):
            said = explorer.verify(seen.script, seen.mode, steps, ranks, 'trap')
            if said != wanted:
                wrong.append(f'{said}, and not {wanted}, of {", ".join(map(step_text, steps))}: trap {" ".join(ranks)}')
            met[f'a trap refused {wanted.number}' if wanted else 'a trap accepted'] += 1
    return wrong


def wrong_of(random, text, script, mode, met):
    """What is wrong with what is explored of a script."""
    seen = seen_of(script, mode, random.choice(RUNS), random.choice(FUELS))
    wrong = leaves_wrong(seen) or order_wrong(seen)
    if wrong:
        return wrong
    met.update(['scripts', *met_in(seen)])
    wrong = fewer_wrong(random, seen, met) + text_wrong(random, seen, text, met) + witnesses_wrong(random, seen, met)
    wrong += [] if is_lazy(random, seen) else ['more is explored than is asked for']
    if not seen.found.more:
        wrong += less_fuel_wrong(random, seen, met) + place_wrong(random, seen, met)
        with steps_remembered():
            for _ in range(4 if len(seen.found.leaves) > 2 else 1):
                wrong += pieces_wrong(random, seen, text, met)
    return wrong


def check(seed, count, to_end=True):
    """Checks so many scripts of version 1, and a share of them of version 2, or those up to the first that is wrong; gives what was met,
    and what is wrong."""
    met, wrong = check_kinds(seed, count, to_end)
    if wrong and not to_end:
        return met, wrong
    met_beside, wrong_beside = check_kinds(Beside(seed), count // BESIDE, to_end)
    return met + met_beside, wrong + wrong_beside


def check_kinds(seed, count, to_end):
    """The same of the scripts that are drawn by a seed."""
    met, wrong, number = Counter(), [], 0
    while met['scripts'] < count and number < 2 * count and (to_end or not wrong):
        random, kinds = Random(f'rules/{seed}/{number}'), kinds_by(seed, number)
        text, mode = script_of(random, kinds[kind_of(random, kinds)]), by_turns(MODES[number % 2], number)
        try:
            script = read_script(text)
        except Fault:
            script = None
        if script is not None:
            wrong += [f'script {number} ({mode}): {what}' for what in wrong_of(random, text, script, mode, met)]
        number += 1
    return met, wrong


def faults():
    """All faults of the model that must be noticed."""
    return [*breakages(), *report_breakages(), *waitany_faults.walk_faults()]


def main():
    chosen = driving.rule_parser(__doc__, 'scripts', 300).parse_args()
    return driving.holds(chosen, check, MUST_MEET, faults)


if __name__ == '__main__':
    sys.exit(main())
