"""Faults of the runs that the console's model tries, lays ahead and undoes (console_faults.py): runs by number, ends that are counted, deadlocks
and traps that are sought, and choices."""

import re
from collections import Counter
from inspect import isfunction
from itertools import islice

from faults.policy_faults import Breakage
from model import console, explorer, policy, session, walks, wide
from model.console import Console
from model.debugger import enabled_steps
from model.policy import Choice
from model.session import must_be
from model.walks import CUT, Run

SOUND = {name: value for name, value in vars(Console).items() if isfunction(value)}
SOUND_COUNTED, SOUND_RUN_LINE, SOUND_NONE_FOUND, BAD_RUNS = console.counted, console.run_line, console.none_found, console.REFUSALS[console.BAD_RUNS]
# How many runs a fault looks at.
SOME = 200


def named(name, faults, owner=Console):
    """Faults that stand in the place of a method, each by what it is called."""
    return [Breakage(f'{name}: {what}', owner, name, replacement) for what, replacement in faults.items()]


def cleared(self, told):
    """What is told; the steps ahead are dropped."""
    del self.debugger.steps[self.debugger.depth:]
    return told


def with_told(count, at, number, leaf):
    """The line of a run in which so many choices are told."""
    told, console.CHOICES_TOLD = console.CHOICES_TOLD, count
    try:
        return SOUND_RUN_LINE(at, number, leaf)
    finally:
        console.CHOICES_TOLD = told


# ---- other walks

def along_decisions(self):
    """All runs along decisions."""
    return walks.walk(self.world, self.fuel())


def ends_along_decisions(self):
    """Those along decisions of which each end comes once, where no order of other steps is tried."""
    begun = Run(self.world, self.fuel())
    return (leaf for leaf in walks.leaves_behind(begun, wide.awake) if leaf.outcome != wide.ASLEEP)


def all_wide(self):
    """All runs of the wide walk, whose ends may come more than once."""
    return wide.wide_walk(self.world, self.fuel())


def by_awake(self):
    """The runs whose choices are numbered among the candidates that are awake."""
    for leaf in SOUND['walk'](self):
        yield leaf._replace(choices=numbers_of_awake(self, leaf))


def numbers_of_awake(self, leaf):
    """The choices of a run as numbers among those that are awake."""
    run, found = Run(self.world, self.fuel()), []
    for choice in leaf.choices:
        run, decided = wide.followed(run)
        chosen = list(wide.awake(run, decided.steps))
        found.append(next(number for number, other in enumerate(chosen) if other.choices[-1] == choice))
        run = chosen[found[-1]]
    return tuple(found)


OTHER_WALKS = {'along decisions': along_decisions, 'ends along decisions': ends_along_decisions, 'all runs of the wide walk': all_wide}


def with_walk(method, walk):
    """What a method does by another walk."""
    def other(self, *given):
        self.walk = lambda: walk(self)
        try:
            return SOUND[method](self, *given)
        finally:
            del self.walk
    return other


def by_other_walks(method):
    """What a method does by each of the other walks, by what they are."""
    return {name: with_walk(method, walk) for name, walk in OTHER_WALKS.items()}


# ---- runs by number

def at_the_start(method):
    """What a method does at the start of the script, and not here."""
    def other(self, *given):
        worlds = self.debugger.worlds
        self.debugger.worlds = worlds[:1]
        try:
            return SOUND[method](self, *given)
        finally:
            self.debugger.worlds = worlds
    return other


def numbered_run(at, number, leaf):
    """What tells the candidates of a run from 0."""
    return SOUND_RUN_LINE(at, number, leaf._replace(choices=tuple(choice - 1 for choice in leaf.choices)))


def first_word(at, number, leaf):
    """What tells how a run ends without where."""
    return SOUND_RUN_LINE(at, number, leaf).partition(': rank ')[0]


def ways_by(key):
    """What tells the ways in which runs end in another order."""
    def counted(ends, more):
        head, _, ways = SOUND_COUNTED(ends, more).removesuffix(')').partition(' (')
        return f'{head} ({", ".join(sorted(ways.split(", "), key=key))})'
    return counted


def all_ways(ends, more):
    """What counts the ways too in which no run ends."""
    ways = ', '.join(f'{ends[name]} {name}' for name in console.WAYS)
    return f'{SOUND_COUNTED(ends, more).partition(" (")[0]} ({ways})'


def runs_of_one(ends, more):
    """What says `1 runs`."""
    return SOUND_COUNTED(ends, more).replace('1 run', '1 runs', 1) if sum(ends.values()) == 1 else SOUND_COUNTED(ends, more)


def without_cut(ends, more):
    """What leaves out the runs that are cut."""
    return SOUND_COUNTED(Counter({name: count for name, count in ends.items() if name != CUT}), more)


def leaf_by(walk, number):
    return next(islice(walk, number, None), None)


def last_where_none(self, number):
    """What follows the last run where there are fewer."""
    if not 1 <= number <= explorer.MOST_RUNS:
        return [console.NO_RUN]
    found = list(islice(self.walk(), min(number, SOME)))
    return self.laid_ahead(f'run {number}, {found[-1].outcome},', found[-1])


def none_asked_for(self, number):
    """What says of 0 how many runs can be asked for."""
    return [BAD_RUNS] if number == 0 else SOUND['follow'](self, number)


def too_many_asked_for(self, number):
    """What says of too great a number how many runs can be asked for."""
    return [BAD_RUNS] if number > explorer.MOST_RUNS else SOUND['follow'](self, number)


def no_bound(self, number):
    """What follows any run that there is."""
    leaf = leaf_by(self.walk(), number - 1) if explorer.MOST_RUNS < number <= SOME else None
    return SOUND['follow'](self, number) if leaf is None else self.laid_ahead(f'run {number}, {leaf.outcome},', leaf)


def dropped_where_no_run(self, number):
    """What drops the steps ahead where there is no such run."""
    told = SOUND['follow'](self, number)
    return cleared(self, told) if told == [console.NO_RUN] else told


def as_sought(self, number):
    """What tells a run by number as one that was sought."""
    return [line.removeprefix(f'run {number}, ').replace(', is ', ' is ') for line in SOUND['follow'](self, number)]


def number_faults():
    return [
        *named('check', {
            **by_other_walks('check'),
            'from the start': at_the_start('check'),
            'candidates numbered among those that are awake': with_walk('check', by_awake),
            'one run': lambda self, runs=1: SOUND['check'](self, runs),
            '999 runs': lambda self, runs=999: SOUND['check'](self, runs),
            '1,001 runs': lambda self, runs=1001: SOUND['check'](self, runs),
            'no last line': lambda self, *given: SOUND['check'](self, *given)[:-1],
            'what is ahead is dropped': lambda self, *given: cleared(self, SOUND['check'](self, *given))}),
        *named('run_line', {
            'candidates from 0': numbered_run,
            'runs from 0': lambda at, number, leaf: SOUND_RUN_LINE(at, number - 1, leaf),
            'no number': lambda at, number, leaf: SOUND_RUN_LINE(at, number, leaf).partition(' ')[2],
            'all choices are told': lambda at, number, leaf: with_told(1 << 20, at, number, leaf),
            '39 choices are told': lambda at, number, leaf: with_told(39, at, number, leaf),
            '41 choices are told': lambda at, number, leaf: with_told(41, at, number, leaf),
            'how many choices there are': lambda at, number, leaf: re.sub(
                r'\.\. (\d+) more', lambda it: f'.. {int(it[1]) + 40} more', SOUND_RUN_LINE(at, number, leaf)),
            'no choice left out': lambda at, number, leaf: SOUND_RUN_LINE(at, number, leaf).replace('no choice', 'choices '),
            'the first word of an outcome': first_word}, owner=console),
        *named('counted', {
            'no ways': lambda ends, more: SOUND_COUNTED(ends, more).partition(' (')[0],
            'all ways': all_ways,
            'ways by the alphabet': ways_by(lambda text: text.split()[1]),
            'the most runs first': ways_by(lambda text: -int(text.split()[0])),
            'a cut run is none': without_cut,
            'each way once': lambda ends, more: SOUND_COUNTED(Counter(ends.keys()), more),
            'whatever number': lambda ends, more: SOUND_COUNTED(ends, more).replace('at least ', ''),
            'runs of one': runs_of_one,
            'there are no more': lambda ends, more: SOUND_COUNTED(ends, False)}, owner=console),
        *named('follow', {
            **by_other_walks('follow'),
            'from 0': lambda self, number: SOUND['follow'](self, number + 1),
            'the last one where there is none': last_where_none,
            'how many runs can be asked for, of 0': none_asked_for,
            'how many runs can be asked for, of more': too_many_asked_for,
            'more than are looked at': no_bound,
            'what is ahead is dropped where there is none': dropped_where_no_run,
            'told as what was sought': as_sought}),
        Breakage('follow: how many runs can be asked for, of no such run', console, 'NO_RUN', BAD_RUNS)]


# ---- deadlocks and traps that are sought

def first_along_decisions(self, sought):
    """What looks at the runs along decisions first, and where none of them ends so at those of the wide walk."""
    found = next((leaf for leaf in islice(along_decisions(self), SOME) if console.way(leaf) == sought), None)
    return SOUND['seek'](self, sought) if found is None else self.found(found)


def bad_too(self, sought):
    """What takes the first deadlock or trap for what is sought."""
    found = next((leaf for leaf in islice(self.walk(), SOME) if explorer.is_bad(leaf)), None)
    return SOUND['seek'](self, sought) if found is None else self.found(found)


def none_of(self, sought, found):
    """What is told of the runs of a report, of which none is sought."""
    return self.none(sought, console.ends_of(found.leaves), found.more)


def by_listing(walk):
    """What seeks among the runs of another walk, as far as these are few, and tells of them where there is none."""
    def seek(self, sought):
        leaves = list(islice(walk(self), SOME))
        found = next((leaf for leaf in leaves if console.way(leaf) == sought), None)
        if found is not None:
            return self.found(found)
        return SOUND['seek'](self, sought) if len(leaves) == SOME else none_of(self, sought, explorer.Report(leaves, False))
    return seek


def told_by_states(self, sought):
    """What doesn't look at the runs that `check` lists, where there are too many states."""
    return self.none(sought, Counter(['done']), True)


def ends_at_bad(self, sought):
    """What looks no further than to the first deadlock or trap."""
    found = explorer.up_to_bad(explorer.ends_part(Run(self.world, self.fuel()), SOME))
    bad = found.leaves[-1]
    return none_of(self, sought, found) if console.way(bad) not in (sought, 'done') else SOUND['seek'](self, sought)


def last_one(self, sought):
    """What takes the last of some runs that end so."""
    found = [leaf for leaf in islice(self.walk(), SOME) if console.way(leaf) == sought]
    return self.found(found[-1]) if found else SOUND['seek'](self, sought)


def told_of_decisions(self, sought):
    """What tells of the runs along decisions where there is none."""
    told = SOUND['seek'](self, sought)
    found = explorer.part(Run(self.world, self.fuel()), min(SOME, explorer.MOST_RUNS))
    return none_of(self, sought, found) if told[0].startswith('no ') else told


def dropped_where_none(self, sought):
    """What drops the steps ahead where there is none."""
    told = SOUND['seek'](self, sought)
    return cleared(self, told) if told[0].startswith('no ') else told


def laid_behind(self, called, leaf):
    """What keeps what was ahead behind the steps of a run."""
    before = self.debugger.steps[self.debugger.depth:]
    told = SOUND['laid_ahead'](self, called, leaf)
    self.debugger.steps.extend(before)
    return told


def taken_at_once(self, called, leaf):
    """What goes to the end of the run at once."""
    told = SOUND['laid_ahead'](self, called, leaf)
    for _ in leaf.steps:
        self.debugger.redo()
    return told


def from_start(self, called, leaf):
    """What counts the steps that are taken as ahead."""
    lines = SOUND['laid_ahead'](self, called, leaf)
    return [f'{called} is {console.plural(len(self.debugger.steps), "step")} ahead', *lines[1:]]


def seek_faults():
    return [
        *named('fuel', {
            'one step less': lambda self: min(console.MOST_FUEL - 1, console.debugger.MOST_STEPS - self.debugger.depth),
            'whatever is kept': lambda self: console.MOST_FUEL,
            'one step more': lambda self: min(console.MOST_FUEL + 1, console.debugger.MOST_STEPS - self.debugger.depth),
            'what is left of all': lambda self: max(0, min(console.MOST_FUEL, console.debugger.MOST_STEPS) - self.debugger.depth)}),
        *named('walk', OTHER_WALKS),
        *named('seek', {
            **{name: by_listing(walk) for name, walk in (('along decisions', along_decisions), ('ends along decisions', ends_along_decisions),
                                                         ('the ends that are listed', SOUND['walk']))},
            'from the start': at_the_start('seek'),
            'along decisions first': first_along_decisions,
            'what is bad in any way': bad_too,
            'up to what is bad in any way': ends_at_bad,
            'the last one': last_one,
            'told of the runs along decisions': told_of_decisions,
            'what is ahead is dropped where there is none': dropped_where_none}),
        *named('seek_listed', {
            **by_other_walks('seek_listed'),
            'told of the states': told_by_states,
            'as many states as there are': lambda self, sought: (by_listing(all_wide))(self, sought)}),
        *named('runs_by_end', {
            'outcomes for runs': lambda ways: Counter(map(console.word_of, ways)),
            'the last outcome of each way': lambda ways: Counter({console.word_of(outcome): there.runs for outcome, there in ways.items()})}, owner=console),
        *named('none_found', {
            'found where all were looked at': lambda sought, ends, more, are_all: SOUND_NONE_FOUND(sought, ends, more, False),
            'not found is none': lambda sought, ends, more, are_all: SOUND_NONE_FOUND(sought, ends, more, True),
            'found where there are no more': lambda sought, ends, more, are_all: SOUND_NONE_FOUND(sought, ends, more, not are_all),
            'a trap is found': lambda sought, ends, more, are_all: SOUND_NONE_FOUND(sought, ends, more, are_all and sought != 'trap'),
            'not from here': lambda *given: SOUND_NONE_FOUND(*given).replace(' from here', '')}, owner=console),
        *named('trap', {
            'a deadlock': lambda self: self.seek('deadlock')}),
        *named('laid_ahead', {
            'what was ahead stays behind it': laid_behind,
            'taken at once': taken_at_once,
            'not where it stands': lambda self, called, leaf: SOUND['laid_ahead'](self, called, leaf)[:1],
            'all steps from the start': from_start})]


# ---- choices that are undone

def last_where(is_there):
    """What goes back to the last state before this one of which something is so, by the world and the step that was taken there."""
    def undo_choice(self):
        taken = list(zip(self.debugger.worlds, self.debugger.steps))[:self.debugger.depth]
        depths = [depth for depth, (world, step) in enumerate(taken) if is_there(world, step)]
        return [console.NO_CHOICE] if not depths else self.goto(depths[-1])
    return undo_choice


def is_choice(world):
    return isinstance(policy.settled(policy.decision(world)), Choice)


def is_any_choice(world):
    """Whether a check would have to choose, be it for a single candidate."""
    return isinstance(policy.decision(world), Choice)


def is_candidate(world, step):
    """Whether a step was one of those to choose among."""
    return is_choice(world) and step in policy.decision(world).steps


def first_choice(self):
    """What goes back to the first choice."""
    depths = [depth for depth, world in enumerate(self.debugger.worlds[:-1]) if is_choice(world)]
    return self.goto(depths[0]) if depths else SOUND['undo_choice'](self)


def stays_at_choice(self):
    """What stays where a choice is open."""
    return self.depth_lines() if is_choice(self.world) else SOUND['undo_choice'](self)


def to_start(self):
    """What goes to the start where there was no choice."""
    told = SOUND['undo_choice'](self)
    return self.goto(0) if told == [console.NO_CHOICE] else told


def without_steps(self):
    return cleared(self, SOUND['undo_choice'](self))[:1] + self.where()


def counting_back(self):
    """What tells how many steps are taken back."""
    depth = self.debugger.depth
    told = SOUND['undo_choice'](self)
    return told if told == [console.NO_CHOICE] else [f'{console.plural(depth - self.debugger.depth, "step")} back, {told[0]}', *told[1:]]


def choice_faults():
    return [
        *named('undo_choice', {
            'where several steps were enabled': last_where(lambda world, step: len(enabled_steps(world)) > 1),
            'a match, forced or not': last_where(lambda world, step: step.kind in ('match', 'wakeany')),
            'where a candidate was taken': last_where(is_candidate),
            'where there was a single candidate, too': last_where(lambda world, step: is_any_choice(world)),
            'where a single candidate was': last_where(lambda world, step: is_any_choice(world) and not is_choice(world)),
            'the first choice': first_choice,
            'it stays at a choice': stays_at_choice,
            'the start where there was none': to_start,
            'what is ahead is dropped': without_steps,
            'steps back are told': counting_back}),
        Breakage('undo_choice: fewer steps are taken', console, 'NO_CHOICE', console.REFUSALS[session.AT_START])]


# ---- choices of a single candidate

def single(self):
    """The single candidate of where it stands; None where there is none."""
    decided = policy.decision(self.world)
    return decided.steps[0] if isinstance(decided, Choice) and len(decided.steps) == 1 else None


def first_candidate(self):
    """What takes the first candidate for what comes next."""
    decided = policy.decision(self.world)
    return policy.Forced(decided.steps[0]) if isinstance(decided, Choice) else decided


def single_match(self):
    """What takes a single match for what comes next, and a single request of a wait for any for a choice."""
    step = single(self)
    return policy.decision(self.world) if step is not None and step.kind == 'wakeany' else policy.settled(policy.decision(self.world))


def single_wake(self):
    """The other way round."""
    step = single(self)
    return policy.decision(self.world) if step is not None and step.kind == 'match' else policy.settled(policy.decision(self.world))


def numbered_single(self, number=None):
    """What takes a single candidate by its number."""
    step = single(self)
    if step is None or number is None:
        return SOUND['next'](self, number)
    return self.take(step) if number == 1 else [console.NO_CANDIDATE, *self.where()]


def listed_single(self, number=None):
    """What doesn't take a single candidate where no number is said."""
    return self.where() if single(self) is not None and number is None else SOUND['next'](self, number)


def stops_at_single(self, most=session.MOST_COUNT):
    """What runs up to a single candidate."""
    if self.ahead:
        return SOUND['run'](self, most)
    must_be(1 <= most <= session.MOST_COUNT, console.BAD_STEPS)
    return self.stopped(policy.run(self.debugger, self.session.breaks, most), '')


def again_at_single(self, most=session.MOST_COUNT):
    """What takes the step ahead where a single candidate is, too."""
    return self.redo() if most and self.ahead and single(self) is not None else SOUND['run'](self, most)


def single_faults():
    return [
        *named('decided', {
            'a single candidate is a choice': property(lambda self: policy.decision(self.world)),
            'the first of several comes next': property(first_candidate),
            'a single request is a choice': property(single_match),
            'a single match is a choice': property(single_wake)}),
        *named('next', {
            'a single candidate by its number': numbered_single,
            'a single candidate is not taken': listed_single}),
        *named('run', {
            'up to a single candidate': stops_at_single,
            'the step ahead at a single candidate': again_at_single})]


def run_faults():
    return [*number_faults(), *seek_faults(), *choice_faults(), *single_faults()]
