"""Faults that are put into reports of runs that are drawn, of what stands for a program: sampled.py must notice each."""

from itertools import islice
from random import Random

from faults.policy_faults import Breakage
from model import explorer, samples, walks
from model.debugger import RENDEZVOUS
from model.explorer import is_bad
from model.modes import slots_of
from model.walks import CUT, Leaf, ending, listed, taken
from model.wide import followed, wide_walk

SOUND = {name: getattr(samples, name) for name in ('runs_drawn', 'sampled', 'answer')}


# ---- what is drawn

def anew_each_run(begun, count, random, until):
    """What draws each run with the generator as it was for the first."""
    state = random.getstate()
    for _ in range(count):
        random.setstate(state)
        yield from SOUND['runs_drawn'](begun, 1, random, until)


def one_draw_a_run(begun, random):
    """What has one number for all choices of a run."""
    number = random.randrange(720720)
    run = begun
    while True:
        run, decided = followed(run)
        ended = ending(decided, run.fuel)
        if ended is not None:
            return Leaf(run.choices, listed(run.steps), ended)
        run = taken(run, decided.steps[number % len(decided.steps)], number % len(decided.steps))


def of_all_leaves(begun, random):
    """What draws among the leaves, each as likely as the others."""
    leaves = list(islice(wide_walk(begun.world, begun.fuel), 300))
    return random.choice(leaves)


def without_what_sleeps(begun, random):
    """What draws among the runs that are no other order of another one."""
    return random.choice(list(islice(explorer.walk_of_ends(begun), 300)))


def different_ones(begun, count, random, until):
    """What draws other runs where it has drawn one before."""
    found = set()
    for leaf in SOUND['runs_drawn'](begun, 40 * count, random, until):
        if leaf not in found:
            found.add(leaf)
            yield leaf
        if len(found) == count:
            return


def stopping_at(is_end, has_end=True):
    """What ends behind other runs, or before them."""
    def runs_drawn(begun, count, random, until):
        for number, leaf in enumerate(SOUND['runs_drawn'](begun, count, random, False)):
            if until and is_end(leaf):
                yield from [leaf] * (has_end or not number)
                return
            yield leaf
    return runs_drawn


def until_found(begun, count, random, until):
    """What goes on to draw until there is a deadlock or a trap."""
    return SOUND['runs_drawn'](begun, 40 * count if until else count, random, until)


def other_by_workers(asked):
    """What hangs on how many workers there are."""
    return SOUND['sampled'](asked._replace(seed=(asked.seed or 0) + (asked.workers or 4) - 4))


def other_by(name):
    """What hangs on another option."""
    return lambda asked: SOUND['sampled'](asked._replace(seed=(asked.seed or 0) + bool(getattr(asked, name))))


def drawing_faults():
    """Those of which runs are drawn."""
    numbers = (
        ('the last candidate is never drawn', lambda random, steps: random.randrange(max(1, len(steps) - 1))),
        ('the first candidate alone', lambda random, steps: 0),
        ('the first candidate twice as often', lambda random, steps: max(0, random.randrange(len(steps) + 1) - 1)),
        ('the last candidate twice as often', lambda random, steps: min(len(steps) - 1, random.randrange(len(steps) + 1))),
        ('one of two candidates at most', lambda random, steps: random.randrange(min(2, len(steps)))))
    seeds = (
        ('the seed is not looked at', lambda seed: Random(0)), ('seeds in 32 bits', lambda seed: Random(seed & 0xffffffff)),
        ('another report each time', lambda seed: Random()), ('no last bit of a seed', lambda seed: Random(seed >> 1)))
    runs = (
        ('drawn anew each run', anew_each_run), ('different ones alone', different_ones),
        ('one run more', lambda begun, count, random, until: SOUND['runs_drawn'](begun, count + 1, random, until)),
        ('one run less', lambda begun, count, random, until: SOUND['runs_drawn'](begun, count - 1, random, until)),
        ('until: it goes on', lambda begun, count, random, until: SOUND['runs_drawn'](begun, count, random, False)),
        ('until: leftovers end it', stopping_at(lambda leaf: is_bad(leaf) or leaf.outcome.startswith('leftovers'))),
        ('until: traps do not end it', stopping_at(lambda leaf: leaf.outcome.startswith('deadlock'))),
        ('until: a run that is cut ends it', stopping_at(lambda leaf: is_bad(leaf) or leaf.outcome == CUT)),
        ('until: the deadlock is not listed', stopping_at(is_bad, False)), ('until: more runs than so many', until_found))
    asked = (('workers draw other runs', other_by_workers), ('other runs with witnesses', other_by('witnesses')),
             ('other runs with groups', other_by('group')), ('other runs with --complete', other_by('complete')),
             ('other runs with --until', other_by('until')))
    return ([Breakage('runs along decisions are drawn', samples, 'followed', walks.followed)]
            + [Breakage(name, samples, 'drawn', replacement) for name, replacement in numbers]
            + [Breakage(name, samples, 'generator', replacement) for name, replacement in seeds]
            + [Breakage(name, samples, 'runs_drawn', replacement) for name, replacement in runs]
            + [Breakage(name, samples, 'drawn_run', replacement) for name, replacement in (
                ('one draw for all choices', one_draw_a_run), ('each leaf as likely as the others', of_all_leaves),
                ('what sleeps is never drawn', without_what_sleeps))]
            + [Breakage(name, samples, 'sampled', replacement) for name, replacement in asked])


# ---- what is said of them

def other_report(change):
    """What reports otherwise, by the right report and the check."""
    return lambda asked: change(SOUND['sampled'](asked), asked)


def other_leaf(change):
    """What tells the last leaf otherwise."""
    return lambda found, asked: found._replace(leaves=(*found.leaves[:-1], change(found.leaves[-1], found)))


def until_by_order(found, asked):
    """What goes on to draw, and ends with the first deadlock or trap in the order of choices."""
    return explorer.up_to_bad(SOUND['sampled'](asked._replace(until=False))) if asked.until else found


def said_otherwise(change):
    return lambda asked: change(SOUND['answer'](asked), asked)


def not_whole(test):
    """What ends with 4 where all runs are listed, and something is so of the script and its mode."""
    def change(said, asked):
        is_so = asked.complete and said.status == 0 and test(explorer.read_script(asked.script), asked.mode or RENDEZVOUS)
        return said._replace(status=4) if is_so else said
    return change


def saying_faults():
    """Those of what is said of the runs that were drawn."""
    reports = (
        ('more is always no', lambda found, asked: found._replace(more=False)),
        ('more is always yes', lambda found, asked: found._replace(more=True)),
        ('more where as many leaves as runs', lambda found, asked: found._replace(more=len(found.leaves) == asked.count)),
        ('more where fewer leaves than runs', lambda found, asked: found._replace(more=len(found.leaves) < asked.count)),
        ('the last leaf is left out',
         lambda found, asked: found._replace(leaves=found.leaves[:-1] or found.leaves, more=found.more or len(found.leaves) > 1)),
        ('the last leaf is left out, and more is not said', lambda found, asked: found._replace(leaves=found.leaves[:-1] or found.leaves)),
        ('no leaf that is cut',
         lambda found, asked: found._replace(leaves=tuple(leaf for leaf in found.leaves if leaf.outcome != CUT) or found.leaves)),
        ('leaves of another run', other_leaf(lambda leaf, found: leaf._replace(outcome=found.leaves[0].outcome))),
        ('choices of another run',
         other_leaf(lambda leaf, found: leaf._replace(choices=(*leaf.choices[:-1], leaf.choices[-1] + 1) if leaf.choices else ()))),
        ('a witness of another run', other_leaf(lambda leaf, found: leaf._replace(steps=found.leaves[0].steps))),
        ('a witness without its last step', other_leaf(lambda leaf, found: leaf._replace(steps=leaf.steps[:-1]))),
        ('until: the first deadlock by choices', until_by_order))
    orders = (
        ('in the order of drawing', lambda leaves: tuple(dict.fromkeys(leaves))),
        ('a run as often as it is drawn', lambda leaves: tuple(sorted(leaves))),
        ('each outcome once', lambda leaves: tuple({str(leaf.outcome): leaf for leaf in sorted(leaves, reverse=True)}.values())[::-1]),
        ('by their ends', lambda leaves: tuple(sorted(dict.fromkeys(leaves), key=lambda leaf: leaf.outcome))))
    said = (
        ('status 0', lambda said, asked: said._replace(status=0)), ('status 4 without --complete', lambda said, asked: said._replace(
            status=4 if said.status == 0 and b'more yes' in said.output else said.status)),
        ('no status 4', lambda said, asked: said._replace(status=0 if said.status == 4 else said.status)),
        ('a waitany is never told whole', not_whole(lambda script, mode: explorer.has_waitany(script.body))),
        ('a mode of slots is never told whole', not_whole(lambda script, mode: slots_of(mode) is not None)),
        ('leaves numbered by when they were drawn', lambda said, asked: said._replace(output=said.output.replace(b'leaf 0 ', b'leaf 1 '))),
        ('leaves in the place of groups', lambda said, asked: SOUND['answer'](asked._replace(group=False))),
        ('no witness', lambda said, asked: SOUND['answer'](asked._replace(witnesses=False))))
    return ([Breakage('more by the runs along decisions', samples, 'wide_walk', walks.walk),
             Breakage('until: leaves after the first deadlock', samples, 'up_to_bad', lambda found: found)]
            + [Breakage(name, samples, 'sampled', other_report(change)) for name, change in reports]
            + [Breakage(name, samples, 'in_order', change) for name, change in orders]
            + [Breakage(name, samples, 'answer', said_otherwise(change)) for name, change in said])


def breakages():
    """All of them."""
    return [*drawing_faults(), *saying_faults()]
