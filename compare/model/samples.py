"""Reports of runs of the wide walk that are drawn at random, in the model: what `check --sample` may say, and what it may not.

The model doesn't know the generator of a program, so it can't say which runs are drawn. What it draws itself, by a generator of Python, stands
for a program where its faults are tried (sampled.py).
"""

from itertools import islice, pairwise
from random import Random
from typing import NamedTuple, Optional

from model import explorer
from model.debugger import RENDEZVOUS, Result
from model.explorer import USUAL, Report, is_bad, report_text, status_of, up_to_bad
from model.files import held
from model.report_lines import NoReport, must_be, read_report
from model.run_words import BadChoices, run_by
from model.walks import Leaf, Run, ending, listed, taken
from model.wide import followed, wide_walk

MOST_SEED = 18446744073709551615


class Sampling(NamedTuple):
    """A check of a script by so many runs that are drawn; an option that is None is left out."""
    name: str
    script: bytes
    count: int
    seed: Optional[int] = None
    mode: Optional[str] = None
    fuel: Optional[int] = None
    witnesses: bool = False
    complete: bool = False
    group: bool = False
    until: bool = False
    workers: Optional[int] = None

    def words(self, folder):
        """The words that ask a program, with the file in a folder."""
        numbers = [(name, value) for name, value in (('sample', self.count), ('seed', self.seed), ('mode', self.mode), ('fuel', self.fuel),
                                                     ('workers', self.workers)) if value is not None]
        flags = ['--witness'] * self.witnesses + ['--complete'] * self.complete + ['--group'] * self.group
        options = [word for name, value in numbers for word in (f'--{name}', str(value))]
        return ('check', held(folder, 'script.mpd', self.script), *options, *flags, *(['--until', 'deadlock'] * self.until))

    def begun(self):
        """The run at the start of the script."""
        return Run(explorer.first_world(explorer.read_script(self.script), self.mode or RENDEZVOUS), self.fuel or USUAL.fuel)


# ---- what is drawn, in the place of a program

def generator(seed):
    """What draws for a report; it goes on from run to run."""
    return Random(seed)


def drawn(random, steps):
    """The number of a candidate, each as likely as the others."""
    return random.randrange(len(steps))


def drawn_run(begun, random):
    """A run whose choices are drawn."""
    run = begun
    while True:
        run, decided = followed(run)
        ended = ending(decided, run.fuel)
        if ended is not None:
            return Leaf(run.choices, listed(run.steps), ended)
        number = drawn(random, decided.steps)
        run = taken(run, decided.steps[number], number)


def runs_drawn(begun, count, random, until):
    """So many runs that are drawn, one after another, or those up to the first deadlock or trap."""
    for _ in range(count):
        yield (leaf := drawn_run(begun, random))
        if until and is_bad(leaf):
            return


def is_all(begun, leaves):
    """Whether these are as many leaves as all runs have."""
    return len(list(islice(wide_walk(begun.world, begun.fuel), len(leaves) + 1))) == len(leaves)


def in_order(leaves):
    """The different leaves, by their choices."""
    return tuple(sorted(dict.fromkeys(leaves)))


def status_by(asked, found):
    """The status of a check by its report."""
    return status_of(explorer.read_script(asked.script), asked.mode or RENDEZVOUS, found, asked.complete, is_wide=True)


def sampled(asked):
    """The report of runs that are drawn."""
    begun, seed = asked.begun(), asked.seed or 0
    leaves = in_order(runs_drawn(begun, asked.count, generator(seed), asked.until))
    found = Report(leaves, not is_all(begun, leaves))
    return up_to_bad(found) if asked.until else found


def answer(asked):
    """What the model says to a check of a script that is one."""
    found = sampled(asked)
    text = (explorer.group_text if asked.group else report_text)(found, asked.witnesses)
    return Result(text.encode(), b'', status_by(asked, found))


# ---- what must hold of a report of runs that are drawn

def leaf_wrong(asked, begun, leaf):
    """What is wrong with a leaf of a report; None where nothing is."""
    try:
        run = run_by(begun, leaf.choices, ends=True)
    except BadChoices as bad:
        return f'{leaf.choices} is no run, by its choice {bad.place}'
    if run.outcome != leaf.outcome:
        return f'{leaf.choices} ends {run.outcome}, and not {leaf.outcome}'
    steps = run.steps if asked.witnesses and explorer.witness(run) else None
    return None if leaf.steps == steps else f'{leaf.choices} has another witness'


def told_in(asked, result):
    """What a report says that has its leaves; raises what is wrong with it."""
    must_be(result.errors == b'', f'standard error has {result.errors[:80]!r}')
    told, begun = read_report(result.output), asked.begun()
    must_be(1 <= len(told.leaves) <= asked.count, f'{len(told.leaves)} leaves of {asked.count} runs')
    choices = [leaf.choices for leaf in told.leaves]
    must_be(all(one < other for one, other in pairwise(choices)), 'leaves are not in the order of their choices')
    wrong = next((what for leaf in told.leaves if (what := leaf_wrong(asked, begun, leaf)) is not None), None)
    must_be(wrong is None, wrong)
    must_be(told.more != is_all(begun, told.leaves), f'more {"yes" if told.more else "no"}, and {len(told.leaves)} leaves are listed')
    must_be(not asked.until or not any(map(is_bad, told.leaves[:-1])), 'it does not end with its first deadlock or trap')
    status = status_by(asked, Report(told.leaves, told.more))
    must_be(result.status == status, f'status {result.status}, wanted {status}')
    return told


def leaves_of(told):
    """The leaves of a report, without their witnesses."""
    return [(leaf.choices, leaf.outcome) for leaf in told.leaves]


def first_bad(asked, said):
    """The report of as many runs as it takes to draw the first deadlock or trap, of those that have one: what fewer runs list, more do."""
    none, found = 0, asked.count
    while found - none > 1:
        middle = (none + found) // 2
        some = asked._replace(count=middle)
        if any(map(is_bad, told_in(some, said(some)).leaves)):
            found = middle
        else:
            none = middle
    some = asked._replace(count=found)
    return told_in(some, said(some))


def until_wrong(asked, base, said):
    """What is wrong with a report up to the first deadlock that is drawn, beside the one that goes on; None where nothing is."""
    other = asked._replace(until=True)
    told = told_in(other, said(other))
    if not any(map(is_bad, base.leaves)):
        return None if leaves_of(told) == leaves_of(base) and told.more == base.more else 'it ends early, and there is no deadlock or trap'
    wanted = up_to_bad(first_bad(asked, said))
    return None if leaves_of(told) == leaves_of(wanted) and told.more == wanted.more else 'it does not end with the first deadlock that is drawn'


def grouped_as_told(told, witnesses):
    """The text of a report whose leaves are grouped by how it tells that they end: what is read of a report has no statements."""
    leaves = tuple(Leaf(leaf.choices, leaf.steps or (), leaf.outcome) for leaf in told.leaves)
    return explorer.group_text(Report(leaves, told.more), witnesses).encode()


def grouped(told, asked):
    """The text of a report whose leaves are grouped by how they end, which their runs tell."""
    begun = asked.begun()
    leaves = tuple(leaf._replace(outcome=run_by(begun, leaf.choices, ends=True).outcome) for leaf in told.leaves)
    return grouped_as_told(told._replace(leaves=leaves), asked.witnesses)


def beside_wrong(asked, base, said):
    """What is wrong with the same check asked otherwise, by what was said first: the first thing; None where nothing is.

    `said` has a program, or what stands for it, answer a check.
    """
    again = said(asked)
    if asked.seed in (None, 0):
        again = said(asked._replace(seed=0 if asked.seed is None else None))
    told = told_in(asked, again)
    must_be(leaves_of(told) == leaves_of(base) and told.more == base.more, 'another report of the same seed')
    for workers in (1, 4):
        must_be(said(asked._replace(workers=workers)) == again, f'another report by {workers} workers')
    other = asked._replace(witnesses=not asked.witnesses)
    must_be(leaves_of(told_in(other, said(other))) == leaves_of(base), 'other leaves with witnesses, or without')
    other = asked._replace(group=True)
    must_be(said(other)._replace(errors=b'') == Result(grouped(told, asked), b'', again.status), 'ends that are not those of the leaves')
    other = asked._replace(complete=not asked.complete)
    must_be(leaves_of(told_in(other, said(other))) == leaves_of(base), 'other leaves where it is asked whether all is told')
    if asked.count > 1:
        fewer = asked._replace(count=asked.count // 2, until=False)
        must_be(asked.until or set(leaves_of(told_in(fewer, said(fewer)))) <= set(leaves_of(base)), 'fewer runs are not the first of more')
    if not asked.until:
        wrong = until_wrong(asked, base, said)
        must_be(wrong is None, wrong)


def wrong_of(asked, said):
    """What is wrong with a check and with the same one asked otherwise; None where nothing is."""
    try:
        beside_wrong(asked, told_in(asked, said(asked)), said)
    except NoReport as why:
        return str(why)
    return None
