"""The ways in which the runs of a script end, each once, with how many runs end so: what `check --outcomes` answers, in the model.

What is told of the runs is found by the search of states.py, and the step that decides by deciding.py. With `--until deadlock` the search
stops at the first run that ends in a deadlock or with a trap; with `--modes` there is a line for each mode.

compare/rows/worked_outcomes.py and compare/rows/worked_decided.py have rows of it, and compare/runs/outcomes.py compares a program with it.
"""

import argparse
from typing import NamedTuple, Optional

from model import deciding, explaining, explorer, marks, states
from model.debugger import BAD_FILE, BAD_MODE, BUFFERED, RENDEZVOUS, Result, refusal
from model.explorer import MOST_FUEL, MOST_MODES, NOT_WHOLE, USUAL, leaf_lines, number_between, refused
from model.files import held
from model.language import Fault
from model.modes import is_mode
from model.run_words import run_by
from model.states import MOST_STATES, USUAL_STATES, word_of
from model.walks import CUT, Run

# Up to how many runs are counted.
MOST_COUNTED = 18446744073709551615
# How a run ends badly.
BAD = 'deadlock', 'trap'
# What can't stand beside `--outcomes`, and what is said of the first of these that is there.
NOT_BESIDE = ('--ends', '--runs', '--split', '--piece', '--pieces', '--sample', '--seed', '--group')
NOT_TOGETHER = "--outcomes and {} can't stand together"


class Outcomes(NamedTuple):
    """A check of how the runs of a script end (None: there is no such file); an option that is None is left out. `until` is whether the first
    deadlock or trap is the last run, `modes` up to how many slots modes are tried one after another. Beside it stand words that it can't stand
    beside."""
    name: str
    script: Optional[bytes]
    mode: Optional[str] = None
    fuel: Optional[int] = None
    states: Optional[int] = None
    witnesses: bool = False
    explain: bool = False
    complete: bool = False
    beside: tuple = ()
    until: bool = False
    modes: Optional[int] = None

    def words(self, folder):
        """The words that ask a program, with the file in a folder."""
        numbers = [(name, value) for name, value in (('mode', self.mode), ('fuel', self.fuel), ('states', self.states), ('modes', self.modes))
                   if value is not None]
        flags = ['--witness'] * self.witnesses + ['--explain'] * self.explain + ['--complete'] * self.complete + ['--until', 'deadlock'] * self.until
        options = [word for name, value in numbers for word in (f'--{name}', str(value))]
        return ('check', held(folder, 'script.mpd', self.script), '--outcomes', *options, *flags, *self.beside)

    def begun(self):
        """The run at the start of the script."""
        return Run(explorer.first_world(explorer.read_script(self.script), self.mode or RENDEZVOUS), self.fuel or USUAL.fuel)

    @property
    def stops_at(self):
        """How the run ends at which the search stops."""
        return BAD if self.until else ()

    def found(self):
        """What the search finds of its runs."""
        return states.searched(self.begun(), self.states or USUAL_STATES, stops_at=self.stops_at)

    def deciding(self):
        """The search for the step that decides how one of its runs ends."""
        return states.Search(self.states or USUAL_STATES)

    def wanted(self):
        """What must be answered."""
        return answer(self)


def count_text(count):
    """How a number of runs is told."""
    return str(count) if count <= MOST_COUNTED else f'at least {MOST_COUNTED}'


def total(found):
    """How many runs there are in all."""
    return sum(way.runs for way in found.ways.values())


def decided_line(asked, leaf):
    """What is told of the step that decides how a run of a check ends, which is a deadlock or a trap."""
    begun = asked.begun()
    worlds = deciding.worlds_along(begun.world, leaf.steps)
    last = deciding.last_not_doomed(worlds, begun.fuel, deciding.by_search(asked.deciding()))
    return deciding.line_of(explorer.read_script(asked.script), begun.world.mode, leaf.steps, last)


def explained(asked, leaf):
    """The lines that explain the first run of a way."""
    lines = explaining.explanation(explorer.read_script(asked.script), asked.mode or RENDEZVOUS, leaf)
    return (*lines, f'  {decided_line(asked, leaf)}') if is_bad(leaf.outcome) else lines


def first_of(asked, way):
    """The leaf of the first run of a way, with what explains it where that is asked for."""
    leaf = run_by(asked.begun(), way.first, ends=True)
    return leaf._replace(explained=tuple(marks.all_marked(asked.script, explained(asked, leaf)))) if asked.explain else leaf


def way_lines(asked, number, outcome, way):
    """The line of an outcome, that of a witness where there is one and it is asked for, and those that explain it."""
    yield f'outcome {number} runs {count_text(way.runs)} first [{" ".join(map(str, way.first))}] {outcome}'
    if asked.witnesses or asked.explain:
        yield from list(leaf_lines(number, first_of(asked, way), asked.witnesses))[1:]


def text_of(asked, found):
    """What is written of what was found."""
    lines = [line for number, (outcome, way) in enumerate(found.ways.items()) for line in way_lines(asked, number, outcome, way)]
    lines.append(f'outcomes {len(found.ways)} runs {count_text(total(found))} more {"yes" if found.more else "no"}')
    return ''.join(f'{line}\n' for line in lines)


def is_bad(outcome):
    """Whether an outcome makes the status of a check 1."""
    return word_of(outcome) in BAD


def is_whole(found):
    """Whether all runs are told of, each to its end."""
    return not found.more and CUT not in found.ways


def status(found, complete):
    """The status of a check by what was found."""
    if any(map(is_bad, found.ways)):
        return 1
    return NOT_WHOLE if complete and not is_whole(found) else 0


def checked(asked):
    """The result of a check of a script that is one."""
    if asked.modes is not None:
        return in_modes(asked)
    found = asked.found()
    return Result(text_of(asked, found).encode(), b'', status(found, asked.complete))


def mode_line(mode, found):
    """What is told of the report in a mode."""
    words = [word_of(outcome) for outcome in found.ways]
    counts = [f'{name} {words.count(word)}' for name, word in (('deadlocks', 'deadlock'), ('traps', 'trap'), ('leftovers', 'leftovers'), ('cut', CUT))]
    return f'{mode} outcomes {len(words)} {" ".join(counts)} more {"yes" if found.more else "no"}'


def least_of(reports):
    """The first of some modes whose report has nothing bad."""
    return next((mode for mode, found in reports.items() if not any(map(is_bad, found.ways))), 'none')


def modes_status(reports, complete):
    """The status of a check in several modes, by the report of each: what is bad in one comes before what isn't whole in another."""
    statuses = {status(found, complete) for found in reports.values()}
    return 1 if 1 in statuses else max(statuses)


def modes_tried(most):
    """The modes that are tried one after another, up to so many slots."""
    return RENDEZVOUS, *(f'slots:{slots}' for slots in range(1, most + 1)), BUFFERED


def in_modes(asked):
    """The result of a check in several modes."""
    reports = {mode: asked._replace(mode=mode).found() for mode in modes_tried(asked.modes)}
    lines = [*(mode_line(mode, found) for mode, found in reports.items()), f'least {least_of(reports)}']
    return Result(''.join(f'{line}\n' for line in lines).encode(), b'', modes_status(reports, asked.complete))


def clash(asked):
    """The first of what can't stand beside it, in the order in which these are told, that is there."""
    return next((name for name in NOT_BESIDE if name in asked.beside), None)


def answer(asked):
    """The result of a check: whether the options can stand together is tested first, then the mode, the file, and the script."""
    if clash(asked) is not None:
        return refused(NOT_TOGETHER.format(clash(asked)))
    if asked.mode is not None and not is_mode(asked.mode):
        return BAD_MODE
    if asked.script is None:
        return BAD_FILE
    try:
        return checked(asked)
    except Fault as fault:
        return refusal(asked.script, fault)


def asked_by(words):
    """The file that words of the command line name, and what is asked of it but its script; other words stand beside that."""
    parser = argparse.ArgumentParser(description=__doc__, formatter_class=argparse.RawDescriptionHelpFormatter)
    parser.add_argument('file', metavar='FILE')
    parser.add_argument('--mode', metavar='M')
    for name, least, most in (('fuel', 1, MOST_FUEL), ('states', 1, MOST_STATES), ('modes', 0, MOST_MODES)):
        parser.add_argument(f'--{name}', type=number_between(least, most), metavar='N')
    parser.add_argument('--until', choices=['deadlock'])
    parser.add_argument('--witness', dest='witnesses', action='store_true')
    for name in ('outcomes', 'explain', 'complete'):
        parser.add_argument(f'--{name}', action='store_true')
    known, beside = parser.parse_known_args(words)
    chosen = {name: value for name, value in vars(known).items() if name not in ('file', 'outcomes')}
    chosen['until'] = known.until is not None
    return known.file, Outcomes(known.file, None, beside=tuple(beside), **chosen)
