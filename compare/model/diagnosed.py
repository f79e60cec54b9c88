"""Whether the runs of a script can hang or trap, how, and where that was decided: what `diagnose` answers, in the model.

By definition an end is an outcome of `check --outcomes`, which has its first run and how many runs end so (outcomes.py). Ends of one kind whose first
runs stand at the same lines of the script are told together, and of these the one with the shortest first run is explained (explaining.py,
deciding.py). Where the search has stopped and none of its runs hangs or traps, runs are drawn as `check --sample` draws them (sampler.py), and what
becomes of these is told after the rest. Lines are folded as in the console, but for commands. Commands name the file by a word that a shell reads as it.

compare/rows/worked_diagnosed.py has rows of it, and compare/runs/diagnosed.py compares a program with it.
"""

import math
import re
from typing import NamedTuple, Optional

from model import explaining, explorer, marks, outcomes, sampler, states
from model.console_lines import all_folded
from model.debugger import BAD_FILE, BAD_MODE, RENDEZVOUS, Debugger, Result, blocked_calls, last_call, refusal
from model.explorer import NOT_WHOLE
from model.files import held
from model.language import Fault
from model.modes import is_mode, slots_of
from model.outcomes import MOST_COUNTED, is_bad, is_whole
from model.policy import Forced
from model.run_words import run_by
from model.states import NO_RUNS, Found, answered, word_of
from model.walks import CUT, Leaf, Run

# The kinds of ends that are told, and how it is told where one stands.
HANG, TRAP, LEFT = 'deadlock', 'trap', 'leftovers'
STANDS = {HANG: 'deadlock at', TRAP: 'trap at', LEFT: 'left over from', CUT: 'cut at'}
# A run of more steps has no picture.
PICTURED_STEPS = 1000
NEVER, TAKEN, NOT_FOUND = 'it never hangs or traps in', 'whatever is taken first', 'no hang and no trap was found in'
LEAVES, UNTRIED, AT_RANDOM = 'it can end with calls left over', 'not everything was tried', 'drawn at random'
# What stands behind how many runs end in a way, where one of them is told.
OF_ONE = ', one of them:'
# What pictures are called of runs that were found, and of those that were drawn.
RUN, OF_DRAWN = 'run', 'drawn'
# What is told behind the step that decided.
DECIDED_AT, HINT = re.compile('  decided at depth [0-9]+:'), '  at the prompt of `debug`, `blame` goes to this step and `redo all` to the end'
# What a shell takes as it stands.
PLAIN = re.compile('[A-Za-z0-9_./+,:@%-]+')
# What seeds the generator that runs are drawn by.
SEED = 0


class Limits(NamedTuple):
    """How many steps a run has at most, how many states are kept and come to, how many the search for a step that decides comes to, and how many
    runs are drawn."""
    fuel: int = 100000
    kept: int = 1000000
    come_to: int = 4000000
    deciding: int = 1000000
    drawn: int = 4096


class Diagnosis(NamedTuple):
    """What is asked of a script (None: there is no such file), with the name of its file; a mode that is None is left out. A program has the limits
    that stand here, and no number of ranks; others are asked of the model alone."""
    name: str
    script: Optional[bytes]
    mode: Optional[str] = None
    strict: bool = False
    file: str = 'script.mpd'
    limits: Limits = Limits()
    ranks: Optional[int] = None

    def words(self, folder):
        """The words that ask a program, with the file in a folder, or where the program is run."""
        mode = () if self.mode is None else ('--mode', self.mode)
        path = held(folder, self.file, self.script)
        return ('diagnose', *mode, *['--strict'] * self.strict, *['--'] * path.startswith('-'), path)

    def begun(self):
        """The run at the start of the script."""
        return Run(explorer.first_world(explorer.read_script(self.script), self.mode or RENDEZVOUS), self.limits.fuel)

    def searched(self):
        """A search for how its runs end, and what it found."""
        search, begun = Counting(self.limits.kept, self.limits.come_to), self.begun()
        ways = answered(search.behind(begun.world, begun.fuel)).ways
        return search, Found(ways, search.left_out)

    def drawn(self):
        """The runs that are drawn, each different one once, in the order of the walk."""
        start = Debugger(explorer.read_script(self.script), self.mode or RENDEZVOUS)
        return sampler.sampled(start, self.limits.drawn, self.limits.fuel, SEED).leaves

    def deciding(self):
        """The search for the step that decides how one of its runs ends."""
        return Counting(self.limits.kept, self.limits.deciding)

    def wanted(self):
        """What must be answered."""
        return answer(self)


# ---- the search

class Counting(states.Search):
    """A search whose states are those with a choice, and those where a run ends. It counts them, those that it comes to again too, and stops
    behind so many; it keeps no others."""

    def __init__(self, kept, most, stops_at=()):
        super().__init__(kept, math.inf, stops_at)
        self.counted, self.most_counted = 0, most

    def behind(self, world, fuel):
        """What is told of the runs behind a world; what it asks for is told of those behind another one."""
        if fuel and isinstance(states.decided(world), Forced):
            return (yield from self.told_behind(world, fuel))
        if self.counted == self.most_counted:
            self.has_stopped = self.left_out = True
            return NO_RUNS
        self.counted += 1
        return (yield from super().behind(world, fuel))


# ---- what is drawn

def is_drawn(found):
    """Whether runs are drawn: there are more than these, and none of these hangs or traps."""
    return found.more and not any(map(is_bad, found.ways))


def drawn_of(asked, found):
    """What is found of the runs that are drawn behind a search, which are all that were; None where none are."""
    return states.of_leaves(asked.drawn(), more=False) if is_drawn(found) else None


# ---- ends, and those that are told together

class End(NamedTuple):
    """An end that isn't done: its first run, how many runs end so, and the lines of the script where that run stands."""
    leaf: Leaf
    runs: int
    lines: tuple

    @property
    def kind(self):
        return word_of(self.leaf.outcome)


def standing_line(at, number):
    """The line where a rank stands: that of the call that it is blocked in, or else of its next statement; None where it has ended."""
    rank = at.world.ranks[number]
    if rank.mode == 'blocked':
        return at.lines[last_call(at.world, number)]
    return explaining.next_line(rank) if rank.rest is not None else None


def places(at, kind):
    """The line of each rank that is trapped, of each that hasn't ended where a run is cut, of each call that a rank is blocked in, or of each that is
    left over."""
    if kind == TRAP:
        return [explaining.next_line(rank) for rank in at.world.ranks if rank.mode == 'trapped']
    if kind == CUT:
        return [line for number in range(len(at.world.ranks)) if (line := standing_line(at, number)) is not None]
    return [at.lines[call_id] for call_id in (blocked_calls(at.world) if kind == HANG else explaining.all_free(at.world))]


def lines_of(asked, leaf):
    """The lines of the script where a run stands at its end, each once, the least first."""
    at = explaining.reached(explorer.read_script(asked.script), asked.mode or RENDEZVOUS, leaf.steps)
    return tuple(sorted(set(places(at, word_of(leaf.outcome)))))


def ends_of(asked, found):
    """The ends that are told, in the order of the first run of each."""
    for outcome, way in found.ways.items():
        if word_of(outcome) in STANDS:
            leaf = run_by(asked.begun(), way.first, ends=True)
            yield End(leaf, way.runs, lines_of(asked, leaf))


def bug_of(end):
    """What ends have in common that are told together."""
    return end.kind, end.lines


def is_left(ends):
    """Whether ends that are told together are neither deadlocks nor traps."""
    return ends[0].kind in (LEFT, CUT)


def is_wider(ends, others):
    """Whether ends stand at all lines of others of their kind, and at more."""
    return ends[0].kind == others[0].kind and set(others[0].lines) < set(ends[0].lines)


def bugs_of(ends):
    """The ends that are told together, deadlocks and traps first; of each those last that stand at all lines of another and at more; and else in the order
    of the first."""
    found = {}
    for end in ends:
        found.setdefault(bug_of(end), []).append(end)
    bugs = list(found.values())
    return sorted(bugs, key=lambda bug: (is_left(bug), any(is_wider(bug, other) for other in bugs)))


def explained_of(ends):
    """Of ends that are told together the one that is explained: the first of those whose first run has the fewest steps."""
    return min(ends, key=lambda end: len(end.leaf.steps))


# ---- what is written

def can_be_counted(count):
    return count <= MOST_COUNTED


def number_of(count):
    """A count of runs by itself."""
    return str(count) if can_be_counted(count) else 'more than can be counted'


def several(count, what):
    """A count of runs or states."""
    return f'{count} {what}{"" if count == 1 else "s"}' if can_be_counted(count) else f'more {what}s than can be counted'


def those_runs(found):
    """All runs that were found, which are the first ones where there are more; of one run that isn't told."""
    runs = outcomes.total(found)
    return f'{"the first " * (found.more and can_be_counted(runs) and runs > 1)}{several(runs, "run")}'


def of_runs(count, found):
    """How many of these."""
    return f'{count} of {those_runs(found)}' if can_be_counted(count) else several(count, 'run')


def runs_of(found, kind):
    """How many runs end in a kind of way."""
    return sum(way.runs for outcome, way in found.ways.items() if word_of(outcome) == kind)


def word_for(name):
    """A file's name as a word that a shell reads as it, and no command as an option."""
    path = f'./{name}' if name.startswith('-') else name
    quoted = path.replace("'", r"'\''")
    return path if PLAIN.fullmatch(name) else f"'{quoted}'"


def script_of(asked):
    """The file as commands have it, with how many ranks there are where that is asked for."""
    return word_for(asked.file) if asked.ranks is None else f'{word_for(asked.file)} --ranks {asked.ranks}'


def mode_of(asked):
    """The mode, whose number has no leading zeros."""
    slots = slots_of(asked.mode or RENDEZVOUS)
    return asked.mode or RENDEZVOUS if slots is None else f'slots:{slots}'


def file_of(asked):
    """The file as commands have it, with its mode, if that isn't the usual one."""
    return script_of(asked) if mode_of(asked) == RENDEZVOUS else f'{script_of(asked)} --mode {mode_of(asked)}'


def always(found, kind):
    """Whether every run ends in a kind of way."""
    return is_whole(found) and {word_of(outcome) for outcome in found.ways} == {kind}


def fails_both(found):
    """Whether every run hangs or traps, and some do each."""
    return is_whole(found) and {word_of(outcome) for outcome in found.ways} == {HANG, TRAP}


def bad_lines(asked, found):
    """How many runs hang, and how many trap."""
    runs = several(outcomes.total(found), 'run')
    if fails_both(found):
        hang, trap = runs_of(found, HANG), runs_of(found, TRAP)
        yield f'it always fails in {mode_of(asked)}: it hangs in {of_runs(hang, found)} and traps in {number_of(trap)}'
        return
    for kind, word in ((HANG, 'hang'), (TRAP, 'trap')):
        if always(found, kind):
            yield f'it always {word}s in {mode_of(asked)} ({runs})'
        elif count := runs_of(found, kind):
            yield f'it can {word} in {mode_of(asked)}: {of_runs(count, found)}'


def well_line(asked, search, found):
    """That no run does."""
    if is_whole(found):
        runs = several(outcomes.total(found), 'run')
        return f'{NEVER} {mode_of(asked)}, {TAKEN} ({runs}, {several(search.counted, "state")})'
    return f'{NOT_FOUND} {those_runs(found)} in {mode_of(asked)}'


def verdict_lines(asked, search, found):
    """What becomes of the runs."""
    left, cut = (runs_of(found, kind) for kind in (LEFT, CUT))
    yield from bad_lines(asked, found)
    if not any(map(is_bad, found.ways)):
        yield well_line(asked, search, found)
    if left:
        yield f'{LEAVES}: {of_runs(left, found)}'
    if cut:
        yield f'{UNTRIED}: {of_runs(cut, found)} {"was" if cut == 1 else "were"} cut after {asked.limits.fuel} steps'
    if found.more:
        yield f'{UNTRIED}: there are more runs than these'


def others(asked):
    """The command that tries others."""
    return f'  ./mpdbg check {file_of(asked)} --sample 65536 --group --explain'


def modes_in_turn(asked):
    """The command that diagnoses the modes in turn."""
    return f'  ./mpdbg diagnose {script_of(asked)} --modes 4'


def tried_next(asked, found):
    """The command that is tried next: other modes where no run hangs or traps, or each does, and others where there are more and none are drawn."""
    if is_whole(found) and len(set(map(is_bad, found.ways))) == 1:
        yield modes_in_turn(asked)
    if found.more and not is_drawn(found):
        yield others(asked)


def verdict(asked, search, found):
    """The same, as it is written, with the command that is tried next."""
    return [*all_folded(verdict_lines(asked, search, found)), *tried_next(asked, found)]


def drawn_lines(drawn):
    """What becomes of runs that are drawn."""
    hang, trap, left = (runs_of(drawn, kind) for kind in (HANG, TRAP, LEFT))
    if hang:
        yield f'{AT_RANDOM}: {of_runs(hang, drawn)} hang'
    if trap:
        yield f'{AT_RANDOM}: {of_runs(trap, drawn)} trap'
    if not hang and not trap:
        yield f'{AT_RANDOM}: none of {several(outcomes.total(drawn), "run")} hangs or traps'
    if left:
        yield f'{AT_RANDOM}: {of_runs(left, drawn)} end with calls left over'


def drawn_verdict(asked, drawn):
    """The same, as it is written behind an empty line, with the command that tries others where none hangs or traps."""
    lines = ['', *all_folded(drawn_lines(drawn))]
    return lines if any(map(is_bad, drawn.ways)) else [*lines, others(asked)]


def heading(ends, found):
    """What is told of ends that are told together: their kind, where they stand, and how many runs end so."""
    lines = ends[0].lines
    where = f'line{"s" if len(lines) > 1 else ""} {", ".join(map(str, lines))}'
    runs = sum(end.runs for end in ends)
    return f'{STANDS[ends[0].kind]} {where}: {of_runs(runs, found)}{"" if runs == 1 else OF_ONE}'


def is_pictured(leaf):
    """Whether a picture of a run is named."""
    return len(leaf.steps) <= PICTURED_STEPS


def commands(asked, leaf, picture):
    """The commands that debug a run, and draw it to a file, if it is drawn; else that it isn't."""
    run = f"{file_of(asked)} --ends --choices '{' '.join(map(str, leaf.choices))}'"
    too_long = f'  a run of {len(leaf.steps)} steps is too long for a picture'
    return [f'  ./mpdbg debug {run}', f'  ./mpdbg picture {run} > {picture}' if is_pictured(leaf) else too_long]


def bug_lines(asked, ends, found, picture):
    """What is written of ends that are told together, behind an empty line."""
    leaf = explained_of(ends).leaf
    explained = outcomes.explained(asked, leaf)
    return ['', *all_folded(marks.all_marked(asked.script, [heading(ends, found), *explained, *hints(explained)])), *commands(asked, leaf, picture)]


def hints(explained):
    """What to type to come to the step that decided, where one is told."""
    return [HINT] * any(map(DECIDED_AT.match, explained))


def pictures(kind, count):
    """The files of so many pictures, which have numbers where they are several."""
    return [f'{kind}.svg'] if count == 1 else [f'{kind}-{number}.svg' for number in range(1, count + 1)]


def all_bug_lines(asked, found, kind=RUN):
    """What is written of all ends of what was found, or drawn."""
    bugs = bugs_of(ends_of(asked, found))
    return [line for ends, picture in zip(bugs, pictures(kind, len(bugs))) for line in bug_lines(asked, ends, found, picture)]


def text_of(asked, search, found, drawn):
    """What is written of what a search found, and of what was drawn, if that was."""
    lines = [*verdict(asked, search, found), *all_bug_lines(asked, found)]
    if drawn is not None:
        lines += [*drawn_verdict(asked, drawn), *all_bug_lines(asked, drawn, OF_DRAWN)]
    return ''.join(f'{line}\n' for line in lines)


def status(asked, found, drawn):
    """The status by what was found, and what was drawn."""
    ends = [*found.ways, *(drawn.ways if drawn is not None else ())]
    if any(is_bad(outcome) or asked.strict and word_of(outcome) == LEFT for outcome in ends):
        return 1
    return 0 if is_whole(found) else NOT_WHOLE


def diagnosed(asked):
    """The result of a script that is one."""
    search, found = asked.searched()
    drawn = drawn_of(asked, found)
    return Result(text_of(asked, search, found, drawn).encode(), b'', status(asked, found, drawn))


def answer(asked):
    """The result: the mode is tested first, then the file, and the script."""
    if asked.mode is not None and not is_mode(asked.mode):
        return BAD_MODE
    if asked.script is None:
        return BAD_FILE
    try:
        return diagnosed(asked)
    except Fault as fault:
        return refusal(asked.script, fault)
