"""Compares what `diagnose` of a program says with the model, byte for byte, and both with what can be told of the text by itself.

    python3 compare/runs/diagnosed.py PROGRAM                 worked rows (worked_diagnosed.py), and 500 random scripts, each with `--strict` and
                                                              without, the same ones for a seed
    python3 compare/runs/diagnosed.py PROGRAM --count 5000    more of them
    python3 compare/runs/diagnosed.py --broken                the model in the place of a program, and its faults (diagnosed_faults.py), each of which
                                                              must be noticed; with PROGRAM, beside it

Each text is read (diagnosed_lines.py): lines are folded where they must be, what is told of bugs adds up to what becomes of the runs, the lines of a
bug are those of its explanation, its commands name the file as a shell reads it, and the status is that of what is told. The run of its commands must
end so, and be explained so. Commands of files with names that a shell reads otherwise are run by one, beside the program. What is said to be typed at
the prompt of `debug` is typed there. Where the runs of a script are few, all of them, one after another, say how many there are of each kind, how
many states they come to, which ends are one bug, which of these has the shortest run, and which step decided. The model alone answers each script
with small limits, too: there the first runs, and those that are drawn by going down the runs that are listed, say the same of what was found and what
was drawn. The status is 0 where scripts were compared, nothing was wrong, and all was met that must be.
"""

import contextlib
import os
import subprocess
import sys
import tempfile
from collections import Counter
from itertools import combinations

sys.path.insert(0, os.path.dirname(os.path.dirname(os.path.abspath(__file__))))

from cases import diagnosed_cases
from faults import diagnosed_faults
from model import deciding, diagnosed_lines, explaining, sampler, states
from model.complete import TooMany
from model.diagnosed import Limits, file_of, mode_of, script_of
from model.diagnosed_lines import COMMAND, PLACES, Named, read_diagnosis
from model.explorer import has_waitany, read_script
from model.files import held
from model.modes import RENDEZVOUS, slots_of
from model.outcomes import count_text
from model.policy import Choice
from model.report_lines import NoReport, must_be
from model.run_words import BadChoices, run_by
from model.states import word_of
from rows import worked_diagnosed
from runs import driving
from runs.driving import first_different
from runs.outcomes import HOW_DECIDED, few_leaves, last_by_leaves, states_remembered
from started.programs import run_at_once

# So many scripts meet all that must be met.
MANY = 300
# A run of so many steps has a picture.
MOST_PICTURED = 1000
# How long a search that stops may take a program, which has some 15 seconds of a processor to do.
LONG_SECONDS = 300
# The kinds of ends, as the text has them.
WORDS = {'deadlock': 'hang', 'trap': 'trap', 'leftovers': 'left', 'done': 'done', 'cut': 'cut'}
MUST_MEET = (
    'status 0', 'status 1', 'status 2', 'status 3', 'never', 'hang', 'trap', 'left', 'hang beside trap', 'left beside hang', 'left beside trap',
    'left alone', 'status 1 by --strict alone', 'one run', 'several runs', 'states that come again', 'one bug', 'several bugs',
    'several bugs of one kind', 'ends that are told alike and stand elsewhere', 'several ends of one bug', 'ends of one bug behind others',
    'a shorter run that is not the first',
    'runs that are as long', 'several lines', 'one line', 'lines that texts have in another order', 'no line is folded', 'a line is folded',
    'a line is folded twice', 'a command of more than 80 bytes', 'no choice', 'no mode in commands', 'a mode in commands', 'buffered', 'slots',
    'version 2', 'waitany', 'the runs one after another', 'more runs than are listed', 'decided by another message', 'decided by another step',
    'decided from the start', 'drawn', 'nothing is drawn behind what is bad', 'no run is found', 'hang drawn', 'trap drawn', 'left drawn', 'none drawn',
    'hang drawn beside trap', 'left drawn beside hang', 'left found and drawn', 'left drawn alone', 'status 1 by --strict and what is drawn alone',
    'one run is drawn', 'a run is drawn twice', 'all runs are drawn', 'fewer runs than all are drawn', 'a bug of several ends is drawn',
    'ends are drawn that are told alike and stand elsewhere', 'a bug is found and drawn', 'it always hangs', 'it always traps', 'always bad, and in two ways',
    'left before what is bad, by its first run', 'a name in quotes', 'a quote in a name', 'a name that begins as an option', 'other modes')
# Names of files that a shell reads otherwise where they stand without quotes, or a command takes for options.
NAMES = ('a b.mpd', "it's.mpd", 'a;b.mpd', '$(x).mpd', '`x`.mpd', '"a".mpd', 'a&b.mpd', 'a|b.mpd', 'a>b.mpd', '*.mpd', '~', '#a', 'a\\b.mpd', "'",
         '\u00e9.mpd', '-x.mpd', '-x y.mpd', '--help', '-')
# Of a script that hangs, and of one that never does, the words of each command, in their order, but for the file.
IN_A_SHELL = ((worked_diagnosed.STOLEN, (('debug', '--ends', '--choices', '0'), ('picture', '--ends', '--choices', '0'))),
              (worked_diagnosed.THREE_SENDERS, (('diagnose', '--modes', '4'),)))


def said(chosen, asked):
    """What the program says to a diagnosis, which is run where its file is, or else the model."""
    if not chosen.program:
        return asked.wanted()
    with tempfile.TemporaryDirectory(prefix='diagnosed-') as folder, contextlib.chdir(folder):
        return run_at_once(chosen.program, b'', chosen.seconds, words=asked.words(''))


def named(asked):
    """How commands must name a script, by the model."""
    return Named(asked.file, script_of(asked), mode_of(asked))


# ---- commands that a shell runs

def ran(chosen, folder, *words):
    """What words answer that are run in a folder: the status, standard output and standard error."""
    done = subprocess.run(words, cwd=folder, stdin=subprocess.DEVNULL, capture_output=True, timeout=chosen.seconds, check=False)
    return done.returncode, done.stdout, done.stderr


def by_shell(chosen, folder, line):
    """What a command answers that a shell runs; what it writes to a file is its standard output."""
    status, output, errors = ran(chosen, folder, 'sh', '-c', line)
    picture = os.path.join(folder, 'run.svg')
    if os.path.exists(picture):
        with open(picture, 'rb') as file:
            output += file.read()
        os.remove(picture)
    return status, output, errors


def name_wrong(chosen, name):
    """What is wrong with the commands that are told of scripts whose file has a name, as a shell runs them; None where nothing is."""
    for script, wanted in IN_A_SHELL:
        with tempfile.TemporaryDirectory(prefix='named-') as folder:
            os.symlink(os.path.abspath(chosen.program), os.path.join(folder, 'mpdbg'))
            held(folder, name, script.encode())
            _, output, _ = ran(chosen, folder, './mpdbg', 'diagnose', '--', name)
            lines = [line for line in output.decode().splitlines() if line.startswith(COMMAND)]
            answers = [by_shell(chosen, folder, line) for line in lines]
            if answers != [ran(chosen, folder, './mpdbg', *words, '--', name) for words in wanted]:
                return f'{lines} of the file {name!r} answer {answers}'
    return None


def names_wrong(chosen, pool):
    """What is wrong with the commands of files with such names."""
    wrong = [how for how in pool.map(name_wrong, [chosen] * len(NAMES), NAMES) if how is not None] if chosen.program else []
    print(f'{len(NAMES) if chosen.program else 0} names of files in a shell, {len(wrong)} wrong', flush=True)
    return wrong


# ---- what is typed at the prompt

def typed_wrong(chosen, asked, bug):
    """What is wrong with what is typed at the prompt where the run of a bug lies ahead, to come to the step that decided and to the end."""
    depth = diagnosed_lines.DECIDED_AT.match(bug.decided)[0].split()[3]
    with tempfile.TemporaryDirectory(prefix='typed-') as folder:
        held(folder, asked.file, asked.script)
        mode = () if asked.mode is None else ('--mode', asked.mode)
        words = 'debug', *mode, '--ends', '--choices', ' '.join(map(str, bug.choices)), '--', asked.file
        done = subprocess.run([os.path.abspath(chosen.program), *words], cwd=folder, input=b'blame\nredo all\n', capture_output=True,
                              timeout=chosen.seconds, check=False)
    _, there, behind = done.stdout.decode().partition(f'\ndepth {depth.removesuffix(":")}\n')
    return None if there and '\nended: ' in behind and not done.returncode else f'{asked}: {bug.choices} at the prompt: {done.stdout.decode()}'


def all_typed_wrong(chosen, pool):
    """What is wrong with what is typed for the bugs of worked rows whose step is told."""
    asked = [(row.case(), bug) for row in worked_diagnosed.ROWS if chosen.program and not row.errors
             for bug in read_diagnosis(row.wanted().output, named(row.case())).bugs if bug.decided and diagnosed_lines.DECIDED_AT.match(bug.decided)]
    found = [how for how in pool.map(typed_wrong, [chosen] * len(asked), *zip(*asked)) if how is not None] if asked else []
    print(f'{len(asked)} runs at the prompt, {len(found)} wrong', flush=True)
    return found


# ---- what is wrong with a text by itself

def plain_lines(explained):
    """The lines of an explanation but for what decided."""
    return tuple(line for line in explained if not line.startswith('  decided '))


def bug_wrong(asked, bug):
    """What is wrong with a bug by its run; None where nothing is."""
    try:
        leaf = run_by(asked.begun(), bug.choices, ends=True)
    except BadChoices as bad:
        return f'{bug.choices} is no run, by its choice {bad.place}'
    if WORDS[word_of(leaf.outcome)] != bug.kind:
        return f'{bug.choices} ends {leaf.outcome}, and no {bug.kind}'
    if bug.pictured != (len(leaf.steps) <= MOST_PICTURED):
        return f'{bug.choices} has {len(leaf.steps)} steps, and a picture, or none'
    return None if told_of(asked, leaf) == bug.explained else f'{bug.choices} is explained by {bug.explained}, and not {told_of(asked, leaf)}'


def told_of(asked, leaf):
    """The lines that explain a run."""
    return explaining.explanation(read_script(asked.script), asked.mode or RENDEZVOUS, leaf)


# ---- what is wrong with it by all runs, one after another

class Ended:
    """An end of runs that are listed: its first run, and how many end so."""

    def __init__(self, asked, leaf):
        self.leaf, self.runs, self.kind, self.explained = leaf, 0, WORDS[word_of(leaf.outcome)], told_of(asked, leaf)
        stands = {int(place[1]) for line in self.explained if (place := PLACES[self.kind].match(line))} if self.kind in PLACES else set()
        self.lines = tuple(sorted(stands))


def ended(asked, leaves):
    """The ends of runs, in the order of the first of each."""
    found = {}
    for leaf in leaves:
        if leaf.outcome not in found:
            found[leaf.outcome] = Ended(asked, leaf)
        found[leaf.outcome].runs += 1
    return list(found.values())


def states_come_to(asked, leaves):
    """How many states are come to, by all runs: the first, and the candidates of each choice, which is looked at once."""
    choices = {}
    for leaf in leaves:
        for world in deciding.worlds_along(asked.begun().world, leaf.steps):
            if isinstance(decided := states.decided(world), Choice):
                choices[states.key(world)] = len(decided.steps)
    return 1 + sum(choices.values())


def told_by_runs(asked, leaves):
    """The bugs as all runs tell them: the kind, the lines, and how many runs; and the one of their ends that is explained."""
    found = {}
    for end in ended(asked, leaves):
        if end.kind in PLACES:
            found.setdefault((end.kind, end.lines), []).append(end)
    wide = {(kind, lines): any(kind == other and set(fewer) < set(lines) for other, fewer in found) for kind, lines in found}
    for (kind, lines), ends in sorted(found.items(), key=lambda bug: (bug[0][0] == 'left', wide[bug[0]])):
        least = min(len(end.leaf.steps) for end in ends)
        yield (kind, lines, sum(end.runs for end in ends)), next(end.leaf for end in ends if len(end.leaf.steps) == least)


def decided_by_runs(asked, leaves, leaf):
    """What is told of the step that decided, by all runs."""
    last = last_by_leaves(deciding.worlds_along(asked.begun().world, leaf.steps), leaves, leaf)
    return f'  {deciding.line_of(read_script(asked.script), asked.begun().world.mode, leaf.steps, last)}'


def told_wrong(asked, told, counts, leaves, every):
    """What is wrong with how many runs become what, and with bugs, by the runs that are told of, and every run; None where nothing is."""
    if (told.runs, told.counts) != (len(leaves), counts):
        return f'{told.counts} of {told.runs} runs, and not {counts} of {len(leaves)}'
    bugs = list(told_by_runs(asked, leaves))
    if [(bug.kind, bug.lines, bug.runs) for bug in told.bugs] != [bug for bug, _ in bugs]:
        return f'the bugs are {[bug[:3] for bug in told.bugs]}, and not {[bug for bug, _ in bugs]}'
    for bug, (_, leaf) in zip(told.bugs, bugs):
        if bug.choices != leaf.choices:
            return f'{bug.kind} at {bug.lines} has the run {bug.choices}, and not {leaf.choices}'
        if bug.decided is not None and bug.decided != decided_by_runs(asked, every, leaf):
            return f'{bug.decided!r} is told, and not {decided_by_runs(asked, every, leaf)!r}'
    return None


def counts_by(told, leaves):
    """How many runs become what, of what is told."""
    counts = Counter(WORDS[word_of(leaf.outcome)] for leaf in leaves)
    return {kind: counts[kind] for kind in told.counts}


def drawn_by_runs(asked, leaves):
    """The runs that are drawn, by going down the choices of those that are listed: each different one once, in their order."""
    numbers, found = sampler.words(0), set()
    for _ in range(asked.limits.drawn):
        choices, there = (), leaves
        while len(there[0].choices) > len(choices):
            candidates = 1 + max(leaf.choices[len(choices)] for leaf in there)
            choices += (sampler.below(candidates, numbers),)
            there = [leaf for leaf in there if leaf.choices[:len(choices)] == choices]
        found.add(choices)
    return [leaf for leaf in leaves if leaf.choices in found]


def definition_wrong(asked, told, leaves):
    """What is wrong with what is told, by all runs; None where nothing is."""
    first = leaves[:told.runs] if told.more else leaves
    if told.more and len(first) == len(leaves):
        return f'there are more runs than {told.runs}, of {len(leaves)}'
    if told.states is not None and told.states != states_come_to(asked, leaves):
        return f'{told.states} states, and not {states_come_to(asked, leaves)}'
    wrong = told_wrong(asked, told, counts_by(told, first), first, leaves)
    if wrong is None and told.drawn is not None:
        there = drawn_by_runs(asked, leaves)
        wrong = told_wrong(asked, told.drawn, counts_by(told.drawn, there), there, leaves)
        return wrong and f'drawn: {wrong}'
    return wrong


def listed(asked):
    """All runs of a script, one after another; None where they are many."""
    try:
        return few_leaves(asked.begun())
    except TooMany:
        return None


def text_wrong(asked, result, leaves):
    """What is wrong with a text, by itself and by the runs of its script, which are None where they are many: the first thing; None where nothing
    is."""
    try:
        must_be(result.errors == b'', f'standard error has {result.errors[:80]!r}')
        told = read_diagnosis(result.output, named(asked))
        must_be(result.status == diagnosed_lines.status_of(told, asked.strict), f'status {result.status}')
        must_be(told.drawn is None or told.drawn.runs <= asked.limits.drawn, f'more than {asked.limits.drawn} runs were drawn')
    except NoReport as why:
        return str(why)
    bugs = (*told.bugs, *(told.drawn.bugs if told.drawn is not None else ()))
    wrong = next((wrong for bug in bugs if (wrong := bug_wrong(asked, bug)) is not None), None)
    return wrong if wrong is not None or leaves is None else definition_wrong(asked, told, leaves)


# ---- what was met

def stand_elsewhere(ends):
    """Whether `check` tells two of these alike which stand at other lines."""
    return any(str(one.leaf.outcome) == str(other.leaf.outcome) and one.lines != other.lines for one, other in combinations(ends, 2))


def met_of_ends(asked, told, leaves):
    """What a program may tell wrongly of the ends of runs that are listed, if they are."""
    yield 'more runs than are listed' if leaves is None else 'the runs one after another'
    ends = ended(asked, leaves or ())
    yield from ['ends that are told alike and stand elsewhere'] * stand_elsewhere(ends)
    for bug in told.bugs if ends else ():
        of_bug = [place for place, end in enumerate(ends) if (end.kind, end.lines) == (bug.kind, bug.lines)]
        between = set(range(of_bug[0], of_bug[-1])) - set(of_bug)
        lengths = [len(ends[place].leaf.steps) for place in of_bug]
        yield from ['several ends of one bug'] * (len(of_bug) > 1)
        is_before = bug.kind == 'left' and any(end.kind in ('hang', 'trap') for end in ends[of_bug[0]:])
        yield from ['left before what is bad, by its first run'] * is_before
        yield from ['ends of one bug behind others'] * any(ends[place].kind in PLACES for place in between)
        yield from ['a shorter run that is not the first'] * (min(lengths) < lengths[0])
        yield from ['runs that are as long'] * (lengths.count(min(lengths)) > 1)


def met_of_drawn(asked, told, leaves):
    """What may be told wrongly of runs that are drawn, by what is told, and by all runs, if they are listed."""
    yield from ['nothing is drawn behind what is bad'] * (told.more and told.drawn is None)
    if told.drawn is None:
        return
    drawn, found = told.drawn, ['no run is found'] * (not told.runs)
    kinds = [kind for kind in PLACES if drawn.counts[kind]]
    yield from ['drawn', *found, *(f'{kind} drawn' for kind in kinds), *(f'{one} drawn beside {other}' for one in kinds for other in kinds if one != other)]
    yield from ['none drawn'] * (not {'hang', 'trap'} & set(kinds)) + ['left found and drawn'] * bool(told.counts['left'] and drawn.counts['left'])
    is_alone = kinds == ['left'] and not told.counts['left']
    yield from ['left drawn alone'] * is_alone + ['status 1 by --strict and what is drawn alone'] * (is_alone and asked.strict)
    yield from ['one run is drawn'] * (drawn.runs == 1) + ['a run is drawn twice'] * (drawn.runs < asked.limits.drawn)
    yield from ['a bug is found and drawn'] * any(bug[:2] == other[:2] for bug in told.bugs for other in drawn.bugs)
    if leaves is None:
        return
    yield 'all runs are drawn' if drawn.runs == len(leaves) else 'fewer runs than all are drawn'
    there = ended(asked, drawn_by_runs(asked, leaves))
    yield from ['ends are drawn that are told alike and stand elsewhere'] * stand_elsewhere(there)
    yield from ['a bug of several ends is drawn'] * any(sum((end.kind, end.lines) == bug[:2] for end in there) > 1 for bug in drawn.bugs)


def met_in(asked, result):
    """What a program may answer wrongly, by an answer."""
    yield f'status {result.status}'
    if result.errors:
        return
    told = read_diagnosis(result.output, named(asked))
    kinds = [kind for kind in PLACES if told.counts[kind]]
    yield from kinds + ['never'] * (told.states is not None) + [f'{one} beside {other}' for one in kinds for other in kinds if one != other]
    yield from ['left alone'] * (kinds == ['left']) + ['status 1 by --strict alone'] * (asked.strict and kinds == ['left'])
    yield 'one run' if told.runs == 1 else 'several runs'
    yield from ['one bug'] * (len(told.bugs) == 1) + ['several bugs'] * (len(told.bugs) > 1)
    yield from ['several bugs of one kind'] * any(count > 1 for count in Counter(bug.kind for bug in told.bugs).values())
    for bug in told.bugs:
        yield 'one line' if len(bug.lines) == 1 else 'several lines'
        yield from ['lines that texts have in another order'] * (sorted(bug.lines, key=str) != list(bug.lines)) + ['no choice'] * (not bug.choices)
        yield from [name for name, part in HOW_DECIDED if bug.decided is not None and part in bug.decided]
    yield from met_in_lines(result.output.decode().splitlines())
    yield from met_of_words(asked, result.output.decode())
    yield from ['no mode in commands' if file_of(asked) == asked.file else 'a mode in commands'] * bool(told.bugs)
    yield from ['slots'] * (slots_of(asked.mode or '') is not None) + ['buffered'] * (asked.mode == 'buffered')
    yield from ['version 2'] * asked.script.startswith(b'mpd 2') + ['waitany'] * has_waitany(read_script(asked.script).body)


def met_of_words(asked, text):
    """What is met of how the script is named, and of what always is so."""
    yield from [f'it always {word}s' for word in ('hang', 'trap') if text.startswith(f'it always {word}s ')]
    told = read_diagnosis(text.encode(), named(asked))
    is_always = told.counts['hang'] and told.counts['trap'] and told.counts['hang'] + told.counts['trap'] == told.runs
    yield from ['always bad, and in two ways'] * bool(is_always and not told.more)
    yield from ['other modes'] * ('--modes 4' in text)
    yield from ['a name in quotes'] * (f"'{asked.file}'" in text) + ['a quote in a name'] * ("'\\''" in text)
    yield from ['a name that begins as an option'] * asked.file.startswith('-')


def met_in_lines(lines):
    """What is met of how lines are folded."""
    folds = [line.startswith(diagnosed_lines.GOES_ON) for line in lines]
    yield 'a line is folded' if any(folds) else 'no line is folded'
    yield from ['a line is folded twice'] * any(map(all, zip(folds, folds[1:])))
    yield from ['a command of more than 80 bytes'] * any(line.startswith(diagnosed_lines.COMMAND) and len(line) > 80 for line in lines)


def met_of_states(asked):
    """Whether a search comes to some state again."""
    search, _ = asked.searched()
    return ['states that come again'] * any(search.again.values())


# ---- comparing

def compare_one(chosen, asked, met):
    """What is wrong with what is said to a diagnosis; None where nothing is."""
    result, wanted = said(chosen, asked), asked.wanted()
    met.update(['diagnoses', *met_in(asked, wanted)])
    if result != wanted:
        return first_different(result, wanted)
    if wanted.errors:
        return None
    leaves = listed(asked)
    met.update([*met_of_states(asked), *met_of_ends(asked, read_diagnosis(wanted.output, named(asked)), leaves)])
    return text_wrong(asked, result, leaves)


def compare_limited(asked, met):
    """What is wrong with what the model says to a diagnosis with small limits; None where nothing is."""
    result = asked.wanted()
    if result.errors:
        return None
    leaves = listed(asked)
    wrong = text_wrong(asked, result, leaves)
    if wrong is None:
        met.update(['with small limits', *met_of_drawn(asked, read_diagnosis(result.output, named(asked)), leaves)])
    return wrong


def compare_chunk(chosen, numbers):
    """What differs of the diagnoses of some scripts, and what was met."""
    found, met = [], Counter()
    for number in numbers:
        with states_remembered():
            wrongs = [(asked, compare_one(chosen, asked, met)) for asked in diagnosed_cases.cases(chosen.seed, number)]
            wrongs += [(asked, compare_limited(asked, met)) for asked in diagnosed_cases.limited(chosen.seed, number)]
        found += [(asked, wrong) for asked, wrong in wrongs if wrong is not None]
    return found, met


def row_wrong(chosen, row, seconds=None):
    """What a program answers otherwise than a worked row wants, or what is wrong with that by itself; None where nothing is."""
    if seconds is not None:
        chosen.seconds = seconds
    result, wanted = said(chosen, row.case()), row.wanted()
    return f'{row.script} {row.asked}: {first_different(result, wanted)}' if result != wanted else row_unread(row)


def row_unread(row):
    """What is wrong with a worked row by itself; None where nothing is, or nothing is written."""
    if row.errors:
        return None
    try:
        told = read_diagnosis(row.wanted().output, named(row.case()))
        must_be(diagnosed_lines.status_of(told, row.asked.strict) == row.status, f'status {row.status}')
    except NoReport as why:
        return f'{row.script} {row.asked}: {why}'
    return None


def rows_wrong(chosen, pool):
    """What is answered otherwise than worked rows want."""
    tasks = [pool.submit(row_wrong, chosen, row) for row in worked_diagnosed.ROWS]
    tasks += [pool.submit(row_wrong, chosen, row, LONG_SECONDS) for row in worked_diagnosed.LONG_ROWS if chosen.program]
    found = [task.result() for task in tasks]
    # (the reader knows no other number of steps)
    found += [row_unread(row) for row in worked_diagnosed.LIMITED if row.asked.limits.fuel == Limits().fuel]
    wrong = [how for how in found if how is not None]
    print(f'{len(found)} rows, {len(wrong)} wrong', flush=True)
    return wrong


def compare(chosen, pool):
    """Compares so many scripts; gives how much differed, or was not met that must be."""
    wrong = [*rows_wrong(chosen, pool), *names_wrong(chosen, pool), *all_typed_wrong(chosen, pool)]
    differing, met, files = driving.tell(wrong), Counter(), driving.Kept('diagnosed-')
    for found, there in driving.by_chunks(pool, compare_chunk, chosen):
        met += there
        for asked, how in found:
            differing += 1
            print(f'{files.case(asked)}: {how}', flush=True)
    missed = driving.unmet(MUST_MEET, met, chosen.count >= MANY)
    print(f'{met["diagnoses"]} diagnoses of {chosen.count} scripts, and {met["with small limits"]} of the model alone, {differing} different')
    return differing + missed + (not met['diagnoses'] or not met['with small limits'])


# ---- faults of the model

def shows(fault, asked, answer):
    """Whether the model with a fault says otherwise to a diagnosis than the program, or else the sound model, or tells of a run that there isn't."""
    with driving.broken(fault):
        try:
            return asked.wanted() != answer
        except BadChoices:
            return True


def is_wrong_with(fault, asked, leaves):
    """Whether the text of the model with a fault shows it by itself, or by the runs of its script, or it tells of a run that there isn't."""
    with driving.broken(fault):
        try:
            result = asked.wanted()
        except BadChoices:
            return True
    return text_wrong(asked, result, leaves) is not None


def drawn_cases(chosen):
    """The diagnoses of all scripts."""
    return (asked for number in range(chosen.count) for asked in diagnosed_cases.cases(chosen.seed, number))


def not_noticed(chosen):
    """The faults that no row and no script shows."""
    left = diagnosed_faults.breakages()
    rows = [(row.case(), row.case().wanted()) for row in worked_diagnosed.LIMITED]
    rows += [(row.case(), said(chosen, row.case())) for row in worked_diagnosed.ROWS if row not in worked_diagnosed.CUT]
    for asked, answer in rows:
        with states_remembered():
            left = [fault for fault in left if not shows(fault, asked, answer)]
    checks = drawn_cases(chosen)
    while left and (asked := next(checks, None)) is not None:
        with states_remembered():
            answer = said(chosen, asked)
            left = [fault for fault in left if not shows(fault, asked, answer)]
    return [fault.name for fault in left]


def limited_cases(chosen):
    """Those with small limits."""
    return (asked for number in range(chosen.count) for asked in diagnosed_cases.limited(chosen.seed, number))


def not_noticed_by_text(chosen):
    """The faults that must be shown by the text itself, or by the runs of its script, and aren't."""
    left, cases = diagnosed_faults.text_faults(), (case for both in zip(drawn_cases(chosen), limited_cases(chosen)) for case in both)
    checks = (asked for asked in cases if not asked.wanted().errors)
    while left and (asked := next(checks, None)) is not None:
        with states_remembered():
            leaves = listed(asked)
            left = [fault for fault in left if not is_wrong_with(fault, asked, leaves)]
    return [f'{fault.name}, by the text itself' for fault in left]


def compare_broken(chosen, pool):
    """How many faults of the model are not noticed."""
    tasks = [pool.submit(noticing, chosen) for noticing in (not_noticed, not_noticed_by_text)]
    left = [name for task in tasks for name in task.result()]
    return driving.count_left(left, len(diagnosed_faults.breakages()) + len(diagnosed_faults.text_faults()))


def main():
    return driving.driven(driving.chosen_by(driving.parser_of(__doc__, 'scripts (500)', 500, answer='diagnosis', jobs=1)), compare, compare_broken)


if __name__ == '__main__':
    sys.exit(main())
