#!/usr/bin/env python3
"""Makes public calls of the crates with each of their requests for memory refused in turn, and says what came of it.

    python3 compare/runs/refused_calls.py [PROGRAM]      as in the gate; it builds the program of calls where none is named
    python3 compare/runs/refused_calls.py --planted      the wrong bodies of compare/probe/broken-memory/ too, in a build of their own
    python3 compare/runs/refused_calls.py --keep OUT     keeps the program that it builds

Each row (call_rows.py) is one call, made between two marks. First nothing is refused: the answer, the state before it and behind it must
be what the model says, or what was worked out by hand (call_models.py). Then each request that was made between the marks is refused,
alone, and with all behind it there. The call must answer as ever, or want of memory; and then the state is the one before it, and the same
call, made again with memory there, answers as if nothing had been. `trace`, `plain`, `serve`, `mpd_server::run` and `run_console` may go on with a line that
says so in place of an answer. A row of a call that takes no memory has made no request, and says the same where each is refused.

A call of which no row was answered want of memory fails, and so does a check by workers in which nothing that a worker was refused was
made good by its caller. Each public function of the crates is named by some call of the program, or left out for a reason
(call_coverage.py). Rows of calls that were worked out by hand, whose answers the model has not (compare/probe/direct/), are asserted in the
program itself, with nothing refused. The status is 0 where every row did one of these, and every call was met.
"""

import argparse
import itertools
import os
import re
import subprocess
import sys
import tempfile
from collections import Counter
from concurrent.futures import ThreadPoolExecutor
from typing import NamedTuple

sys.path.insert(0, os.path.dirname(os.path.dirname(os.path.abspath(__file__))))

from model.debugger import Debugger, Result, divided
from probe import call_consoles
from probe.call_coverage import not_called
from probe.call_given import trail_text
from probe.call_models import wanted
from probe.call_rows import direct_names, rows
from probe.calls_program import Body, TOP, build
from rows import session_memory
from runs import refused_memory
from started.shims import built

SHIM = f'{TOP}/bench/malloc_shim.c'
BODIES = f'{TOP}/compare/probe/broken-memory'
SECONDS = 60
# Before a program that is to have a stack of 512 KiB (docs/LANGUAGE.md, "Limits").
SMALL_STACK = ('sh', '-c', 'ulimit -S -s 512 && exec "$0" "$@"')
# Of these, which go on behind a refusal, each line is judged by itself.
SESSIONS, WIDE_SESSIONS = ('serve', 'mpd_server::run'), ('serve_by', 'run_by')
BY_LINES = ('mpd_trail::follow', 'trace', 'plain', 'plain_keeping', *SESSIONS, *WIDE_SESSIONS, *call_consoles.TALKS)
# What threads ask for isn't the same each time, and what a worker is refused its caller does.
BY_WORKERS = ('mpd_pool::check_watched', 'mpd_check::check_search', 'check_listing')
# Of the reports that the shim writes, each run has its own.
NUMBERS = itertools.count()
SECTION = re.compile(r'^= (state|answer|memory|end)\n', re.M)
MARKS = re.compile(r'^mark (?:begin|end)\n', re.M)


class Seen(NamedTuple):
    """A run of a row: its status, its sections by name and text, how often it asked between the marks, and was refused; and of these
    how often in another thread."""
    status: int
    sections: tuple
    inside: int
    refused: int
    elsewhere: int

    @property
    def names(self):
        return [name for name, _ in self.sections]

    def texts(self, name):
        return [text for it, text in self.sections if it == name]


def sections_of(output):
    """What was written, cut at its heads."""
    _, *parts = SECTION.split(MARKS.sub('', output))
    return tuple(zip(parts[::2], parts[1::2]))


def run(program, shim, row, folder, **refuse):
    """A run of a row in which the shim refuses what the words say."""
    report = f'{folder}/report-{next(NUMBERS)}'
    environment = {**os.environ, 'LD_PRELOAD': shim, 'SHIM_REPORT': report, **refuse}
    words = [*SMALL_STACK, program, *row.words] if row.is_deep else [program, *row.words]
    ended = subprocess.run(words, stdin=subprocess.DEVNULL, capture_output=True, env=environment, timeout=SECONDS)
    counts = (0, 0, 0, 0)
    if os.path.exists(report):
        with open(report, encoding='ascii') as file:
            counts = tuple(map(int, re.findall(r'\d+', file.read())))
        os.remove(report)
    inside, _, *refused = counts
    return Seen(ended.returncode, sections_of(ended.stdout.decode('ascii', 'replace')), inside, *refused)


def told(sound):
    """The sections of a sound run in which nothing is refused."""
    found = [('state', sound.before), ('answer', sound.answer), ('state', sound.behind)]
    return tuple(found if sound.end is None else [*found, ('end', sound.end)])


def told_again(sound):
    """Those of a run in which the call is refused memory, and made again."""
    before, *rest = told(sound)
    return (before, ('memory', ''), before, *rest)


def difference(found, right):
    """The first section in which a run differs."""
    for place in range(max(len(found), len(right))):
        pair = [it[place] if place < len(it) else ('nothing', '') for it in (found, right)]
        if pair[0] != pair[1]:
            return f'{pair[0][0]} {pair[0][1][:300]!r}, and not {pair[1][0]} {pair[1][1][:300]!r}'
    return None


def problem_of_replies(row, seen):
    """What is wrong with the replies to commands, of which those that can be may be refused memory, and with the debugger behind them."""
    text, model, left = ''.join(seen.texts('answer')), Debugger(row.read(), row.mode), seen.refused
    for words in row.lines:
        said, _, text = text.partition('\n')
        if said == 'memory' and left and refused_memory.can_be_refused(model, words.encode()):
            left -= 1
            continue
        right = model.answer(words.encode())
        if said != ('ok' if right.startswith('ok') else right.removeprefix('refused ')):
            return f'{words} was answered {said}'
    return None if text == trail_text(model) else f'behind the commands {text!r}'


def problem_by_lines(row, seen, sound):
    """What is wrong with the lines that were written, of which some may be refused memory."""
    if row.call == 'mpd_trail::follow':
        return problem_of_replies(row, seen)
    if seen.names != ['state', 'answer', 'state', 'end'] or seen.texts('answer') != [sound.answer]:
        return difference(seen.sections, told(sound))
    result = Result(seen.texts('end')[0].encode(), b'', 0)
    if row.call in call_consoles.TALKS:
        return call_consoles.problem(row, result.output, seen.refused)
    if row.call in SESSIONS + WIDE_SESSIONS:
        asked = session_memory.Asked(row.call, row.script.encode(), row.mode, tuple(row.argument.encode().splitlines()), row.call in WIDE_SESSIONS)
        return session_memory.problem(asked, result, seen.refused)
    data = row.argument if row.call.startswith('plain') else f'{row.script}\n---\n{row.argument}'
    if divided(data.encode())[1]:
        return refused_memory.problem(data.encode(), result, row.mode)
    return difference(seen.sections, told(sound))


def problem(row, seen, sound):
    """What is wrong with a run in which a request was refused; None where nothing is."""
    if seen.status:
        return sound_problem(seen, sound)
    if 'memory' in seen.names:
        return 'want of memory in place of a refusal' if row.steady else difference(seen.sections, told_again(sound))
    return problem_by_lines(row, seen, sound) if row.call in BY_LINES else difference(seen.sections, told(sound))


def kind_of(seen, sound):
    if 'memory' in seen.names:
        return 'memory'
    return 'answered' if seen.sections == told(sound) else 'went on'


class Outcome(NamedTuple):
    """What came of a row: what is wrong, and how often each kind of answer was met."""
    row: object
    wrong: tuple
    kinds: Counter
    inside: int


def sound_problem(seen, sound):
    """What is wrong with a run that must be answered as ever."""
    what = difference(seen.sections, told(sound))
    return f'status {seen.status}, {what}' if seen.status else what


def try_spared(row, first, sound, again):
    """A call that takes no memory."""
    wrong = [f'it made {first.inside} requests'] if first.inside else []
    if what := sound_problem(again(SHIM_REFUSE='inside'), sound):
        wrong.append(f'with all refused: {what}')
    return Outcome(row, tuple(wrong), Counter(spared=1), first.inside)


def chosen(count, most):
    """The numbers of the requests that are refused: all, or so many, spread over all, the first and the last among them."""
    if count <= most or most < 2:
        return range(1, min(count, most) + 1)
    return sorted({1 + (count - 1) * place // (most - 1) for place in range(most)})


def has_workers(row):
    """Whether it is by several workers, of several pieces, so that each of two has one; and all of its requests are refused."""
    return row.call in BY_WORKERS and row.numbers()[0] > 1 and row.numbers()[1] > 0 and row.most == sys.maxsize


def refuse_each(row, first, sound, again):
    """Each request of a call refused, alone and with all behind it."""
    wrong, kinds, by_worker = [], Counter(), Counter()
    for variable in ('SHIM_REFUSE_INSIDE_ONE', 'SHIM_REFUSE_INSIDE'):
        for number in chosen(first.inside, row.most):
            seen = again(**{variable: str(number)})
            kinds[kind_of(seen, sound) if seen.refused else 'not refused'] += 1
            if seen.refused == seen.elsewhere > 0:
                by_worker['memory' in seen.names] += 1
            what = problem(row, seen, sound)
            if what is None and not seen.refused and row.call not in BY_WORKERS:
                what = 'nothing was refused'
            if what:
                wrong.append(f'{variable}={number}: {what}')
    if has_workers(row) and by_worker[False] <= by_worker[True]:
        made_good, not_made = by_worker[False], by_worker[True]
        wrong.append(f'of what workers alone were refused {made_good} times their caller did it, {not_made} times it was want of memory')
    return Outcome(row, tuple(wrong), kinds, first.inside)


def try_row(program, shim, row, folder):
    """A row: with nothing refused, and then with each request refused."""
    def again(**refuse):
        return run(program, shim, row, folder, **refuse)
    sound, first = wanted(row), again()
    if what := sound_problem(first, sound):
        return Outcome(row, (f'nothing refused: {what}',), Counter(), first.inside)
    return (try_spared if row.spares else refuse_each)(row, first, sound, again)


def tried(program, chosen, jobs):
    """What came of each row."""
    with tempfile.TemporaryDirectory() as folder, ThreadPoolExecutor(jobs) as pool:
        shim = built(SHIM, folder)
        return list(pool.map(lambda row: try_row(program, shim, row, folder), chosen))


def unmet(program, outcomes):
    """Calls of the program that have no row, and those of which no row was answered want of memory, though some may be."""
    names = subprocess.run([program], capture_output=True, text=True, check=True).stdout.splitlines()
    met = {it.row.call for it in outcomes}
    refused = {it.row.call for it in outcomes if it.kinds['memory']}
    may_be = {it.row.call for it in outcomes if not (it.row.spares or it.row.steady) and it.row.most}
    yield from (f'{name}: no row' for name in names if name not in met)
    yield from (f'{name}: never answered want of memory' for name in sorted(may_be - refused))


def fails_directly(program, name):
    """What is wrong with rows that the program asserts by itself."""
    try:
        ended = subprocess.run([program, 'direct', name], stdin=subprocess.DEVNULL, capture_output=True, text=True, errors='replace', timeout=SECONDS)
    except subprocess.TimeoutExpired:
        return f'direct {name}: it has not ended after {SECONDS} seconds'
    return None if ended.returncode == 0 else f'direct {name}: status {ended.returncode}: {ended.stderr.strip()[:300]}'


def direct_rows(program, jobs):
    """What is wrong with rows of direct calls, those that stand in a file and aren't listed among it; and how many there are."""
    names = subprocess.run([program, 'direct'], capture_output=True, text=True, check=True).stdout.split()
    with ThreadPoolExecutor(jobs) as pool:
        wrong = [it for it in pool.map(lambda name: fails_directly(program, name), names) if it]
    return [*wrong, *(f'direct {name}: it is not tried' for name in sorted(direct_names() - set(names)))], len(names)


def summary(outcomes):
    """The counts of the table in docs/TRIED.md."""
    kinds = sum((it.kinds for it in outcomes), Counter())
    spared = kinds.pop('spared', 0)
    calls = len({it.row.call for it in outcomes if not it.row.spares})
    answers = ', '.join(f'{count} {kind}' for kind, count in sorted(kinds.items()))
    return f'{calls} calls in {len(outcomes) - spared} rows, {kinds.total()} refusals: {answers}; {spared} rows that take no memory'


def report(program, outcomes, jobs):
    """Says what is wrong; answers whether nothing is."""
    failed, direct = direct_rows(program, jobs)
    wrong = [f'{it.row.name}: {what}' for it in outcomes for what in it.wrong[:3]] + [*unmet(program, outcomes), *not_called(), *failed]
    for text in wrong:
        print(text)
    print(f'{summary(outcomes)}; {direct} tests of direct calls; {len(wrong)} wrong', flush=True)
    return not wrong


def report_rows(outcomes):
    """Says what came of each row; answers whether nothing is wrong."""
    for it in outcomes:
        print(f'{it.row.name}: {it.inside} requests, {dict(it.kinds)}', *it.wrong, sep='\n  ')
    return bool(outcomes) and not any(it.wrong for it in outcomes)


def planted(folder, jobs):
    """Whether each wrong body is noticed, by the row that it names, with the words that it names."""
    bodies = [Body(f'{BODIES}/{name}') for name in sorted(os.listdir(BODIES))]
    program = f'{folder}/broken'
    build(program, bodies)
    all_rows = list(rows())
    left = 0
    for body in bodies:
        chosen = [row for row in all_rows if row.name == body.row]
        said = [what for it in tried(program, chosen, jobs) for what in it.wrong]
        if body.row.startswith('direct '):
            said, chosen = [fails_directly(program, body.row.removeprefix('direct ')) or 'it holds'], [body.row]
        if not any(body.said in what for what in said):
            left += 1
            print(f'{body.name}: not noticed by {len(chosen)} rows; said was {said[:2]}')
    print(f'{len(bodies) - left} wrong bodies noticed, {left} not', flush=True)
    return not left


def main():
    parser = argparse.ArgumentParser(description=__doc__, formatter_class=argparse.RawDescriptionHelpFormatter)
    parser.add_argument('program', metavar='PROGRAM', nargs='?')
    parser.add_argument('--call', help='the rows of this call alone')
    parser.add_argument('--jobs', type=int, default=2, help='how many runs at a time')
    parser.add_argument('--keep', metavar='OUT', help='where the program is kept')
    parser.add_argument('--planted', action='store_true', help='the wrong bodies too')
    chosen = parser.parse_args()
    with tempfile.TemporaryDirectory() as folder:
        program = os.path.abspath(chosen.program or chosen.keep or f'{folder}/calls')
        if not chosen.program:
            build(program)
        outcomes = tried(program, [row for row in rows() if chosen.call in (None, row.call)], chosen.jobs)
        is_well = report(program, outcomes, chosen.jobs) if chosen.call is None else report_rows(outcomes)
        if chosen.planted:
            is_well = planted(folder, chosen.jobs) and is_well
    return 0 if is_well else 1


if __name__ == '__main__':
    sys.exit(main())
