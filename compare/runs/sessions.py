"""Compares what `run` of a program replies with the model, byte for byte: the same sessions for the same seed and count.

    python3 compare/runs/sessions.py PROGRAM             the worked dialogues, 300 random sessions of scripts of version 1, and 75 of version 2
    python3 compare/runs/sessions.py PROGRAM --two-modes a program that has no modes `slots:K`
    python3 compare/runs/sessions.py PROGRAM --version 1 a program that knows version 1 alone, and two modes
    python3 compare/runs/sessions.py --broken            faults of the model, each noticed; with no program the sound model stands for it

Each session is a script in a file, in some mode, and lines of requests on standard input (session_cases.py), among them
lines that are spoiled in every way (session_lines.py). A third is given at once; a third in pieces, each of which is one read of the
program, whatever lines it ends in; and of a third each line is written only when the reply to the one before it has come, so that a
program that reads on before it replies never ends. Replies, standard error and status must be the model's. The status is 0 where
sessions were compared, none differed, and all was met that must be, which fewer than 300 needn't do.
"""

import json
import os
import sys
import tempfile
import time
from collections import Counter
from concurrent.futures import ProcessPoolExecutor
from functools import cache
from typing import NamedTuple, Optional

sys.path.insert(0, os.path.dirname(os.path.dirname(os.path.abspath(__file__))))

from cases.explore_cases import Beside
from cases.kinds import BESIDE
from cases.session_cases import WAYS, Case, random_case
from cases.session_lines import KINDS
from faults import policy_faults, session_faults, session_line_faults, session_look_faults, slots_faults, waitany_faults
from model import session
from model.debugger import Result
from model.files import held
from model.language import read_up_to
from model.modes import has_slots, know_modes, slots_of
from model.session import FIELDS, NAMES, WIDE_COMMANDS, WIDE_KINDS, Refused, lines_of, parse, read_json
from rows import worked_slots, worked_waitany
from rows.worked_sessions import (BOTH, DIALOGUES, ENDINGS, FIRST, IN_PIECES, LONG, TESTED, TESTED_PLAIN, dialogue_problem, tested_differently, tested_input,
                                  tested_problem)
from runs import driving
from runs.driving import first_different
from started.programs import run_at_once, run_in_packets
from started.turn_by_turn import run_in_turns

CHUNK = 5
# So many sessions meet all that must be met.
MANY = 300
STOPS = ('leaf', 'choice', 'max', 'full', 'break by a run', 'break by a run on', 'break by a run back', 'start')
TOLD = ('a null', 'a number below 0', 'a number printed', 'outcome done', 'outcome leftovers', 'outcome deadlock', 'outcome trap', 'undone steps',
        'set pair', 'set woke', 'set barrier', 'rank at', 'rank blocked', 'rank trapped', 'rank ended', 'eligible', 'held by', 'no partners',
        'leaf done', 'leaf leftovers', 'leaf deadlock', 'leaf trap', 'leaf cut', 'leaf with choices', 'more leaves', 'no more leaves',
        'breakpoint line', 'breakpoint match', 'breakpoint change', 'breakpoint handle', 'breakpoint rank', 'breakpoint of a rank',
        'breakpoint with a condition', 'a stop by rank', 'two stops of one breakpoint', 'a last line without an end', 'no reply to a line',
        'a script that is refused', 'a depth above 100', 'the right version', 'a choice that is not looked at', 'a stop by line',
        'a stop by match', 'a stop by change', 'a stop by handle', 'a run on past a single candidate',
        'a run on that stops behind a single candidate', 'decision forced', 'decision choice', 'decision leaf', 'a choice of a single candidate',
        'no line', 'a rank that can go on', 'a partner', 'no partner', 'an explanation', 'nothing to explain', 'steps ahead', 'no steps listed',
        'a breakpoint that the last step hits', 'no breakpoint that the last step hits',
        'an array declared', 'a handle declared',
        'a wide command without --wide', 'a wide kind without --wide', 'a wide field without --wide')
# What must be met of version 2.
TOLD_OF_2 = ('a choice of wakes by a handle', 'a wake by a handle', 'a wait for any', 'a wait for any of nothing')
# What must be met of modes of slots.
TOLD_OF_SLOTS = ('a session in slots', 'a buffered send', 'a buffered send that is matched', 'a standard send that is not buffered')
MUST_MEET = (*(f'{command} ok' for command in FIELDS), *NAMES.values(), *(f'stop {stop}' for stop in STOPS), *TOLD, *WAYS, *KINDS)


# ---- a program

def words_of(case, folder):
    """The words that have a program answer a session, with its script in a folder."""
    return ('run', held(folder, 'script.mpd', case.script), *(() if case.mode is None else ('--mode', case.mode)), *('--wide',) * case.wide)


def run(chosen, case):
    """What the program gives for a session."""
    with tempfile.TemporaryDirectory(prefix='sessions-') as folder:
        words = words_of(case, folder)
        if case.way == 'at once':
            return run_at_once(chosen.program, case.data, chosen.seconds, words=words)
        if case.way == 'in pieces':
            return run_in_packets(chosen.program, case.pieces, chosen.seconds, words)
        return run_in_turns(chosen.program, case.pieces, chosen.seconds, words)


# ---- what was met

def met_in_reply(command, reply):
    """What a program may say wrongly in a reply to a command, which is None where that was refused."""
    if not reply['ok']:
        return [reply['error']]
    found = [f'{command} ok'] + ['a depth above 100'] * (reply.get('depth', 0) > 100) + ['undone steps'] * (reply.get('undone', 0) > 0)
    return found + met_in_stop(command, reply) + met_in_state(reply) + met_in_leaves(reply) + met_in_looks(command, reply)


def met_in_stop(command, reply):
    """The same of a run."""
    stop = reply.get('stop')
    if stop is None:
        return []
    return [f'stop {stop}' + (f' by a {command.replace("-", " ")}' if stop == 'break' else '')]


def met_in_state(reply):
    """The same of what is told of ranks, calls and breakpoints."""
    found = [f'outcome {text.split()[0]}' for text in [reply.get('outcome')] if text]
    if 'mode' in reply:
        return ['an array declared'] * any('[' in name for name in reply['vars'] + reply['handles']) + ['a handle declared'] * bool(reply['handles'])
    found += [f'set {text.split()[0]}' for text in reply.get('sets', [])] + [f'rank {text.split()[0]}' for text in reply.get('ranks', [])]
    numbers = [*reply.get('vars', []), *reply.get('handles', []), *reply.get('out', [])]
    found += ['a null'] * (None in numbers) + ['a number below 0'] * any(number is not None and number < 0 for number in numbers)
    found += ['a number printed'] * bool(reply.get('out'))
    if 'lines' not in reply:
        found += ['held by' if 'held by' in text else 'eligible' for text in reply.get('partners', [])]
        found += ['no partners'] * (reply.get('partners') == [])
    found += ['a wake by a handle'] * any(text.startswith('wakeany') for text in [reply.get('step', '')])
    found += [f'a wait for any{" of nothing" * text.endswith(" none")}' for text in reply.get('calls', []) if text.startswith('waitany')]
    stops = [text.split() for text in reply.get('breaks', [])]
    found += ['breakpoint of a rank' for words in stops if words[3:4] == ['rank']] + ['breakpoint with a condition' for words in stops if 'if' in words]
    return found + [f'breakpoint {words[1]}' for words in stops]


def met_in_looks(command, reply):
    """The same of looks at all ranks, at steps and at calls."""
    if command == 'decision':
        return [f'decision {reply["decision"]}'] + ['a choice of a single candidate'] * (reply['decision'] == 'choice' and len(reply['steps']) == 1)
    if command in ('where', 'all'):
        return ['no line'] * (None in reply['lines']) + ['a rank that can go on'] * bool(reply['ready'])
    if command == 'lines':
        return ['no partner' if other is None else 'a partner' for other in reply['partners']]
    if command == 'hit':
        return [f'{"a" if "break" in reply else "no"} breakpoint that the last step hits']
    if command == 'steps':
        return ['steps ahead'] * (reply['undone'] > 0) + ['no steps listed'] * (not reply['steps'])
    return [('an explanation' if reply['told'] else 'nothing to explain')] if command == 'explain' else []


def met_in_leaves(reply):
    """The same of what is explored."""
    leaves = [text[1:].split('] ') if text[1] != ']' else ('', text[3:]) for text in reply.get('leaves', [])]
    found = [f'leaf {outcome.split()[0]}' for _, outcome in leaves] + ['leaf with choices'] * any(choices for choices, _ in leaves)
    return found + [('more leaves' if more else 'no more leaves') for more in [reply.get('more')] if more is not None]


def command_of(line):
    """The command of a line that was answered ok."""
    return read_json(line)['cmd']


def met_in_session(data, output):
    """What a program may say wrongly in the replies to an input."""
    lines, met = lines_of(data), Counter()
    met['no reply to a line'] += lines.count(b'')
    met['a last line without an end'] += bool(data) and not data.endswith(b'\n')
    stopped = None
    for line, text in zip([line for line in lines if line], output.splitlines()):
        reply = json.loads(text)
        met.update(met_in_reply(command_of(line) if reply['ok'] else None, reply))
        if reply.get('stop') == 'break':
            met['two stops of one breakpoint'] += stopped == reply['break']
            stopped = reply['break']
    return met


def met_in(case, wanted):
    """The same of a session."""
    if wanted.status:
        return Counter({'a script that is refused': 1})
    return case.met + met_in_session(case.data, wanted.output) + Counter({case.way: 1}) + met_of_slots(case, wanted) + met_by_wide(case)


def met_by_wide(case):
    """What is refused in a session for want of `--wide` alone."""
    return Counter() if case.wide else Counter(filter(None, map(wide_alone, filter(None, lines_of(case.data)))))


def wide_alone(line):
    """What a line has that is read with `--wide` alone; None where it has nothing, or is refused with it too."""
    try:
        request = parse(line, True)
    except Refused:
        return None
    try:
        parse(line)
    except Refused:
        kind = request.fields.get('kind')
        return f'a wide {"command" if request.command in WIDE_COMMANDS else "kind" if kind in WIDE_KINDS else "field"} without --wide'
    return None


def met_of_slots(case, wanted):
    """The same of one in a mode of slots."""
    if case.mode is None or slots_of(case.mode) is None:
        return Counter()
    calls = [text for line in wanted.output.splitlines() for text in json.loads(line).get('calls', []) if text.startswith(('send', 'isend'))]
    buffered = [' buffered' in text for text in calls]
    matched = sum(' buffered with ' in text for text in calls)
    return Counter({'a session in slots': 1, 'a buffered send': sum(buffered), 'a buffered send that is matched': matched,
                    'a standard send that is not buffered': len(calls) - sum(buffered)})


# ---- comparing

def kept(files, case):
    """Keeps a session; says how to ask it again."""
    path = files.folder(case.name)
    return f'{" ".join(words_of(case, path))} < {held(path, "requests", case.data)} ({case.way})'


def compare_chunk(chosen, numbers):
    """Compares some sessions: how many replies there were, those that differ, each with how, and what was met."""
    found, met, count = [], Counter(), 0
    for case in (random_case(chosen.seed, number) for number in numbers):
        result, wanted = run(chosen, case), case.wanted()
        met.update(met_in(case, wanted))
        count += wanted.output.count(b'\n')
        if result != wanted:
            found.append((case, first_different(result, wanted)))
    return count, found, met


def worked_cases(chosen):
    """The worked dialogues that a program can be asked, each way, and the worked inputs, each with what must be answered."""
    for row in DIALOGUES + LONG + worked_waitany.DIALOGUES * (chosen.version > 1) + worked_slots.DIALOGUES * has_slots(chosen):
        if row.limit is None:
            pieces = tuple(f'{line}\n'.encode('latin-1') for line, _ in row.turns)
            for way in ('at once', 'turn by turn')[:1 if row in LONG else 2]:
                for wide in BOTH if row.is_plain() else (row.wide,):
                    yield Case(row.what, row.script.encode(), row.mode, pieces, way, Counter(), wide), row.wanted()
    for data, wanted in ENDINGS:
        for way in WAYS if data else ('at once',):
            yield Case(f'ending {data[:30]!r}', FIRST.encode(), None, tuple(cut(data.encode())), way, Counter()), wanted.encode()
    for pieces, wanted in IN_PIECES:
        data = tuple(piece.encode('latin-1') for piece in pieces)
        yield Case(f'pieces {pieces[-1][:30]!r}', FIRST.encode(), None, data, 'in pieces', Counter()), f'{wanted}\n'.encode()


def cut(data):
    """The pieces of an input, each as long as one read may be."""
    return (data[place:place + 4096] for place in range(0, len(data), 4096))


def worked_problem(chosen, case, wanted):
    """What the program answers otherwise than a worked dialogue wants; None where nothing is."""
    result, due = run(chosen, case), Result(wanted, b'', 0)
    return None if result == due else f'{case.name} ({case.way}): {first_different(result, due)}'


def compare_worked(chosen, pool):
    """Compares the worked dialogues; gives how many differ, and what was met."""
    cases = list(worked_cases(chosen))
    problems = [problem for problem in pool.map(worked_problem, [chosen] * len(cases), *zip(*cases)) if problem]
    for rows, wide in ((TESTED, True), (TESTED_PLAIN, False)):
        result = run(chosen, Case('lines', FIRST.encode(), None, (tested_input(rows),), 'at once', Counter(), wide))
        problems += tested_differently(result.output, rows) + [f'{result.status}'] * (result.status != 0)
    for problem in problems:
        print(problem)
    print(f'{len(cases)} dialogues and {len(TESTED) + len(TESTED_PLAIN)} lines, {len(problems)} wrong', flush=True)
    return len(problems), sum((met_in_session(case.data, wanted) for case, wanted in cases), Counter())


def beside(chosen):
    """What is chosen, for the scripts of version 2, of which there are fewer."""
    return chosen._replace(seed=Beside(chosen.seed), count=chosen.count // BESIDE)


def versions(chosen):
    """What is chosen, for the scripts of each version."""
    return [chosen, beside(chosen)][:chosen.version]


def compare_random(chosen, pool):
    """Compares so many random sessions; gives how many replies there were, how many sessions differed, and what was met."""
    files = driving.Kept('sessions-')
    return driving.all_compared(pool, compare_chunk, versions(chosen), CHUNK, lambda case: kept(files, case))


def unmet(chosen, met):
    """Says what was met; gives how much was not that must be."""
    must_meet = MUST_MEET + TOLD_OF_2 * (chosen.version > 1) + TOLD_OF_SLOTS * has_slots(chosen)
    return driving.unmet(must_meet, met, chosen.count >= MANY)


# ---- broken models

class Faults(NamedTuple):
    """Faults of the model, the worked dialogues that may notice them, and what is chosen for the sessions that may."""
    faults: list
    dialogues: tuple
    chosen: object


def breakages(chosen):
    """All faults of what the program knows, each with what may notice it."""
    parts = [Faults(session_faults.breakages() + session_look_faults.breakages() + session_line_faults.breakages(), DIALOGUES, chosen)]
    parts += [Faults(breakages_of_2(), worked_waitany.DIALOGUES, beside(chosen))] * (chosen.version > 1)
    parts += [Faults(slots_faults.session_faults(session), worked_slots.DIALOGUES, chosen)] * has_slots(chosen)
    return [(fault, part.dialogues, part.chosen) for part in parts for fault in part.faults]


def breakages_of_2():
    """Those of waits for any."""
    return [*waitany_faults.decision_faults(), *waitany_faults.hit_faults(), *policy_faults.late_breakages_of_2()]


@cache
def heard(chosen, number):
    """A session, and what the program gives for it, or else the sound model."""
    case = random_case(chosen.seed, number)
    return case, run(chosen, case) if chosen.program else case.wanted()


def is_noticed(chosen, place):
    """By what a fault of the model is noticed: a worked dialogue, or a session in which it says otherwise; None where it isn't."""
    fault, dialogues, chosen = breakages(chosen)[place]
    with driving.broken(fault):
        if any(map(dialogue_problem, dialogues)):
            return 'a dialogue'
        if any_line_wrong():
            return 'a line'
    return noticing_session(chosen, fault)


def any_line_wrong():
    """Whether a worked line is told apart otherwise."""
    return any(tested_problem(*row, True) for row in TESTED) or any(tested_problem(*row, False) for row in TESTED_PLAIN)


def noticing_session(chosen, fault):
    """The session in which a broken model says otherwise; None where there is none."""
    for number in range(chosen.count):
        case, said = heard(chosen, number)
        with driving.broken(fault):
            if said != case.wanted():
                return case.name
    return None


def compare_broken(chosen, pool):
    """How many faults of the model are not noticed."""
    faults = [fault for fault, _, _ in breakages(chosen)]
    if any(map(dialogue_problem, DIALOGUES)) or any_line_wrong():
        print('the sound model itself answers a dialogue otherwise: compare/runs/worked.py tells which')
        return len(faults)
    noticed = list(pool.map(is_noticed, [chosen] * len(faults), range(len(faults))))
    for fault, by in zip(faults, noticed):
        print(f'{fault.name}: {"noticed by " + by if by else "NOT NOTICED"}', flush=True)
    print(f'{len(faults)} broken models, {len(faults) - noticed.count(None)} noticed')
    return noticed.count(None) + (not faults)


class Chosen(NamedTuple):
    """What the words of the command line choose."""
    program: Optional[str]
    count: int
    seed: object
    version: int
    two_modes: bool
    broken: bool
    jobs: int
    seconds: float
    memory: int
    output: int


def prepare(chosen):
    """Readies a process for its part of a run."""
    driving.prepare(chosen)
    read_up_to(chosen.version)
    know_modes(has_slots(chosen))


def arguments():
    told = 'sessions of scripts of version 1 (300), and a quarter of these of version 2'
    parser = driving.parser_of(__doc__, told, 300, 'session', *driving.CORES, others='sessions')
    driving.add_versions(parser)
    return Chosen(**vars(driving.chosen_by(parser, 'broken')))


def main():
    chosen = arguments()
    began, wrong = time.monotonic(), 0
    with ProcessPoolExecutor(chosen.jobs, initializer=prepare, initargs=(chosen,)) as pool:
        if chosen.program:
            compared, differing, met = compare_random(chosen, pool)
            worked_wrong, met_there = compare_worked(chosen, pool)
            wrong += differing + worked_wrong + unmet(chosen, met + met_there) + (compared < 1)
            sessions = sum(one.count for one in versions(chosen))
            print(f'{compared} replies of {sessions} sessions compared, {differing} different, {time.monotonic() - began:.1f} seconds')
        if chosen.broken:
            wrong += compare_broken(chosen, pool)
    return 1 if wrong else 0


if __name__ == '__main__':
    sys.exit(main())
