"""Runs the built program with each of its allocations refused in turn, and says what it may do then.

    python3 compare/runs/refused_memory.py PROGRAM [--shim SO]

A run may end with the right answers up to one of them, `mpdbg: memory` and status 3; or it goes on, with `refused memory` in
place of an answer that can be refused: then the state stands, and all answers behind it are right. Where all allocations from
one on are refused it is the same. The sessions have their scripts on standard input, one also in a file, and one in a file alone,
in the mode `buffered`. What `check`, `diagnose` and `verify` answer, words of the command line that ask for help, and those that are wrong, are
answered as ever, or by `mpdbg: memory`, status 3, with nothing written. Of several workers of a check, who ask for memory at the same
time, it is another request each time that is refused. A session of `run` has two lines of its own for this (session_memory.py), and so has a
dialogue of `debug` (console_memory.py). The status is 0 where every run did one of these. The allocations are refused by a shared object, which is built from bench/malloc_shim.c
where none is named.
"""

import argparse
import os
import re
import sys
import tempfile
from collections import Counter
from typing import NamedTuple

sys.path.insert(0, os.path.dirname(os.path.dirname(os.path.abspath(__file__))))

from cases.explore_cases import Case
from model import console, session
from model.debugger import BUFFERED, RENDEZVOUS, Debugger, Result, divided, enabled_steps, next_world, step_of, step_text
from model.diagnosed import Diagnosis
from model.explorer import Asked
from model.files import held
from model.language import read_script
from model.witness import Verification
from places import EXAMPLES, TOP
from rows import console_memory, session_memory
from started.programs import run_at_once
from started.shims import built

SHIM = f'{TOP}/bench/malloc_shim.c'
SECONDS = 20
REFUSED = b'refused memory\n'
# How sessions of `run`, and dialogues of `debug`, must have gone on, in one run or another.
MET_IN_SESSIONS = ('ended', 'memory', 'unprinted')

# A state with much to show: pending and posted calls, an array, requests, some of them lost, and a deadlock.
MUCH = (b'mpd 1; ranks 4; var a[40]; var x; req r[3];\nwhile x < 3 { a[x] = x * 1000000007; x = x + 1; }\n'
        b'isend r[0] x to rank tag 5; irecv r[1] a[9] from rank tag 5; isend r[0] x to 3 - rank tag 6; wait r[1]; wait r[2];\n'
        b'if rank == 0 { send 7 to 1 tag 0; }\nif rank == 1 { recv x from 0 tag 0; }\nprint x; print a[1];\n'
        b'if rank == 2 { send 1 to 3 tag 9; } else { recv x from (rank + 1) % size tag 3; }\n---\n')

# Rounds of synchronous sends in a ring, each with a barrier behind it.
MEETINGS = (b'mpd 1; ranks 3; var i; var x; req r;\nwhile i < 2 {\n  issend r i to (rank + 1) % size tag i;\n'
            b'  recv x from (rank + 2) % size tag i;\n  wait r;\n  barrier;\n  i = i + 1;\n}\n---\n')


# Ranks that send before they receive, and so meet only where sends are buffered.
HEAD_TO_HEAD = (b'mpd 1; ranks 2; var x;\nsend rank to 1 - rank tag 5;\nrecv x from 1 - rank tag 5;\nbarrier;\nprint x;\n---\n')


# What is received first decides whether a rank is trapped, or stuck with another, or goes on; runs of it have one choice to three.
DECIDED = (b'mpd 1; ranks 4; var x; var y; req r;\nif rank == 0 {\n  recv x from any tag any;\n  if x == 1 { assert 0; }\n'
           b'  if x == 2 { recv y from 2 tag 9; }\n  recv y from any tag any; recv y from any tag any;\n} else {\n'
           b'  isend r rank to 0 tag 0;\n}\nif rank == 3 { wait r; barrier; }\n')


def walked(text, mode=RENDEZVOUS):
    """Words that take the first enabled step until there is none, show each release, and take it all back."""
    debugger = Debugger(read_script(divided(text)[0]), mode)
    lines = []
    while steps := enabled_steps(debugger.world):
        debugger.take(steps[0])
        lines += [step_text(steps[0]).encode()] + [b'enabled', b'show'] * (steps[0].kind == 'release')
    return text + b''.join(line + b'\n' for line in [*lines, b'show', *[b'back'] * (debugger.depth + 1), b'show'])


def along(text):
    """Words that take the first enabled step until there is none, and go back and forward along these steps, and past their ends."""
    debugger = Debugger(read_script(divided(text)[0]))
    while steps := enabled_steps(debugger.world):
        debugger.take(steps[0])
    count = debugger.depth
    lines = [step_text(step).encode() for step in debugger.steps]
    lines += [b'goto %d' % (count // 2), *[b'redo'] * 3, b'show', b'goto %d' % count, b'goto 0', *[b'redo'] * (count + 1), b'show']
    return text + b''.join(line + b'\n' for line in lines)


def lively():
    """Words that go to the end of that script, show it, and take it all back."""
    debugger = Debugger(read_script(divided(MUCH + b'x')[0]))
    lines = []
    matches = [*(b'match %d.0 %d.1' % (rank, rank) for rank in range(4)), b'match 0.5 1.5']
    for _ in range(80):
        for line in (*(b'local %d' % rank for rank in range(4)), *matches, *(b'wake %d' % rank for rank in range(4))):
            if debugger.answer(line).startswith('ok'):
                lines.append(line)
    half = len(lines) // 2
    there = [*lines[:half], b'show', b'enabled', *lines[half:], b'enabled', b'show', b'', b'fly', b'local 9']
    return MUCH + b''.join(line + b'\n' for line in [*there, *[b'back'] * (len(lines) + 1), b'show'])


# Words that are answered by a text alone.
ANSWERED = ('--help', 'trace --help', 'run --help', 'run a --mode b', '--version', 'trac', 'trace', 'trace a --mod b', 'trace a --mode b', 'trace a b', 'serve --help', 'serve a',
            'serve a --port 0', 'check --help', 'check a --runs 0', 'check a --workers 0 --mode b', 'check a --split 9', 'check a --mode b',
            'verify --help', 'verify a', 'verify a b --mode c')

# Words with another number of ranks.
RANKED = ('trace FILE --ranks 2', 'c FILE --ranks 16', 'diagnose FILE --ranks 2-4', 'diagnose FILE --modes 1')


def inputs():
    for name in ('first.trace', 'primes.trace', 'requests.trace', 'wildcards.trace'):
        with open(os.path.join(EXAMPLES, name), 'rb') as file:
            yield name, file.read()
    with open(os.path.join(EXAMPLES, 'primes.trace'), 'rb') as file:
        yield 'primes.trace taken back', file.read() + b'back\n' * 90 + b'show\n'
    yield 'much to show', lively()
    yield 'barriers', walked(MEETINGS)
    yield 'back and forward', along(MEETINGS)


def witness_of(report):
    """The line of the first deadlock of a report and that of its witness, as one text."""
    lines = report.splitlines(keepends=True)
    place = next(place for place, line in enumerate(lines) if line.startswith(b'witness '))
    return b''.join(lines[place - 1:place + 1])


def reports():
    """What `check` is asked of, and `verify` of one of its witnesses and of others."""
    yield 'a report with witnesses', Case('', DECIDED, Asked(witnesses=True, split=0))
    yield 'a report that is cut, buffered', Case('', DECIDED, Asked(BUFFERED, 3, 19, split=0))
    yield 'a report by pieces', Case('', DECIDED, Asked(witnesses=True, split=2, workers=1))
    yield 'a report up to its first deadlock', Case('', DECIDED, Asked(split=2, workers=1, until=True))
    yield 'a report of one piece', Case('', DECIDED, Asked(witnesses=True, workers=1, piece=1))
    yield 'a number of pieces', Case('', DECIDED, Asked(split=3, workers=1, pieces=True))
    yield 'no such piece', Case('', DECIDED, Asked(workers=1, piece=3))
    text = witness_of(Case('', DECIDED, Asked(witnesses=True)).wanted().output)
    yield 'a witness', Verification(DECIDED, text)
    yield 'a witness of other calls', Verification(DECIDED, text.replace(b' 0.1', b' 0.1 0.1', 1))
    yield 'a witness of other steps', Verification(DECIDED, text.replace(b', wake 0', b', wake 0, wake 0', 1))
    yield 'a witness in the other mode', Verification(DECIDED, text, BUFFERED)
    yield 'a text that is no witness', Verification(DECIDED, text.replace(b', wake 0', b', wake x', 1))


def reports_by_workers():
    """What `check` is asked of where several workers explore pieces."""
    yield 'a report by four workers', Case('', DECIDED, Asked(witnesses=True, split=2, workers=4))
    yield 'a report by sixteen workers', Case('', DECIDED, Asked(BUFFERED, 3, 19, split=1, workers=16))
    yield 'a report up to its first deadlock by two workers', Case('', DECIDED, Asked(split=2, workers=2, until=True))


def diagnoses():
    """What `diagnose` is asked of. It hangs or traps: how many states are come to, which hangs on how many are kept, isn't told then."""
    yield 'a diagnosis', Diagnosis('', DECIDED)
    yield 'a strict diagnosis, buffered', Diagnosis('', DECIDED, BUFFERED, strict=True)


def can_be_refused(debugger, line):
    """Steps that are enabled, which may have to make room, undone ones too, `enabled` where some step is, and `show`.

    A step back, a depth that is gone back to, a step that is not enabled and a refusal need no room, nor does the word `enabled`
    alone.
    """
    words = line.replace(b'\t', b' ').split()
    step = step_of(words) if words else None
    if step is not None:
        return next_world(debugger.world, step) is not None
    if words == [b'redo']:
        return debugger.depth < len(debugger.steps)
    return words == [b'show'] or (words == [b'enabled'] and bool(enabled_steps(debugger.world)))


def problem(data, result, mode=RENDEZVOUS):
    """What is wrong with a run in which memory was refused; None where nothing is."""
    script, lines = divided(data)
    if result.status == 3 and result.errors == b'mpdbg: memory\n':
        is_cut = True
    elif result.status == 0 and result.errors == b'':
        is_cut = False
    else:
        return f'status {result.status}, {result.errors}'
    debugger = Debugger(read_script(script), mode)
    place = 0
    for line in lines:
        if is_cut and place == len(result.output):
            return None
        if result.output.startswith(REFUSED, place):
            if not can_be_refused(debugger, line):
                return f'{line} was refused memory'
            place += len(REFUSED)
            continue
        text = debugger.answer(line)
        wanted = b'' if text is None else text.encode() + b'\n'
        if not result.output.startswith(wanted, place):
            return f'{line} was answered {result.output[place:place + 60]}'
        place += len(wanted)
    return None if place == len(result.output) else 'answers behind the last'


def kind_of(result):
    if result.status == 3:
        return 'ended'
    return 'went on' if REFUSED in result.output else 'not seen'


class Shim(NamedTuple):
    """The shared object that refuses memory, and the file where it reports."""
    path: str
    report: str

    def run(self, program, data, words=(), **refused):
        """The result of a run, how often the program asked for memory, and how often it was refused."""
        if os.path.exists(self.report):
            os.remove(self.report)
        environment = {'LD_PRELOAD': self.path, 'SHIM_REPORT': self.report, **refused}
        result = run_at_once(program, data, SECONDS, environment, words)
        with open(self.report, encoding='ascii') as file:
            inside, outside, count, _ = map(int, re.findall(r'\d+', file.read()))
        return result, inside + outside, count


def refuse_each(name, run, problem_of, kind_of=kind_of, must_meet=(), is_same=True):
    """Refuses each allocation of a run alone, and then each one with all behind it; gives how many runs were wrong, or kinds not met.

    Where a run isn't the same each time, it may ask for less, so that nothing is refused; of all runs something must be.
    """
    _, count, _ = run()
    kinds = Counter()
    wrong = 0
    for variable in ('SHIM_REFUSE_ONE', 'SHIM_REFUSE'):
        for number in range(1, count + 1):
            result, _, refused = run(**{variable: str(number)})
            kinds[kind_of(result) if refused or is_same else 'not refused'] += 1
            if what := problem_of(result, refused) if refused or not is_same else 'nothing was refused':
                wrong += 1
                print(f'{name}, {variable}={number}: {what}', flush=True)
    told = ', '.join(f'{number} {kind}' for kind, number in sorted(kinds.items()))
    print(f'{name}: {count} allocations, {kinds.total()} runs: {told}; {wrong} wrong', flush=True)
    unmet = [kind for kind in must_meet if not kinds[kind]]
    if unmet:
        print(f'{name}: not met: {", ".join(unmet)}')
    return wrong + (count == 0 or kinds['not refused'] == kinds.total()) + len(unmet)


def try_input(program, name, data, shim):
    """A session on standard input."""
    return refuse_each(name, lambda **refused: shim.run(program, data, **refused), lambda result, _: problem(data, result))


def try_file(program, name, data, shim, mode=RENDEZVOUS):
    """A session with its script in a file, in a mode."""
    script = divided(data)[0]
    with tempfile.NamedTemporaryFile() as file:
        file.write(script)
        file.flush()
        lines = data[len(script) + len(b'---\n'):]
        words = ('trace', file.name, '--mode', 'buffered') if mode == BUFFERED else ('trace', file.name)
        return refuse_each(f'{name}, its script in a file', lambda **refused: shim.run(program, lines, words, **refused),
                           lambda result, _: problem(data, result, mode))


def try_session(program, asked, shim):
    """A session of `run`, which is answered rightly where nothing is refused."""
    with tempfile.NamedTemporaryFile() as file:
        file.write(asked.script)
        file.flush()

        def run(**refused):
            return shim.run(program, asked.data, ('run', file.name, '--mode', asked.mode, *('--wide',) * asked.wide), **refused)

        if run()[0] != session.serve(asked.script, asked.data, asked.mode, asked.wide):
            print(f'{asked.name}: not what the model answers')
            return 1
        return refuse_each(asked.name, run, lambda *seen: session_memory.problem(asked, *seen), session_memory.kind_of, MET_IN_SESSIONS)


def try_dialogue(program, typed, shim):
    """A dialogue of `debug`, which is answered rightly where nothing is refused."""
    with tempfile.TemporaryDirectory() as folder:
        words = ('debug', held(folder, 'script', typed.script), '--mode', typed.mode)
        if typed.witness is not None:
            words += ('--witness', held(folder, 'witness', typed.witness))
        if typed.run is not None:
            words += typed.run.words()

        def run(**refused):
            return shim.run(program, typed.data, words, **refused)

        if run()[0] != console.debug(typed.script, typed.data, typed.mode, typed.witness, typed.run):
            print(f'{typed.name}: not what the model answers')
            return 1
        return refuse_each(typed.name, run, lambda *seen: console_memory.problem(typed, *seen), console_memory.kind_of, MET_IN_SESSIONS)


def try_whole(program, name, words, shim, is_same=True):
    """Words that are answered by the same text and status or, with nothing written, not at all."""
    right = shim.run(program, b'', words)[0]
    allowed = (right, Result(b'', b'mpdbg: memory\n', 3))
    return refuse_each(name, lambda **refused: shim.run(program, b'', words, **refused),
                       lambda result, _: None if result in allowed else f'status {result.status}, {result.output + result.errors}', is_same=is_same)


def try_report(program, name, case, shim, is_same=True):
    """A case of `check`, `diagnose` or `verify`, which is answered rightly where nothing is refused."""
    with tempfile.TemporaryDirectory() as folder:
        if isinstance(case, Diagnosis):
            case = case._replace(file=os.path.join(folder, case.file))
        words = case.words(folder)
        if shim.run(program, b'', words)[0] != case.wanted():
            print(f'{name}: not what the model answers')
            return 1
        return try_whole(program, name, words, shim, is_same)


def try_ranks(program, words, shim):
    """Words with another number of ranks: where memory is refused the first lines of the answer may stand, whole, or none."""
    with tempfile.TemporaryDirectory() as folder:
        path = held(folder, 'script.mpd', DECIDED)
        words = [path if word == 'FILE' else word for word in words.split()]
        right = shim.run(program, b'', words)[0]
        lines = right.output.splitlines(keepends=True)
        allowed = (right, *(Result(b''.join(lines[:count]), b'mpdbg: memory\n', 3) for count in range(len(lines) + 1)))
        return refuse_each(' '.join(words), lambda **refused: shim.run(program, b'', words, **refused),
                           lambda result, _: None if result in allowed else f'status {result.status}, {result.output + result.errors}', is_same=False)


def main():
    parser = argparse.ArgumentParser(description=__doc__, formatter_class=argparse.RawDescriptionHelpFormatter)
    parser.add_argument('program', metavar='PROGRAM')
    parser.add_argument('--shim', help='a shared object that refuses memory')
    chosen = parser.parse_args()
    program = os.path.abspath(chosen.program)
    with tempfile.TemporaryDirectory() as folder:
        path = os.path.abspath(chosen.shim) if chosen.shim else built(SHIM, folder)
        shim = Shim(path, os.path.join(folder, 'report'))
        sessions = list(inputs())
        wrong = [try_input(program, name, data, shim) for name, data in sessions]
        wrong += [try_file(program, *sessions[0], shim)]
        wrong += [try_file(program, 'head to head, buffered', walked(HEAD_TO_HEAD, BUFFERED), shim, BUFFERED)]
        wrong += [try_session(program, asked, shim) for asked in session_memory.sessions()]
        wrong += [try_dialogue(program, typed, shim) for typed in console_memory.dialogues()]
        wrong += [try_report(program, name, case, shim) for name, case in (*reports(), *diagnoses())]
        wrong += [try_report(program, name, case, shim, is_same=False) for name, case in reports_by_workers()]
        wrong += [try_ranks(program, words, shim) for words in RANKED]
        wrong += [try_whole(program, f'words {words}', words.split(), shim) for words in ANSWERED]
    return 1 if any(wrong) else 0


if __name__ == '__main__':
    sys.exit(main())
