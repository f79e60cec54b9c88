"""Worked rows that the built program is run on: what it writes, what it says on standard error, and its status, each exactly.

compare/runs/statuses.py runs them. The rows of traces, texts and states are those that compare/runs/worked.py compares with the model; those of
the command line, of devices, and of as many steps and reads as there may be, stand here. All were worked out by
hand from docs/FORMATS.md and docs/LANGUAGE.md.
"""

import contextlib
import os
import tempfile
from typing import NamedTuple

from model import language
from model.debugger import Result
from model.modes import KNOWN
from rows import worked_slots, worked_waitany
from rows.worked_states import ALL, asked_words, row_problem
from rows.worked_texts import FULL, all_inputs, wanted_result
from rows.worked_traces import TRACES
from started.programs import run_at_once, run_in_packets
from started.shims import HERE, built

SECONDS = 60


@contextlib.contextmanager
def file_that_holds(data):
    """The name of a file that holds the bytes."""
    with tempfile.NamedTemporaryFile(prefix='worked-') as file:
        file.write(data)
        file.flush()
        yield file.name


def traced(program, script, mode, data):
    """What the program gives for a script in a file, its mode, and words."""
    with file_that_holds(script) as name:
        return run_at_once(program, data, SECONDS, words=('trace', name, '--mode', mode))


def of_what_is_known(rows, rows_of_2=(), rows_of_slots=()):
    """The rows that the program can be asked: those of version 2 where it knows that, and those of modes of slots where it has these."""
    return [*rows, *(rows_of_2 if 2 in language.VERSIONS else ()), *(rows_of_slots if KNOWN else ())]


def trace_rows(program):
    """Scripts with their words, and what each is answered."""
    for row in of_what_is_known(TRACES, rows_of_slots=worked_slots.TRACES):
        said = run_at_once(program, row.input, SECONDS) if row.mode is None else traced(program, row.file, row.mode, row.asked)
        yield row.what, said, Result(row.wanted, b'', 0)


def text_rows(program):
    """Texts that print, trap, or are refused, and texts at limits."""
    for row in [*of_what_is_known(all_inputs(), worked_waitany.all_inputs()), FULL]:
        yield row.what, run_at_once(program, row.text.encode(), SECONDS), wanted_result(row)


def state_rows(program):
    """Words with their answers, and lines of what `show` prints behind them."""
    for row in of_what_is_known(ALL, worked_waitany.ROWS, worked_slots.ROWS):
        problem = row_problem(row, traced(program, row.script.encode(), row.mode, asked_words(row)))
        yield f'{row.script} ({row.mode}): {row.words}', problem, None


# A script whose rank is woken in the mode `buffered` alone, and words that tell it.
SENT = b'mpd 1; ranks 1; send 1 to 0 tag 0;'
TELLING = b'local 0\nwake 0\n'
RENDEZVOUS = Result(b'ok 1\nrefused not-enabled\n', b'', 0)
BUFFERED = Result(b'ok 1\nok 2\n', b'', 0)
# The same with each line shown.
ECHOED = Result(b'> local 0\nok 1\n> wake 0\nrefused not-enabled\n', b'', 0)
ECHOED_BUFFERED = Result(b'> local 0\nok 1\n> wake 0\nok 2\n', b'', 0)
BAD_MODE = Result(b'', b'mpdbg: bad mode\n', 2)
NO_FILE = Result(b'', b'mpdbg: device\n', 3)
# Files of this script stand under these names, and no others; words are parted by `|`.
NAMES = ('a', '--mode', '-')

NAMED = (
    ('trace|a', RENDEZVOUS), ('trace|a|--mode|buffered', BUFFERED), ('trace|--mode=buffered|a', BUFFERED),
    ('trace|a|--mode|b', BAD_MODE), ('trace|--mode=b|a', BAD_MODE), ('trace|--mode|b|--|--mode', BAD_MODE),
    ('trace|--mode|buffered|--|--mode', BUFFERED), ('trace|-|--mode=c=d', BAD_MODE), ('trace|-|--mode=buffered', BUFFERED),
    ('trace|-|--mode=buffered=', BAD_MODE), ('trace|', NO_FILE), ('trace|b', NO_FILE), ('trace|a|--mode|rendezvous', RENDEZVOUS),
    ('trace|a|--mode|buffered ', BAD_MODE), ('trace|a|--mode|', BAD_MODE),
    ('trace|a|--echo', ECHOED), ('trace|--echo|--mode=buffered|a', ECHOED_BUFFERED), ('trace|b|--echo', NO_FILE))

# A race of nine ranks has eight leaves, and a rank that goes on and on is cut; each is in the file `a` or `b`. One of three ranks hangs if
# rank 1 comes first (`d`), or if rank 2 does (`e`).
RACE = b'mpd 1; ranks 9; var x; req r; if rank == 0 { recv x from any tag 0; } else { isend r rank to 0 tag 0; }'
LOOP = b'mpd 1; ranks 1; while 1 { }'
HANGS_FIRST, HANGS_LAST = (b'mpd 1; ranks 3; var x; if rank == 0 { recv x from any tag 0; recv x from %d tag 0; } else { send 0 to 0 tag 0; }' % rank for rank in (1, 2))


def leaves(*lines, more='no', status=0):
    """A report of these leaves."""
    text = ''.join(f'leaf {number} {line}\n' for number, line in enumerate(lines))
    return Result(f'{text}leaves {len(lines)} more {more}\n'.encode(), b'', status)


def left_over(leaf):
    """The outcome where the receive takes the send of that leaf: all others are left."""
    return ' '.join([f'[{leaf}] leftovers', *(f'{rank}.0' for rank in range(1, 9) if rank != leaf + 1)])


def refused(line):
    return Result(b'', f'mpdbg: {line}\n'.encode(), 2)


ALL_LEAVES = leaves(*map(left_over, range(8)))
ALL_BUT_ONE = leaves(*map(left_over, range(7)), more='yes')
STUCK = leaves('[] deadlock 0.0', status=1)
BAD_WORKERS = refused('refused 35 bad-workers')
CHECKED = (
    ('check|a', ALL_LEAVES), ('check|--witness|a', ALL_LEAVES), ('check|a|--runs|65536|--fuel=1000000', ALL_LEAVES),
    ('check|--mode=b|--runs=+007|--fuel|1|--|a', BAD_MODE),
    ('check|--mode=buffered|--runs=+007|--split=+00|--|a', ALL_BUT_ONE), ('check|--split|0|--runs=7|a', ALL_BUT_ONE),
    ('check|--runs=8|a', ALL_LEAVES), ('check|--runs=+001|a', ALL_LEAVES), ('check|a|--split=8|--workers=+016|--runs=1', ALL_LEAVES),
    ('check|a|--split|1|--workers|1|--runs|1', ALL_LEAVES), ('check|--piece=+007|a', leaves(left_over(7))), ('check|a|--piece|0', leaves(left_over(0))),
    ('check|a|--split|0|--piece|0|--runs|7', ALL_BUT_ONE), ('check|a|--piece|8', refused('no piece 8 of 8')),
    ('check|a|--split|0|--piece|1', refused('no piece 1 of 1')), ('check|a|--piece|1023', refused('no piece 1023 of 8')),
    ('check|a|--pieces', Result(b'pieces 8\n', b'', 0)), ('check|--pieces|--split=0|--|a', Result(b'pieces 1\n', b'', 0)),
    ('check|c|--pieces', Result(b'pieces 1\n', b'', 0)), ('check|a|--until|deadlock', ALL_LEAVES), ('check|--until=deadlock|c', STUCK),
    ('check|a|--workers|0', BAD_WORKERS), ('check|--workers=+017|a', BAD_WORKERS), ('check|a|--workers|1000', BAD_WORKERS),
    ('check|a|--workers|0|--mode|b', BAD_MODE), ('check|none|--workers|0', NO_FILE), ('check|a|--workers|17|--piece|8', BAD_WORKERS),
    ('check|b|--fuel|1', leaves('[] cut')), ('check|--mode=buffered|--fuel|1|--|b', leaves('[] cut')),
    ('check|--|c', STUCK), ('check|c|--mode|buffered', leaves('[] leftovers 0.0')),
    ('check|c|--witness', Result(b'leaf 0 [] deadlock 0.0\nwitness 0: local 0\nleaves 1 more no\n', b'', 1)))



def lines(*told, status):
    """These lines, and a status."""
    return Result(''.join(f'{line}\n' for line in told).encode(), b'', status)


def modes(*told, least, status):
    """A line of the outcomes of each mode, and the mode that is told as least."""
    return lines(*(f'{mode} outcomes {counts}' for mode, counts in told), f'least {least}', status=status)


def not_beside_outcomes(option):
    return refused(f"--outcomes and {option} can't stand together")


LEAVES_ONE, HANGS, IS_CUT = (f'1 deadlocks {deadlocks} traps 0 leftovers {left} cut {cut} more no' for deadlocks, left, cut in ((0, 1, 0), (1, 0, 0), (0, 0, 1)))
EIGHT_LEAVE_SEVEN = '8 deadlocks 0 traps 0 leftovers 8 cut 0 more no'
ONE_OF_TWO, FIRST_OF_MORE = '2 deadlocks 1 traps 0 leftovers 0 cut 0 more no', '1 deadlocks 1 traps 0 leftovers 0 cut 0 more yes'
WANTS_A_SLOT = modes(('rendezvous', HANGS), ('slots:1', LEAVES_ONE), ('buffered', LEAVES_ONE), least='slots:1', status=1)
BOTH_WAYS = lines('outcome 0 runs 1 first [0] done', 'outcome 1 runs 1 first [1] deadlock 0.1 1.0', 'outcomes 2 runs 2 more no', status=1)
# Outcomes up to the first deadlock or trap, and in several modes.
COUNTED = (
    ('check|d|--outcomes|--until|deadlock', lines('outcome 0 runs 1 first [0] deadlock 0.1 2.0', 'outcomes 1 runs 1 more yes', status=1)),
    ('check|--until=deadlock|--outcomes|--complete|--|d', lines('outcome 0 runs 1 first [0] deadlock 0.1 2.0', 'outcomes 1 runs 1 more yes', status=1)),
    ('check|d|--outcomes', lines('outcome 0 runs 1 first [0] deadlock 0.1 2.0', 'outcome 1 runs 1 first [1] done', 'outcomes 2 runs 2 more no', status=1)),
    ('check|e|--outcomes|--until|deadlock', BOTH_WAYS), ('check|e|--outcomes', BOTH_WAYS),
    ('check|c|--outcomes|--until=deadlock|--witness',
     lines('outcome 0 runs 1 first [] deadlock 0.0', 'witness 0: local 0', 'outcomes 1 runs 1 more no', status=1)),
    ('check|b|--outcomes|--until|deadlock|--fuel|1|--complete', lines('outcome 0 runs 1 first [] cut', 'outcomes 1 runs 1 more no', status=4)),
    ('check|a|--outcomes|--modes|0', modes(('rendezvous', EIGHT_LEAVE_SEVEN), ('buffered', EIGHT_LEAVE_SEVEN), least='rendezvous', status=0)),
    ('check|c|--outcomes|--modes|1', WANTS_A_SLOT),
    ('check|--modes=+01|--mode=buffered|--witness|--explain|--states=1|--workers|16|--outcomes|--until|deadlock|--complete|--|c', WANTS_A_SLOT),
    ('check|b|--outcomes|--modes|0|--fuel=1', modes(('rendezvous', IS_CUT), ('buffered', IS_CUT), least='rendezvous', status=0)),
    ('check|b|--outcomes|--modes|0|--fuel=1|--complete', modes(('rendezvous', IS_CUT), ('buffered', IS_CUT), least='rendezvous', status=4)),
    ('check|d|--outcomes|--modes|0', modes(('rendezvous', ONE_OF_TWO), ('buffered', ONE_OF_TWO), least='none', status=1)),
    ('check|d|--outcomes|--modes|0|--until|deadlock', modes(('rendezvous', FIRST_OF_MORE), ('buffered', FIRST_OF_MORE), least='none', status=1)),
    ('check|e|--outcomes|--modes|0|--until|deadlock', modes(('rendezvous', ONE_OF_TWO), ('buffered', ONE_OF_TWO), least='none', status=1)),
    ('check|c|--outcomes|--modes|1|--mode|b', BAD_MODE), ('check|none|--outcomes|--modes|1', NO_FILE),
    ('check|c|--outcomes|--modes|1|--workers|17', BAD_WORKERS), ('check|c|--outcomes|--until|deadlock|--ends', not_beside_outcomes('--ends')),
    ('check|c|--outcomes|--modes|1|--sample|5', not_beside_outcomes('--sample')),
    ('check|c|--modes|1|--until|deadlock|--outcomes|--group|--seed|1', not_beside_outcomes('--seed')))


def stuck_once(file):
    """What is said of a rank that sends to itself, which waits for ever, by the name of its file."""
    return lines('it always hangs in rendezvous (1 run)', f'  ./mpdbg diagnose {file} --modes 4', '', 'deadlock at line 1: 1 of 1 run',
                 '  rank 0 waits at line 1, 0.0 send to 0 tag 0 value 1: for a receive of rank 0', '        from rank 0 with tag 0', '  rank 0 waits for rank 0',
                 '  a cycle, where each waits for the next: rank 0, rank 0', '  decided from the start: every run hangs or traps',
                 f"  ./mpdbg debug {file} --ends --choices ''", f"  ./mpdbg picture {file} --ends --choices '' > run.svg", status=1)


def left_once(status):
    """What is said of the same with buffers, where its message is left over."""
    return lines('it never hangs or traps in buffered, whatever is taken first (1 run, 1 state)', 'it can end with calls left over: 1 of 1 run',
                 '  ./mpdbg diagnose c --modes 4', '',
                 'left over from line 1: 1 of 1 run', '  left over: line 1, 0.0 send to 0 tag 0 value 1',
                 "  ./mpdbg debug c --mode buffered --ends --choices ''", "  ./mpdbg picture c --mode buffered --ends --choices '' > run.svg", status=status)


# Diagnoses: the mode is tested before the file, and that stands in commands as it was given.
DIAGNOSED = (
    ('diagnose|c', stuck_once('c')), ('diagnose|--mode=rendezvous|--strict|--|./c', stuck_once('./c')), ('diagnose|c|--mode|buffered', left_once(0)),
    ('diagnose|--strict|c|--mode=buffered', left_once(1)), ('diagnose|c|--mode|b', BAD_MODE), ('diagnose|--mode=|--strict|c', BAD_MODE),
    ('diagnose|none|--mode|b', BAD_MODE), ('diagnose|none', NO_FILE), ('diagnose|none|--strict', NO_FILE), ('diagnose|', NO_FILE))

# Words that ask for help or the version, status 0, and wrong words, status 2; standard input has a script that would be traced.
ANSWERED = ('--help', 'help', 'help|trace', 'trace|--help', 'help|serve', 'serve|--help', 'help|check', 'check|--help', '--version')
MISTAKEN = (
    'trace', 'trace|a|b', 'trace|a|--mode', 'trace|a|--mode|--|b', 'trace|a|--mode|b|--mode=b', 'trace|a|-m|b', '--|trace|a', 'a',
    '--mode|buffered', 'trace|a|--witness', 'serve', 'serve|a', 'serve|a|--port|4000', 'serve|a|--clients|2', 'serve|--port|4000|--clients|2',
    'serve|a|--port|0|--clients|2', 'serve|a|--port|65536|--clients|2', 'serve|a|--port|4000|--clients|0', 'serve|a|--port|4000|--clients|17',
    'serve|a|--port|4000|--clients|2|--port|4000', 'check', 'check|a|b', 'check|a|--runs|0', 'check|a|--runs|65537', 'check|a|--fuel|0',
    'check|a|--fuel|1000001', 'check|a|--fuel|ten', 'check|a|--runs=', 'check|a|--runs|5|--runs=5', 'check|a|--witness=true',
    'check|a|--witness|--witness', 'check|a|--split|9', 'check|a|--split|-1', 'check|a|--split=', 'check|a|--split|1|--split=1',
    'check|a|--workers|1001', 'check|a|--workers|two', 'check|a|--piece|1024', 'check|a|--piece=', 'check|a|--until', 'check|a|--until|trap',
    'check|a|--until=', 'check|a|--pieces=yes', 'check|a|--pieces|--pieces', 'diagnose', 'diagnose|a|b', 'diagnose|a|--strict=yes',
    'diagnose|a|--strict|--strict', 'diagnose|a|--mode', 'diagnose|a|--fuel|5', 'diagnose|a|--complete', 'check|a|--strict', 'trace|a|--split|1', 'run|a|--workers|2', 'verify|a|b|--piece|0')


def write_files(**files):
    for name, data in files.items():
        with open(name, 'wb') as file:
            file.write(data)


def word_rows(program):
    """What the words of the command line name, which ask for help, and which are wrong."""
    with tempfile.TemporaryDirectory() as folder, contextlib.chdir(folder):
        def given(words):
            return run_at_once(program, TELLING, SECONDS, words=words.split('|'))

        write_files(**{name: SENT for name in NAMES})
        yield from [(f'words {words}', given(words), wanted) for words, wanted in NAMED]
        write_files(a=RACE, b=LOOP, c=SENT, d=HANGS_FIRST, e=HANGS_LAST)
        yield from [(f'words {words}', given(words), wanted) for words, wanted in (*CHECKED, *DIAGNOSED, *(COUNTED if KNOWN else ()))]
        for words in ANSWERED:
            said = given(words)
            yield f'asked for {words}', (bool(said.output), said.errors, said.status), (True, b'', 0)
        for words in MISTAKEN:
            said = given(words)
            yield f'mistaken {words}', (said.output, said.errors[:7], said.status), (b'', b'error: ', 2)


# What each read brings, and how many bytes are written before it; behind the last, before the end, and at all.
IN_TURN = ((0, b'mpd 1;ranks 1;print 7;\n---\nlocal 0\n'), (5, b'back\nlo'), (10, b'cal 0\n'), (15, b'local 0'), (15, b'\nback'))
BEFORE_END, AT_ALL = 35, 40
MUCH = (b'mpd 1;ranks 1;var a[40];print 7;\n---\n', b'show\n' * 800)
# What each of these is answered, and how much is gathered before it is written, but for the answer to one line.
SHOWN, GATHERED = 126, 65536


def order_rows(program):
    """What a read brought is answered before the next one, and nothing sooner; much is written before all is gathered.

    Each read and each write is interrupted once before.
    """
    with tempfile.TemporaryDirectory() as folder:
        shim = built(os.path.join(HERE, 'order_shim.c'), folder)

        def noted(packets):
            """What was noted of reads, of writes, and the status."""
            said = run_in_packets(program, packets, SECONDS, environment={**os.environ, 'LD_PRELOAD': shim})
            notes = [line.split() for line in said.errors.decode().splitlines()]
            reads, writes = ([int(number) for what, number in notes if what == kind] for kind in ('read', 'write'))
            return reads, writes, said.status

        reads, writes, status = noted([piece for _, piece in IN_TURN])
        yield 'answers before the next read', (reads, sum(writes), status), ([*(count for count, _ in IN_TURN), BEFORE_END], AT_ALL, 0)
        reads, writes, status = noted(MUCH)
        # the second read brings all the words, and their answers are written before the end is read
        yield 'much to write', (reads, sum(writes), status), ([0, 0, 800 * SHOWN], 800 * SHOWN, 0)
        yield 'much in one write', max(writes) < GATHERED + SHOWN, True


# The script of a file, words with a line for each read, and what they are answered.
FIRST = b'mpd 1;\nranks 2;\nvar x;\nif rank == 0 { send 7 to 1 tag 0; } else { recv x from 0 tag 0; print x; }'
WORDS = (b'local 0\n', b'back\n', b'fly\n', b'local 0')
ANSWERS = b'ok 1\nok 0\nrefused bad-word\nok 1\n'
# The devices: standard input, standard output, the file of the script.
INPUT, OUTPUT, SCRIPT = 0, 1, 3


class Failing(NamedTuple):
    """A device that fails after so many calls or bytes, whether the program ends as if it had not, and how much is written."""
    device: int
    limit: str
    most: int
    is_well: bool
    written: int


# The last line has no end: its read is the fourth, and the fifth is the end. Behind as many bytes as the words have a read fails too,
# but not where one more may be read. A file is read to its end, which is a read too.
FAILING = (
    *(Failing(INPUT, 'CALLS', calls, False, written) for calls, written in enumerate((0, 5, 10, 27, 27))),
    Failing(INPUT, 'CALLS', 5, True, 32),
    *(Failing(OUTPUT, 'CALLS', calls, False, written) for calls, written in enumerate((0, 5, 10, 27))),
    Failing(OUTPUT, 'CALLS', 4, True, 32),
    *(Failing(INPUT, 'BYTES', most, False, 27 if most >= 17 else 10 if most >= 13 else 5 if most >= 8 else 0) for most in range(25)),
    Failing(INPUT, 'BYTES', 25, True, 32),
    *(Failing(OUTPUT, 'BYTES', most, False, most) for most in range(32)),
    *(Failing(OUTPUT, 'BYTES', most, True, 32) for most in range(32, 40)),
    Failing(SCRIPT, 'CALLS', 0, False, 0), Failing(SCRIPT, 'CALLS', 1, False, 0), Failing(SCRIPT, 'CALLS', 2, True, 32),
    *(Failing(SCRIPT, 'BYTES', most, False, 0) for most in range(len(FIRST) + 1)), Failing(SCRIPT, 'BYTES', len(FIRST) + 1, True, 32))
# So many reads of spaces without an end show that a script is too long.
TOO_LONG = Result(b'', b'mpdbg: script refused 1 too-long at 65536 line 1\n', 2)
ENDLESS = ((16, NO_FILE), (17, TOO_LONG))


def failing_rows(program):
    """Each read and each write fails, after each byte and each call."""
    with tempfile.TemporaryDirectory() as folder, file_that_holds(FIRST) as name:
        shim = built(os.path.join(HERE, 'fail_shim.c'), folder)

        def limited(device, limit, most):
            return {**os.environ, 'LD_PRELOAD': shim, 'FAIL_FILE': str(device), f'FAIL_{limit}': str(most)}

        for row in FAILING:
            said = run_in_packets(program, WORDS, SECONDS, ('trace', name), limited(row.device, row.limit, row.most))
            end = (b'', 0) if row.is_well else (b'mpdbg: device\n', 3)
            yield f'{row}', said, Result(ANSWERS[:row.written], *end)
        for calls, wanted in ENDLESS:
            said = run_at_once(program, b' ' * 100000, SECONDS, limited(INPUT, 'CALLS', calls))
            yield f'{calls} reads of spaces', said, wanted


def turn_rows(program):
    """Words without an end are given up after as many reads as there may be, with nothing written."""
    with file_that_holds(SENT) as name:
        said = run_in_packets(program, [b'\n'] * 1000000, SECONDS, words=('trace', name))
    yield '1,000,000 reads and no end', said, Result(b'', b'mpdbg: turns\n', 3)


ROWS = (trace_rows, text_rows, state_rows, word_rows, order_rows, failing_rows, turn_rows)
