"""What `debug` of the built program writes, says on standard error and ends with, in each way to end; compare/runs/statuses.py runs these rows.

A script from a file, modes, a witness, and the order in which words, mode, file, script and witness are tested; devices that are full, closed,
broken off or too short (those that fail at each byte are rows of device_statuses.py); the line at a terminal, and prompts; answers that are
written before the next read, and each before the next line is looked at; the end behind `quit`; as many reads as there may be; more answers
than memory. All were worked out by hand from docs/CONSOLE.md and docs/FORMATS.md.
"""

import os
import select
import subprocess
import tty
from functools import partial

from cases.console_cases import Case
from model.console import GREETING
from model.console_lines import folded
from model.debugger import MOST_READS, Result
from rows.console_starts import BOTH_RECEIVE, RECEIVED, STARTS, TYPED
from rows.console_worked import DIALOGUES, ENDINGS, SLOW
from rows.worked_console_scripts import LOOP
from started.devices import SECONDS, Files, at_terminal, broken_off, device, full, refused
from started.programs import file_of, run_in_packets
from started.shims import HERE, built
from statuses.asked_script import Asked, folder_of, input_rows, mode_rows, output_rows
from statuses.usage_texts import NO_MODE, known
from statuses.worked_program import NO_FILE

HINT = f'{GREETING}\n'.encode()
MUCH_MIB = 32

FIRST = b'mpd 1;\nranks 2;\nvar x;\nif rank == 0 { send 7 to 1 tag 0; } else { recv x from 0 tag 0; print x; }\n'
MATCHED = 'match 0.0 1.0: rank 0, line 4, to rank 1, line 4'
# Its last line, which is of 81 bytes where it is listed.
SOURCE = '    4  if rank == 0 { send 7 to 1 tag 0; } else { recv x from 0 tag 0; print x;\n        }\n'
# What is typed on this script, a line each, and what each is answered.
TURNS = (
    ('next', f'1 local 0: line 4\nnext: local 0: line 4\n{SOURCE}'),
    ('run 3', f'3 steps, depth 4\nstopped: as many steps as were asked for\nnext: {MATCHED}\n{SOURCE}'),
    ('ranks', 'rank 0 waits at line 4, 0.0 send to 1 tag 0 value 7\nrank 1 waits at line 4, 1.0 recv from 0 tag 0\n'),
    ('goto 9', 'refused: so many steps are neither taken nor ahead\n'),
    ('run', '4 steps, depth 8\nrank 1 prints 7\nended: done\n'),
    ('print x', 'rank 0: x = 0\nrank 1: x = 7\n'),
    ('brake', "unknown word 'brake': perhaps break\n"))
LINES, ANSWERS = ([f'{typed}\n'.encode() for typed, _ in TURNS], [answer.encode() for _, answer in TURNS])
DATA, ANSWERED = b''.join(LINES), b''.join(ANSWERS)
ENDED = Result(ANSWERED, b'', 0)
NO_END = refused(b'4 expected at 19 line 1')
HEAD_TO_HEAD = b'mpd 1; ranks 2; var x;\nsend rank to 1 - rank tag 5;\nrecv x from 1 - rank tag 5;\n'
# How that ends where sends are buffered, and where they aren't.
PASSES = b'10 steps, depth 10\nended: done\n'
WAITS = b'''2 steps, depth 2
ended: deadlock: rank 0 at line 2, rank 1 at line 2
  rank 0 waits at line 2, 0.0 send to 1 tag 5 value 0: for a receive of rank 1
        from rank 0 with tag 5
  rank 1 waits at line 2, 1.0 send to 0 tag 5 value 1: for a receive of rank 0
        from rank 1 with tag 5
  rank 0 waits for rank 1
  rank 1 waits for rank 0
  a cycle, where each waits for the next: rank 0, rank 1, rank 0
'''


ASKED_OF = Asked('debug', FIRST, HEAD_TO_HEAD, LINES, ANSWERS)


def word_rows(folder):
    """Words of the command line, and the order in which they, the mode, the file and its script are tested."""
    first = folder.first
    bad, missing = folder.file('bad', b'mpd 1;ranks 1;print'), os.path.join(folder.path, 'none')
    yield 'a dialogue', folder.run(first), ENDED
    yield 'no words', folder.run(first, data=b''), Result(b'', b'', 0)
    yield 'comments and empty lines', folder.run(first, data=b'\n# so\r\n \n'), Result(b'', b'', 0)
    yield from mode_rows(folder, b'run', Result(WAITS, b'', 0), Result(PASSES, b'', 0))
    for name in (missing, folder.path, '', os.path.join(first, 'x'), '/proc/self/mem'):
        yield f'no file at {name}', folder.run(name), NO_FILE
        yield f'no witness at {name}', folder.run(first, '--witness', name), NO_FILE
    yield 'a bad script', folder.run(bad), NO_END
    yield 'a bad script before a missing witness', folder.run(bad, '--witness', missing), NO_END
    yield 'a bad script, input closed', Files(None).run(folder.program, 'debug', bad), NO_END
    yield 'a bad script, output full', folder.run(bad, output=full()), NO_END
    yield 'a bad script, errors full', folder.run(bad, errors=full()), Result(b'', b'', 2)
    yield 'a divided file', folder.run(folder.file('divided', FIRST + b'---\n')), refused(b'4 expected at %d line 5' % len(FIRST))
    yield 'a file without an end', folder.run('/dev/zero'), refused(b'1 too-long at 65536 line 1')


def witness_rows(folder):
    """Witnesses, and files that are none: what is refused, before any line is read."""
    for number, row in enumerate(STARTS):
        path = os.path.join(folder.path, str(number))
        os.mkdir(path)
        words = Case(row.what, row.text, row.mode, TYPED, row.witness, run=row.run).words(path)
        yield row.what, Files(file_of(TYPED)).run(folder.program, *words), row.wanted
    receives, stuck = folder.file('receives', BOTH_RECEIVE.encode()), folder.file('stuck', b'deadlock 0.0 1.0\nlocal 0\n')
    not_stuck = Result(b'', b'mpdbg: witness refused 33 not-stuck\n', 2)
    yield 'a witness that is refused, input closed', Files(None).run(folder.program, 'debug', receives, '--witness', stuck), not_stuck
    yield 'a witness that is refused, output full', folder.run(receives, '--witness', stuck, output=full()), not_stuck
    yield 'a witness that is refused, errors full', folder.run(receives, '--witness', stuck, errors=full()), Result(b'', b'', 2)
    yield 'a witness that is refused, a terminal', at_terminal(folder.program, 'debug', receives, '--witness', stuck), not_stuck
    good = folder.file('good', b'deadlock 0.0 1.0\nlocal 0, local 1\n')
    told = b''.join(RECEIVED.output.splitlines(keepends=True)[:3])
    yield 'a witness, no words', folder.run(receives, '--witness', good, data=b''), Result(told, b'', 0)
    yield 'a witness, input closed', Files(None).run(folder.program, 'debug', receives, '--witness', good), device(told)
    yield 'a witness, output full', folder.run(receives, '--witness', good, data=b'', output=full()), device()
    yield 'a witness, a terminal', at_terminal(folder.program, 'debug', receives, '--witness', good), Result(told, HINT, 0)
    yield from run_rows(folder, receives, told)


def run_rows(folder, receives, told):
    """Runs that are named by their choices, on a script that has none, and where each rank waits."""
    too_many = Result(b'', b'mpdbg: bad choices at 0\n', 2)
    yield 'choices that no run has, input closed', Files(None).run(folder.program, 'debug', receives, '--choices', '0'), too_many
    yield 'choices that no run has, output full', folder.run(receives, '--choices', '0', output=full()), too_many
    yield 'choices that no run has, a terminal', at_terminal(folder.program, 'debug', receives, '--choices', '0', '--ends'), too_many
    yield 'a run ahead, no words', folder.run(receives, '--choices', '', data=b''), Result(told, b'', 0)
    yield 'a run ahead, input closed', Files(None).run(folder.program, 'debug', receives, '--choices='), device(told)
    yield 'a run ahead, output full', folder.run(receives, '--choices=', data=b'', output=full()), device()
    yield 'a run ahead, a terminal', at_terminal(folder.program, 'debug', receives, '--ends', '--choices', ''), Result(told, HINT, 0)
    yield 'no run ahead, and whose choices these are', folder.run(receives, '--ends', data=b''), Result(b'', b'', 0)


def device_rows(folder):
    """Devices that fail: what had been answered stands."""
    first = folder.first
    yield from input_rows(folder)
    yield from output_rows(folder)
    yield 'input broken off', Files(broken_off(DATA + b'next')).run(folder.program, 'debug', first), device(ANSWERED)
    yield 'input broken off behind the end', Files(broken_off(DATA + b'quit\n')).run(folder.program, 'debug', first), ENDED
    yield 'output full, nothing to write', folder.run(first, data=b'\n# so\nquit\n', output=full()), Result(b'', b'', 0)
    yield 'output and errors full', folder.run(first, output=full(), errors=full()), Result(b'', b'', 3)


# What each read brings, and the answers that are written behind it.
IN_TURN = ((LINES[0], ANSWERS[:1]), (LINES[1] + LINES[2] + b'# so\n', ANSWERS[1:3]), (b'goto', []), (b' 9\r', []),
           (b'\n\n' + LINES[4], [ANSWERS[3], ANSWERS[3], ANSWERS[4]]))


def order_rows(folder):
    """The answers to what a read has brought are written before the next read, each by itself; behind `quit` nothing is read."""
    shim = built(os.path.join(HERE, 'order_shim.c'), folder.path)
    for name, last, behind in (('up to the end', b'print x', [ANSWERS[5]]), ('up to quit', b' q \nnext\n', [])):
        packets = [piece for piece, _ in IN_TURN] + [last]
        said = run_in_packets(folder.program, packets, SECONDS, ('debug', folder.first), {**os.environ, 'LD_PRELOAD': shim})
        notes = [line.split() for line in said.errors.decode().splitlines()]
        reads, writes = ([int(number) for what, number in notes if what == kind] for kind in ('read', 'write'))
        written, wanted = 0, [0]
        for _, answers in IN_TURN:
            written += sum(map(len, answers))
            wanted.append(written)
        # (the end of the input is a read of its own)
        wanted += [written] * bool(behind)
        answers = [answer for _, answers in IN_TURN for answer in answers] + behind
        yield f'answers before the next read, {name}', (reads, said.status), (wanted, 0)
        yield f'each answer by itself, {name}', (writes, said.output), (list(map(len, answers)), b''.join(answers))


def quit_rows(folder):
    """The program ends behind `quit` though its input doesn't."""
    for word in (b'quit\n', b'q\r\n', b' \t q \n', b'exit\n'):
        process = subprocess.Popen([folder.program, 'debug', folder.first], stdin=subprocess.PIPE, stdout=subprocess.PIPE, stderr=subprocess.PIPE)
        os.write(process.stdin.fileno(), LINES[0] + word)
        status = process.wait(SECONDS)
        yield f'{word}, input open', Result(process.stdout.read(), process.stderr.read(), status), Result(ANSWERS[0], b'', 0)
        process.stdin.close()


def typed(folder, data, output, errors):
    """What comes of lines that are typed at a terminal, where output and errors go to other files."""
    ours, theirs = os.openpty()
    tty.setraw(theirs)
    os.write(ours, data)
    result = Files(theirs, output, errors).run(folder.program, 'debug', folder.first)
    os.close(ours)
    return result


def shown_at_terminal(folder, data):
    """What a terminal shows of the answers to what stands in a file."""
    ours, theirs = os.openpty()
    tty.setraw(theirs)
    process = subprocess.Popen([folder.program, 'debug', folder.first], stdin=subprocess.PIPE, stdout=theirs, stderr=subprocess.PIPE)
    _, errors = process.communicate(data, SECONDS)
    os.close(theirs)
    shown = b''
    while select.select([ours], [], [], 0)[0]:
        try:
            piece = os.read(ours, 1 << 16)
        except OSError:
            break
        shown += piece
    os.close(ours)
    return Result(shown, errors, process.returncode)


def terminal_rows(folder):
    """The line at a terminal, where standard error is one; prompts where standard input and output are."""
    first, bad = folder.first, folder.file('bad', b'mpd 1;ranks 1;print')
    yield 'a terminal', at_terminal(folder.program, 'debug', first, data=DATA), ENDED._replace(errors=HINT)
    yield 'a terminal, no words', at_terminal(folder.program, 'debug', first), Result(b'', HINT, 0)
    yield 'a terminal that is read alone', typed(folder, DATA + b'quit\n', 'memory', 'memory'), ENDED
    yield 'a terminal that is written alone', shown_at_terminal(folder, DATA), ENDED
    told = b'mpdbg: script refused 4 expected at 19 line 1\n  mpd 1;ranks 1;print\n  ' + b' ' * 19 + b'^\n  found the end of the text\n'
    yield 'a terminal, a bad script', at_terminal(folder.program, 'debug', bad, data=DATA), Result(b'', told, 2)
    missing = os.path.join(folder.path, 'none')
    no_file = Result(b'', f"mpdbg: device\n  '{missing}': no such file\n".encode(), 3)
    yield 'a terminal, no file', at_terminal(folder.program, 'debug', missing), no_file
    yield 'a terminal, no witness', at_terminal(folder.program, 'debug', first, '--witness', missing), no_file
    modes = f'mpdbg: bad mode\n  {known(NO_MODE).format("x")}\n'.encode()
    yield 'a terminal, no mode', at_terminal(folder.program, 'debug', first, '--mode', 'x'), Result(b'', modes, 2)
    full_output = at_terminal(folder.program, 'debug', first, data=DATA, output=full())
    yield 'a terminal, output full', full_output, Result(b'', HINT + b'mpdbg: device\n  standard output: no space left\n', 3)
    from_folder = at_terminal(folder.program, 'debug', first, reading=os.open('/', os.O_RDONLY))
    yield 'a terminal, input a directory', from_folder, Result(b'', HINT + b'mpdbg: device\n  standard input: is a directory\n', 3)


def turn_rows(folder):
    """As many reads as there may be, of which the end is one; what had not ended as a line then isn't answered."""
    turns, none = b'mpdbg: turns\n', b'no breakpoint\n'
    rows = (
        ('line feeds without an end', [b'\n'] * MOST_READS, Result(b'', turns, 3)),
        ('a line that hasn\'t ended', [b'breaks\n', *([b'#\n'] * (MOST_READS - 2)), b'breaks'], Result(none, turns, 3)),
        ('a last line, and the end as the last read', [*([b'\n'] * (MOST_READS - 2)), b'breaks'], Result(none, b'', 0)))
    for name, packets, wanted in rows:
        yield name, run_in_packets(folder.program, packets, SECONDS, ('debug', folder.first)), wanted


def much_rows(folder):
    """Answers of many times the memory that the program may take, and a line of many times as much: neither is gathered."""
    cells = 1023
    script = f'mpd 1; ranks 1; var i; var a[{cells}];\nwhile i < {cells} {{ a[i] = -1234567890123456789; i = i + 1; }}\n'.encode()
    first = b'%d steps, depth %d\nended: done\n' % (3 * cells + 1, 3 * cells + 1)
    cells_named = f'rank 0: {", ".join(f"a[{place}] = -1234567890123456789" for place in range(cells))}'
    shown = ''.join(f'{line}\n' for line in folded(cells_named)).encode()
    data = b'run\n' + b'print a\n' * 3000 + b'x' * (64 << 20) + b'\nprint i\n'
    result = Files(file_of(data)).run('sh', '-c', f'ulimit -v {MUCH_MIB << 10}; exec "$0" "$@"', folder.program, 'debug', folder.file('much', script))
    wanted = first + shown * 3000 + f'refused: this line is too long\nrank 0: i = {cells}\n'.encode()
    assert len(wanted) > 2 * MUCH_MIB << 20
    yield f'much to tell with {MUCH_MIB} MiB', result, Result(wanted, b'', 0)


def dialogue_rows(folder):
    """The worked dialogues and ends of inputs that take no long, and need no file that is written meanwhile; compare/runs/checked.py has the
    checked program answer them."""
    for row in (row for row in DIALOGUES + SLOW if row.is_usual and row.witness is None and not row.files and not row.words):
        run = () if row.run is None else row.run.words()
        yield row.what, folder.run(folder.file('dialogue', row.text), '--mode', row.mode, *run, data=row.data), Result(row.wanted(), b'', 0)
    for row in ENDINGS:
        yield row.what, folder.run(folder.file('loop', LOOP.encode()), data=row.data), Result(row.wanted.encode(), b'', 0)


DIALOGUE_ROWS = folder_of(ASKED_OF, dialogue_rows)
ROWS = tuple(map(partial(folder_of, ASKED_OF), (word_rows, witness_rows, device_rows, order_rows, quit_rows, terminal_rows, turn_rows, much_rows)))
