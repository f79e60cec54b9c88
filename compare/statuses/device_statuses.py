"""What the built program does where its devices fail, of a trace, a session, a dialogue, checks, a diagnosis and a witness: each read and each write in turn, of files
and of standard input and output; reads and writes of one byte; interrupted ones; output that is full, closed, or whose reader stalls or
leaves; and a file system that is full. compare/runs/statuses.py runs these rows, and those of connections (connection_statuses.py).

What is written then is the beginning of what is written else, and what had been answered stands. All was worked out by hand from docs/.
"""

import fcntl
import itertools
import os
import signal
import tempfile
import termios
import time
from typing import NamedTuple

from model.console_lines import folded
from model.debugger import Result
from model.files import held
from rows.examples import EXAMPLES
from rows.worked_sessions import DIALOGUES, STATE
from rows.worked_traces import as_lines
from started.devices import SECONDS, Files, device, full, refused, unread_pipe
from started.programs import content, file_of, run_at_once, status_of
from started.shims import HERE, built
from statuses.console_statuses import ANSWERS as ANSWERED_LINES, FIRST as TALKED_OF, LINES as TYPED_LINES
from statuses.usage_texts import ANSWERS as HELP

INPUT, OUTPUT, OPENED = 0, 1, 3
PIPE = 65536

# The first message, word by word: what each is answered. It is read from a file.
FIRST = b'mpd 1;\nranks 2;\nvar x;\nif rank == 0 { send 7 to 1 tag 0; } else { recv x from 0 tag 0; print x; }\n'
WORDS = ('local 0', 'local 0', 'local 1', 'local 1', 'match 0.0 1.0', 'wake 0', 'wake 1', 'local 1', 'show')
AHEAD = b'''deadlock is 10 steps ahead: rank 0 at line 7, rank 2 at line 7
10 ahead: local 0: line 7
    7  if rank == 0 { recv x from any tag any status who tag_of; recv x from 1
        tag any; } else { send rank to 0 tag 0; }
'''
SHOWN = ('depth 8 of 8; rank 0 ended; vars 0; handles; out; call 0.0 send to 1 tag 0 value 7 with 1.0; rank 1 ended; vars 7; handles; out 7; '
         'call 1.0 recv from 0 tag 0 with 0.0 value 7; set pair 0.0 1.0; set woke 0.0; set woke 1.0; outcome done; end')
TOLD = [f'ok {depth}\n'.encode() for depth in range(1, 9)] + [as_lines(SHOWN)]
RUNS = next(row for row in DIALOGUES if row.what == 'a breakpoint on a cell, there and back')

# The race of docs/TOUR.md, its report, and the witness in that.
RACE = os.path.join(EXAMPLES, 'race.mpd')
LEAF = 'leaf 0 [0] deadlock 0.1 2.0\n'
STEPS = 'witness 0: local 0, local 0, local 1, local 1, local 2, local 2, match 1.0 0.0, wake 0, local 0, wake 1\n'
REPORT = f'{LEAF}{STEPS}leaf 1 [1] done\nleaves 2 more no\n'.encode()
WITNESS = (LEAF + STEPS).encode()
# What is said of it where it is diagnosed.
DIAGNOSED = f'''it can hang in rendezvous: 1 of 2 runs

deadlock at line 7: 1 of 2 runs
  rank 0 waits at line 7, 0.1 recv from 1 tag any: for a send of rank 1 with any
        tag
    nearest miss: line 7, 2.0 send to 0 tag 0 value 2: another source
    the last that fits is taken: line 7, 1.0 send to 0 tag 0 value 1, by line 7,
        0.0 recv from any tag any
  rank 2 waits at line 7, 2.0 send to 0 tag 0 value 2: for a receive of rank 0
        from rank 2 with tag 0
    nearest miss: line 7, 0.1 recv from 1 tag any: another source
    the last that fits is taken: line 7, 0.0 recv from any tag any, by line 7,
        1.0 send to 0 tag 0 value 1
  rank 0 waits for rank 1 (ended)
  rank 2 waits for rank 0
  decided at depth 6: rank 0, line 7, takes the message of rank 1 (line 7, value
        1, tag 0); with that of rank 2 (line 7, value 2, tag 0) it need not hang
        or trap
  at the prompt of `debug`, `blame` goes to this step and `redo all` to the end
  ./mpdbg debug {RACE} --ends --choices '0'
  ./mpdbg picture {RACE} --ends --choices '0' > run.svg
'''.encode()


class Case(NamedTuple):
    """Words of the command line, what stands on standard input with what each line of it is answered, how many bytes are read of files,
    and how the program ends."""
    what: str
    words: tuple
    data: bytes
    answers: list
    opened: int
    status: int

    @property
    def wanted(self):
        return Result(b''.join(self.answers), b'', self.status)

    def behind(self, count):
        """What is answered to so many bytes, which are not all: the beginning of a line is not answered."""
        return b''.join(self.answers[:self.data[:count].count(b'\n')])

    def run(self, program, shim, **variables):
        return run_at_once(program, self.data, SECONDS, {**os.environ, 'LD_PRELOAD': shim, **variables}, self.words)

    def fails(self, program, shim, file, limit, most):
        """What comes of it where a device fails after so many calls or bytes."""
        return self.run(program, shim, FAIL_FILE=str(file), **{f'FAIL_{limit}': str(most)})


def size_of(*paths):
    return sum(map(os.path.getsize, paths))


def answering(folder):
    """A trace, a session and a dialogue: they answer line by line."""
    first, status, talked = held(folder, 'first', FIRST), held(folder, 'status', RUNS.script.encode()), held(folder, 'talked', TALKED_OF)
    replies = [f'{reply}\n'.encode() for _, reply in RUNS.turns]
    yield Case('a trace', ('trace', first), b''.join(f'{word}\n'.encode() for word in WORDS), TOLD, size_of(first), 0)
    yield Case('a session', ('run', status), RUNS.asked(), replies, size_of(status), 0)
    yield Case('a dialogue', ('debug', talked), b''.join(TYPED_LINES), ANSWERED_LINES, size_of(talked), 0)


def telling(folder):
    """Checks, a diagnosis, verdicts, and what is told first of a witness that lies ahead: each of them is one text."""
    good, cut = held(folder, 'good', WITNESS), held(folder, 'cut', WITNESS.replace(b', wake 1', b''))
    checks = (('a check', ('--witness',), REPORT, 1), ('a piece', ('--piece', '1'), b'leaf 0 [1] done\nleaves 1 more no\n', 0),
              ('pieces', ('--pieces',), b'pieces 2\n', 0))
    for name, options, text, status in checks:
        yield Case(name, ('check', RACE, *options), b'', [text], size_of(RACE), status)
    yield Case('a diagnosis', ('diagnose', RACE), b'', [DIAGNOSED], size_of(RACE), 1)
    verdicts = (('a witness', good, b'accepted\n', 0), ('no witness', cut, b'refused 33 not-stuck\n', 1))
    for name, path, text, status in verdicts:
        yield Case(name, ('verify', RACE, path), b'', [text], size_of(RACE, path), status)
    yield Case('a witness ahead', ('debug', RACE, '--witness', good), b'', [AHEAD], size_of(RACE, good), 0)
    yield Case('a run ahead', ('debug', RACE, '--choices', '0'), b'', [AHEAD], size_of(RACE), 0)


def cases(folder):
    return [*answering(folder), *telling(folder)]


def write_rows(program):
    """Each write fails, after each byte and each call: what was written before stands."""
    with tempfile.TemporaryDirectory() as folder:
        shim = built(os.path.join(HERE, 'fail_shim.c'), folder)
        for case in cases(folder):
            text = case.wanted.output
            for most in range(len(text) + 2):
                wanted = device(text[:most]) if most < len(text) else case.wanted
                yield f'{case.what}, {most} bytes are written', case.fails(program, shim, OUTPUT, 'BYTES', most), wanted
            # one read brings all lines: a trace gathers what they are answered, a session and a console write each answer by itself
            writes = case.answers if case.words[0] in ('run', 'debug') else [text]
            for most in range(len(writes) + 1):
                wanted = device(b''.join(writes[:most])) if most < len(writes) else case.wanted
                yield f'{case.what}, {most} writes', case.fails(program, shim, OUTPUT, 'CALLS', most), wanted


def read_rows(program):
    """Each read of standard input fails, after each byte and each call: the lines that had ended were answered."""
    with tempfile.TemporaryDirectory() as folder:
        shim = built(os.path.join(HERE, 'fail_shim.c'), folder)
        for case in answering(folder):
            for most in range(len(case.data) + 1):
                yield f'{case.what}, {most} bytes are read', case.fails(program, shim, INPUT, 'BYTES', most), device(case.behind(most))
            yield f'{case.what}, all is read', case.fails(program, shim, INPUT, 'BYTES', len(case.data) + 1), case.wanted
            # all lines in one read, and the end in another
            for most, wanted in ((0, device()), (1, device(case.wanted.output)), (2, case.wanted)):
                yield f'{case.what}, {most} reads', case.fails(program, shim, INPUT, 'CALLS', most), wanted


def file_rows(program):
    """Each read of a script's file and of a witness's fails, after each byte: nothing is written."""
    with tempfile.TemporaryDirectory() as folder:
        shim = built(os.path.join(HERE, 'fail_shim.c'), folder)
        for case in cases(folder):
            for most in range(case.opened + 1):
                yield f'{case.what}, {most} bytes of files', case.fails(program, shim, OPENED, 'BYTES', most), device()
            yield f'{case.what}, all bytes of files', case.fails(program, shim, OPENED, 'BYTES', case.opened + 1), case.wanted


def short_rows(program):
    """Reads and writes of one byte, and reads and writes that are interrupted once: nothing else is seen of it."""
    with tempfile.TemporaryDirectory() as folder:
        for name in ('short', 'interrupt'):
            shim = built(os.path.join(HERE, f'{name}_shim.c'), folder)
            for case in cases(folder):
                yield f'{case.what}, {name}', case.run(program, shim), case.wanted
            words, text = HELP[0]
            said = run_at_once(program, b'', SECONDS, {**os.environ, 'LD_PRELOAD': shim}, words.split('|'))
            yield f'help, {name}', said, Result(text.encode(), b'', 0)
            # one byte more than a script may have
            said = run_at_once(program, b'', SECONDS, {**os.environ, 'LD_PRELOAD': shim}, ('trace', held(folder, 'long', b' ' * 65537)))
            yield f'a script that is too long, {name}', said, refused(b'1 too-long at 65536 line 1')


def closed_rows(program):
    """Output that is full, closed, or read by nobody, of what writes one text."""
    with tempfile.TemporaryDirectory() as folder:
        for case in telling(folder):
            for name, output in (('full', full()), ('closed', None), ('unread', unread_pipe())):
                yield f'{case.what}, output {name}', Files(None, output).run(program, *case.words), device()


# Much to write: more than a pipe holds.
MANY = 1000
SHOW_CELLS = b'mpd 1;ranks 1;var a[40];print 7;\n'
CELLS_SHOWN = as_lines(f'depth 0 of 0; rank 0 at 1; vars{" 0" * 40}; handles; out; end')
START = b'{"depth":0,"ok":true,"ranks":["at 1"],"sets":[],"undone":0,"version":0}\n'
SENDERS = 7
MESSAGES = (f'mpd 1; ranks {SENDERS + 1}; var x; var i;\nif rank == 0 {{ while i < {SENDERS} {{ recv x from any tag 0; i = i + 1; }} }} '
            'else { send 1 to 0 tag 0; }\n').encode()


def all_orders():
    """The report of all orders in which a receiver can take a message of each sender."""
    taken = itertools.product(*(range(count) for count in range(SENDERS, 0, -1)))
    leaves = [f"leaf {number} [{' '.join(map(str, choices))}] done\n" for number, choices in enumerate(taken)]
    return ''.join([*leaves, f'leaves {len(leaves)} more no\n']).encode()


def much(folder):
    cells, messages = held(folder, 'cells', SHOW_CELLS), held(folder, 'messages', MESSAGES)
    yield Case('a trace', ('trace', cells), b'show\n' * MANY, [CELLS_SHOWN] * MANY, 0, 0)
    yield Case('a session', ('run', cells), f'{STATE}\n'.encode() * MANY, [START] * MANY, 0, 0)
    cells_named = f'rank 0: {", ".join(f"a[{place}] = 0" for place in range(40))}'
    answer = ''.join(f'{line}\n' for line in folded(cells_named)).encode()
    yield Case('a dialogue', ('debug', cells), b'print a\n' * MANY, [answer] * MANY, 0, 0)
    yield Case('a check', ('check', messages, '--runs', '65536'), b'', [all_orders()], 0, 0)


def waiting_in(pipe):
    """How many bytes wait in a pipe."""
    return int.from_bytes(fcntl.ioctl(pipe, termios.FIONREAD, bytes(4)), 'little')


def stalled(program, case, most=None):
    """What is read of a program whose reader takes nothing until the pipe is full, and then all, or leaves behind so many bytes."""
    reading, writing = os.pipe2(os.O_CLOEXEC)
    data, errors = file_of(case.data), os.memfd_create('errors')
    actions = [(os.POSIX_SPAWN_DUP2, number, place) for place, number in enumerate((data, writing, errors))]
    process = os.posix_spawn(program, [program, *case.words], os.environ, file_actions=actions, setsigdef=(signal.SIGPIPE,))
    os.close(writing)
    until = time.monotonic() + SECONDS
    # (a write of more than there is room for may stop short of the last bytes of it)
    while waiting_in(reading) < PIPE - 4096 and time.monotonic() < until:
        time.sleep(0.01)
    time.sleep(0.1)
    stood = waiting_in(reading)
    with open(reading, 'rb') as file:
        said = file.read() if most is None else file.read(most)
    handle = os.pidfd_open(process)
    status = status_of(process, handle, SECONDS)
    result = Result(said, content(errors), status)
    for number in (data, errors, handle):
        os.close(number)
    return PIPE - 4096 <= stood <= PIPE, result


def stalled_rows(program):
    """A reader that stalls keeps the program waiting, and is told all; one that leaves is a device that fails."""
    with tempfile.TemporaryDirectory() as folder:
        for case in much(folder):
            text = case.wanted.output
            assert len(text) > PIPE + 4096
            yield f'{case.what}, a reader that stalls', stalled(program, case), (True, case.wanted)
            yield f'{case.what}, a reader that leaves', stalled(program, case, 100), (True, device(text[:100]))


# Mounts a file system of one page, in which a program writes its output: what stands there then.
DISK = 'mount -t tmpfs -o size=4k none "$0" || exit 99; "$@" > "$0/output"; status=$?; cat "$0/output"; exit $status'
PAGE = 4096


def on_a_disk(folder, data, *words):
    """What comes of words whose output is on such a file system."""
    return Files(file_of(data)).run('unshare', '--user', '--map-root-user', '--mount', 'sh', '-c', DISK, folder, *words)


def has_disks(folder):
    """Whether there can be such a file system here."""
    try:
        return on_a_disk(folder, b'', 'echo', 'here') == Result(b'here\n', b'', 0)
    except OSError:
        return False


def disk_rows(program):
    """A file system that is full: as much as it has room for is written."""
    with tempfile.TemporaryDirectory() as folder:
        disk = os.path.join(folder, 'disk')
        os.mkdir(disk)
        if not has_disks(disk):
            print('a full file system: skipped, since none can be mounted here', flush=True)
            yield 'no file system', True, True
            return
        for case in much(folder):
            yield f'{case.what}, a full disk', on_a_disk(disk, case.data, program, *case.words), device(case.wanted.output[:PAGE])


ROWS = (write_rows, read_rows, file_rows, short_rows, closed_rows, stalled_rows, disk_rows)
