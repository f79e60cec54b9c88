"""What `run` of the built program writes, says on standard error and ends with, in each way to end; compare/runs/statuses.py runs these rows.

A script from a file, modes, and the order in which words, mode, file and script are tested; devices that are full, closed, broken off,
too short, interrupted, or fail at each byte and each call; the line at a terminal; replies that are written before the next read, and
each before the next request is taken; as many reads as there may be; more replies than memory; the deepest lines on a small stack.
All were worked out by hand from docs/SESSIONS.md and docs/FORMATS.md, but for long replies, which are the model's.
"""

import os
import resource
from functools import partial

from model.debugger import MOST_READS, Result
from model.session import serve
from rows import worked_slots, worked_waitany
from rows.worked_runs import FIRST, HEAD_TO_HEAD
from rows.worked_sessions import DIALOGUES, RUN, STATE, TESTED_PLAIN, deep, no, ran, step, tested_differently, tested_input
from started.devices import SECONDS, Files, at_terminal, broken_off, device, full, refused, soft_limit
from started.programs import file_of, run_in_packets
from started.shims import HERE, built
from statuses.asked_script import Asked, folder_of, input_rows, mode_rows, output_rows
from statuses.usage_texts import NO_MODE, known
from statuses.worked_program import INPUT, NO_FILE, OUTPUT, SCRIPT, Failing, of_what_is_known

HINT = b'JSON requests, one a line; docs/SESSIONS.md\n'
STACK_KIB, MUCH_MIB = 512, 32

# What is asked of the script FIRST, a line for each read, the last of them without an end; and the reply to each.
ASKED = (f'{step("local 0")}\n', f'{STATE}\n', 'fly\n', step('local 9'))
REPLIES = (deep(1, 1), '{"depth":1,"ok":true,"ranks":["at 2","at 2"],"sets":[],"undone":0,"version":1}', no('not-json'), no('not-enabled'))
LINES, ANSWERS = [line.encode() for line in ASKED], [f'{reply}\n'.encode() for reply in REPLIES]
DATA, ANSWERED = b''.join(LINES), b''.join(ANSWERS)
ENDED = Result(ANSWERED, b'', 0)
START = b'{"depth":0,"ok":true,"ranks":["at 2","at 2"],"sets":[],"undone":0,"version":0}\n'


ASKED_OF = Asked('run', FIRST.encode(), HEAD_TO_HEAD.encode(), LINES, ANSWERS)


def word_rows(folder):
    """Words of the command line, and the order in which they, the mode, the file and its script are tested."""
    first = folder.first
    bad, missing = folder.file('bad', b'mpd 1;ranks 1;print'), os.path.join(folder.path, 'none')
    yield 'a session', folder.run(first), ENDED
    yield 'no requests', folder.run(first, data=b''), Result(b'', b'', 0)
    yield 'empty lines', folder.run(first, data=b'\n\r\n\n'), Result(b'', b'', 0)
    yield from mode_rows(folder, RUN.encode(), *(Result(f'{reply}\n'.encode(), b'', 0) for reply in (ran(2, 2, 'leaf', 1), ran(10, 10, 'leaf', 1))))
    for name in (missing, folder.path, '', os.path.join(first, 'x'), '/proc/self/mem'):
        yield f'no file at {name}', folder.run(name), NO_FILE
    yield 'a bad script', folder.run(bad), refused(b'4 expected at 19 line 1')
    yield 'a bad script, input closed', Files(None).run(folder.program, 'run', bad), refused(b'4 expected at 19 line 1')
    yield 'a bad script, output full', folder.run(bad, output=full()), refused(b'4 expected at 19 line 1')
    yield 'a bad script, errors full', folder.run(bad, errors=full()), Result(b'', b'', 2)
    yield 'a divided file', folder.run(folder.file('divided', FIRST.encode() + b'\n---\n')), refused(b'4 expected at %d line 3' % (len(FIRST) + 1))
    whole = FIRST.encode() + b'\n#' + b' ' * (65536 - len(FIRST) - 2)
    yield 'a file of 65536 bytes', folder.run(folder.file('whole', whole)), ENDED
    yield 'a file of 65537 bytes', folder.run(folder.file('longer', whole + b' ')), refused(b'1 too-long at 65536 line 3')
    yield 'a file without an end', folder.run('/dev/zero'), refused(b'1 too-long at 65536 line 1')


def device_rows(folder):
    """Devices that fail: what had been answered stands."""
    first = folder.first
    yield from input_rows(folder)
    yield from output_rows(folder)
    yield 'input broken off', Files(broken_off(DATA)).run(folder.program, 'run', first), device(b''.join(ANSWERS[:3]))
    yield 'output full, nothing to write', folder.run(first, data=b'\n', output=full()), Result(b'', b'', 0)
    yield 'output and errors full', folder.run(first, output=full(), errors=full()), Result(b'', b'', 3)


def failing():
    """A device that fails after so many calls or bytes, and how much is written then.

    A line is answered once its line feed is read, the last one at the end, which is a read of its own. A reply as short as these is one
    write. The file of the script is read to its end.
    """
    done = [sum(map(len, ANSWERS[:count])) for count in range(len(ANSWERS) + 1)]
    ends = [sum(map(len, LINES[:count + 1])) for count in range(3)]
    yield from (Failing(INPUT, 'CALLS', calls, calls == 5, done[4] if calls == 5 else done[min(calls, 3)]) for calls in range(6))
    yield from (Failing(OUTPUT, 'CALLS', calls, calls == 4, done[calls]) for calls in range(5))
    for most in range(len(DATA) + 2):
        is_well = most > len(DATA)
        yield Failing(INPUT, 'BYTES', most, is_well, done[4] if is_well else done[sum(end <= most for end in ends)])
    yield from (Failing(OUTPUT, 'BYTES', most, most >= len(ANSWERED), min(most, len(ANSWERED))) for most in range(len(ANSWERED) + 3))
    yield from (Failing(SCRIPT, 'CALLS', calls, calls > 1, len(ANSWERED) * (calls > 1)) for calls in range(4))
    size = len(FIRST)
    yield from (Failing(SCRIPT, 'BYTES', most, most > size, len(ANSWERED) * (most > size)) for most in range(size + 2))


def failing_rows(folder):
    """Each read and each write fails, after each byte and each call."""
    shim = built(os.path.join(HERE, 'fail_shim.c'), folder.path)
    for row in failing():
        variables = {**os.environ, 'LD_PRELOAD': shim, 'FAIL_FILE': str(row.device), f'FAIL_{row.limit}': str(row.most)}
        said = run_in_packets(folder.program, LINES, SECONDS, ('run', folder.first), variables)
        yield f'{row}', said, Result(ANSWERED[:row.written], *((b'', 0) if row.is_well else (b'mpdbg: device\n', 3)))


def interrupted_rows(folder):
    """Each read and each write is interrupted once: it is tried again, and nothing else is seen of it."""
    shim = built(os.path.join(HERE, 'interrupt_shim.c'), folder.path)
    yield 'interrupted', Files(file_of(DATA)).run(folder.program, 'run', folder.first, LD_PRELOAD=shim), ENDED


# What each read brings, and the replies that are written behind it: of whole lines, and of the end.
IN_TURN = ((LINES[0], ANSWERS[:1]), (LINES[1] + LINES[2] + b'\n', ANSWERS[1:3]), (b'\r\n' + LINES[3][:9], []), (LINES[3][9:], []),
           (b'\r\n' + LINES[0] * 2, [ANSWERS[3], f'{deep(2, 2)}\n'.encode(), f'{no("not-enabled")}\n'.encode()]), (STATE.encode(), []))
LAST = b'{"depth":2,"ok":true,"ranks":["blocked 0","at 2"],"sets":[],"undone":0,"version":2}\n'


def order_rows(folder):
    """The replies to what a read has brought are written before the next read, and none is gathered with another."""
    shim = built(os.path.join(HERE, 'order_shim.c'), folder.path)
    said = run_in_packets(folder.program, [piece for piece, _ in IN_TURN], SECONDS, ('run', folder.first), {**os.environ, 'LD_PRELOAD': shim})
    notes = [line.split() for line in said.errors.decode().splitlines()]
    reads, writes = ([int(number) for what, number in notes if what == kind] for kind in ('read', 'write'))
    written, wanted = 0, [0]
    for _, replies in IN_TURN:
        written += sum(map(len, replies))
        wanted.append(written)
    all_replies = [reply for _, replies in IN_TURN for reply in replies] + [LAST]
    # the script is read from a file, which the notes leave out
    yield 'replies before the next read', (reads, said.status), (wanted, 0)
    yield 'each reply by itself', (writes, said.output), (list(map(len, all_replies)), b''.join(all_replies))


def terminal_rows(folder):
    """At a terminal, and there alone, a line says what is waited for; none where the session can't begin."""
    first, bad = folder.first, folder.file('bad', b'mpd 1;ranks 1;print')
    yield 'a terminal', at_terminal(folder.program, 'run', first, data=DATA), ENDED._replace(errors=HINT)
    yield 'a terminal, no requests', at_terminal(folder.program, 'run', first), Result(b'', HINT, 0)
    told = b'mpdbg: script refused 4 expected at 19 line 1\n  mpd 1;ranks 1;print\n  ' + b' ' * 19 + b'^\n  found the end of the text\n'
    yield 'a terminal, a bad script', at_terminal(folder.program, 'run', bad, data=DATA), Result(b'', told, 2)
    missing = os.path.join(folder.path, 'none')
    yield 'a terminal, no file', at_terminal(folder.program, 'run', missing), Result(b'', f"mpdbg: device\n  '{missing}': no such file\n".encode(), 3)
    modes = f'mpdbg: bad mode\n  {known(NO_MODE).format("x")}\n'.encode()
    yield 'a terminal, no mode', at_terminal(folder.program, 'run', first, '--mode', 'x'), Result(b'', modes, 2)
    full_output = at_terminal(folder.program, 'run', first, data=DATA, output=full())
    yield 'a terminal, output full', full_output, Result(b'', HINT + b'mpdbg: device\n  standard output: no space left\n', 3)
    from_folder = at_terminal(folder.program, 'run', first, reading=os.open('/', os.O_RDONLY))
    yield 'a terminal, input a directory', from_folder, Result(b'', HINT + b'mpdbg: device\n  standard input: is a directory\n', 3)


def turn_rows(folder):
    """As many reads as there may be, of which the end is one; what had not ended as a line then isn't answered."""
    state, turns = STATE.encode(), b'mpdbg: turns\n'
    rows = (
        ('line feeds without an end', [b'\n'] * MOST_READS, Result(b'', turns, 3)),
        ('a line that ends with the last read', [*([b' '] * (MOST_READS - 1)), b'\n'], Result(f'{no("line-too-long")}\n'.encode(), turns, 3)),
        ('a line that hasn\'t ended', [state + b'\n', *([b'\n'] * (MOST_READS - 2)), state], Result(START, turns, 3)),
        ('a last line, and the end as the last read', [*([b'\n'] * (MOST_READS - 2)), state], Result(START, b'', 0)),
        ('a line too long that hasn\'t ended', [b'x' * 4096] * 2 + [b'x'] * (MOST_READS - 2), Result(b'', turns, 3)))
    for name, packets, wanted in rows:
        yield name, run_in_packets(folder.program, packets, SECONDS, ('run', folder.first)), wanted


def stack_rows(folder):
    """The deepest lines, and those that are too deep, on a stack of so many KiB."""
    for opening, core, closing in (('[', '', ']'), ('{"":', '0', '}'), ('[{"a":', '1', '}]')):
        most = 127 // len(closing)
        for turns, name in ((most, 'bad-field'), (most + 1, 'not-json'), (4000 // len(opening + closing), 'not-json')):
            line = opening * turns + core + closing * turns
            with soft_limit(resource.RLIMIT_STACK, STACK_KIB << 10):
                result = folder.run(folder.first, data=f'{line}\n{STATE}\n'.encode())
            yield f'{turns} times {opening} on {STACK_KIB} KiB', result, Result(f'{no(name)}\n'.encode() + START, b'', 0)


def much_rows(folder):
    """Replies of many times the memory that the program may take, and a line of many times as much: neither is gathered."""
    cells, asked = 1023, b'{"cmd":"vars","rank":0}\n'
    text = f'mpd 1; ranks 1; var i; var a[{cells}];\nwhile i < {cells} {{ a[i] = -1234567890123456789; i = i + 1; }}\n'.encode()
    front = b'{"cmd":"run","max":1000000}\n'
    first, shown = (serve(text, data).output for data in (front, front + asked))
    shown = shown[len(first):]
    assert len(shown) > 20 * cells
    data = front + asked * 4000 + b'x' * (64 << 20) + b'\n' + asked
    result = Files(file_of(data)).run('sh', '-c', f'ulimit -v {MUCH_MIB << 10}; exec "$0" "$@"', folder.program, 'run', folder.file('much', text))
    yield f'much to tell with {MUCH_MIB} MiB', result, Result(first + shown * 4000 + f'{no("line-too-long")}\n'.encode() + shown, b'', 0)


def dialogue_rows(folder):
    """The worked dialogues, but for those with fewer steps in a trail; compare/runs/checked.py has the checked program answer them."""
    for row in of_what_is_known(DIALOGUES, worked_waitany.DIALOGUES, worked_slots.DIALOGUES):
        if row.limit is None:
            result = folder.run(folder.file('dialogue', row.script.encode()), '--mode', row.mode, *('--wide',) * row.wide, data=row.asked())
            yield row.what, result, Result(row.wanted(), b'', 0)
    yield 'lines', tested_differently(folder.run(folder.first, '--wide', data=tested_input()).output), []
    plain = folder.run(folder.first, data=tested_input(TESTED_PLAIN)).output
    yield 'lines without --wide', tested_differently(plain, TESTED_PLAIN), []


DIALOGUE_ROWS = folder_of(ASKED_OF, dialogue_rows)
ROWS = tuple(map(partial(folder_of, ASKED_OF), (word_rows, device_rows, failing_rows, interrupted_rows, order_rows, terminal_rows, turn_rows, stack_rows, much_rows)))
