"""Runs the built program in each way to end: what it writes, what it says on standard error, and its status, each exactly.

    python3 compare/runs/statuses.py PROGRAM
    python3 compare/runs/statuses.py PROGRAM --two-modes    a program that has no modes `slots:K`
    python3 compare/runs/statuses.py PROGRAM --version 1    a program that knows version 1 of the language alone, and two modes

The examples, and the worked rows of compare/statuses/worked_program.py; devices that are full, closed, broken off, too short or interrupted;
each fault of a script; the words of the command line, and the order in which they are tested; a script from a file; a refused
script and a long check at a terminal; as many steps and reads as there may be; the deepest scripts on a small stack; more answers than memory;
answers that come before the next read; parts of a check that are joined (part_statuses.py); all that of `run` (session_statuses.py) and of `debug` (console_statuses.py);
each device that fails at each place (device_statuses.py), and each connection (connection_statuses.py). The status is 0 where every
run ended as it must.
"""

import itertools
import os
import re
import resource
import select
import subprocess
import sys
import tempfile
import time

sys.path.insert(0, os.path.dirname(os.path.dirname(os.path.abspath(__file__))))

from model.debugger import MOST_READS, MOST_STEPS, RENDEZVOUS, Debugger, Result, Step, answer, answer_packets
from model.files import held
from model.language import MOST_OPEN_BLOCKS, MOST_OPERATORS, read_script, read_up_to
from model.modes import KNOWN, know_modes
from model.tried import tried
from probe.call_sizes import nested
from rows.examples import EXAMPLES, checks, consoles, example_names, lessons, open_example, strays
from rows.worked_slots import NONE as BAD_SLOTS
from runs import driving
from started.devices import SECONDS, Files, at_terminal, broken_off, device, file_of_any_size, full, refused, soft_limit, unread_pipe
from started.programs import file_of, run_in_packets
from started.shims import HERE, built
from statuses.connection_statuses import ROWS as CONNECTION_ROWS
from statuses.console_statuses import ROWS as CONSOLE_ROWS
from statuses.device_statuses import ROWS as DEVICE_ROWS
from statuses.found_texts import EXPECTED, FOUND, FOUND_FIRST, FOUND_LONG, FOUND_MEANT, HEADER, MEANT, MEANT_FIRST
from statuses.part_statuses import ROWS as PART_ROWS
from statuses.session_statuses import ROWS as SESSION_ROWS
from statuses.usage_texts import ANSWERS, BEFORE_A_MODE, MISTAKES, NO_MODE, NO_TEXT, known
from statuses.worked_program import ROWS as WORKED_ROWS

# What the deepest scripts are run with (docs/LANGUAGE.md, "Limits").
STACK_KIB = 512
# The memory for answers that have many times as many bytes.
MUCH_MIB = 32

SESSION = (b'mpd 1;\nranks 2;\nvar x;\nif rank == 0 { send 7 to 1 tag 0; } else { recv x from 0 tag 0; print x; }\n---\n'
           b'local 0\nlocal 1\nlocal 0\nlocal 1\nmatch 0.0 1.0\nshow\nfly\nback\nwake 1\n')
ENDED = Result(answer(SESSION).output, b'', 0)

# Each fault of a script, at its place.
FAULTS = (
    (b' ' * 65537, b'1 too-long at 65536 line 1'),
    (b'mpd 1;\nranks 1;\n# \x00\n', b'2 not-text at 18 line 3'),
    (b'mpd 1;\nranks 1;\nprint 1 & 1;\n', b'3 bad-token at 24 line 3'),
    (b'', b'4 expected at 0 line 1'),
    (b'mpd 1;\nranks 1;\nprint 1\n\n', b'4 expected at 25 line 5'),
    (b'mpd 1;\nranks 1;\nx = 1;\n', b'5 unknown-name at 16 line 3'),
    (b'mpd 1;\nranks 1;\nvar x;\nvar x;\n', b'6 twice at 27 line 4'),
    (b'mpd 1;\nranks 1;\nprint ' + b'-' * 65 + b'1;\n', b'7 too-deep at 86 line 3'),
    (b'mpd 1;\nranks 1;\nvar a[1025];\n', b'8 too-many at 22 line 3'),
    (b'mpd 1;\nranks 17;\n', b'9 bad-ranks at 13 line 2'),
    (b'mpd 3;\n', b'10 not-in-version at 4 line 1'))


def ended_rows(program):
    """Status 0."""
    yield 'a session', Files(file_of(SESSION)).run(program), ENDED
    script = SESSION[:SESSION.index(b'---')]
    yield 'a script alone', Files(file_of(script)).run(program), Result(b'', b'', 0)
    yield 'a script and no words', Files(file_of(script + b'---\n')).run(program), Result(b'', b'', 0)


def example_rows(program):
    """Status 0 for each example, with what stands beside it: NAME.trace is answered by NAME.stdout, and neither is there alone."""
    for name in example_names('.trace'):
        trace, wanted = (open_example(name + ending) for ending in ('.trace', '.stdout'))
        yield f'the example {name}', Files(file_of(trace)).run(program), Result(wanted, b'', 0)
    yield 'answers that nothing asks for', Result(' '.join(strays()).encode(), b'', 0), Result(b'', b'', 0)


def lesson_rows(program):
    """Status 0 for each lesson of docs/COURSE.md ("More scripts"), in each mode that it shows, traced and at the console, and the status of each check."""
    for lesson in lessons():
        mode = () if lesson.mode == RENDEZVOUS else ('--mode', lesson.mode)
        result = Files(file_of(open_example(f'{lesson.name}.words'))).run(program, 'trace', lesson.script, *mode)
        yield f'the lesson {lesson.name}, {lesson.mode}', result, Result(open_example(lesson.answers), b'', 0)
    for typed in consoles():
        mode = () if typed.mode == RENDEZVOUS else ('--mode', typed.mode)
        result = Files(file_of(typed.data)).run(program, 'debug', typed.script, *mode)
        yield f'the lesson {typed.beginning}, console', result, typed.wanted()
    for checked in checks():
        result = Files(None).run(program, 'check', checked.script, *checked.options)
        yield f'the lesson {checked.name}, check {" ".join(checked.options)}', result, checked.wanted


def refused_rows(program):
    """Status 2, also where standard error takes nothing; standard output is not looked at."""
    for data, fault in FAULTS:
        yield fault.decode(), Files(file_of(data)).run(program), refused(fault)
    behind = b'mpd 3;\n---\nlocal 0\n'
    wanted = refused(FAULTS[-1][1])
    yield 'refused before its words', Files(file_of(behind)).run(program), wanted
    yield 'refused, output full', Files(file_of(behind), full()).run(program), wanted
    yield 'refused, output closed', Files(file_of(behind), None).run(program), wanted
    silent = Result(b'', b'', 2)
    yield 'refused, errors full', Files(file_of(behind), errors=full()).run(program), silent
    yield 'refused, errors closed', Files(file_of(behind), errors=None).run(program), silent
    yield 'refused, errors unread', Files(file_of(behind), errors=unread_pipe()).run(program), silent


def device_rows(program):
    """Status 3 for want of a device."""
    yield 'input closed', Files(None).run(program), device()
    yield 'input a directory', Files(os.open('/', os.O_RDONLY)).run(program), device()
    yield 'input that is written', Files(unread_pipe()).run(program), device()
    yield 'input broken off', Files(broken_off(SESSION + b'back')).run(program), device(ENDED.output)
    yield 'input broken off in its script', Files(broken_off(SESSION[:30])).run(program), device()
    yield 'output full', Files(file_of(SESSION), full()).run(program), device()
    yield 'output closed', Files(file_of(SESSION), None).run(program), device()
    yield 'output unread', Files(file_of(SESSION), unread_pipe()).run(program), device()
    yield 'output and errors full', Files(file_of(SESSION), full(), full()).run(program), Result(b'', b'', 3)
    yield 'all closed', Files(None, None, None).run(program), Result(b'', b'', 3)
    for size in (0, 1, 4, 5, 6, 100, len(ENDED.output) - 1):
        # standard error is a pipe, so that it has no such limit
        reading, writing = os.pipe()
        with soft_limit(resource.RLIMIT_FSIZE, size):
            result = Files(file_of_any_size(SESSION), errors=writing).run(program)
        with open(reading, 'rb') as errors:
            yield f'output of {size} bytes', result._replace(errors=errors.read()), device(ENDED.output[:size])


LOOP = b'mpd 1; ranks 2; while 1 { }\n'


def many_reads(count, last):
    """An input that so many reads bring, the last of them this one."""
    return [LOOP + b'---\nlocal 0\nlocal 1\n'] + [b'\n'] * (count - 2) + [last]


def turns_rows(program):
    """Status 3 where the input has not ended after as many reads as there may be; the end is one of them."""
    for count in (MOST_READS - 1, MOST_READS):
        packets = many_reads(count, b'local 0')
        yield f'{count} packets and the end', run_in_packets(program, packets, SECONDS), answer_packets(packets)


def full_rows(program):
    """As many steps as there may be, then a refusal; steps taken back, and again, and refused again."""
    behind = ('wake 0, local 0, local 1, show, back, back, show, local 0, local 0, local 0, back, local 1, show, '
              'local 0, back, back, local 1, show, back').encode().split(b', ')
    data = LOOP + b'---\n' + b'local 0\n' * MOST_STEPS + b'\n'.join([*behind, b''])
    debugger = Debugger(read_script(LOOP))
    # each step leads to the same world again
    debugger.worlds *= MOST_STEPS + 1
    debugger.steps = [Step('local', 0)] * MOST_STEPS
    texts = [f'ok {depth}' for depth in range(1, MOST_STEPS + 1)] + [debugger.answer(line) for line in behind]
    wanted = Result(''.join(text + '\n' for text in texts).encode(), b'', 0)
    yield f'{MOST_STEPS} steps', Files(file_of(data)).run(program), wanted


def interrupted_rows(program):
    """Each read and each write is interrupted once: it is tried again, and nothing else is seen of it."""
    with tempfile.TemporaryDirectory() as folder:
        shim = built(os.path.join(HERE, 'interrupt_shim.c'), folder)
        yield 'interrupted', Files(file_of(SESSION)).run(program, LD_PRELOAD=shim), ENDED


class Talk:
    """A program that is asked piece by piece; its input stays open."""

    def __init__(self, program):
        self.process = subprocess.Popen([program], stdin=subprocess.PIPE, stdout=subprocess.PIPE, stderr=subprocess.PIPE,
                                        bufsize=0)

    def ask(self, data, length):
        """Writes a piece, and gives what comes, up to so many bytes or until nothing comes any more."""
        self.process.stdin.write(data)
        answers = b''
        while len(answers) < length and select.select([self.process.stdout], [], [], SECONDS)[0]:
            piece = os.read(self.process.stdout.fileno(), length - len(answers))
            if not piece:
                break
            answers += piece
        return answers

    def end(self):
        output, errors = self.process.communicate(timeout=SECONDS)
        return Result(output, errors, self.process.returncode)


def talk_rows(program):
    """What a read brought is answered before the next one; a script that can't be read is refused before its input ends."""
    place = SESSION.index(b'---\n') + 4
    talk = Talk(program)
    asked = SESSION[:place]
    for line in SESSION[place:].splitlines(keepends=True):
        before, asked = answer(asked).output, asked + line
        wanted = answer(asked).output[len(before):]
        answers = talk.ask(line if before else SESSION[:place] + line, len(wanted))
        yield f'asked {line.decode().strip()}', Result(answers, b'', 0), Result(wanted, b'', 0)
    yield 'asked no more', talk.end(), Result(b'', b'', 0)
    process = subprocess.Popen([program], stdin=subprocess.PIPE, stdout=subprocess.PIPE, stderr=subprocess.PIPE)
    os.write(process.stdin.fileno(), b' ' * 32_768)
    os.write(process.stdin.fileno(), b' ' * 32_769)
    status = process.wait(SECONDS)
    yield 'too long before its end', Result(process.stdout.read(), process.stderr.read(), status), refused(FAULTS[0][1])
    process.stdin.close()


def no_input(program, *words):
    return Files(file_of(b'')).run(program, *words)


def usage_rows(program):
    """Words that ask for help (status 0) or are wrong (2), with the whole text of each."""
    for words, text in ANSWERS:
        yield f'asked for {words}', no_input(program, *words.split('|')), Result(known(text).encode(), b'', 0)
    for mistake in MISTAKES:
        yield f'mistaken {mistake.words}', no_input(program, *mistake.words.split('|')), wrong_words(mistake)
    yield 'no text', no_input(program, 'trace', b'\xff'), wrong_words(NO_TEXT)
    for first, second in (('--choices', '--witness'), ('--choices', '--words'), ('--witness', '--words')):
        told = Result(b'', f"mpdbg: {first} and {second} can't stand together\n".encode(), 2)
        for words in ((first, '0', second, '1'), (f'{second}=1', f'{first}=', '--mode', 'no-mode')):
            for command in ('picture', 'debug') if '--words' not in (first, second) else ('picture',):
                yield f'a run told twice to {command}, {words}', no_input(program, command, 'no-such-file', *words), told
    for told, *options in (('--piece', '--piece', '0'), ('--pieces', '--pieces'), ('--piece', '--pieces', '--piece=9'), ('--piece', '--modes', '1', '--piece', '0')):
        refusal = Result(b'', f"mpdbg: --complete and {told} can't stand together\n".encode(), 2)
        yield f'all of {options}', no_input(program, 'check', 'no-such-file', '--complete', *options, '--mode', 'no-mode'), refusal
    # what can't stand beside an option of `check`, each alone, and with all that is told behind it in front of it
    for words, others in NOT_BESIDE:
        for place, other in enumerate(others):
            refusal = Result(b'', f"mpdbg: {words[0]} and {other[0]} can't stand together\n".encode(), 2)
            behind = [word for it in reversed(others[place + 1:]) for word in it]
            for more in ([], behind) if behind else ([],):
                yield f'{more} and {other} beside {words}', no_input(program, 'check', 'no-such-file', *more, *other, *words, '--mode', 'no-mode'), refusal
    # pieces can't stand beside JSON either, which is told behind all else
    for told, *options in (('--piece', '--piece', '0'), ('--pieces', '--modes', '1', '--pieces'), ('--piece', '--pieces', '--piece=9')):
        for first, *more in (('--json', '--explain', '--group'), ('--complete', '--complete')):
            refusal = Result(b'', f"mpdbg: {first} and {told} can't stand together\n".encode(), 2)
            yield f'JSON of {options} and {more}', no_input(program, 'check', 'no-such-file', '--json', *options, *more, '--mode', 'no-mode'), refusal
    # what can't stand beside a sample, and a seed without one, are told first
    for told, *options in (("--sample and --piece can't stand together", '--sample', '3'), ('--seed wants --sample', '--seed', '3')):
        refusal = Result(b'', f'mpdbg: {told}\n'.encode(), 2)
        yield f'all of a piece, and {options}', no_input(program, 'check', 'no-such-file', '--piece', '0', '--complete', *options), refusal
    # what can't stand beside outcomes before these, and states without them behind that; modes and the first deadlock can stand beside them
    beside = (('--ends',), ('--runs', '5'), ('--split', '1'), ('--piece', '0'), ('--pieces',), ('--sample', '3'), ('--seed', '3'), ('--group',))
    fits = ('--states', '5', '--complete', '--modes', '1', '--until', 'deadlock')
    clashes = [(f"--outcomes and {options[0]} can't stand together", '--outcomes', *options, *fits) for options in beside]
    for told, *options in (*clashes, ('--states wants --outcomes', '--states', '5', '--sample', '3', '--ends')):
        refusal = Result(b'', f'mpdbg: {told}\n'.encode(), 2)
        yield f'all of {options}', no_input(program, 'check', 'no-such-file', *options, '--mode', 'no-mode'), refusal
    # that traps are asked for without witnesses is told before all of these
    for options in ((), ('--explain',), ('--piece', '0', '--complete'), ('--outcomes', '--ends'), ('--states', '5'), ('--seed', '3')):
        refusal = Result(b'', b'mpdbg: --traps wants --witness\n', 2)
        yield f'traps and {options}', no_input(program, 'check', 'no-such-file', '--traps', *options, '--mode', 'no-mode'), refusal
    full_c = Files(file_of(b''), full()).run(program, 'c', os.path.join(EXAMPLES, 'race.mpd'))
    yield 'a script in C, output full', full_c, device()
    full_help = Files(file_of(b''), full()).run(program, '--help')
    yield 'help, output full', full_help, device()


# What can't stand beside some options of `check`, in the order in which it is told.
PIECES = ('--piece', '0'), ('--pieces',)
NOT_BESIDE = (
    (('--outcomes',), (('--ends',), ('--runs', '5'), ('--split', '1'), *PIECES, ('--sample', '3'), ('--seed', '3'), ('--group',))),
    (('--sample', '3'), (('--ends',), ('--runs', '5'), ('--split', '1'), *PIECES, ('--modes', '1'))),
    (('--sample', '3', '--seed', '5', '--complete'), PIECES), (('--complete', '--modes', '1', '--until', 'deadlock'), PIECES))


def wrong_words(mistake):
    return Result(b'', mistake.text.encode(), 2)


# A script that behaves differently in the two modes, and the words that show it.
EXCHANGE = b'mpd 1;\nranks 2;\nvar x;\nsend rank to 1 - rank tag 5;\nrecv x from 1 - rank tag 5;\n'
WORDS = b'local 0\nlocal 1\nwake 0\n'
BAD_MODE = Result(b'', b'mpdbg: bad mode\n', 2)


def trace_rows(program):
    """A script from a file, and its trace words on standard input; the order of tests is words, mode, file, script."""
    with tempfile.TemporaryDirectory() as folder:
        def held(name, data):
            with open(os.path.join(folder, name), 'wb') as file:
                file.write(data)
            return file.name

        def traced(*words, data=WORDS):
            return Files(file_of(data)).run(program, 'trace', *words)

        exchange, bad, missing = held('exchange', EXCHANGE), held('bad', b'mpd 1;ranks 1;print'), os.path.join(folder, 'none')
        waits = Result(b'ok 1\nok 2\nrefused not-enabled\n', b'', 0)
        passes = Result(b'ok 1\nok 2\nok 3\n', b'', 0)
        yield 'a file', traced(exchange), waits
        yield 'rendezvous', traced(exchange, '--mode', 'rendezvous'), waits
        yield 'buffered', traced(exchange, '--mode', 'buffered'), passes
        yield 'buffered first', traced('--mode=buffered', exchange), passes
        yield 'a file behind --', traced('--mode', 'buffered', '--', exchange), passes
        for mode in ('slots:1', 'slots:65536', 'slots:00001') * bool(KNOWN):
            yield f'mode {mode!r}', traced(exchange, '--mode', mode), passes
        for mode in ('slots:0', 'slots:00000') * bool(KNOWN):
            yield f'mode {mode!r}', traced(exchange, '--mode', mode), waits
        for mode in ('buffer', '', 'Buffered', 'buffered ', 'rendezvous buffered', *(() if KNOWN else ('slots:1',)), *BAD_SLOTS):
            yield f'mode {mode!r}', traced(exchange, '--mode', mode), BAD_MODE
        words = BEFORE_A_MODE.words.format(FILE=exchange).split('|')
        yield 'a word before a mode', Files(file_of(WORDS)).run(program, *words), wrong_words(BEFORE_A_MODE)
        yield 'a mode before a missing file', traced(missing, '--mode', 'none'), BAD_MODE
        yield 'a mode before a bad script', traced(bad, '--mode', 'none'), BAD_MODE
        for name in (missing, folder, '', os.path.join(exchange, 'x'), '/proc/self/mem'):
            yield f'no file at {name}', traced(name), device()
        yield 'a bad script', traced(bad), refused(b'4 expected at 19 line 1')
        yield 'a bad script, input closed', Files(None).run(program, 'trace', bad), refused(b'4 expected at 19 line 1')
        for data, fault in FAULTS:
            yield f'a file, {fault.decode()}', traced(held('fault', data)), refused(fault)
        yield 'a divided file', traced(held('divided', EXCHANGE + b'---\n')), refused(b'4 expected at 80 line 6')
        yield 'a file of 65536 bytes', traced(held('long', EXCHANGE + b'#' * (65536 - len(EXCHANGE)))), waits
        yield 'a file of 65537 bytes', traced(held('long', EXCHANGE + b'#' * (65537 - len(EXCHANGE)))), refused(b'1 too-long at 65536 line 6')
        yield 'a file without an end', traced('/dev/zero'), refused(b'1 too-long at 65536 line 1')
        yield 'a trace, input closed', Files(None).run(program, 'trace', exchange), device()
        yield 'a trace, output full', Files(file_of(WORDS), full()).run(program, 'trace', exchange), device()
        yield 'a trace of no words', traced(exchange, data=b''), Result(b'', b'', 0)
        example = open_example('exchange.mpd')
        yield 'the example of a file', traced(held('example', example), '--mode', 'buffered'), passes


# A script that is refused at a byte, what stands on its line, what stands below that, and what is told there, if anything, of a token that
# can't stand there or of what is mostly meant.
SHOWN = (
    (b'mpd 1;ranks 1;print', b'4 expected at 19 line 1', 'mpd 1;ranks 1;print', ' ' * 19, 'found the end of the text'),
    (b'mpd 1;\nranks 1;\n\tprint 1 & 1;\n', b'3 bad-token at 25 line 3', ' print 1 & 1;', ' ' * 9),
    (b'mpd 1;\r\nranks 17;\r\n', b'9 bad-ranks at 14 line 2', 'ranks 17; ', ' ' * 6, 'a script has 1 to 16 ranks'),
    ('mpd 1;\nranks 1; # \u00fcber\n'.encode(), b'2 not-text at 18 line 2', 'ranks 1; # ??ber', ' ' * 11),
    (b'mpd 1;\nranks 1;\nprint 1\n\n', b'4 expected at 25 line 5', '', '', "found the end of the text; only ';' or an operator can stand here"),
    # the one of docs/FORMATS.md
    (b'mpd 1;\nranks 1;\nprint 1\nprint 2;\n', b'4 expected at 24 line 4', 'print 2;', '', "found 'print'; only ';' or an operator can stand here"),
    (b'mpd 1;\nranks 1;\nprint 1 +;\n', b'4 expected at 25 line 3', 'print 1 +;', ' ' * 9, "found ';'"),
    (b'', b'4 expected at 0 line 1', '', '', "found the end of the text; only 'mpd' can stand here"),
    (b'mpd 1;\nranks 1;\nx = 1;' + b' ' * 66 + b'# the end', b'5 unknown-name at 16 line 3', 'x = 1;' + ' ' * 66 + '...', ''),
    (b'mpd 1;\nranks 1;\nvar x; ' + b' ' * 60 + b'x = y; x = 1234567890123456789012345678901234567890;', b'5 unknown-name at 87 line 3',
     'var x; ' + ' ' * 60 + 'x = y...', ' ' * 71),
    (b'mpd 1;\nranks 1;\nvar x; ' + b' ' * 61 + b'x = y; x = 1234567890123456789012345678901234567890;', b'5 unknown-name at 88 line 3',
     '...' + ' ' * 32 + 'x = y; x = 12345678901234567890123456789...', ' ' * 39),
    (b' ' * 65537, b'1 too-long at 65536 line 1', '...' + ' ' * 37, ' ' * 39),
    # the end of a line, and of a text, as places
    (b'\n' * 65534 + b'ab\n', b'1 too-long at 65536 line 65535', 'ab', '  '), (b'ab\ncd\n', b'4 expected at 0 line 1', 'ab', '', "found 'ab'; only 'mpd' can stand here"),
    (b'mpd 1;\ncd\n', b'4 expected at 7 line 2', 'cd', '', "found 'cd'; only 'ranks' can stand here"))


def terminal_rows(program):
    """At a terminal, and there alone, the line of a script that is refused is shown, with a caret below the byte."""
    with tempfile.TemporaryDirectory() as folder:
        for data, fault, line, below, *told in SHOWN:
            shown = refused(fault).errors + f'  {line}\n  {below}^\n'.encode() + ''.join(f'  {it}\n' for it in told).encode()
            name = os.path.join(folder, 'script')
            with open(name, 'wb') as file:
                file.write(data)
            wanted = Result(b'', shown, 2)
            yield f'a terminal, {fault.decode()}', at_terminal(program, data=data), wanted
            yield f'a terminal and a file, {fault.decode()}', at_terminal(program, 'trace', name), wanted
        yield 'a terminal, no fault', at_terminal(program, data=SESSION), ENDED


def found_rows(program):
    """At a terminal what stands where the grammar doesn't allow it, and what could stand there where that is little."""
    for marked, told in [*((HEADER + text, told) for text, told in FOUND), *FOUND_FIRST, FOUND_LONG]:
        front, _, rest = marked.partition('^')
        result = at_terminal(program, data=(front + rest).encode())
        lines = result.errors.decode().splitlines()
        hinted = [f'  {it}' for end, it in FOUND_MEANT.items() if marked.endswith(end)]
        wanted = (f'mpdbg: script refused 4 expected at {len(front)} line 1', f'  found {told}', hinted, 2)
        yield f'a terminal, {marked[:200]}', (lines[0], lines[3], lines[4:], result.status), wanted
        one_line = Files(file_of((front + rest).encode())).run(program)
        yield f'no terminal, {marked[:200]}', one_line, refused(wanted[0].removeprefix('mpdbg: script refused ').encode())


def hinted_rows(program):
    """At a terminal what is mostly meant by what is refused, where that is told."""
    for text, name, told in [*((HEADER + text, *row) for text, *row in MEANT), *MEANT_FIRST]:
        front, _, rest = text.partition('^')
        result = at_terminal(program, data=(front + rest).encode())
        lines = result.errors.decode().splitlines()
        first = f'mpdbg: script refused {name} at {len(front)} line {front.count(chr(10)) + 1}'
        # the lines of the place and the caret; what is expected has a line more
        behind = lines[4 if name == EXPECTED else 3:]
        yield f'a hint, {text}', (lines[0], behind, result.status), (first, [f'  {told}'] if told else [], 2)


# Words of a page of a script that goes on and on, and why it is refused. A run of 20,000 steps has one state more than a page may have.
REFUSED_PAGES = (
    ((), 'page of more than 20000 states'), (('--fuel', '20000'), 'page of more than 20000 states'), (('--runs', '2', '--fuel', '20000'), 'page of more than 20000 states'),
    (('--mode', 'slots'), 'bad mode'), (('--choices', 'x'), 'bad choices'), (('--choices', '7'), 'bad choices at 0'),
    *((words, f'{words[0]} and {words[2]} can\'t stand together') for words in (
        ('--choices', '1', '--witness', 'w'), ('--choices', '1', '--words', 'w'), ('--witness', 'w', '--words', 'w'), ('--choices', '1', '--runs', '2'),
        ('--witness', 'w', '--runs', '2'), ('--words', 'w', '--runs', '2'))))


def states_of(page):
    """How many states the data of a page has: each has a line of its own."""
    return len(page.partition(b'"nodes":[\n')[2].partition(b'\n]')[0].split(b'\n'))


def page_rows(program):
    """What pages are refused, with nothing written, and that one of as many states as there may be is not."""
    def paged(*words):
        return subprocess.run([program, 'page', script, *words], capture_output=True, timeout=120, check=False)

    with tempfile.TemporaryDirectory() as folder:
        script = os.path.join(folder, 'script.mpd')
        with open(script, 'wb') as file:
            file.write(b'mpd 1; ranks 1;\nwhile 1 { }\n')
        for words, told in REFUSED_PAGES:
            done = paged(*words)
            yield f'a page, {" ".join(words)}', Result(done.stdout, done.stderr, done.returncode), Result(b'', f'mpdbg: {told}\n'.encode(), 2)
        told = b'mpdbg: page of more than 20000 states\n  --fuel N lets a run take N steps at most, --runs N shows fewer runs\n'
        yield 'a page of too many states, at a terminal', at_terminal(program, 'page', script), Result(b'', told, 2)
        done = paged('--fuel', '19999')
        yield 'a page of 20,000 states', (states_of(done.stdout), done.stderr, done.returncode), (20000, b'', 0)


# A word with bytes that would move a terminal's cursor or change its colours, and one letter that wouldn't; how it is shown there.
CONTROLS, CONTROLS_SHOWN = 'a\x1b[31mb\tc\nd\x7fe\x9bf\xe9', 'a?[31mb?c?d?e?f\xe9'


def control_rows(program, folder):
    """Control characters of the words of the command line are shown as `?` at a terminal."""
    missing, shown = os.path.join(folder, CONTROLS), os.path.join(folder, CONTROLS_SHOWN)
    no_file = device().errors + f"  '{shown}': no such file\n".encode()
    for words in (('trace', missing), ('debug', missing), ('check', missing)):
        yield f'a terminal, {words[0]} of a name with control characters', at_terminal(program, *words), Result(b'', no_file, 3)
    yield ('a terminal, a mode with control characters', at_terminal(program, 'trace', missing, '--mode', CONTROLS),
           BAD_MODE._replace(errors=BAD_MODE.errors + f'  {known(NO_MODE).format(CONTROLS_SHOWN)}\n'.encode()))
    bad = '--\x1b[31mx'
    plain = no_input(program, 'trace', missing, bad)
    yield ('a terminal, an option with control characters', at_terminal(program, 'trace', missing, bad),
           plain._replace(errors=plain.errors.replace(b'\x1b', b'?')))
    yield 'no terminal, an option with control characters', b'\x1b[31mx' in plain.errors, True


def why_rows(program):
    """At a terminal a fault of a device tells which file and why, and one of a mode which modes there are."""
    def why(what):
        return Result(b'', device().errors + f'  {what}\n'.encode(), 3)

    with tempfile.TemporaryDirectory() as folder:
        shim = built(os.path.join(HERE, 'terminal_shim.c'), folder)
        script, missing, denied = (os.path.join(folder, name) for name in ('script', 'missing', 'denied'))
        for name in (script, denied):
            with open(name, 'wb') as file:
                file.write(EXCHANGE)
        reasons = ((missing, 'no such file'), (folder, 'is a directory'), (denied, 'permission denied'), ('', 'no such file'),
                   (os.path.join(script, 'x'), 'Not a directory (os error 20)'), ('/proc/self/mem', 'Input/output error (os error 5)'))
        for name, reason in reasons:
            for words in (('trace', name), ('check', name, '--witness'), ('diagnose', name), ('verify', name, script), ('verify', script, name), ('debug', name),
                          ('debug', script, '--witness', name)):
                yield f'a terminal, {words}', at_terminal(program, *words, LD_PRELOAD=shim), why(f"'{name}': {reason}")
        for word in ('none', '', 'Buffered', 'slots:', 'slots:65537'):
            wanted = BAD_MODE._replace(errors=BAD_MODE.errors + f'  {known(NO_MODE).format(word)}\n'.encode())
            yield f'a terminal, mode {word!r}', at_terminal(program, 'trace', script, '--mode', word), wanted
        yield from control_rows(program, folder)
        yield 'a terminal, output full', at_terminal(program, data=SESSION, output=full()), why('standard output: no space left')
        yield 'a terminal, help and output full', at_terminal(program, '--help', output=full()), why('standard output: no space left')
        checked = at_terminal(program, 'check', script, output=full())
        yield 'a terminal, check and output full', checked, why('standard output: no space left')
        unread = at_terminal(program, data=SESSION, output=unread_pipe())
        yield 'a terminal, output unread', unread, why('standard output: Broken pipe (os error 32)')
        from_folder = at_terminal(program, reading=os.open('/', os.O_RDONLY))
        yield 'a terminal, input a directory', from_folder, why('standard input: is a directory')
        behind = at_terminal(program, reading=broken_off(SESSION))
        yield 'a terminal, input broken off', behind, why('standard input: Connection reset by peer (os error 104)')._replace(output=ENDED.output)


# Eight messages, one of each sender, to one receiver of any source, which then counts for a while: 40,320 leaves that take seconds.
SLOW = (b'mpd 1;\nranks 9;\nvar x;\nvar i;\nif rank == 0 { while i < 8 { recv x from any tag any; i = i + 1; } while i < 600 { i = i + 1; } }\n'
        b'else { send 1 to 0 tag 0; }\n')
# Four messages, in all orders: 24 leaves, six of each candidate of the first choice.
FEW = b'mpd 1; ranks 5; var x; var i;\nif rank == 0 { while i < 4 { recv x from any tag 0; i = i + 1; } } else { send 1 to 0 tag 0; }\n'
ALL_END_WELL = b'all %d runs were tried: %d finish\n'
TOLD = rb'\rpieces ([0-9]+) of ([0-9]+), leaves ([0-9]{1,3}(?:,[0-9]{3})*)'
RISING = re.compile(rb'(?:%b)+\r\x1b\[K' % TOLD + ALL_END_WELL % (40320, 40320))


def told_counts(counts, of_piece, pieces):
    """What a terminal gets of these counts of leaves, each in place of the one before, and wiped at the end; each piece has so many."""
    told = b''.join(b'\rpieces %d of %d, leaves %d' % ((count - 1) // of_piece, pieces, count) for count in counts)
    return told + b'\r\x1b[K' * bool(counts)


def is_rising(errors, pieces, seconds):
    """Whether progress was told, once in each of so many seconds at most, with more leaves each time, and no fewer pieces, of all."""
    told = [tuple(int(number.replace(b',', b'')) for number in numbers) for numbers in re.findall(TOLD, errors)]
    ended, of_all, leaves = zip(*told) if told else ((), (), ())
    is_fit = set(of_all) == {pieces} and max(ended) < pieces and list(ended) == sorted(ended) and list(leaves) == sorted(set(leaves))
    return bool(RISING.fullmatch(errors)) and is_fit and len(told) <= seconds


def progress_rows(program):
    """At a terminal, and there alone, `check` says how many pieces are done and how many leaves there are so far, once a second at most,
    and wipes it at the end."""
    candidates = itertools.product(*(range(count) for count in range(8, 0, -1)))
    leaves = [f"leaf {number} [{' '.join(map(str, taken))}] done\n" for number, taken in enumerate(candidates)]
    report = ''.join(leaves + [f'leaves {len(leaves)} more no\n']).encode()
    with tempfile.TemporaryDirectory() as folder:
        slow, race = os.path.join(folder, 'slow'), os.path.join(folder, 'race')
        for name, data in ((slow, SLOW), (race, open_example('race.mpd'))):
            with open(name, 'wb') as file:
                file.write(data)
        before = time.time()
        result = at_terminal(program, 'check', slow, '--runs', '65536', '--workers', '1')
        told = is_rising(result.errors, 8, time.time() - before)
        yield 'a terminal, a long check', (result._replace(errors=b''), told), (Result(report, b'', 0), True)
        before = time.time()
        result = at_terminal(program, 'check', slow, '--runs', '65536', '--workers', '4')
        # (four processors may have done within a second)
        told = result.errors == ALL_END_WELL % (40320, 40320) or is_rising(result.errors, 8, time.time() - before)
        yield 'a terminal, a long check by four workers', (result._replace(errors=b''), told), (Result(report, b'', 0), True)
        # 24 leaves, by a clock that goes on by so much at each: at the end of each second, all leaves so far are counted
        shim, few = built(os.path.join(HERE, 'terminal_shim.c'), folder), os.path.join(folder, 'few')
        with open(few, 'wb') as file:
            file.write(FEW)
        for pause, between in ((1000, 1), (999, 2), (500, 2), (400, 3), (250, 4), (42, 24), (41, 25)):
            for split, of_piece, pieces in ((1, 6, 4), (0, 24, 1), (2, 2, 12)):
                words = ('check', few, '--workers', '1', '--split', str(split))
                result = at_terminal(program, *words, LD_PRELOAD=shim, CLOCK_MS=str(pause))
                wanted = told_counts(range(between, 25, between), of_piece, pieces) + ALL_END_WELL % (24, 24)
                yield f'a terminal, {pause} ms for each leaf, {pieces} pieces', result.errors, wanted
        piece = at_terminal(program, 'check', few, '--piece', '3', LD_PRELOAD=shim, CLOCK_MS='1000')
        yield 'a terminal, one piece', piece.errors, told_counts(range(1, 7), 6, 1)
        short = at_terminal(program, 'check', race)
        yield 'a terminal, a short check', short._replace(output=b''), Result(b'', b'all 2 runs were tried: 1 finishes, 1 hangs\n', 1)
        yield 'no terminal, a check', Files(None).run(program, 'check', race)._replace(output=b''), Result(b'', b'', 1)


# What becomes of all runs, or ends, of which the model tells how many they are (model/tried.py).
WHOLE = '..'
UNTRIED = 'not everything was tried'
# What hangs on the order of steps, which one report tries and another doesn't: what a waitany takes, and which sends are buffered.
BY_REQUESTS = 'what a waitany takes may depend on the order of steps (--ends)'
BY_ORDER = 'which sends are buffered may depend on the order of steps (--ends)'
# The second line below a report whose choices are others than those of a report along decisions may be.
ALONG = 'words and picture take the choices of these leaves with --ends'
# A script of examples/, the options of its check, the status, and what a terminal is told below the report.
SUMMED = (
    ('first_message', '', 0, WHOLE),
    ('first_message', '--complete', 0, WHOLE),
    ('head_to_head', '', 1, WHOLE),
    ('trap', '', 1, WHOLE),
    ('one_in_seven', '--complete', 1, WHOLE),
    ('one_in_seven', '--runs 1 --complete', 1, WHOLE),
    ('one_in_seven', '--split 0 --runs 6', 0, f'{UNTRIED}: 6 runs were listed, and there are more (--ends, --runs)'),
    ('one_in_seven', '--split 0 --runs 6 --complete', 4, f'{UNTRIED}: 6 runs were listed, and there are more (--ends, --runs)'),
    ('one_in_seven', '--split 0 --runs 1 --complete', 4, f'{UNTRIED}: 1 run was listed, and there are more (--ends, --runs)'),
    ('one_in_seven', '--fuel 63', 0, f'{UNTRIED}: 1 run was cut (--fuel)'),
    ('one_in_seven', '--fuel 63 --complete', 4, f'{UNTRIED}: 1 run was cut (--fuel)'),
    ('one_in_seven', '--fuel 40 --complete', 4, f'{UNTRIED}: 7 runs were cut (--fuel)'),
    ('one_in_seven', '--split 0 --runs 6 --fuel 40 --complete', 4,
     f'{UNTRIED}: 6 runs were listed, and there are more (--ends, --runs), 6 runs were cut (--fuel)'),
    # up to the first deadlock, behind which there are others or none; where none is listed, it is the runs that leave something out
    ('one_in_seven', '--until deadlock', 1, WHOLE),
    ('two_each', '--until deadlock', 1, f'{UNTRIED}: 1 run was listed, and there are more (--until)'),
    ('two_each', '--until deadlock --ends', 1, f'{UNTRIED}: 1 run was listed, and there are more (--until)'),
    ('one_in_seven', '--split 0 --runs 6 --until deadlock --complete', 4, f'{UNTRIED}: 6 runs were listed, and there are more (--ends, --runs)'),
    # a waitany takes what is complete by then, so a report along decisions tells of its runs alone
    ('waitany', '', 0, f'{UNTRIED}: {BY_REQUESTS}'),
    ('waitany', '--complete', 4, f'{UNTRIED}: {BY_REQUESTS}'),
    ('waitany', '--piece 1', 0, f'{UNTRIED}: {BY_REQUESTS}'),
    ('waitany', '--fuel 21 --complete', 4, f'{UNTRIED}: 2 runs were cut (--fuel), {BY_REQUESTS}'),
    ('waitany', '--split 0 --runs 1 --fuel 21', 0, f'{UNTRIED}: 1 run was listed, and there are more (--ends, --runs), 1 run was cut (--fuel), {BY_REQUESTS}'),
    ('waited_twice', '--until deadlock --complete', 1, f'{UNTRIED}: {BY_REQUESTS}'),
    ('order_decides', '--complete', 4, f'{UNTRIED}: {BY_REQUESTS}'),
    # a report that lists ends tells all of every script
    ('four_races', '--ends', 0, WHOLE),
    ('four_races', '--ends --complete', 0, WHOLE),
    ('four_races', '--ends --split 0 --runs 3', 0, f'{UNTRIED}: 3 runs were listed, and there are more (--runs, --sample)'),
    ('four_races', '--ends --split 0 --runs 3 --complete', 4, f'{UNTRIED}: 3 runs were listed, and there are more (--runs, --sample)'),
    ('one_in_seven', '--ends', 1, WHOLE),
    ('one_in_seven', '--ends --fuel 63 --complete', 4, f'{UNTRIED}: 1 run was cut (--fuel)'),
    ('waitany', '--ends', 0, f'{WHOLE}\n{ALONG}'),
    ('waitany', '--ends --complete', 0, f'{WHOLE}\n{ALONG}'),
    ('waitany', '--ends --group --complete', 0, f'{WHOLE}\n{ALONG}'),
    ('waitany', '--ends --fuel 21 --complete', 4, f'{UNTRIED}: 2 runs were cut (--fuel)\n{ALONG}'),
    ('waitany', '--ends --piece 1', 0, ALONG),
    ('order_decides', '--ends', 1, f'{WHOLE}\n{ALONG}'),
    ('order_decides', '--ends --complete --until deadlock', 1, f'{WHOLE}\n{ALONG}'),
    ('order_decides', '--ends --split 0 --runs 1', 0, f'{UNTRIED}: 1 run was listed, and there are more (--runs, --sample)\n{ALONG}'),
    ('order_decides', '--ends --split 0 --runs 1 --complete', 4, f'{UNTRIED}: 1 run was listed, and there are more (--runs, --sample)\n{ALONG}'),
    ('order_decides', '--ends --split 0 --runs 1 --fuel 13', 0,
     f'{UNTRIED}: 1 run was listed, and there are more (--runs, --sample), 1 run was cut (--fuel)\n{ALONG}'),
    ('order_decides', '--ends --piece 0', 0, ALONG), ('order_decides', '--ends --piece 1', 1, ALONG),
    ('order_decides', '--ends --pieces', 0, ''),
    # so does one of runs that are drawn, where all of them were
    ('one_in_seven', '--sample 500 --complete', 1, WHOLE),
    ('first_message', '--sample 5 --complete', 0, WHOLE),
    ('four_races', '--sample 1', 0, f'{UNTRIED}: 1 run was listed, and there are more (--sample)'),
    ('four_races', '--sample 1 --complete', 4, f'{UNTRIED}: 1 run was listed, and there are more (--sample)'),
    ('waitany', '--sample 60 --complete', 0, f'{WHOLE}\n{ALONG}'),
    ('waitany', '--sample 1', 0, f'{UNTRIED}: 1 run was listed, and there are more (--sample)\n{ALONG}'),
    ('order_decides', '--sample 60 --complete', 1, f'{WHOLE}\n{ALONG}'),
    # a deadlock was found, so the status is not that of a report that isn't whole
    ('race', '--split 0 --runs 1 --complete', 1, f'{UNTRIED}: 1 run was listed, and there are more (--ends, --runs)'),
)

# Of outcomes it is said how many states were come to as well, the choices and the ends: of `one_in_seven` one choice of seven, and their ends;
# of `two_each` and `race`, of whose runs the first hangs, its two choices, or its one, and its end.
SUMMED_OUTCOMES = (
    ('head_to_head', '--outcomes', 1, f'{WHOLE}\n1 state was come to'),
    ('head_to_head', '--outcomes --until deadlock', 1, f'{WHOLE}\n1 state was come to'),
    ('first_message', '--outcomes --until deadlock --complete', 0, f'{WHOLE}\n1 state was come to'),
    ('one_in_seven', '--outcomes', 1, f'{WHOLE}\n8 states were come to'),
    ('one_in_seven', '--outcomes --until deadlock', 1, f'{WHOLE}\n8 states were come to'),
    ('race', '--outcomes --until deadlock --complete', 1, f"{UNTRIED}: there are runs that aren't counted (--until)\n2 states were come to"),
    ('two_each', '--outcomes --until deadlock', 1, f"{UNTRIED}: there are runs that aren't counted (--until)\n3 states were come to"),
    ('two_each', '--outcomes --until deadlock --states 16000000', 1, f"{UNTRIED}: there are runs that aren't counted (--until)\n3 states were come to"),
    ('order_decides', '--outcomes --until deadlock --fuel 1 --complete', 4, f'{UNTRIED}: some runs were cut (--fuel)\n{ALONG}\n1 state was come to'),
)

# In a mode of slots a send is buffered or not by what was matched before it, so again a report along decisions tells of its runs alone.
SUMMED_IN_SLOTS = (
    ('first_message', '--mode slots:1', 0, f'{UNTRIED}: {BY_ORDER}'),
    ('first_message', '--mode slots:0 --complete', 4, f'{UNTRIED}: {BY_ORDER}'),
    ('first_message', '--mode slots:65536 --complete', 4, f'{UNTRIED}: {BY_ORDER}'),
    ('first_message', '--mode slots:1 --fuel 1 --complete', 4, f'{UNTRIED}: 1 run was cut (--fuel), {BY_ORDER}'),
    ('first_message', '--mode slots:1 --piece 0', 0, f'{UNTRIED}: {BY_ORDER}'),
    ('head_to_head', '--mode slots:0', 1, f'{UNTRIED}: {BY_ORDER}'),
    ('head_to_head', '--mode slots:0 --complete', 1, f'{UNTRIED}: {BY_ORDER}'),
    ('trap', '--mode slots:2', 1, f'{UNTRIED}: {BY_ORDER}'),
    ('freed_slot', '--mode slots:2 --complete', 4, f'{UNTRIED}: {BY_ORDER}'),
    ('waitany', '--mode slots:0', 0, f'{UNTRIED}: {BY_REQUESTS}, {BY_ORDER}'),
    ('waitany', '--mode slots:0 --complete', 4, f'{UNTRIED}: {BY_REQUESTS}, {BY_ORDER}'),
    ('first_message', '--mode slots:1 --ends', 0, f'{WHOLE}\n{ALONG}'),
    *(('first_message', f'--mode {mode} --ends --complete', 0, f'{WHOLE}\n{ALONG}') for mode in ('slots:0', 'slots:1', 'slots:65536')),
    ('first_message', '--mode slots:1 --ends --fuel 1 --complete', 4, f'{UNTRIED}: 1 run was cut (--fuel)\n{ALONG}'),
    ('first_message', '--mode slots:1 --ends --piece 0', 0, ALONG), ('first_message', '--mode slots:1 --sample 3 --complete', 0, f'{WHOLE}\n{ALONG}'),
    ('head_to_head', '--mode slots:0 --ends --complete', 1, f'{WHOLE}\n{ALONG}'),
    ('freed_slot', '--mode slots:1 --ends', 1, f'{WHOLE}\n{ALONG}'),
    ('freed_slot', '--mode slots:1 --ends --until deadlock', 1, f'{UNTRIED}: 1 run was listed, and there are more (--until)\n{ALONG}'),
    ('freed_slot', '--mode slots:1 --sample 60 --complete', 1, f'{WHOLE}\n{ALONG}'),
    ('freed_slot', '--mode slots:2 --ends --complete', 0, f'{WHOLE}\n{ALONG}'),
    ('freed_slot', '--ends', 1, WHOLE),
    ('waitany', '--mode slots:0 --ends --complete', 0, f'{WHOLE}\n{ALONG}'),
)

# Of modes that are tried in turn it is said which ones have a deadlock or a trap, as far as the first that has none.
SUMMED_MODES = (
    ('first_message', '--modes 1', 0, 'no deadlock or trap is listed in any of these modes'),
    ('swapped_tags', '--modes 1', 1, 'hangs or traps in each of these modes'),
    ('head_to_head', '--modes 2', 1, 'hangs or traps without a slot'),
    ('freed_slot', '--modes 3', 1, 'hangs or traps with fewer than 2 slots'),
    ('freed_slot', '--modes 1', 1, 'hangs or traps with each number of slots that was tried (--modes)'),
    ('two_receives', '--modes 0', 1, 'hangs or traps in each of these modes'),
    # the report of each of them must be whole, where that is asked for, and no more than that
    ('first_message', '--modes 1 --complete', 0, 'no deadlock or trap is listed in any of these modes'),
    ('four_races', '--modes 0 --split 0 --runs 3', 0, 'no deadlock or trap is listed in any of these modes'),
    ('four_races', '--modes 0 --split 0 --runs 3 --complete', 4, 'no deadlock or trap is listed in any of these modes'),
    ('head_to_head', '--modes 2 --complete', 1, 'hangs or traps without a slot'),
    # by outcomes too
    ('first_message', '--outcomes --modes 1 --complete', 0, 'no deadlock or trap is listed in any of these modes'),
    ('first_message', '--outcomes --modes 1 --fuel 1 --complete', 4, 'no deadlock or trap is listed in any of these modes'),
    ('head_to_head', '--outcomes --modes 2', 1, 'hangs or traps without a slot'),
    ('freed_slot', '--outcomes --modes 3 --until deadlock', 1, 'hangs or traps with fewer than 2 slots'),
    ('freed_slot', '--outcomes --modes 1 --until deadlock --complete', 1, 'hangs or traps with each number of slots that was tried (--modes)'),
    ('two_receives', '--outcomes --modes 0', 1, 'hangs or traps in each of these modes'),
)


def summed_rows(program):
    """At a terminal, and there alone, a line below a report says whether everything was tried, and how the script can end, and a second one that
    its choices are those of the wide walk; with `--complete` a report that isn't whole and has nothing bad has a status of its own."""
    for name, options, status, line in SUMMED + SUMMED_OUTCOMES + (SUMMED_IN_SLOTS + SUMMED_MODES) * bool(KNOWN):
        words = ('check', os.path.join(EXAMPLES, f'{name}.mpd'), *options.split())
        result = at_terminal(program, *words)
        line = line.replace(WHOLE, tried(open_example(f'{name}.mpd'), words)) if line.startswith(WHOLE) else line
        yield f'a terminal, check {name} {options}', (result.errors, result.status), (line.encode() + b'\n' * bool(line), status)
        quiet = Files(None).run(program, *words)
        yield f'no terminal, check {name} {options}', quiet, Result(result.output, b'', status)


# Nine messages to one rank, which come in 362,880 orders, each of which is an end of its own; the same of eight, with 40,320 orders.
MANY_ENDS = b'mpd 1; ranks 10; var x;\nif rank == 0 {' + b' recv x from any tag 0;' * 9 + b' } else { send 1 to 0 tag 0; }\n'
LESS_ENDS = b'mpd 1; ranks 9; var x;\nif rank == 0 {' + b' recv x from any tag 0;' * 8 + b' } else { send 1 to 0 tag 0; }\n'
# Options whose numbers are at their most, and what is told then of runs that are left: how many are listed, and which options try more.
AT_MOST = (
    (MANY_ENDS, '--split 0 --runs 65536', rb'65536', '--ends'), (MANY_ENDS, '--split 0 --runs 65535', rb'65535', '--ends, --runs'),
    (MANY_ENDS, '--split 0 --runs 65536 --ends', rb'65536', '--sample'), (MANY_ENDS, '--split 0 --runs 65535 --ends', rb'65535', '--runs, --sample'),
    (LESS_ENDS, '--sample 65536', rb'[23][0-9]{4}', '--ends'), (LESS_ENDS, '--sample 65535', rb'[23][0-9]{4}', '--sample'))


def most_rows(program):
    """At a terminal an option that can't have a greater number isn't named as one that tries more."""
    with tempfile.TemporaryDirectory() as folder:
        for script, options, count, more in AT_MOST:
            result = at_terminal(program, 'check', held(folder, 'many.mpd', script), *options.split(), '--complete')
            told = b'not everything was tried: %b runs were listed, and there are more %b\n' % (count, re.escape(f'({more})').encode())
            # (progress may be told before it)
            line = result.errors.rpartition(b'\x1b[K')[2]
            yield f'a terminal, {options} of so many ends', (bool(re.fullmatch(told, line)) or line, result.status), (True, 4)


# Two ranks that send before they receive, a witness of that, and a mode; and what a terminal is told below the verdict.
HINTED = ((None, b'accepted', b'', 0), ('buffered', b'refused 33 not-stuck', b'  accepted in mode rendezvous (--mode)', 1), ('slots:0', b'accepted', b'', 0),
          ('slots:1', b'refused 33 not-stuck', b'  accepted in mode rendezvous (--mode)', 1))


def hint_rows(program):
    """At a terminal, and there alone, a line below a verdict says in which other mode the witness is one."""
    script = os.path.join(EXAMPLES, 'head_to_head.mpd')
    with tempfile.TemporaryDirectory() as folder:
        for text in (b'deadlock 0.0 1.0\nlocal 0, local 1\n', b'leaf 0 [] deadlock 0.0 1.0\nwitness 0: local 0, local 1\nleaves 1 more no\n'):
            witness = held(folder, 'witness.txt', text)
            for mode, verdict, hint, status in HINTED:
                words = ('verify', script, witness, *(() if mode is None else ('--mode', mode)))
                told = Result(verdict + b'\n', hint + b'\n' if hint else b'', status)
                yield f'a terminal, {words[3:]} of {text[:20]}', at_terminal(program, *words), told
                yield f'no terminal, {words[3:]} of {text[:20]}', Files(None).run(program, *words), told._replace(errors=b'')


def deepest(block, opening, closing, cost):
    """A script of blocks as deep as allowed, with expressions as deep as allowed inside, and the words to its end."""
    most, fewer = MOST_OPERATORS // cost, (MOST_OPERATORS - 1) // cost
    value, index = opening * most + '0' + closing * most, opening * fewer + '0' + closing * fewer
    inside = (block + ' ') * MOST_OPEN_BLOCKS + f'print {value}; a[{index} * 0] = {value}; x = 1; '
    text = f'mpd 1;\nranks 1;\nvar x;\nvar a[1];\n{inside}{"}" * MOST_OPEN_BLOCKS}\n---\n'
    return (text + 'local 0\n' * 70 + 'show\n' + 'back\n' * 69 + 'show\n').encode()


def stack_rows(program):
    """The deepest scripts, on a stack of so many KiB."""
    forms = {'(': (')', 1), '!': ('', 1), '-': ('', 1), 'a[': (']', 1), '(1 + ': (')', 2), '!(': (')', 2), '1 * (': (')', 2),
             '0 || (': (')', 2), '1 && (': (')', 2), '(-a[': ('])', 3)}
    for block in ('if 1 {', 'while !x {', 'if 0 { } else {'):
        for opening, (closing, cost) in forms.items():
            data = deepest(block, opening, closing, cost)
            with soft_limit(resource.RLIMIT_STACK, STACK_KIB << 10):
                result = Files(file_of(data)).run(program)
            yield f'{block} {opening} on {STACK_KIB} KiB', result, answer(data)
    data = nested(MOST_OPEN_BLOCKS, MOST_OPERATORS).encode() + b'\n---\n' + b'local 0\n' * 100 + b'show\n'
    with soft_limit(resource.RLIMIT_STACK, STACK_KIB << 10):
        result = Files(file_of(data)).run(program)
    yield f'100 steps of the innermost of as many loops on {STACK_KIB} KiB', result, answer(data)


def much_rows(program):
    """Answers of many times the memory that the program may take: they are written before too many are gathered."""
    ranks, cells = 4, 1023
    text = (f'mpd 1; ranks {ranks}; var i; var a[{cells}];\n'
            f'while i < {cells} {{ a[i] = -1234567890123456789; i = i + 1; }}\n---\n')
    steps = ''.join(f'local {rank}\n' * (3 * cells + 1) for rank in range(ranks))
    front, shows = (text + steps).encode(), 900
    first = answer(front).output
    shown = answer(front + b'show\n').output[len(first):]
    data = front + b'show\n' * shows + b'back\n'
    wanted = Result(first + shown * shows + b'ok %d\n' % (steps.count('\n') - 1), b'', 0)
    # a limit that this process itself could not keep
    result = Files(file_of(data)).run('sh', '-c', f'ulimit -v {MUCH_MIB << 10}; exec "$0"', program)
    yield f'much to show with {MUCH_MIB} MiB', result, wanted


ROWS = (ended_rows, example_rows, refused_rows, device_rows, usage_rows, trace_rows, terminal_rows, found_rows, hinted_rows, page_rows, why_rows, progress_rows, summed_rows, most_rows,
        hint_rows, interrupted_rows, talk_rows, stack_rows, much_rows, full_rows, turns_rows, lesson_rows, *WORKED_ROWS, *PART_ROWS, *SESSION_ROWS,
        *CONSOLE_ROWS, *DEVICE_ROWS, *CONNECTION_ROWS)


def main():
    if sys.argv[2:] not in ([], ['--two-modes'], ['--version', '1']) or len(sys.argv) < 2:
        sys.exit(__doc__)
    if sys.argv[2:] == ['--version', '1']:
        read_up_to(1)
    know_modes(not sys.argv[2:])
    program = os.path.abspath(sys.argv[1])
    count, wrong = driving.count_wrong_of(ROWS, lambda rows: rows(program), lambda result, wanted: f'{shortened(result)}, wanted {shortened(wanted)}')
    print(f'{count} runs, {wrong} wrong')
    return 1 if wrong else 0


def shortened(result):
    if not isinstance(result, Result):
        return result
    return Result(result.output[-200:], result.errors[-200:], result.status)


if __name__ == '__main__':
    sys.exit(main())
