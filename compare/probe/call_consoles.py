"""Rows of compare/runs/refused_calls.py that open consoles and have words answered, and what must be told of each: by the model.

Each word is said behind those that lead to where it matters, so that each of its requests for memory is refused; a word that may change
something has another one behind it, which shows whether it did.
"""

from model import console
from model.debugger import BUFFERED, RENDEZVOUS, Debugger, enabled_steps, outcome, step_of
from model.session import Session, answer_line
from model.walks import CUT, Leaf
from model.witness import read_witness
from probe.call_given import Row, no_state
from probe.call_scripts import ALL_HANG, BOTH_CAME, BOTH_SEND, CHOICE, ENDED, HELD, ISSUED, MESSAGE, RACE, STUCK, TRAPS, TWO_LINES, WHICHEVER
from rows import console_memory

# Both have sent, with buffers, and both messages are free.
BOTH_SENT = ('local 0', 'wake 0', 'local 0', 'local 1', 'wake 1', 'local 1')
NOT_STUCK = TWO_LINES.replace(', wake 2\n', '\n')
# Calls that answer words one by one.
TALKS = ('run_console', 'run_console, UntilWish')
TO_CHOICE = ('run',)
TO_HANG = ('run', 'next 2', 'run')
# Words, each behind the words that lead to where it is said.
WORDS = (
    (RACE, (), ('next', 'next 3', 'run', 'run 3', 'until 7', 'until 2', 'until 0', 'until rank 0', 'until rank 9', 'back rank 0', 'back rank 9', 'finish', 'finish 0', 'follow 2', 'follow 9', 'trap', 'undo-choice', 'why', 'local 1', 'local 9', 'break 2', 'break match 2',
                'break change 0 x', 'watch x 0', 'deadlock', 'check', 'help', 'help all', 'help choice', 'help next', 'list', 'list 0', 'ranks',
                'vars', 'print x', 'print x + 1', 'print x / rank 1', 'print x +', 'print x + 1 9', 'enabled', 'calls', 'queues', 'info breakpoints', 'restart',
                'history', 'breaks', 'show', 'brake', 'print z', 'next x',
                'break change 0 z', 'goto 1', 'back', 'redo', 'redo all', 'run-back', 'delete 0', 'why 0', 'words')),
    (RACE, TO_CHOICE, ('next', 'next 2', 'next 9', 'run', 'until 7', 'finish 0', 'match 2.0 0.0', 'check', 'deadlock', 'why 0', 'why 1.0', 'ranks', 'list', 'list 0', 'calls',
                       'calls 0', 'queues', 'enabled', 'history', 'history 2', 'words', 'show', 'run-back', 'back 2', 'goto 1', 'why', 'follow 1')),
    (RACE, (*TO_HANG, 'goto 7'), ('finish 0', 'finish', 'until 9', 'until rank 0', 'back rank 0', 'match 2.0 0.0', 'redo', 'redo 2', 'redo all', 'run', 'deadlock', 'next', 'wake 2', 'break 2', 'break 9')),
    (RACE, ('break 2', 'break change 0 x', *TO_CHOICE), ('breaks', 'delete 1', 'delete 7', 'run-back', 'next 1\nrun')),
    (RACE, TO_HANG, ('next', 'run', 'undo-choice', 'trap', 'follow 1', 'why', 'why 0', 'why 1', 'check', 'deadlock', 'back', 'enabled', 'list 2')),
    (TRAPS, (), ('run', 'trap', 'deadlock')), (TRAPS, TO_CHOICE, ('next', 'ranks', 'list', 'list 0')),
    (ALL_HANG, (), ('run',)), (ALL_HANG, TO_CHOICE, ('why 0', 'why 1', 'why 2', 'ranks', 'print r', 'vars 0')),
    (HELD, ISSUED, ('why 0.0', 'why 0.1', 'print r', 'print r[1] 0', 'print y 0', 'vars 1', 'queues')),
    (WHICHEVER, BOTH_CAME, ('next', 'next 2', 'wakeany 0 1', 'why 0', 'enabled')),
    (MESSAGE, ('run 7',), ('run', 'wake 1', 'vars', 'print x 1', 'history', 'goto 0')))


def consoles():
    for argument in ('', 'prompts'):
        yield Row('mpd_console::open', RACE, argument=argument)
    yield Row('open_with', RACE, argument=TWO_LINES)
    yield Row('open_with', RACE, argument=NOT_STUCK)
    # a deadlock, an end, a trap, runs that are cut, no step, and steps of which one isn't enabled
    for script, steps, mode in ((RACE, STUCK, RENDEZVOUS), (MESSAGE, ENDED, RENDEZVOUS), (TRAPS, ('local 0', 'local 1'), RENDEZVOUS),
                                (BOTH_SEND, BOTH_SENT, BUFFERED), (RACE, CHOICE, RENDEZVOUS), (RACE, (), RENDEZVOUS),
                                (MESSAGE, (*ENDED, 'wake 0'), RENDEZVOUS), (MESSAGE, ('wake 0', *ENDED), RENDEZVOUS)):
        yield Row('open_along', script, argument='\n'.join(steps), mode=mode)
    yield Row('ConsoleDesk::new', RACE, ('{"cmd":"run","max":100}',), spares=True)
    for script, lines, words in WORDS:
        for word in words:
            yield Row('run_console', script, lines, f'{word}\n{looks_behind(word)}')
    yield Row('run_console', BOTH_SEND, (), 'run\nvars\nhistory\nshow\n', mode=BUFFERED)
    # an empty line does the last word again; a comment, and a line that is too long, are nothing to it
    yield Row('run_console', MESSAGE, ('next',), '\n# so\n\nshow\n')
    yield Row('run_console, UntilWish', MESSAGE, (), 'next\n q \nnext\n')
    yield Row('run_console, UntilWish', RACE, CHOICE, 'deadlock\nshow\nranks\nquit')


def looks_behind(word):
    """The word that is said behind another which may change something, and shows whether it did."""
    look = console_memory.CHANGING.get(word.split()[0])
    return '' if look is None else f'{look.decode()}\n'


def talked_to(row):
    """The model's console behind the words of the lines."""
    talked = console.Console(row.script.encode(), row.mode)
    for line in row.lines:
        talked.answer(line.encode())
    return talked


def opened(row):
    """A console, which shows its state behind what it says first."""
    talked = talked_to(row)
    prompt = talked.prompt() if row.argument == 'prompts' else ''
    return no_state(f'{prompt}{talked.answer(b"show")}{prompt}\n')


def opened_with(row):
    witness = read_witness(row.argument.encode())
    refused = console.explorer.verify(row.read(), row.mode, *witness)
    if refused is not None:
        return no_state(f'refused {refused.number}\n')
    talked = console.Console(row.script.encode(), row.mode, console.leaf_of(witness))
    return no_state(f'{talked.first}{talked.answer(b"show")}\n')


def opened_along(row):
    """Steps that lie ahead, where each is enabled; else the first that isn't."""
    walked, steps = Debugger(row.read(), row.mode), [step_of(words.encode().split()) for words in row.argument.splitlines()]
    for place, step in enumerate(steps):
        if not walked.take(step).startswith('ok'):
            return no_state(f'not enabled at {place}\n')
    ended = CUT if enabled_steps(walked.world) else outcome(walked.world)
    talked = console.Console(row.script.encode(), row.mode, Leaf((), tuple(steps), ended))
    return no_state(f'{talked.first}{talked.answer(b"show")}\n')


def made(row):
    """A console over a session that requests have led somewhere."""
    talked = console.Console(row.script.encode(), row.mode)
    talked.session = Session(row.read(), row.mode)
    for request in row.lines:
        answer_line(talked.session, request.encode())
    return no_state(talked.answer(b'show'))


def talked(row):
    return no_state('ended\n', console.answers(talked_to(row), row.argument.encode()).decode())


CONSOLES = {'mpd_console::open': opened, 'open_with': opened_with, 'open_along': opened_along, 'ConsoleDesk::new': made, 'run_console': talked, 'run_console, UntilWish': talked}


def problem(row, said, refused):
    """What is wrong with what was answered while memory was refused so often; None where nothing is."""
    return console_memory.problem_of_answers(talked_to(row), row.argument.encode(), said, refused)
