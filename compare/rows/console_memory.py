"""Dialogues of `debug` in which memory is refused; compare/runs/refused_memory.py refuses each of their allocations in turn.

A dialogue may end with `mpdbg: memory`, status 3, before it has read a line; of a witness that lies ahead it may have been told by then. Behind
that a line may be answered by one of two constant lines: `refused: memory`, and then all goes on as if it had done nothing, or, where its word
may change something, `done, but memory for the answer was refused`, and then as if it had been answered. Which of the two it was is seen by
what stands behind each such word. What was understood is done once more by an empty line in both cases. A line that is too long, and a comment,
take no memory at all. Of `blame` what decided may be told before either of the two lines.
"""

from typing import NamedTuple, Optional

from model.console import NamedRun, begun, is_blank, is_comment, text_of
from model.console_lines import all_folded
from model.console_words import NotAsked, STEPS, to_repeat
from model.debugger import BUFFERED, LONGEST_LINE, RENDEZVOUS, lines_of
from rows.session_memory import HEAD_TO_HEAD, SCRIPT

REFUSED, UNPRINTED = b'refused: memory\n', b'done, but memory for the answer was refused\n'
# Words that may change something, and what is looked at behind each.
CHANGING = {**dict.fromkeys(('next', 'run', 'until', 'finish', 'back', 'run-back', 'undo-choice', 'goto', 'redo', 'follow', 'deadlock', 'trap', 'blame', *STEPS), b'show'),
            **dict.fromkeys(('break', 'delete'), b'breaks')}


class Typed(NamedTuple):
    """A dialogue: its script, the mode, its lines, and the text of a witness, or a run that is named by its choices, or None."""
    name: str
    script: bytes
    mode: str
    lines: tuple
    witness: Optional[bytes] = None
    run: Optional[NamedRun] = None

    @property
    def data(self):
        return b''.join(line + b'\n' for line in self.lines)

    def begun(self):
        """The console of the model."""
        return begun(self.script, self.mode, self.witness, self.run)


def word_in(talked, line):
    """The word that a line asks for there; None where it asks for none."""
    try:
        asked = talked.asked(line)
    except NotAsked:
        return None
    return asked and asked.word


def with_looks(script, mode, text, witness=None, run=None):
    """The lines of a text, with a look behind each that may change something."""
    talked = begun(script, mode, witness, run)
    for line in text.encode().strip(b'\n').split(b'\n'):
        look = CHANGING.get(word_in(talked, line))
        for typed in (line,) if look is None else (line, look):
            talked.answer(typed)
            yield typed


RUNS = '''
break 17
break match 9
break change 0 a[1]
run
run
list
list 0
print x
print a 0
print x / rank + a[0]
print x + 1 0
print x +
print r + 1
print r
vars
ranks
calls
calls 0
queues
why 0
why 1.0
why 0.0
why
enabled
check
check 1
next
next 9
follow 1
follow 9
next
back
next 1
run 2
run
run-back
redo
undo-choice
trap
history
history 2
picture
words
back 2
redo 2
deadlock
delete 1
delete 1
run
goto 0
redo 100
goto 3
redo all
redo all
back rank 1
until rank 1
until rank 9
back rank 9
break 1
break match 65537
'''
LINES = '''
# nothing
local 0
local 0
local 9
brake
zap
help
help all
help choice
help next
watch a 0
info ranks
restart
help zap
print y
print a[2]
break change 0 y
break change 0 a
next 1 2
back 9
goto 1
wake 0
breaks
why 9
'''
DEADLOCK = '''
deadlock
blame
run
run
run
blame
redo all
why
why 0
why 2
print x
enabled
queues
calls
undo-choice
undo-choice
trap
follow 2
deadlock
goto 3
history
next 2
run 1
goto 6
next
bt
why
why 1
redo 9
'''
# One message is taken by a receive of any source, and the other one by nobody.
RACE = (b'mpd 1; ranks 3; var x;\nif rank == 0 { recv x from any tag any; recv x from 1 tag any; }\nelse { send rank to 0 tag 0; }\n')
WITNESS = (b'deadlock 0.1 2.0\nlocal 0, local 0, local 1, local 1, local 2, local 2, match 1.0 0.0, wake 0, local 0, wake 1\n')


def dialogues():
    """All of them."""
    yield Typed('a dialogue of runs', SCRIPT, RENDEZVOUS, tuple(with_looks(SCRIPT, RENDEZVOUS, RUNS)))
    lines = [typed for line in with_looks(SCRIPT, RENDEZVOUS, LINES) for typed in (line, b'')]
    yield Typed('a dialogue of lines, each done twice', SCRIPT, RENDEZVOUS, (*lines, b'x' * (LONGEST_LINE + 1), b'ranks', b'quit', b'next'))
    yield Typed('a dialogue to a deadlock', RACE, RENDEZVOUS, tuple(with_looks(RACE, RENDEZVOUS, DEADLOCK)))
    yield Typed('a dialogue with a witness ahead', RACE, RENDEZVOUS, tuple(with_looks(RACE, RENDEZVOUS, DEADLOCK, WITNESS)), WITNESS)
    run = NamedRun('0', ends=True)
    yield Typed('a dialogue with a run ahead', RACE, RENDEZVOUS, tuple(with_looks(RACE, RENDEZVOUS, DEADLOCK, run=run)), run=run)
    words = 'run 3\nwhy 0\ncalls\nrun\ndeadlock'
    yield Typed('a dialogue of sends with buffers', HEAD_TO_HEAD, BUFFERED, tuple(with_looks(HEAD_TO_HEAD, BUFFERED, words)))


def takes_memory(line):
    """Whether memory may be refused for a line: not where it isn't read."""
    return len(line) <= LONGEST_LINE and not is_comment(line)


def remember(talked, line):
    """Has the console understand a line, and do nothing."""
    try:
        asked = talked.asked(line)
        talked.last = talked.last if asked is None else to_repeat(asked)
    except NotAsked:
        pass


def is_silent(talked, line):
    """Whether a line looks, and is answered by nothing, which takes no memory: `words` where no step is taken."""
    return takes_memory(line) and word_in(talked, line) == 'words' and not talked.answer(line)


def told_before(talked, line):
    """What may stand before one of the two constant lines: of `blame` what decided and how to go another way, where it goes there."""
    if not takes_memory(line) or word_in(talked, line) != 'blame':
        return b''
    lines, depth = talked.decided_at()
    return b'' if depth is None else text_of(all_folded(lines)).encode()


def answer_len(talked, line, said):
    """How many bytes of what is said behind it answer a line; None where they don't. The model goes on as they tell."""
    if is_silent(talked, line):
        return 0
    before = told_before(talked, line)
    if before and said.startswith((before + REFUSED, before + UNPRINTED)):
        return len(before) + answer_len(talked, line, said[len(before):])
    if said.startswith(REFUSED) and takes_memory(line) and not (is_blank(line) and talked.last is None):
        remember(talked, line)
        return len(REFUSED)
    if said.startswith(UNPRINTED) and takes_memory(line) and word_in(talked, line) in CHANGING:
        talked.answer(line)
        return len(UNPRINTED)
    wanted = talked.answer(line).encode()
    return len(wanted) if said.startswith(wanted) else None


def problem_of_answers(talked, data, said, refused):
    """What is wrong with what a console has answered to an input while memory was refused so often; None where nothing is."""
    place = 0
    for line in lines_of(data):
        if talked.is_over:
            break
        length = answer_len(talked, line, said[place:])
        if length is None:
            return f'{line[:80]} was answered {said[place:place + 120]}'
        place += length
    if sum(said.count(text) for text in (REFUSED, UNPRINTED)) > refused:
        return f'more lines of memory than the {refused} times that it was refused'
    return None if place == len(said) else 'answers behind the last'


def problem(typed, result, refused):
    """What is wrong with a dialogue in which memory was refused so often; None where nothing is."""
    talked = typed.begun()
    first = talked.first.encode()
    if result.status == 3 and result.errors == b'mpdbg: memory\n':
        return None if result.output in (b'', first) else f'ended behind {result.output[-80:]}'
    if result.status != 0 or result.errors:
        return f'status {result.status}, {result.errors}'
    if not result.output.startswith(first):
        return f'{result.output[:120]} was told first, and not {first}'
    return problem_of_answers(talked, typed.data, result.output[len(first):], refused)


def kind_of(result):
    """How a dialogue went on in which memory was refused."""
    if result.status == 3:
        return 'ended behind what is told first' if result.output else 'ended'
    told = [name for name, text in (('memory', REFUSED), ('unprinted', UNPRINTED)) if text in result.output]
    return ' and '.join(told) or 'not seen'
