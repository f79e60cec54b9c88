"""Rows of compare/runs/refused_calls.py, what must be told of each, and the texts of states that models of several calls have."""

import sys
from typing import NamedTuple, Optional

from model import policy
from model.debugger import RENDEZVOUS, CallId, Debugger, show, step_of, step_text
from model.language import read_script


def steps_in(words):
    """Steps with a comma and a blank between two."""
    return tuple(step_of(step.encode().split()) for step in words.split(', '))


class Row(NamedTuple):
    """A call, and what it is given: a script, lines that lead to where it is made (steps, words or requests), and an argument.

    `by_hand` is what it answers where the model doesn't say it. Where `spares` is so the call takes no memory here; where `steady` is so
    it may take some, and answers the same without. At most `most` of its requests are refused, spread over all; none where that is 0.
    `what` is said of it in place of what it is given, where that is long. Where `is_deep` is so it has a small stack.
    """
    call: str
    script: str = ''
    lines: tuple = ()
    argument: str = ''
    mode: str = RENDEZVOUS
    by_hand: Optional[object] = None
    spares: bool = False
    steady: bool = False
    most: int = sys.maxsize
    what: str = ''
    is_deep: bool = False

    @property
    def name(self):
        if self.what:
            return f'{self.call} {self.what}'
        behind = f'behind {len(self.lines)} lines, {self.lines[-1]},' if self.lines else ''
        script = f"on '{' '.join(self.script.split())[7:60]}'" if self.script else ''
        return ' '.join(f'{self.call} {self.argument[:60]} {behind} {script}'.split())

    @property
    def words(self):
        return [self.call, self.mode, self.script, '\n'.join(self.lines), self.argument]

    def read(self):
        return read_script(self.script.encode())

    def step(self):
        return step_of(self.argument.encode().split())

    def numbers(self):
        """The numbers among the words of the argument."""
        return [int(word) for word in self.argument.split() if word.isdigit()]

    def has(self, word):
        return word in self.argument.split()

    def asleep(self):
        """The steps behind the word `asleep`, the last word of the argument that is none of a step."""
        _, _, words = self.argument.partition('asleep ')
        return steps_in(words) if words else ()

    def call_id(self):
        return CallId(*map(int, self.argument.split('.')))


class Wanted(NamedTuple):
    """What must be told of a call: the state before it, the answer, the state behind it, and what is told at the end, if anything is."""
    before: str
    answer: str
    behind: str
    end: Optional[str] = None


def line(text):
    return f'{text}\n'


def no_state(answer, end=None):
    return Wanted('', answer, '', end)


def unchanged(state, answer):
    return Wanted(state, answer, state)


def by_hand(row):
    return row.by_hand


def numbered(word, numbers):
    return line(' '.join([word, *map(str, numbers)]))


def walked(row):
    """The model's debugger behind the words of the lines."""
    found = Debugger(row.read(), row.mode)
    for words in row.lines:
        found.answer(words.encode())
    return found


def world_of(row):
    """The world behind the steps of the lines."""
    return walked(row).world


def steps_line(word, steps):
    return line(f'{word} {", ".join(map(step_text, steps))}'.rstrip())


def decided_text(decided):
    if isinstance(decided, policy.Forced):
        return line(f'forced {step_text(decided.step)}')
    if isinstance(decided, policy.Choice):
        return steps_line('choice', decided.steps)
    return line(f'leaf {decided.outcome}')


def trail_text(walked_to):
    return line(show(walked_to.world, walked_to.depth, len(walked_to.steps))) + steps_line('steps', walked_to.steps)
