"""What a check with `--outcomes` says, read from its lines: each outcome with how many runs end so and the first of them, whether there are more,
and at which step a deadlock or a trap was decided."""

import re
from typing import NamedTuple

from model.outcomes import MOST_COUNTED, count_text
from model.report_lines import choices_of, must_be
from model.states import Way

OUTCOME = re.compile(rb'outcome ([0-9]+) runs ((?:at least )?)([0-9]+) first \[((?:[0-9]+(?: [0-9]+)*)?)\] ([^\n]+)\n')
LAST = re.compile(rb'outcomes ([0-9]+) runs ((?:at least )?[0-9]+) more (yes|no)\n')


class Read(NamedTuple):
    """What is told of each outcome, in order, and whether there are more runs."""
    outcomes: tuple
    more: bool


class ReadOutcome(NamedTuple):
    """An outcome as it is told. Those of different statements may be told alike."""
    told: str
    way: Way


def read_outcomes(text):
    """What is told; raises why it is none. What is counted `at least` is read as one run more than are counted."""
    *lines, last = text.splitlines(keepends=True) or [b'']
    read = []
    for line in lines:
        told = OUTCOME.fullmatch(line)
        must_be(told is not None, f'a line that is none of an outcome: {line[:80]!r}')
        must_be(int(told[1]) == len(read), f'outcome {len(read)} has another number: {line[:80]!r}')
        must_be(int(told[3]) >= 1 and (not told[2] or int(told[3]) == MOST_COUNTED), f'so many runs: {line[:80]!r}')
        read.append(ReadOutcome(told[5].decode(), Way(int(told[3]) + bool(told[2]), choices_of(told[4]))))
    ended = LAST.fullmatch(last)
    must_be(ended is not None, f'the last line is {last!r}')
    runs = sum(it.way.runs for it in read)
    must_be((int(ended[1]), ended[2].decode()) == (len(read), count_text(runs)), f'the last line counts otherwise: {last!r}')
    return Read(tuple(read), ended[3] == b'yes')


def read_decided(text):
    """The lines of a text that explain nothing, and what is told of the step that decided an end, by the number of its outcome."""
    plain, decided, number = [], {}, None
    for line in text.splitlines(keepends=True):
        if line.startswith(b'  '):
            if line.startswith(b'  decided '):
                decided[number] = line.decode().strip()
            continue
        plain.append(line)
        told = OUTCOME.fullmatch(line)
        number = int(told[1]) if told else number
    return b''.join(plain), decided
