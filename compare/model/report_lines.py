"""What a report says, read from its lines: its leaves with their witnesses, and whether there are more."""

import re
from typing import NamedTuple, Optional

from model.debugger import step_of

LEAF = re.compile(rb'leaf ([0-9]+) \[((?:[0-9]+(?: [0-9]+)*)?)\] ([^\n]+)\n')
WITNESS = re.compile(rb'witness ([0-9]+): ([^\n]+)\n')
LAST = re.compile(rb'leaves ([0-9]+) more (yes|no)\n')


class Line(NamedTuple):
    """A leaf of a report: its choices, its outcome, and the steps of its witness, which are None where it has none."""
    choices: tuple
    outcome: str
    steps: Optional[tuple] = None


class Told(NamedTuple):
    """What a report says."""
    leaves: tuple
    more: bool


class NoReport(Exception):
    """A text that isn't the report that it should be."""


def must_be(is_so, why):
    if not is_so:
        raise NoReport(why)


def choices_of(text):
    return tuple(int(word) for word in text.split())


def read_report(text):
    """What a report says; raises why it is none."""
    *lines, last = text.splitlines(keepends=True) or [b'']
    leaves = []
    for line in lines:
        if (told := LEAF.fullmatch(line)) is not None:
            must_be(int(told[1]) == len(leaves), f'leaf {len(leaves)} has another number: {line!r}')
            leaves.append(Line(choices_of(told[2]), told[3].decode()))
            continue
        told = WITNESS.fullmatch(line)
        must_be(told is not None, f'a line that is none of a report: {line[:80]!r}')
        must_be(int(told[1]) == len(leaves) - 1 and leaves[-1].steps is None, f'a witness of another leaf: {line[:80]!r}')
        leaves[-1] = leaves[-1]._replace(steps=tuple(step_of(step.split()) for step in told[2].split(b', ')))
    ended = LAST.fullmatch(last)
    must_be(ended is not None, f'the last line is {last!r}')
    must_be(int(ended[1]) == len(leaves), f'the last line counts {ended[1].decode()} leaves of {len(leaves)}')
    return Told(tuple(leaves), ended[2] == b'yes')
