"""Witnesses as texts, in the model: what stands in one, or in a whole report, and what `verify` answers.

compare/rows/worked_explorer.py and compare/rows/worked_ends.py have rows of it, and compare/runs/explore.py and
compare/runs/reread.py compare a program with it.
"""

import argparse
import re
from typing import NamedTuple, Optional

from model import explorer
from model.debugger import BAD_FILE, BAD_MODE, RENDEZVOUS, Result, call_id_of, refusal, step_of
from model.explorer import NO_SUCH_STEP, NOT_STUCK, WRONG_BLOCKED, Witness
from model.files import held
from model.language import Fault, read_script
from model.modes import is_mode

REFUSAL_NAMES = {NO_SUCH_STEP: 'no-such-step', NOT_STUCK: 'not-stuck', WRONG_BLOCKED: 'wrong-blocked'}
ACCEPTED = Result(b'accepted\n', b'', 0)
# What is said of a report that has no such witness, up to what is wrong with it.
BAD_REPORT = b'mpdbg: bad witness\n'

LONGEST = 33554432
CALL = rb'[0-9]{1,9}\.[0-9]{1,9}'
# A step as a trace word, with any blanks that may stand there.
STEP = rb'[ \t]*(?:(?:local|wake)[ \t]+[0-9]{1,9}|wakeany[ \t]+[0-9]{1,9}[ \t]+[0-9]{1,9}|match[ \t]+%b[ \t]+%b|release)[ \t]*' % (CALL, CALL)
# Words with a space behind each, none of which is `deadlock`; this word; the calls, each behind a space.
FIRST_LINE = re.compile(rb'(?:(?!deadlock )[^ ]* )*deadlock((?: %b)+)' % CALL)
# The same of a trap, where no word is `deadlock`: ranks, each with its trap.
TRAP = rb'[0-9]{1,9} (?:overflow|zero-divisor|bad-rank|bad-tag|bad-index|assert)'
TRAP_LINE = re.compile(rb'(?:(?!trap )[^ ]* )*trap((?: %b)+)' % TRAP)
# All up to the first colon, or nothing; the steps, with a comma between two.
SECOND_LINE = re.compile(rb'(?:[^:]*:)?(%b(?:,%b)*)' % (STEP, STEP))
# Empty lines alone.
REST = re.compile(rb'(?:\r?\n)*\r?')
# The lines of a report: a leaf, or the first of those that end in one way; a witness, what is passed over, and the last one.
LEAF_LINE = re.compile(rb'(?:leaf (?=[0-9]{1,9} \[[0-9 ]*\] )|end [0-9]{1,9} leaves [0-9]{1,9} first )([0-9]{1,9}) .+')
WITNESS_LINE = re.compile(rb'witness ([0-9]{1,9}): .*')
PASSED_LINE = re.compile(rb'  .*')
LAST_LINE = re.compile(rb'leaves [0-9]+ more (?:yes|no)')


class BadWitness(Exception):
    """A text that is no witness: the number of the line that it isn't by, or None where a report has none, or several, or is none."""

    def __init__(self, line):
        super().__init__(line)
        self.line = line


def lines_of(text):
    """The first line of a text and the second, each without its end (empty where it isn't there), and all that stands behind them."""
    first, _, behind = text.partition(b'\n')
    second, _, rest = behind.partition(b'\n')
    return first.removesuffix(b'\r'), second.removesuffix(b'\r'), rest


def end_of(line):
    """What a line says that the steps lead to: the calls that are blocked, or the ranks that trap, and the word of that; None where it says
    neither."""
    if b'deadlock' not in line.split(b' '):
        ranks = TRAP_LINE.fullmatch(line)
        return ranks and (tuple(f'{int(rank)} {name.decode()}' for rank, name in map(bytes.split, re.findall(TRAP, ranks[1]))), 'trap')
    calls = FIRST_LINE.fullmatch(line)
    return calls and (tuple(map(call_id_of, re.findall(CALL, calls[1]))), 'deadlock')


def witness_by(first, second):
    """The witness that two lines tell; raises which of them is wrong where they tell none."""
    end = end_of(first)
    if end is None:
        raise BadWitness(1)
    steps = SECOND_LINE.fullmatch(second)
    if steps is None:
        raise BadWitness(2)
    return Witness(tuple(step_of(step.split()) for step in re.findall(STEP, steps[1])), *end)


def read_witness(text):
    """The witness that a text of two lines tells; raises which line is wrong where it tells none."""
    if len(text) > LONGEST:
        raise BadWitness(2)
    first, second, rest = lines_of(text)
    found = witness_by(first, second)
    if not REST.fullmatch(rest):
        raise BadWitness(2)
    return found


# ---- whole reports

def report_lines(text):
    """The lines of a text, each without its end."""
    return [line.removesuffix(b'\r') for line in text.split(b'\n')]


def is_passed_over(line):
    """Whether a line of a report is none of a witness: an empty one, one of an explanation, or the last."""
    return not line or any(form.fullmatch(line) for form in (PASSED_LINE, LAST_LINE))


def is_witnessed(line, behind):
    """Whether a line is that of a deadlock or a trap, and the line behind it that of its witness."""
    leaf, found = LEAF_LINE.fullmatch(line), WITNESS_LINE.fullmatch(behind)
    return leaf is not None and found is not None and int(leaf[1]) == int(found[1]) and end_of(line) is not None


def witnesses_in(lines):
    """The lines of the witnesses of a report, two of each, by the numbers of their leaves; each must stand right behind its leaf."""
    found = {int(LEAF_LINE.fullmatch(line)[1]): (line, behind) for line, behind in zip(lines, lines[1:]) if is_witnessed(line, behind)}
    others = [line for before, line in zip([b'', *lines], lines) if not is_witnessed(before, line)]
    if not all(is_passed_over(line) or LEAF_LINE.fullmatch(line) for line in others):
        raise BadWitness(None)
    return found


def chosen_witness(witnesses, leaf):
    """The witness of a leaf, or the one that there is where none is named."""
    if leaf is None and len(witnesses) == 1:
        return next(iter(witnesses.values()))
    if leaf is None or leaf not in witnesses:
        raise BadWitness(None)
    return witnesses[leaf]


def witness_of(text, leaf):
    """The witness of a text: where no leaf is named, and it has no more than two lines that aren't empty, one as a report has it; else one of
    a whole report."""
    lines = report_lines(text)
    if leaf is None and len([line for line in lines if line]) <= 2:
        return read_witness(text)
    if len(text) > LONGEST:
        raise BadWitness(None)
    try:
        return witness_by(*chosen_witness(witnesses_in(lines), leaf))
    except BadWitness:
        raise BadWitness(None) from None


def agrees(result, wanted):
    """Whether a result is what must be answered; of a report that has no such witness only how the line on standard error begins is told."""
    if wanted.errors != BAD_REPORT:
        return result == wanted
    is_line = result.errors.startswith(BAD_REPORT.removesuffix(b'\n')) and result.errors.count(b'\n') == 1
    return is_line and (result.output, result.status) == (wanted.output, wanted.status)


def told(refused):
    """What is told of a witness, by why it is refused (None: it isn't)."""
    if refused is None:
        return ACCEPTED
    place = '' if refused.place is None else f' at {refused.place}'
    return Result(f'refused {refused.number} {REFUSAL_NAMES[refused.number]}{place}\n'.encode(), b'', 1)


def verify(script, text, mode=RENDEZVOUS, leaf=None):
    """The result for the texts of two files, each None where it can't be read: mode, script and witness are tested in this order."""
    if not is_mode(mode):
        return BAD_MODE
    if script is None:
        return BAD_FILE
    try:
        read = read_script(script)
    except Fault as fault:
        return refusal(script, fault)
    if text is None:
        return BAD_FILE
    try:
        found = witness_of(text, leaf)
    except BadWitness as bad:
        return Result(b'', BAD_REPORT if bad.line is None else b'mpdbg: bad witness line %d\n' % bad.line, 2)
    return told(explorer.verify(read, mode, *found))


class Verification(NamedTuple):
    """What is asked of `verify`: the script and the text of the witness (None: there is no such file), the mode, or none, and the number of
    the leaf that is meant, or none."""
    script: Optional[bytes]
    text: Optional[bytes]
    mode: Optional[str] = None
    name: str = ''
    leaf: Optional[int] = None

    def words(self, folder):
        """The words that ask a program, with both files in a folder."""
        files = held(folder, 'script.mpd', self.script), held(folder, 'witness.txt', self.text)
        options = [(f'--{name}', str(value)) for name, value in (('mode', self.mode), ('leaf', self.leaf)) if value is not None]
        return ('verify', *files, *(word for option in options for word in option))

    def wanted(self):
        """What must be answered."""
        mode = RENDEZVOUS if self.mode is None else self.mode
        # (the leaf is named only where there is one, so that faults of what is asked without it are told as ever)
        return verify(self.script, self.text, mode) if self.leaf is None else verify(self.script, self.text, mode, self.leaf)


def asked_by(words):
    """Both files that words of the command line name, the mode and the leaf, None where none is named."""
    parser = argparse.ArgumentParser(description=__doc__, formatter_class=argparse.RawDescriptionHelpFormatter)
    parser.add_argument('file', metavar='FILE')
    parser.add_argument('witness', metavar='WITNESS')
    parser.add_argument('--mode', metavar='M')
    parser.add_argument('--leaf', type=int, metavar='N')
    chosen = parser.parse_args(words)
    return chosen.file, chosen.witness, chosen.mode, chosen.leaf
