"""Compares the screens that `debug --view` of a program draws at a terminal with the model of the view, byte for byte.

    python3 compare/runs/views.py PROGRAM               worked dialogues (worked_views.py), and 40 random ones, the same ones for a seed
    python3 compare/runs/views.py PROGRAM --count 300   more of them
    python3 compare/runs/views.py --broken              faults of the model (view_faults.py), each of which must be noticed; with PROGRAM, beside it

The dialogues are those of the console (console_cases.py), up to the first `quit`, at sizes of a terminal that are drawn. Each line is typed when
the screen after the one before has come whole. Of every second worked dialogue the input ends without `quit`. Without a terminal, each answer must
be the console's. The status is 0 where dialogues were compared and none differed.
"""

import os
import re
import shlex
import subprocess
import sys
import tempfile
import tty
from functools import cache
from random import Random
from typing import NamedTuple, Optional

sys.path.insert(0, os.path.dirname(os.path.dirname(os.path.abspath(__file__))))

from cases.console_cases import random_case
from faults import view_faults
from model.console import GREETING, Console, begun, debug
from model.console_words import full_name
from model.debugger import LONGEST_LINE, RENDEZVOUS, lines_of
from model.files import held
from model.view import CLEAR, Size, View
from places import EXAMPLES, TOP
from rows.worked_views import ROWS, problem
from runs import driving
from started.console_terminal import CTRL_D, gather_lines, read, wrong_end
from started.programs import run_at_once

CHUNK, MANY, FEW = 4, 40, 2
HEIGHTS, WIDTHS = (10, 11, 12, 16, 24, 24, 24, 40, 100), (20, 21, 33, 60, 80, 80, 80, 132, 300)


class Dialogue(NamedTuple):
    """A script in a mode, the text of a witness or a run that is named, or neither, the size of the screen, and the lines that are typed."""
    name: str
    text: bytes
    mode: str
    witness: Optional[bytes]
    run: Optional[tuple]
    size: Size
    lines: tuple

    def console(self):
        """The console at its start; a result where there is none."""
        return begun(self.text, self.mode, self.witness, self.run)

    def words(self, folder):
        """The words that have a program draw it, with its files in a folder."""
        witness = () if self.witness is None else ('--witness', held(folder, 'witness.txt', self.witness))
        run = () if self.run is None else self.run.words()
        sizes = '--view', '--height', str(self.size.rows), '--width', str(self.size.columns)
        return ('debug', held(folder, 'script.mpd', self.text), '--mode', self.mode, *witness, *run, *sizes)

    def screens(self):
        """The first screen, and one after each line, as the model draws them."""
        view = View(self.console(), self.size)
        return [view.first(), *(view.answer(line) for line in self.lines)]


def is_last(line):
    return len(line) <= LONGEST_LINE and full_name(line.decode('latin-1').strip(' \t')) == 'quit'


def up_to_quit(lines):
    """Some lines up to the first that ends a dialogue, which is added where none does."""
    lines = [line.rstrip(b'\r') for line in lines]
    found = [place for place, line in enumerate(lines) if is_last(line)]
    return (*lines[:found[0] if found else len(lines)], b'quit')


@cache
def dialogue(seed, number):
    """A random dialogue, the same each time; None where the script or what lies ahead is refused."""
    case, random = random_case(seed, number), Random(f'views/{seed}/{number}')
    size = Size(random.choice(HEIGHTS), random.choice(WIDTHS))
    witness = case.witness if isinstance(case.witness, bytes) else None
    mode = RENDEZVOUS if case.mode is None else case.mode
    found = Dialogue(case.name, case.script, mode, witness, case.run, size, up_to_quit(lines_of(case.data)))
    return found if isinstance(found.console(), Console) else None


def worked(row):
    """A worked dialogue."""
    return Dialogue(row.what, row.text, RENDEZVOUS, None, None, row.size, tuple(typed for typed, _screen in row.turns[1:]))


# ---- a program at a terminal

def wrong_in_talk(terminal, lines, screens, seconds):
    """What is drawn otherwise than it must be."""
    due = GREETING.encode() + b'\n' + screens[0]
    for typed, screen in zip((*lines, None), (*screens[1:], b'')):
        if (told := read(terminal, len(due), seconds)) != due:
            return f'{told} and not {due} before {typed}'
        if typed is not None:
            os.write(terminal, typed + b'\n')
            due = screen
    return None


def wrong_at_terminal(program, words, talk, ends_by_word, seconds):
    """What is drawn otherwise where lines are typed at a terminal, each after the screen that comes before it; None where nothing is. Where no
    word ends the input, a line feed is written last."""
    lines, screens = talk
    ours, theirs = os.openpty()
    tty.setraw(theirs)
    if not ends_by_word:
        gather_lines(theirs)
    process = subprocess.Popen([program, *words], stdin=theirs, stdout=theirs, stderr=theirs)
    os.close(theirs)
    try:
        wrong = wrong_in_talk(ours, lines, screens, seconds)
        if wrong is None and not ends_by_word:
            os.write(ours, CTRL_D)
            told = read(ours, 1, seconds)
            wrong = None if told == b'\n' else f'{told} and not a line feed at the end'
        return wrong or wrong_end(process, ours, seconds)
    finally:
        process.kill()
        process.wait()
        os.close(ours)


def wrong(chosen, asked, lines=None):
    """What a program draws otherwise than the model, of all lines or of these, of which none ends the dialogue."""
    with tempfile.TemporaryDirectory(prefix='views-') as folder:
        talk = asked if lines is None else asked._replace(lines=lines)
        return wrong_at_terminal(chosen.program, asked.words(folder), (talk.lines, talk.screens()), lines is None, chosen.seconds)


def wrong_without_terminal(chosen, asked):
    """What a program answers otherwise than the console without a terminal."""
    data = b''.join(line + b'\n' for line in asked.lines)
    wanted = debug(asked.text, data, asked.mode, asked.witness, asked.run, View(asked.console(), asked.size).console.look)
    with tempfile.TemporaryDirectory(prefix='views-') as folder:
        result = run_at_once(chosen.program, data, chosen.seconds, words=asked.words(folder))
    return None if result == wanted else driving.first_different(result, wanted)


# ---- comparing

def page_wrong():
    """How the screen that docs/CONSOLE.md shows differs from the model's; None where it doesn't. The page has no blanks at the ends of rows."""
    with open(f'{TOP}/docs/CONSOLE.md', encoding='utf-8') as page:
        after = page.read().partition('this screen is drawn of that script.')[2]
    shown = [line.removeprefix('    ') for line in re.search(r'\n\n((?:    .*\n)+)', after)[1].splitlines()]
    with open(f'{EXAMPLES}/order_decides.mpd', 'rb') as script:
        view = View(begun(script.read(), RENDEZVOUS, None), Size(14, 72))
    drawn = [line.rstrip(' ') for line in view.answer(b'run 6').removeprefix(CLEAR).decode('ascii').split('\n')]
    return None if drawn == shown else f'docs/CONSOLE.md shows {shown}, and not {drawn}'


def row_wrong(chosen, place):
    """What is wrong with a worked row: the model's screens, and those of the program."""
    row = ROWS[place]
    how = problem(row)
    if how is not None or chosen.program is None:
        return how
    asked = worked(row)
    short = tuple(line for line in asked.lines if len(line) < LONGEST_LINE and not is_last(line))
    ended = asked._replace(lines=up_to_quit(asked.lines))
    how = wrong(chosen, ended) or wrong(chosen, asked, short) or wrong_without_terminal(chosen, ended)
    return None if how is None else f'{row.what}: {how}'


def compare_rows(chosen, pool):
    """How many worked rows are drawn otherwise than they must be."""
    found = [how for how in [page_wrong()] if how is not None]
    found += [how for how in pool.map(row_wrong, [chosen] * len(ROWS), range(len(ROWS))) if how is not None]
    for how in found:
        print(how, flush=True)
    print(f'{len(ROWS)} worked dialogues, {len(found)} wrong', flush=True)
    return len(found)


def compare_chunk(chosen, numbers):
    """How many screens were drawn in some dialogues, and which of these differ, each with how."""
    found, count = [], 0
    for asked in (dialogue(chosen.seed, number) for number in numbers):
        if asked is not None:
            count += len(asked.screens())
            how = wrong(chosen, asked) if chosen.program else None
            if how is not None:
                found.append((asked, how))
    return count, found


def compare(chosen, pool):
    """Compares so many random dialogues; gives how many differ."""
    differing, drawn, files = 0, 0, driving.Kept('views-')
    for count, found in driving.by_chunks(pool, compare_chunk, chosen, CHUNK):
        drawn += count
        for asked, how in found:
            differing += 1
            path = files.folder(asked.name)
            held(path, 'typed', b'\n'.join(asked.lines))
            print(f'{shlex.join(asked.words(path))}: {how}', flush=True)
    print(f'{drawn} screens in {chosen.count} dialogues, {differing} different')
    return differing + (not drawn)


def compare_all(chosen, pool):
    return compare_rows(chosen, pool) + compare(chosen, pool)


# ---- faults of the model

@cache
def sound_screens(seed, number):
    """What the sound model draws in a random dialogue."""
    asked = dialogue(seed, number)
    return None if asked is None else asked.screens()


def noticed(chosen, place):
    """Whether a fault is noticed by a random dialogue, and whether by a row."""
    fault = view_faults.breakages()[place]
    with driving.broken(fault):
        by_row = any(map(problem, ROWS))
    for number in range(min(FEW, chosen.count) if by_row else chosen.count):
        screens = sound_screens(chosen.seed, number)
        if screens is not None:
            with driving.broken(fault):
                if dialogue(chosen.seed, number).screens() != screens:
                    return True, by_row
    return False, by_row


def compare_broken(chosen, pool):
    """How many faults of the model are not noticed by random dialogues or worked rows."""
    faults = view_faults.breakages()
    found = list(pool.map(noticed, [chosen] * len(faults), range(len(faults))))
    left = [fault.name for fault, by in zip(faults, found) if not any(by)]
    driving.tell_not_noticed(left)
    by_dialogues, by_rows = (sum(by) for by in zip(*found))
    print(f'{len(faults)} broken models, {len(faults) - len(left)} noticed, {by_dialogues} by random dialogues and {by_rows} by worked rows')
    return len(left) + (not faults)


class Chosen(NamedTuple):
    """What the words of the command line choose."""
    program: Optional[str]
    count: int
    seed: int
    broken: bool
    jobs: int
    seconds: float
    memory: int
    output: int


def main():
    parser = driving.parser_of(__doc__, f'random dialogues ({MANY})', MANY, 'screen', others='dialogues')
    return driving.driven(Chosen(**vars(driving.chosen_by(parser))), compare_all, compare_broken)


if __name__ == '__main__':
    sys.exit(main())
