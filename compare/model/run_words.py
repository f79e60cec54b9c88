"""The run with some choices, in the model: its steps as trace words, as `words` writes them. The choices are those along decisions, or with
`--ends` those along the wide walk.

compare/rows/worked_ends.py has rows of it, and compare/runs/reread.py compares a program with it.
"""

import re
from typing import NamedTuple, Optional

from model import walks, wide
from model.debugger import BAD_FILE, BAD_MODE, RENDEZVOUS, Result, first_world, refusal, step_text
from model.explorer import USUAL, refused
from model.files import held
from model.language import Fault, read_script
from model.modes import is_mode
from model.walks import Leaf, Run, ending, listed, taken

# Numbers of one to nine digits, with one space or more between two, and any in front and behind; or nothing.
CHOICES = re.compile(' *(?:[0-9]{1,9}(?: +[0-9]{1,9})* *)?')
# What stands for the text in which a program's command line refuses wrong words.
WRONG_WORDS = Result(b'', b'wrong words\n', 2)


def choices_in(text):
    """The choices that a text names; None where it names none."""
    return None if CHOICES.fullmatch(text) is None else tuple(map(int, re.findall('[0-9]+', text)))


class BadChoices(Exception):
    """No run has exactly these choices: the place of the first that is none, or how many there are, where the run wants more."""

    def __init__(self, place):
        super().__init__(place)
        self.place = place


def follower(ends):
    """What follows a run as far as nothing is to be chosen: along the wide walk, or along decisions."""
    return wide.followed if ends else walks.followed


def run_by(begun, choices, ends=False):
    """The leaf that a run comes to by some choices; raises the place where there is no such run."""
    run, followed = begun, follower(ends)
    while True:
        run, decided = followed(run)
        place, ended = len(run.choices), ending(decided, run.fuel)
        if ended is not None and place == len(choices):
            return Leaf(run.choices, listed(run.steps), ended)
        if ended is not None or place == len(choices) or choices[place] >= len(decided.steps):
            raise BadChoices(place)
        run = taken(run, decided.steps[choices[place]], choices[place])


class Words(NamedTuple):
    """What `words` is asked: a script (None: there is no such file), the text of the choices, and options, which may be left out."""
    script: Optional[bytes]
    choices: str
    mode: Optional[str] = None
    fuel: Optional[int] = None
    name: str = ''
    ends: bool = False

    def words(self, folder):
        """The words that ask a program, with the file in a folder."""
        options = [(f'--{name}', str(value)) for name, value in (('mode', self.mode), ('fuel', self.fuel)) if value is not None]
        return ('words', held(folder, 'script.mpd', self.script), '--choices', self.choices, *(word for option in options for word in option),
                *['--ends'] * self.ends)

    def wanted(self):
        """What must be answered."""
        choices = choices_in(self.choices)
        if choices is None:
            return WRONG_WORDS
        return answer(self.script, choices, self.mode or RENDEZVOUS, self.fuel or USUAL.fuel, self.ends)


def answer(text, choices, mode, fuel, ends=False):
    """The result for the text of a file, which is None where that can't be read: the mode is tested first."""
    if not is_mode(mode):
        return BAD_MODE
    if text is None:
        return BAD_FILE
    try:
        script = read_script(text)
    except Fault as fault:
        return refusal(text, fault)
    try:
        leaf = run_by(Run(first_world(script, mode), fuel), choices, ends)
    except BadChoices as bad:
        return refused(f'bad choices at {bad.place}')
    return Result(''.join(f'{step_text(step)}\n' for step in leaf.steps).encode(), b'', 0)
