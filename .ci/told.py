"""What a check told of a crate with edits in it: of each edit whether it was refused, and for a reason of its own.

An edit is refused where the check refuses that very function, for a reason of its own: that it calls a function that isn't
proved is none, and that a proof file names what the edit took away is none either.
"""
import re

from copies import GRANTED

# What the check says where a proof file names what an edit took away.
TAKEN_AWAY = re.compile(r'has no field|is not in scope|has no `|was not admitted|is no name')

# What it says of a function that only rests on one that is not proved.
RESTS = re.compile(r'(?:in `[^`]*`, of this cycle of calls: )?it (?:calls|passes the block) `[^`]*`(?:(?:, | and |, and )`[^`]*`)*, which (?:is|are) not proved')


class Told:
    """What a check of a crate with these texts told."""

    def __init__(self, texts, said):
        self.texts = texts
        self.lines = said.split('\n')
        self.is_judged = bool(re.search(r'(?m)^(?:only=|logic=|holes=)', said))
        self.functions = {}
        begun = 0
        for at, line in enumerate(self.lines):
            told = re.match(r'fn (\S+): (.*)', line)
            if told:
                self.functions[told[1]] = told[2], self.lines[begun:at]
                begun = at + 1

    def named(self, path):
        """The whole names of the functions whose names end in this path."""
        return [it for it in self.functions if f'::{it}'.endswith(f'::{path}')]

    def errors(self, folder):
        """The errors in files below a folder."""
        return [it for it in self.lines if it.removeprefix('./').startswith(folder) and ': error' in it]

    def first_error(self):
        return next((it for it in self.lines if ': error' in it), self.lines[-2] if len(self.lines) > 1 else '')

    def has_waited(self, name):
        """Whether goals of this function were not tried, since they wait for the proof of a function that it calls."""
        return any(f'`search` has not tried the goals of `{name}`' in it for it in self.lines)

    def reasons(self, name):
        """Why this function is refused, the functions that it calls aside: notes of its code, then errors of its proof files."""
        word, before = self.functions[name]
        if GRANTED.match(word):
            return []
        notes = [it for it in before if re.match(r'note: \S+:\d+:\d+: it is not proved|(?:note: )?(?:\./)?src/\S+:\d+:\d+: error', it)]
        folders = {'proofs/' + '/'.join(name.split('::')[1:]) + '/'}
        folders |= {it.removeprefix('./') for it in re.findall(r'expected answers in (\S+/)', word)}
        errors = [it for folder in folders for it in self.errors(folder)]
        # (a closure stands below its function's name, behind a part `fn`)
        within = '::fn::' + name.rpartition('::')[2] + '::'
        inner = [] if '::fn::' in name else [it for it in self.functions if within in it and it.startswith(name.partition('::')[0])]
        own = [*notes, *errors, *(why for it in inner for why in self.reasons(it))]
        if not own and RESTS.sub('', word).strip('; ') not in ('no proof:', 'not proved', 'no proof', ''):
            own = [word]
        return own


def is_unread(line):
    """Whether this error says that a text of src/ or specs/ can't be read, where a false statement reads well."""
    found = re.match(r'(?:\./)?(?:src|specs)/\S+?:\d+:\d+: error\S*: (?:(`[^`]*`): )?(.*)', line)
    if not found:
        return False
    return not found[1] or bool(re.search(r'is not in scope|has no field|is no name|operand is missing|expected the end|cannot continue', re.sub('`[^`]*`', '', found[2])))


class Verdict:
    """What came of one edit; `is_open` where it has to be tried again, with less beside it."""

    def __init__(self, edit, is_refused, text, is_open=False):
        self.edit, self.is_refused, self.text, self.is_open = edit, is_refused, text, is_open

    def __str__(self):
        return f"{self.edit.name}: {'refused: ' if self.is_refused else ''}{self.text}"


def judge(edit, told):
    """Whether the check refused what the edit names, for a reason of its own."""
    if edit.lemma:
        errors = [it for it in told.errors('specs/') if f'error: `{edit.lemma}`:' in it]
        if not errors:
            return Verdict(edit, False, f'NOT REFUSED: {edit.lemma} still holds')
        bad = next(filter(is_unread, errors), None)
        return Verdict(edit, False, f'BAD EDIT: {bad}') if bad else Verdict(edit, True, errors[0])
    names = told.named(edit.judged)
    if len(names) != 1:
        return Verdict(edit, False, f"BAD EDIT: {edit.judged} names {'no function' if not names else ' and '.join(names)}")
    name, = names
    word = told.functions[name][0]
    own = told.reasons(name)
    if GRANTED.match(word):
        return Verdict(edit, False, f'NOT REFUSED: {name} is still proved')
    if word.startswith('could not tell'):
        return Verdict(edit, False, f'BAD EDIT: the check could not tell of {name}', is_open=True)
    if not own:
        waits = ', and its goals wait for that' if told.has_waited(name) else ''
        return Verdict(edit, False, f'NOT REFUSED: {name} has no fault of its own{waits}: {word}', is_open=told.has_waited(name))
    said = [it for it in own if not (it.removeprefix('./').startswith('proofs/') and TAKEN_AWAY.search(it))]
    if not said:
        return Verdict(edit, False, f'NOT REFUSED, but for a proof file that names what the edit took away: {own[0]}', is_open=told.has_waited(name))
    return Verdict(edit, True, said[0].removeprefix('note: '))
