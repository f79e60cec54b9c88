"""The files of must-fail/: what an edit says, and what it changes (docs/GATE.md, "Edits").

An edit's file has these lines:

    fn: Core::apply         the function that must be refused, as `rt check --only` takes it; the one that is edited, or, where that
                            has no contract of its own, one that calls it. Of an edit of specs/: lemma: NAME, a declaration there
    file: src/state.rt      a file below src/, specs/ or proofs/
    old: TEXT               one line, which stands in that file once
    new: TEXT               what stands there instead; more pairs, and more files, may follow
    clause: NAME            the clause of the function that refuses it, or `requires`: its copy ensures that alone (.ci/copies.py)
"""
import glob
import os
import re

from copies import HEAD, Original, head_around

# The folders of a crate that a check reads.
PARTS = ('src', 'specs', 'proofs')


class BadEdit(Exception):
    """An edit that can't be tried, and why."""


class Edit:
    """One file of must-fail/."""

    def __init__(self, folder, path):
        self.folder = folder
        self.path = path
        self.name = f'{os.path.basename(folder)}/{os.path.basename(path)}'
        self.function = self.lemma = self.clause = None
        self.pairs = []
        self.is_for_a_copy = True
        # what a round's check must refuse: the function, or a copy of it
        self.judged = None

    def read(self):
        """Reads its file, and says where that is no edit."""
        if not re.fullmatch(r'[A-Za-z0-9_-][A-Za-z0-9_.-]*\.edit', os.path.basename(self.path)):
            raise BadEdit('its name is not of letters, digits, _, - and ., or does not end in .edit')
        file = old = None
        for line in text_of(self.path).split('\n'):
            key, colon, value = line.partition(':')
            value = value.removeprefix(' ')
            if key == 'fn' and colon:
                self.function = value.strip()
            elif key == 'lemma' and colon:
                self.lemma = value.strip()
            elif key == 'clause' and colon:
                self.clause = value.strip()
            elif key == 'file' and colon:
                file = value.strip()
                if os.path.normpath(file) != file or not file.startswith(tuple(f'{it}/' for it in PARTS)):
                    raise BadEdit(f'{file} is no file below src/, specs/ or proofs/')
            elif key == 'old' and colon:
                old = value
            elif key == 'new' and colon:
                if not file or not old:
                    raise BadEdit("a line 'new:' stands before any 'file:' or 'old:'")
                self.pairs.append((file, old, value))
                old = None
            elif line.strip() and not self.reads(key, value):
                raise BadEdit(f'a line of no known kind: {line[:60]}')
        if not self.pairs or old:
            raise BadEdit("it has no pair of 'old:' and 'new:', or half of one")
        if bool(self.function) == bool(self.lemma):
            raise BadEdit("it has no line 'fn: PATH' (or 'lemma: NAME'), or both")

    def reads(self, key, value):
        """Whether this is a line that edits of another kind have; what it says is then kept."""
        return False

    def regions(self):
        """What it changes: for each file where the change begins and ends, and what stands there instead."""
        texts = {}
        for file, old, new in self.pairs:
            text = texts.setdefault(file, text_of(f'{self.folder}/{file}'))
            found = text.count(old)
            if found != 1:
                raise BadEdit(f'an old text stands in {file} {found} times, and not once: {old.strip()[:60]}')
            texts[file] = text.replace(old, new)
        found = {}
        for file, text in texts.items():
            was = text_of(f'{self.folder}/{file}')
            if was == text:
                raise BadEdit(f'it changes nothing in {file}')
            begin = len(os.path.commonprefix([was, text]))
            same = len(os.path.commonprefix([was[begin:][::-1], text[begin:][::-1]]))
            found[file] = begin, len(was) - same, text[begin : len(text) - same]
        return found

    def changed(self):
        """The functions that the edit changes, or whose refusal it wants, and those in a cycle of calls with them, each a name and
        its place; None where it changes something else too."""
        found = {(self.function.rpartition('::')[2], self.function)} if self.function else set()
        for file, (begin, end, _) in self.regions().items():
            if not file.startswith('src/'):
                return None
            around = enclosing(text_of(f'{self.folder}/{file}'), begin, end)
            if not around:
                return None
            found |= {(name, f'{file}:{line}') for name, line in around}
        return found

    def original(self):
        """The function that it changes, and where and how, where that is one which can be copied; else None."""
        regions = self.regions()
        file = next(iter(regions))
        if len(regions) > 1 or not file.startswith('src/') or not self.function:
            return None
        text = text_of(f'{self.folder}/{file}')
        begin, end, new = regions[file]
        head = head_around(text, begin, end)
        if not head or head[3] != self.function.rpartition('::')[2]:
            return None
        original = Original(self.folder, file, text, head)
        if self.clause and self.clause != 'requires' and self.clause not in original.clauses():
            raise BadEdit(f'{self.function} has no clause {self.clause}')
        return (original, (begin, end, new)) if original.can_be_copied() else None

    def lemma_file(self):
        """The file of specs/ that declares its lemma: one that it changes, where there are several."""
        declares = re.compile(rf'(?m)^pub {re.escape(self.lemma)} :')
        files = [f'specs/{it}' for it in sorted(glob.glob('**/*.antt', root_dir=f'{self.folder}/specs', recursive=True))]
        found = [it for it in files if declares.search(text_of(f'{self.folder}/{it}'))]
        changed = {file for file, _, _ in self.pairs}
        own = [it for it in found if it in changed] or found
        if len(own) != 1:
            raise BadEdit(f'{self.lemma} is declared by {len(found)} files of specs/, and not by one')
        return own[0]

    def turns_its_lemma(self):
        """Whether it changes only the file that declares its lemma, so that it says nothing of what other files declare."""
        return bool(self.lemma) and {file for file, _, _ in self.pairs} == {self.lemma_file()}

    def is_blamed(self, told):
        """Whether an error of reading or compiling stands at what this edit wrote, or names its function."""
        for line in told.lines:
            at = re.match(r'(?:\./)?(\S+?):(\d+):\d+: error', line)
            if at and at[1] in told.texts:
                said = told.texts[at[1]].split('\n')[int(at[2]) - 1]
                if any(file == at[1] and (new in said or said.strip() in new) for file, _, new in self.pairs if new.strip()):
                    return True
            elif ': error' in line and f'`{self.judged}`' in line:
                return True
        return False


def text_of(file):
    try:
        with open(file, encoding='utf-8') as it:
            return it.read()
    except OSError as error:
        raise BadEdit(f'{file}: {error.strerror}') from error


def enclosing(text, begin, end):
    """The function around this piece, and those in one cycle of calls with it, each its name and line; none where it is in none."""
    head = head_around(text, begin, end)
    if not head:
        return set()
    found = [it for it in HEAD.finditer(text) if it.start() == head.start() or head[2] and it[2] == head[2]]
    return {(it[3], text[: it.end()].count('\n') + 1) for it in found}


def merged(folder, regions):
    """The texts of the files below a folder with these regions changed: for each file (begin, end, new), none touching another."""
    texts = {}
    for file, them in regions.items():
        text = text_of(f'{folder}/{file}')
        for begin, end, new in sorted(them, reverse=True):
            text = text[:begin] + new + text[end:]
        texts[file] = text
    return texts


def touches(regions, own):
    """Whether one of an edit's own regions touches one of these."""
    return any(begin <= last and first <= end for file, (begin, end, _) in own.items() for first, last, _ in regions.get(file, []))
