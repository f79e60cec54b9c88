#!/usr/bin/env python3
"""Tells where the column "Lines" of docs/DEFINITIONS.md isn't what the files of its rows have.

    .ci/read_lines.py            at the top of the repository: status 0 where each row is right
    .ci/read_lines.py --write    writes the right numbers into the page

A row of the first table names files of `specs/`, without their folders, in pieces, with `;` between two: `A`, `B` of `mpd_x`, and of
`mpd_model` where no crate is named; `state`, which is six files, or that without one; and what another row has: the row before, the one
that begins with a word, or the one of a function, each without some or whole.
"""
import glob
import re
import sys

PAGE = 'docs/DEFINITIONS.md'
HEAD = '| Theorem |'
STATE = ('World', 'Next', 'Term', 'Tree', 'Declaration', 'Program')
OF_CRATE = re.compile(r'^(.*) of `(mpd_\w+)`$')
OTHERS = re.compile(r'^(the same|those of (?:the row before|the two rows before|`[\w:]+`|(?:a )?\w+))(?: without (.*))?$')


class Rows:
    """The rows that were read, each with the set of its files: a crate and a name."""

    def __init__(self):
        self.sets, self.named = [], {}

    def other(self, words):
        """The files of the row that these words mean."""
        if words in ('the same', 'those of the row before'):
            return self.sets[-1]
        if words == 'those of the two rows before':
            return self.sets[-1] | self.sets[-2]
        return self.named[words.removeprefix('those of ').removeprefix('a ').strip('`')]

    def piece(self, piece):
        """The files that one piece names."""
        if piece == 'state' or piece.startswith('state without '):
            return {('mpd_model', it) for it in STATE if f'`{it}`' not in piece}
        if found := OTHERS.match(piece):
            left_out = re.findall(r'`(\w+)`(?: of `(mpd_\w+)`)?', found[2] or '')
            return {it for it in self.other(found[1]) if not any(name == it[1] and crate in ('', it[0]) for name, crate in left_out)}
        found = OF_CRATE.match(piece)
        return {(found[2] if found else 'mpd_model', it) for it in re.findall(r'`(\w+)`', found[1] if found else piece)}

    def add(self, theorem, files):
        """The files of a row, which later rows may name by its first word or its functions."""
        files = re.sub(r'(?:, |; )and the contracts of .*$', '', files).replace(', and those of ', '; those of ')
        self.sets.append(set().union(*(self.piece(it.strip()) for it in files.split(';'))))
        for name in [theorem.removeprefix('a ').split(',')[0], *re.findall(r'`([\w:]+)`', theorem)]:
            self.named.setdefault(name, self.sets[-1])
        return self.sets[-1]


def lines_of(root, crate, name):
    """The lines of the one file of `specs/` with this name, in whichever folder there it stands."""
    [path] = glob.glob(f'{root}/crates/{crate}/specs/**/{name}.antt', recursive=True)
    with open(path, encoding='utf-8') as it:
        return it.read().count('\n')


def right(root, text):
    """The page with the right numbers, and the theorems whose row has another."""
    rows, wrong, lines = Rows(), [], text.split('\n')
    first = next(number for number, line in enumerate(lines) if line.startswith(HEAD)) + 2
    for number in range(first, len(lines)):
        if not lines[number].startswith('|'):
            break
        theorem, clauses, files, told = (it.strip() for it in lines[number].strip('|').split(' | '))
        count = f'{sum(lines_of(root, *it) for it in rows.add(theorem, files)):,}'
        if count != told:
            wrong.append(f'{theorem}: {told}, and not {count}')
            lines[number] = f'| {theorem} | {clauses} | {files} | {count} |'
    return '\n'.join(lines), wrong


def main(words):
    with open(PAGE, encoding='utf-8') as it:
        text, wrong = right('.', it.read())
    for said in wrong:
        print(f'{PAGE}: {said}')
    if words == ['--write']:
        with open(PAGE, 'w', encoding='utf-8') as it:
            it.write(text)
    return 1 if wrong and not words else 0


if __name__ == '__main__':
    sys.exit(__doc__ if sys.argv[1:] not in ([], ['--write']) else main(sys.argv[1:]))
