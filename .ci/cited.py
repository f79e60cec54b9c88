#!/usr/bin/env python3
"""Tells where a page cites a function that isn't there, or a clause that it hasn't got.

    .ci/cited.py    at the top of the repository: status 0 where all are there

In README.md and docs/CLAIMS.md `Core::undo`, `Core::apply` (`rises`, `few`) cites both clauses of both functions, and so does
`Board::{issue, pair}` (`board`): each name in front of a bracket has each clause in it; what begins with a capital there is none. A
bracket that says (its only one) is of a function that ensures one thing. Where a clause is a record of `specs/`, or an abbreviation
of one, the record's fields are cited like clauses, and so are those of a record that is a field of it. A row of the table of theorems in docs/DEFINITIONS.md has
functions in its first column, and each clause in its second is of one of them. Of functions that share a name, one has to have all.
"""
import glob
import os
import re
import sys

from copies import HEAD

# A block of functions, by its type or trait; what a function ensures; what a relation of a trait is called.
BLOCK = re.compile(r'(?m)^(?:pub(?:\([^)]*\))? )?(?:impl\b(?:<[^{]*?>)? (?:\S.* for )?|trait )(\w+)[^{;]*\{')
ENSURED = re.compile(r'(?m)^ +ensures (\w*) ?\{ (\w*)')
RELATION = re.compile(r'(?m)^    ghost (\w+)(?: =|:)')
# What a file imports of a file of `specs/`; a field of a record, with the name that its type begins with.
IMPORTED = re.compile(r'(?m)^ *(?:ghost )?use Rattle\.(\w+)\.specs\.([\w.]+)\.\{([^}]*)\}')
FIELD = re.compile(r'(?m)^  pub (\w+) : (\w*)')
NAME = r'`[\w:]+(?:::\{[\w, ]+\})?`'
GROUP = re.compile(rf'({NAME}(?:(?:, and over both |, | and ){NAME})*)(?: of `(\w+)`)? \(([^)]*)\)')


class Records:
    """The fields of the records of `specs/`."""

    def __init__(self, root):
        self.root, self.read = root, {}

    def text(self, path):
        """What a file has; nothing where there is none, as of what the kit declares of the code."""
        if path not in self.read:
            self.read[path] = ''
            if os.path.isfile(path):
                with open(path, encoding='utf-8') as it:
                    self.read[path] = it.read()
        return self.read[path]

    def fields(self, name, text, path=None):
        """The fields of the record that this name means in a text, and of the records among them; none where it means another thing."""
        for crate, module, names in IMPORTED.findall(text):
            if name in re.split(r',\s*', names):
                path = f'{self.root}/crates/{crate}/specs/{module.replace(".", "/")}.antt'
                text = self.text(path)
        if not path or not name:
            return []
        if record := re.search(rf'(?m)^pub record {name}\b.*\n((?:(?:  .*)?\n)*)', text):
            return [it for field, of in FIELD.findall(record[1]) for it in (field, *self.fields(of, text, path))]
        short = re.search(rf'(?m)^{name}\b[^=\n]*=\s*(\w+)', text)
        return self.fields(short[1], text, path) if short and short[1] != name else []


def clauses(root):
    """Of each name the clauses of the functions, types and traits that have it, each with the fields of the record that it is; one without
    a name is ''."""
    found, records = {}, Records(root)
    for path in glob.glob(f'{root}/crates/*/src/**/*.rt', recursive=True):
        crate = path.removeprefix(f'{root}/crates/').partition('/')[0]
        with open(path, encoding='utf-8') as it:
            text = it.read()
        blocks, heads = list(BLOCK.finditer(text)), list(HEAD.finditer(text))
        for head, end in zip(heads, [*(it.start() for it in heads[1:]), len(text)]):
            owner = next((it[1] for it in reversed(blocks) if head[1] and it.start() < head.start()), crate)
            ensured = [(clause, records.fields(of, text)) for clause, of in ENSURED.findall(text, head.start(), end)]
            for name in {head[3], f'{crate}::{head[3]}', f'{owner}::{head[3]}'}:
                found.setdefault(name, []).append(ensured)
        for block in blocks:
            found.setdefault(block[1], []).append([(it, []) for it in RELATION.findall(text, block.end(), text.index('\n}', block.end()))])
    return found


def has(ensured, cited):
    """Whether these clauses have all that is cited, as a clause or as a field of one."""
    return cited <= {it for clause, fields in ensured for it in (clause, *fields)}


def names_in(text):
    """The names in backticks, `A::{b, c}` as two."""
    for name in re.findall(r'`([^`]+)`', text):
        owner, _, many = name.partition('::{')
        yield from (f'{owner}::{it}' for it in many[:-1].split(', ')) if many else (name,)


def faults(line, found):
    """What a line cites and isn't there."""
    yield from (f'no function {it}' for it in names_in(line) if re.fullmatch(r'\w+::\w+', it) and it not in found)
    for names, crate, bracket in GROUP.findall(line):
        cited = {it for it in names_in(bracket) if re.fullmatch(r'[a-z]\w*', it)}
        for name in names_in(names):
            known = found.get(f'{crate}::{name}' if crate else name, [])
            if cited and not any(has(it, cited) for it in known):
                yield f'{name} has not all of {", ".join(sorted(cited))}'
            if bracket == 'its only one' and not any(len(it) == 1 for it in known):
                yield f'{name} ensures more than one thing, or nothing'


def faults_in_row(line, found):
    """The same of a row of the table of theorems."""
    cells = line.strip('|').split(' | ')
    if len(cells) == 4 and re.fullmatch(r' ?[\d,]+ ', cells[3]):
        named = [it for it in names_in(cells[0]) if not re.fullmatch(r'mpd_\w+', it)]
        known = [one for it in named for one in found.get(it, [])]
        yield from (f'no function {it}' for it in named if it not in found)
        yield from (f'none has {it}' for it in names_in(cells[1]) if re.fullmatch(r'(?!mpd_)[a-z]\w*', it) and not any(has(one, {it}) for one in known))


def main():
    found, is_wrong = clauses('.'), False
    for page, look in ('README.md', faults), ('docs/CLAIMS.md', faults), ('docs/DEFINITIONS.md', faults_in_row):
        with open(page, encoding='utf-8') as it:
            for number, line in enumerate(it, 1):
                for fault in look(line.rstrip('\n'), found):
                    print(f'{page}:{number}: {fault}')
                    is_wrong = True
    return 1 if is_wrong else 0


if __name__ == '__main__':
    sys.exit(__doc__ if len(sys.argv) > 1 else main())
