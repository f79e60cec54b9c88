#!/usr/bin/env python3
"""Makes a reference of the sources: each crate, bottom first, with its public types and functions and their clauses.

    .ci/reference.py            at the top of the repository: status 0 where each public item has a doc comment, else 1 with those
                                that have none
    .ci/reference.py --write    writes docs/REFERENCE.md, which isn't committed

What is told of a crate is the first paragraph of the doc comment of `src/lib.rt` (or `main.rt`); of a function or a type it is the
first sentence of its doc comment; of a clause its name. Of a constant without a doc comment, of a type that its file tells of, it is
that type; constants that are told alike, one after another, have one row. A function is public where its module is, or where
`lib.rt` brings its name, or that of its type, out by `pub use`.
"""
import glob
import os
import re
import sys
from typing import NamedTuple

PAGE = 'docs/REFERENCE.md'
HEAD = """# Reference

`.ci/reference.py --write` made this page from the sources. Crates stand bottom first, in the order of the longest chain of
crates below each.

Each crate has its public types and functions. Of each you read the first sentence of its doc comment, and of a function
the names of its clauses: what it *requires* of its caller, and what it *ensures*. `(1)` is a clause without a name, `(2)` are
two. Every function is also proved to be safe, and to return unless it waits for clients. A function with no parameter and no
result is a *law*: its clause is a theorem on the definitions. What the clauses say stands beside each function in `src/`, and
docs/DEFINITIONS.md tells the definitions that they cite.
"""
ITEM = re.compile(r'pub (struct|enum|trait|const|type) (\w+)')
CONST = re.compile(r'pub const \w+: (\w+) =')
FUNCTION = re.compile(r'( *)(pub )?(?:const )?fn (\w+)(\(\))?')
BLOCK = re.compile(r'(?:pub )?(?:impl\b(?:<[^{]*?>)? (?:(\S.*) for )?|(trait) )(\w+)')
CLAUSE = re.compile(r' +(requires|ensures)\b(?: (\w+))? ?\{')
USED = re.compile(r'(?m)^pub use (\w+)::(?:(\w+)|\{([^}]*)\});')
MODULE = re.compile(r'(?m)^(pub )?mod (\w+);')


class Item(NamedTuple):
    """A public type, trait, constant or function: what it is, its name, what is said of it, and its clauses by their kind."""
    kind: str
    name: str
    told: str
    clauses: dict


def first_sentence(words):
    """The first sentence of a doc comment."""
    end = re.search(r'[.!?](?= +[A-Z`0-9])', words)
    return words[:end.end()] if end else words


def doc_above(lines, number):
    """The doc comment above a line, in one line; attributes may stand between."""
    said = []
    for line in reversed(lines[:number]):
        line = line.strip()
        if line.startswith('///'):
            said.append(line[3:].strip())
        elif not (line.startswith('#[') or (not said and re.fullmatch(r'[\w:<>, ()*|-]*\)\]', line))):
            break
    return ' '.join(' '.join(reversed(said)).split())


def clauses_below(lines, number, indent):
    """The clauses of the function whose head begins at a line, by kind: their names, '' where one has none."""
    found = {'requires': [], 'ensures': []}
    for line in lines[number:]:
        clause = CLAUSE.match(line)
        if clause:
            found[clause[1]].append(clause[2] or '')
        elif line.rstrip() in (f'{indent}{{', f'{indent}{{}}', f'{indent}}}') or line.endswith((' {', ' {}', ');')) and not line.startswith(f'{indent} '):
            break
        if line.endswith(';'):
            break
    return found


def told_of(lines, number, types):
    """What is said of the item whose head stands in a line: of a constant without a doc comment its type, if the file tells of that."""
    told, const = first_sentence(doc_above(lines, number)), CONST.match(lines[number])
    return f'A `{const[1]}`.' if not told and const and const[1] in types else told


def items_of(text):
    """The items of a file: each with the type or trait in whose block it stands, if any."""
    lines, block, found = text.split('\n'), None, []
    types = {item[2] for number, line in enumerate(lines) if (item := ITEM.match(line)) and item[1] != 'const' and doc_above(lines, number)}
    for number, line in enumerate(lines):
        if line.startswith('}'):
            block = None
        elif begun := BLOCK.match(line):
            block = (begun[3], 'trait' if begun[2] else 'impl', begun[1])
        if item := ITEM.match(line):
            found.append((None, Item(item[1], item[2], told_of(lines, number, types), {})))
        elif function := FUNCTION.match(line):
            owner = block if function[1] else None
            is_public = function[2] or owner and owner[1] == 'trait'
            if is_public and len(function[1]) == (4 if owner else 0):
                clauses = clauses_below(lines, number, function[1])
                is_law = function[4] and not owner and not re.search(r'->', line) and clauses['ensures']
                name = f'{owner[0]}::{function[3]}' if owner else function[3]
                found.append((owner and owner[0], Item('law' if is_law else 'fn', name, first_sentence(doc_above(lines, number)), clauses)))
    return found


def read(path):
    with open(path, encoding='utf-8') as it:
        return it.read()


def crate_items(folder):
    """What a crate says of itself, and its public items in the order of its modules."""
    top = next(it for it in (f'{folder}/src/lib.rt', f'{folder}/src/main.rt') if os.path.isfile(it))
    text = read(top)
    said = ' '.join(it[3:].strip() for it in re.match(r'(?://!.*\n)*', text)[0].splitlines()).strip()
    if top.endswith('main.rt'):
        return said, []
    out = {}
    for module, one, many in USED.findall(text):
        out.setdefault(module, set()).update({one} if one else {it.strip() for it in many.split(',')})
    found = [it for _, it in items_of(text)]
    for public, module in MODULE.findall(text):
        path = f'{folder}/src/{module}.rt'
        if os.path.isfile(path):
            found += [it for owner, it in items_of(read(path)) if public or (owner or it.name) in out.get(module, ())]
    return said, found


def levels(lines):
    """Each crate of crates.txt with the length of the longest chain below it, and those that it stands on directly."""
    named = {crate: words.split() for crate, _, words in (it.partition(':') for it in lines.split('\n') if it and not it.startswith('#'))}

    def height(crate):
        return 1 + max((height(it) for it in named[crate] if it in named), default=0)

    def below(crate):
        return {it for one in named[crate] if one in named for it in (one, *below(one))}

    def direct(crate):
        own = [it for it in named[crate] if it in named]
        return [it for it in own if not any(it in below(other) for other in own if other != it)]

    return {crate: (height(crate), direct(crate)) for crate in named}


def names_told(names):
    """The names of some clauses, and how many have none."""
    unnamed = names.count('')
    return ', '.join([*(f'`{it}`' for it in names if it), *([f'({unnamed})'] if unnamed else [])])


def cell(words):
    return words.replace('|', '\\|')


def rows_of(types):
    """The rows of some types and constants: the kind, what is told, and the names, of which constants alone share a row."""
    rows = []
    for it in types:
        if it.kind == 'const' and rows and rows[-1][:2] == (it.kind, it.told):
            rows[-1][2].append(it.name)
        else:
            rows.append((it.kind, it.told, [it.name]))
    return rows


def section(crate, level, below, said, items):
    """What the page has of one crate."""
    stands = ' and '.join(filter(None, [', '.join(f'`{it}`' for it in below[:-1]), *(f'`{it}`' for it in below[-1:])]))
    lines = ['', f'## `{crate}`', '', said, '', f'Layer {level}; stands on {stands}.' if below else f'Layer {level}.']
    types = [it for it in items if it.kind not in ('fn', 'law')]
    if types:
        lines += ['', '| Type | Kind | What it is |', '|---|---|---|']
        lines += [f"| {', '.join(f'`{name}`' for name in names)} | {kind} | {cell(told)} |" for kind, told, names in rows_of(types)]
    functions = [it for it in items if it.kind in ('fn', 'law')]
    if functions:
        lines += ['', '| Function | What it promises | Requires | Ensures |', '|---|---|---|---|']
        lines += [f"| `{it.name}`{', a law' if it.kind == 'law' else ''} | {cell(it.told)} | {names_told(it.clauses['requires'])} | "
                  f"{names_told(it.clauses['ensures'])} |" for it in functions]
    return lines


def page(root):
    """The whole page."""
    order = levels(read(f'{root}/crates.txt'))
    lines = HEAD.rstrip('\n').split('\n')
    for crate in sorted((it for it in order if glob.glob(f'{root}/crates/{it}/src/*.rt')), key=lambda it: order[it][0]):
        lines += section(crate, *order[crate], *crate_items(f'{root}/crates/{crate}'))
    return '\n'.join(lines) + '\n'


def thin(root):
    """The public items with no doc comment."""
    for crate in levels(read(f'{root}/crates.txt')):
        if glob.glob(f'{root}/crates/{crate}/src/*.rt'):
            yield from (f'{crate}: {it.name}' for it in crate_items(f'{root}/crates/{crate}')[1] if not it.told)


def main(words):
    if words == ['--write']:
        with open(PAGE, 'w', encoding='utf-8') as it:
            it.write(page('.'))
        return 0
    bare = [*thin('.')]
    for name in bare:
        print(f'no doc comment: {name}')
    return 1 if bare else 0


if __name__ == '__main__':
    sys.exit(__doc__ if sys.argv[1:] not in ([], ['--write']) else main(sys.argv[1:]))
