#!/usr/bin/env python3
"""What the refusal of a must-fail edit depends on, by names (docs/GATE.md, "What is remembered").

    .ci/reach.py CRATE/EDIT..      at the top of the repository: what these edits reach, each with its file

An edit is refused since a body that it writes doesn't meet a contract. That is told by the edit, by what it changes and the function
that it names, with their bodies, and by all that these reach by names. A name is looked up as the language does it, by the `use`
lines of its file; where that answers nothing in this repository, all items of that name are taken. What is called on a value may be
that function of any type that is reached. A type brings its blocks, and what is implemented for it.
"""
import os
import re
import sys

sys.path.insert(0, os.path.dirname(os.path.abspath(__file__)))
sys.dont_write_bytecode = True

from edit_files import BadEdit, Edit
from items import Source, read_definitions
from names import Names
from rounds import Repository


def components(edges):
    """The groups of numbers that lead to one another, each after those that it leads to (Tarjan)."""
    order, low, places, path, done, found = {}, {}, {}, [], set(), []
    for root in range(len(edges)):
        stack = [] if root in order else [(root, iter(edges[root]))]
        if stack:
            order[root] = low[root] = len(order)
            places[root] = len(path)
            path.append(root)
        while stack:
            at, left = stack[-1]
            step = next((it for it in left if it not in done), None)
            if step is None:
                stack.pop()
                if stack:
                    low[stack[-1][0]] = min(low[stack[-1][0]], low[at])
                if low[at] == order[at]:
                    found.append(path[places[at] :])
                    done.update(found[-1])
                    del path[places[at] :]
            elif step in order:
                low[at] = min(low[at], order[step])
            else:
                order[step] = low[step] = len(order)
                places[step] = len(path)
                path.append(step)
                stack.append((step, iter(edges[step])))
    return found


class Reach:
    """What each item of a tree reaches."""

    def __init__(self, repository, texts):
        """Of these texts, by their paths below the root."""
        self.repository = repository
        source = Source(repository.uses)
        self.files, self.texts = {}, texts
        for path, text in texts.items():
            crate, inner = path.split('/', 2)[1:]
            self.files[path] = source.read(crate, inner, text) if path.endswith('.rt') else read_definitions(source, crate, inner, text)
        self.names = Names(repository.uses, self.files.values())
        self.items, self.marks = self.names.items, self.names.marks
        self.masks = self.reached_by_names()
        rules = [(sum(1 << it for it in {it.index for it in when}), self.masks[item.index], item.file.crate) for when, item in self.names.rules()]
        seen = {crate: {crate, *repository.below(crate)} for crate in repository.uses}
        self.rules = {crate: [it[:2] for it in rules if it[2] in seen[crate]] for crate in seen}
        self.kept = {}

    def reached_by_names(self):
        """For each item all that it reaches by names alone, itself too, as a number with a bit for each."""
        edges = [[to.index for to in self.names.edges(it)] for it in self.items]
        masks = [0] * len(edges)
        for group in components(edges):
            mask = sum(1 << it for it in group)
            for at in group:
                for to in edges[at]:
                    mask |= masks[to]
            for at in group:
                masks[at] = mask
        return masks

    def closure(self, crate, start):
        """All that these items reach where this crate and those below it are seen, in the order of their marks."""
        mask = 0
        for item in start:
            mask |= self.masks[item.index]
        key = crate, mask
        if key not in self.kept:
            left, before = self.rules[crate], None
            while mask != before:
                before, waiting = mask, []
                for rule in left:
                    if rule[0] & ~mask:
                        waiting.append(rule)
                    else:
                        mask |= rule[1]
                left = waiting
            found = [self.items[it.start()] for it in re.finditer('1', f'{mask:b}'[::-1])]
            self.kept[key] = [it for it in found if it.kind != 'call']
        return self.kept[key]

    def start(self, crate, edit):
        """The items that an edit changes or names, and what its new text names; None where it goes by the whole crate."""
        if edit.lemma or any(inner.startswith('proofs/') for inner, _, _ in edit.pairs):
            return None
        found = self.names.functions(crate, edit.function)
        is_placed = bool(found)
        for inner, old, new in edit.pairs:
            file = self.files.get(f'crates/{crate}/{inner}')
            spans = [(it.start(), it.end()) for it in re.finditer(re.escape(old), self.texts[f'crates/{crate}/{inner}'])] if file else []
            around = [it for span in spans for it in file.items if it.span[0] <= span[1] and span[0] <= it.span[1]]
            is_placed = is_placed and len(spans) == 1 and any(it[0] <= spans[0][0] and spans[0][1] <= it[1] for it in [*(it.span for it in around), *file.use_spans])
            if is_placed:
                found += around + self.names.written(file, new, around[0].owner if around else None)
        return list(dict.fromkeys(found)) + self.imported(crate, edit) if is_placed else None

    def is_of_use(self, crate, inner, old):
        """Whether this text stands in a `use` line."""
        at = self.texts[f'crates/{crate}/{inner}'].index(old)
        return any(begin <= at < end for begin, end in self.files[f'crates/{crate}/{inner}'].use_spans)

    def imported(self, crate, edit):
        """What the `use` lines name that an edit writes."""
        found = []
        for inner in dict.fromkeys(inner for inner, old, new in edit.pairs if self.is_of_use(crate, inner, old) or 'use ' in new):
            file, text = self.files[f'crates/{crate}/{inner}'], self.texts[f'crates/{crate}/{inner}']
            for old, new in [it[1:] for it in edit.pairs if it[0] == inner]:
                text = text.replace(old, new)
            source = Source(self.repository.uses)
            again = source.read(crate, inner, text) if inner.endswith('.rt') else read_definitions(source, crate, inner, text)
            for _, path in {*again.uses} - {*file.uses}:
                found += self.names.path(file, path).items
        return found


def texts_of(root, crates):
    """The sources and the definitions of these crates, by their paths."""
    found = {}
    for crate in crates:
        for folder, ending in (('src', '.rt'), ('specs', '.antt')):
            for at, _, files in os.walk(f'{root}/crates/{crate}/{folder}'):
                for file in sorted(files):
                    if file.endswith(ending):
                        with open(f'{at}/{file}', encoding='utf-8') as it:
                            found[os.path.relpath(f'{at}/{file}', root)] = it.read()
    return dict(sorted(found.items()))


def main():
    repository = Repository(os.getcwd())
    reach = Reach(repository, texts_of(repository.root, repository.uses))
    for name in sys.argv[1:] or sys.exit(__doc__):
        crate, _, file = name.partition('/')
        edit = Edit(repository.folder(crate), f'{repository.folder(crate)}/must-fail/{file.removesuffix(".edit")}.edit')
        try:
            edit.read()
            start = reach.start(crate, edit)
        except BadEdit as error:
            sys.exit(f'{name}: {error}')
        if start is None:
            print(f'{edit.name} goes by all files of {crate}')
            continue
        reached = reach.closure(crate, start)
        for item in reached:
            print(f'{"*" if item in start else " "} {item.kind:10} {item.owner + "::" if item.owner else ""}{item.name:30} {item.file.where()}')
        print(f'{edit.name}: {len(reached)} items in {len({it.file.where() for it in reached})} files; those with * it changes or names itself')


if __name__ == '__main__':
    main()
