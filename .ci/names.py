"""What names stand for: which items of the repository a name in an item's text may mean, by the `use` lines of its file (.ci/reach.py).

A path that leads to nothing in a crate of this repository stands for all items of its last name that are seen there, and counts as it
is written; a path into another crate counts as it is written. Names of fields and variables are not looked up, but that something of
this name is called on a value is noted. An item's mark is made of its text and of the marks of what its names mean.
"""
import hashlib
import re

from items import Item, bare_of

NAME = re.compile(r"[^\W\d](?:[\w']|-(?=\w))*")
PATH = re.compile(r'[^\W\d]\w*(?:::[^\W\d]\w*)+')
GHOST_PATH = re.compile(r'[\w.+-]+')
IS_CALLED = re.compile(r'\(|::')
METHOD = re.compile(r'\bfn (\w+)')

# The folders of definitions that the prover writes, of what sources declare, and what stands there between a type and what is of it.
GENERATED = (('declared',), ('contracts',))
WITHIN_TYPES = ('TheVariants', 'TheConstants', 'TheInside')

TYPES = ('struct', 'enum', 'trait', 'type')

# Where an operator has its arguments.
HOLE = '◌'


class Found:
    """What a path means: items, or a module as its file; and what counts as it is written."""

    def __init__(self, items=(), module=None, notes=()):
        self.items, self.module, self.notes = frozenset(items), module, frozenset(notes)

    def types(self):
        return [it for it in self.items if it.kind in TYPES]

    def __or__(self, other):
        return Found(self.items | other.items, self.module or other.module, self.notes | other.notes)

    def __bool__(self):
        return bool(self.items or self.module or self.notes)


NOTHING = Found()


class Names:
    """All items of a tree, and what their names mean."""

    def __init__(self, crates, files):
        self.crates, self.files = crates, list(files)
        self.items, self.calls = [], {}
        self.modules = {(it.crate, it.folder, it.module): it for it in self.files}
        self.tables, self.by_name, self.methods, self.blocks, self.types, self.bodies = {}, {}, {}, {}, {}, {}
        for file in self.files:
            self.enter(file)
        self.scopes = {it: self.scope(it) for it in self.files}
        # (operators: a `use` line of one of this repository counts for the whole file, since `do` uses some without their signs)
        self.signs = {it: [name for name in {**self.scopes[it], **self.tables[it]} if not NAME.fullmatch(name)] for it in self.files}
        self.known, self.resolved = {}, {}
        self.named = {it: self.named_in(it.file, it.bare, it.owner) if it.file else {} for it in self.items}
        self.mark()

    def enter(self, file):
        """Takes in the items of a file, and what each declares."""
        table = self.tables.setdefault(file, {})
        self.items += file.items
        for item in file.items:
            at = file.crate, item.owner or item.name
            if item.kind in TYPES:
                self.types.setdefault(at, []).append(item)
            if item.kind == 'body':
                self.bodies.setdefault((file.crate, item.name), []).append(item)
            elif item.kind == 'block':
                self.blocks.setdefault(at, []).append(item)
            elif item.kind == 'fn' and item.owner:
                self.methods.setdefault(at, {}).setdefault(item.name, []).append(item)
            elif item.kind != 'impl':
                for name in item.names or (item.name,):
                    table.setdefault(name, []).append(item)
                    self.by_name.setdefault(name, []).append(item)
            called = [item.name] if item.kind == 'fn' and item.owner else METHOD.findall(item.bare) if item.kind in ('impl', 'trait') else ()
            for name in called:
                if name not in self.calls:
                    self.calls[name] = Item('call', name, name, '', None, (0, 0))
                    self.items.append(self.calls[name])

    def scope(self, file):
        """The names that a file's `use` lines give, each with its paths; where they aren't understood, each name that there is."""
        found = {}
        for name, path in file.uses:
            found.setdefault(name, set()).add(path)
        for name in self.by_name if file.is_odd else ():
            found.setdefault(name, {('crate', '?', name)})
        return {name: sorted(paths) for name, paths in found.items()}

    def call(self, name):
        """What stands for a call of this name on a value; nothing where no type has such a function."""
        return Found([self.calls[name]] if name in self.calls else [])

    # what a path means

    def lost(self, crate, path):
        """What a path is taken for that leads nowhere."""
        seen, left = set(), [crate]
        while left:
            at = left.pop()
            if at not in seen and at in self.crates:
                seen.add(at)
                left += self.crates[at]
        return Found([it for it in self.by_name.get(path[-1], ()) if it.file.crate in seen], notes=[f'?{"::".join(path)}'])

    def inside(self, file, name):
        """What a name means in a module: what it declares, a module below it, or what it uses."""
        if (file, name) not in self.known:
            below = self.modules.get((file.crate, 'src', (*file.module, name))) if file.folder == 'src' else None
            # (by way of itself it means what is there without that)
            found = self.known[file, name] = Found(self.tables[file].get(name, ()), below)
            paths = self.scopes[file].get(name, ())
            for path in paths:
                found |= self.path(file, path)
            if len(paths) > 1:
                found |= Found(notes=map('::'.join, paths))
            self.known[file, name] = found
        return self.known[file, name]

    def path(self, file, path):
        if (file, path) not in self.resolved:
            self.resolved[file, path] = NOTHING
            self.resolved[file, path] = self.of_definitions(file, path) if path[0] == 'Rattle' else self.of_sources(file, path)
        return self.resolved[file, path]

    def of_sources(self, file, path):
        """What a path of a source means: from its own crate, another, or a name of its file."""
        first, rest = path[0], path[1:]
        if first in ('crate', 'self', 'super'):
            module = {'crate': (), 'self': file.module, 'super': file.module[:-1]}[first]
            return self.walk(file, path, Found(module=self.modules.get((file.crate, 'src', module))), rest)
        if first in self.crates:
            return self.walk(file, path, Found(module=self.modules.get((first, 'src', ()))), rest)
        below = self.modules.get((file.crate, 'src', (*file.module, first)))
        if below or rest and (first in self.tables[file] or first in self.scopes[file]):
            return self.walk(file, path, self.inside(file, first), rest)
        return Found(notes=['::'.join(path)])

    def walk(self, file, path, found, rest):
        """What the rest of a path means behind this."""
        for at, part in enumerate(rest):
            step = self.inside(found.module, part) if found.module else NOTHING
            if not step and found.types():
                step = self.of_types(found, part)
            if not step and found.notes and not found.items:
                return Found(notes=[f'{it}::{"::".join(rest[at:])}' for it in found.notes])
            if not step:
                return self.lost(file.crate, path)
            found = step
        return found if found else self.lost(file.crate, path)

    def of_types(self, found, part):
        """What a part of a type's path means: its functions of that name, or else what the type has, or is implemented for it."""
        own = [fn for it in found.types() for fn in self.methods.get((it.file.crate, it.name), {}).get(part, ())]
        is_sure = own and all(it.kind in ('struct', 'enum') for it in found.types())
        return found | Found(own) | (NOTHING if is_sure else self.call(part))

    def of_definitions(self, file, path):
        """What a path of definitions means: into a file of specs/, or into what the prover writes of the types that sources declare."""
        crate, rest = path[1] if len(path) > 1 else '', path[2:]
        if crate not in self.crates:
            return Found(notes=['.'.join(path)])
        if rest[:1] == ('specs',) and rest[1:2] in GENERATED:
            return self.declared(file, path, rest[2:])
        for cut in range(len(rest), 0, -1):
            module = self.modules.get((crate, 'specs', rest[:cut]))
            if module:
                return self.walk(file, path, Found(module=module), rest[cut:][:1])
        return self.lost(file.crate, path)

    def declared(self, file, path, rest):
        found = Found(module=self.modules.get((path[1], 'src', ())))
        for part in rest:
            if found.items or not found.module:
                break
            found = found if part in WITHIN_TYPES else self.inside(found.module, part)
        return found or self.lost(file.crate, path)

    # the names of a text

    def named_in(self, file, bare, owner):
        """What the names of a text in a file mean, by the names."""
        met = {}
        table, scope = self.tables[file], self.scopes[file]
        for token in NAME.finditer(bare):
            name, begin, end = token[0], token.start(), token.end()
            if bare.startswith('::', max(begin - 2, 0)):
                continue
            path = PATH.match(bare, begin) if bare.startswith('::', end) else None
            if path:
                met[path[0]] = self.of_path(file, tuple(path[0].split('::')), owner)
                continue
            if bare[begin - 1 : begin] == '.' and bare[begin - 2 : begin - 1] != '.' and IS_CALLED.match(bare, end):
                met[f'.{name}'] = self.call(name)
            if bare.startswith('.', end) and (name == 'Rattle' or name in scope):
                self.meet_dotted(file, bare, token, met)
            if name in table or name in scope:
                met[name] = self.inside(file, name)
            elif '-' in name:
                met.update({part: self.inside(file, part) for part in name.split('-') if part in table or part in scope})
        for name in self.signs[file]:
            found = self.inside(file, name)
            if found.items and HOLE in name or all(part in bare for part in name.split(HOLE)):
                met[name] = found
        return {name: found for name, found in met.items() if found.items or found.notes}

    def meet_dotted(self, file, bare, token, met):
        """What a name with a point behind it means: a path of definitions, or what is of a module that the file has a name for."""
        if token[0] == 'Rattle':
            whole = GHOST_PATH.match(bare, token.start())[0]
            met[whole] = self.path(file, tuple(whole.rstrip('.').split('.')))
        else:
            module, part = self.inside(file, token[0]).module, NAME.match(bare, token.end() + 1)
            if module and part and module.folder == 'specs':
                met[f'{token[0]}.{part[0]}'] = self.inside(module, part[0]) or self.lost(file.crate, (token[0], part[0]))

    def of_path(self, file, path, owner):
        if path[0] == 'Self':
            types = Found(self.types.get((file.crate, owner), ()))
            return self.of_types(types, path[1]) | self.call(path[1])
        if path[0] in ('crate', 'self', 'super', *self.crates) or self.inside(file, path[0]):
            return self.path(file, path)
        # (of a parameter, or of what needs no `use`)
        return self.call(path[-1])

    def written(self, file, text, owner):
        """The items that the names of a text mean which an edit writes there."""
        return [it for found in self.named_in(file, bare_of(file, text), owner).values() for it in found.items]

    # what leads where

    def edges(self, item):
        """What an item leads to by itself: what it names, its type, and what a type or a body brings."""
        found = {it for met in self.named[item].values() for it in met.items}
        crate = item.file.crate if item.file else None
        if item.kind in TYPES:
            found.update(self.blocks.get((crate, item.name), ()))
        if item.owner:
            found.update(self.types.get((crate, item.owner), ()))
        if item.kind == 'body':
            found.update(it for it in item.file.items if it.kind in ('fn', 'impl') and it.span[0] <= item.span[0] and item.span[1] <= it.span[1])
        return found

    def rules(self):
        """What is reached once several others are: a function that is called on a value of its type, and what is implemented."""
        for (crate, owner), named in self.methods.items():
            of = self.types.get((crate, owner), [])
            for name, functions in named.items():
                for function in functions:
                    yield from (([self.calls[name], it], function) for it in of or [self.calls[name]])
        for item in self.items:
            if item.kind == 'impl':
                yield from self.rules_of_impl(item)
            elif item.kind == 'other':
                # (it may write a block for any type)
                yield [], item

    def rules_of_impl(self, item):
        """By the types that it is for; where none is of this repository, by its trait or by a call of what it has."""
        subject = self.types_in(item.file, re.findall(r'[A-Z]\w*', item.head))
        trait = self.types_in(item.file, item.names)
        if subject:
            yield subject, item
        elif trait:
            yield trait, item
            for name in METHOD.findall(item.bare):
                yield [self.calls[name]], item
        else:
            yield [], item

    def types_in(self, file, names):
        return [it for name in names for it in self.inside(file, name).types()]

    def functions(self, crate, path):
        """The functions, with their bodies, that a path of an edit may name: those of its type or module, or else all of the name."""
        before, _, name = path.rpartition('::')
        of = before.rpartition('::')[2]
        named = self.bodies.get((crate, name), [])
        own = [it for it in named if it.owner == of and not it.head or not it.owner and it.file.module[-1:] == (of,)]
        return list(own or named)

    def mark(self):
        """Gives each item its mark, and its number by that."""
        marks = {it: digest(it.kind, it.name, it.text) for it in self.items}
        said = {it: [(name, ' '.join(sorted(met.notes)), met.items) for name, met in sorted(self.named[it].items())] for it in self.items}
        for _ in range(2):
            marks = {it: digest(marks[it], *(f'{name} {notes} {" ".join(sorted(marks[to] for to in means))}' for name, notes, means in said[it]))
                     for it in self.items}
        self.marks = marks
        self.items.sort(key=marks.get)
        for at, item in enumerate(self.items):
            item.index = at


def digest(*parts):
    return hashlib.sha256('\0'.join(parts).encode()).hexdigest()[:32]
