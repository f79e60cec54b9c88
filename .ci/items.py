"""The items of the sources: functions, types, blocks and definitions, each with its text as a digest takes it (.ci/reach.py).

An item's text has no comment, no `use`, no word of visibility, no layout and no path in front of a name of this repository, so it
is the same wherever the item stands. What changes no verdict isn't in it either: the body of a function, unless it is evaluated as
it is compiled, and the attributes that guide the search for a proof, or the compiler. A function has a second item, with its body.

The layout is that of `rt fmt`. Where a file has something that isn't read here, `is_odd` says so, and its items count as one.
"""
import re
from dataclasses import dataclass, field

# What stands in a source and is no code: comments, and texts and letters in quotes.
COMMENT_OR_TEXT = re.compile(r'''//[^\n]*|/\*.*?\*/|(?<!\w)b?r(#*)".*?"\1|(?<!\w)b?"(?:\\.|[^"\\])*"|(?<![\w'])b?'(?:\\(?:u\{\w*\}|x\w\w|.)|[^\\'\n])\'''', re.S)

# A line of a file of definitions that is a comment.
NOTE = re.compile(r'(?m)^ *--.*$')

# What imports names, in sources and in files of definitions.
USE = re.compile(r'(?m)^ *(?:pub(?:\([^)]*\))? )?(ghost )?use ([^;]+);')
USE_OF_DEFINITIONS = re.compile(r'(?m)^(?:pub )?use (\S+?)(?:\.\{([^}]*)\}| as (\S+))?[ ]*$')

# Attributes that guide the search for a proof, and hints to the compiler: how they begin.
GUIDES = re.compile(r'#!?\[(?:tactic|inline|cold|must_use|allow)\b')

VISIBLE = r'\bpub(?:\([^)]*\))? '

KIND = re.compile(r'(?:(?:const |unsafe |extern "+ )*(fn) (\w+)|(const|static|struct|enum|type|trait|mod) (\w+)|(impl)\b|(macro_rules)! *(\w+))')

# How a declaration begins in a file of definitions, and the lines that carry one on.
DECLARATION = re.compile(r'(?:(?:pub|abbrev|unfoldable) )*(?:(?:data|record) (\S+)|(\S+) :(?= |$))')
SECTION = re.compile(r'module _ |(?:(?:abbrev|unfoldable) )*mutual$')
FIXITY = re.compile(r'infix[lr]? \d+ (\S+)')
INNER_NAME = re.compile(r'(?m)^ +(?:(?:pub|abbrev|unfoldable) )*(?:(?:data|record) (\S+)|(\S+) :(?= |$))')


@dataclass(eq=False)
class Item:
    """A piece of a source. `bare` has spaces in place of texts in quotes, so that names are read in it."""
    kind: str
    name: str
    text: str
    bare: str
    file: object
    span: tuple
    owner: str = None
    # of a block: the types in its head that tell whether it counts, and its trait
    head: str = ''
    names: tuple = ()
    index: int = field(default=-1, repr=False)


class File:
    """A source or a file of definitions: its items, and the paths that its `use` lines name."""

    def __init__(self, crate, path, module):
        self.crate, self.path, self.module, self.folder = crate, path, module, path.partition('/')[0]
        self.items, self.uses, self.use_spans, self.attributes = [], [], [], []
        self.is_odd = False

    def where(self):
        return f'crates/{self.crate}/{self.path}'

    def spread(self):
        """Where it isn't understood, each of its items has all of its text, and its names."""
        text = '\n'.join([*(it.text for it in self.items), *('::'.join(path) for name, path in self.uses if name == '*')])
        bare = '\n'.join(it.bare for it in self.items)
        for it in self.items if self.is_odd else ():
            it.text, it.bare = text, bare
        return self

    def add(self, kind, name, text, bare, span, **more):
        self.items.append(Item(kind, name, text, bare, self, span, **more))
        return self.items[-1]


def blank(text, spans):
    """The text with spaces in place of these pieces, but for the ends of lines."""
    parts, last = [], 0
    for begin, end in sorted(spans):
        parts += [text[last:begin], re.sub(r'[^\n]', ' ', text[max(begin, last) : end])]
        last = max(last, end)
    return ''.join([*parts, text[last:]])


def two_texts(text):
    """A source without comments, and the same without what stands in quotes; both as long as it."""
    plain, bare, last = [], [], 0
    for found in COMMENT_OR_TEXT.finditer(text):
        between, said = text[last : found.start()], found[0]
        is_comment = said.startswith(('//', '/*'))
        spaces = re.sub(r'[^\n]', ' ', said)
        plain += [between, spaces if is_comment else said]
        bare += [between, spaces if is_comment else '"' * len(said)]
        last = found.end()
    return ''.join([*plain, text[last:]]), ''.join([*bare, text[last:]])


def closing(bare, begin):
    """Where the bracket closes that opens here."""
    depth = 0
    for found in re.compile(r'[(\[{]|[)\]}]').finditer(bare, begin):
        depth += 1 if found[0] in '([{' else -1
        if not depth:
            return found.end()
    return len(bare)


def chunks(bare, begin, end, indent):
    """The pieces of a text that begin at this indentation: from their attributes to the brace or the semicolon that ends them."""
    at, start, depth = begin, None, 0
    while at < end:
        stop = bare.find('\n', at, end)
        stop = end if stop < 0 else stop
        line = bare[at:stop]
        said = line.strip()
        if said and start is None:
            start = at
        depth += sum(map(line.count, '([{')) - sum(map(line.count, ')]}'))
        is_whole = said.endswith(';') or said.startswith('#![') or said.endswith('}') and line.startswith(' ' * indent) and line[indent : indent + 1] != ' '
        if start is not None and not depth and is_whole:
            yield start, stop
            start = None
        at = stop + 1
    if start is not None:
        yield start, end


def behind_attributes(bare, begin, end):
    """Where a piece begins behind its attributes and its word of visibility."""
    while True:
        begin += len(bare[begin:end]) - len(bare[begin:end].lstrip())
        if not bare.startswith('#[', begin):
            break
        begin = closing(bare, begin + 1)
    seen = re.compile(VISIBLE).match(bare, begin)
    return seen.end() if seen else begin


def body_in(bare, begin, end):
    """Where the body of a function begins, the last of its braces; its end where it has none."""
    if not bare[begin:end].rstrip().endswith('}'):
        return end
    at = last = begin
    while True:
        found = re.compile(r'[(\[{]').search(bare, at, end)
        if not found:
            return last
        last, at = found.start(), closing(bare, found.start())


def paths_of(said, above=()):
    """What a `use` names: pairs of the name that it gives, and the path."""
    said = said.strip()
    opened = said.find('{')
    if opened >= 0:
        front = [*above, *(it for it in said[:opened].split('::') if it.strip())]
        parts, depth, last = [], 0, opened + 1
        for at in range(opened + 1, len(said)):
            depth += (said[at] == '{') - (said[at] == '}')
            if depth < 0 or said[at] == ',' and not depth:
                parts.append(said[last:at])
                last = at + 1
            if depth < 0:
                break
        return [pair for part in parts if part.strip() for pair in paths_of(part, front)]
    path, _, name = said.partition(' as ')
    path = [*above, *path.strip().split('::')]
    if path[-1] == 'self':
        path = path[:-1]
    return [(name.strip() or path[-1], tuple(path))]


def names_of_definitions(path, names, name):
    """What a `use` of definitions names, as `paths_of`."""
    path = tuple(path.split('.'))
    if names is None:
        return [(name or path[-1], path)]
    pairs = [it.split(' as ') for it in names.split(',') if it.strip()]
    return [(it[-1].strip(), (*path, it[0].strip())) for it in pairs]


class Source:
    """Reads a source into its items."""

    def __init__(self, crates):
        # (the path in front of a name of this repository, whose last part it ends before, or a part that begins with a capital)
        front = '|'.join(sorted(crates))
        self.said = re.compile(rf'("(?:\\.|[^"\\])*"|r(#+)".*?"\2)|{VISIBLE}|(?<![\w:])(?:crate|self|super|{front})::(?:[a-z_]\w*::)*|(?<![\w.])Rattle\.(?:{front})\.(?:[\w+-]+\.)*|(\s+)', re.S)

    def normal(self, text):
        """A text without layout, visibility and the paths in front of names."""
        return self.said.sub(lambda it: it[1] or (' ' if it[3] else ''), text).strip()

    def read(self, crate, path, text):
        inner = path.removeprefix('src/').removesuffix('.rt')
        file = File(crate, path, () if inner in ('lib', 'main') else tuple(inner.split('/')))
        plain, bare = two_texts(text)
        spans = [(it.start(), closing(bare, it.start() + it[0].index('['))) for it in GUIDES.finditer(bare)]
        for found in USE.finditer(bare):
            said = ' '.join(found[2].split())
            if found[1]:
                ghost = USE_OF_DEFINITIONS.match(f'use {said}')
                file.uses += names_of_definitions(*ghost.groups()) if ghost else []
                file.is_odd |= not ghost
            else:
                file.uses += paths_of(said)
            file.use_spans.append(found.span())
        spans += file.use_spans
        plain, bare = blank(plain, spans), blank(bare, spans)
        file.is_odd |= any(name == '*' for name, _ in file.uses)
        for span in chunks(bare, 0, len(bare), 0):
            self.take(file, plain, bare, *span)
        return file.spread()

    def take(self, file, plain, bare, begin, end, owner=None, is_of_trait=False, indent=0):
        """The items of one piece; answers the texts of it that the block around it has."""
        at = behind_attributes(bare, begin, end)
        found = KIND.match(bare, at, end)
        if bare.startswith('#![', at):
            file.attributes.append(self.normal(plain[at:end]))
        elif not found and not owner:
            file.is_odd = True
            file.add('other', '', self.normal(plain[begin:end]), bare[begin:end], (begin, end))
        elif not found:
            return (begin, end),
        elif found[1]:
            return self.take_function(file, plain, bare, begin, end, at, found, owner, is_of_trait)
        elif found[3] == 'mod':
            if not bare[begin:end].rstrip().endswith(';'):
                file.is_odd = True
                file.add('other', found[4], self.normal(plain[begin:end]), bare[begin:end], (begin, end))
        elif found[5]:
            self.take_block(file, plain, bare, begin, end, at, indent)
        elif owner:
            return (begin, end),
        else:
            file.add(found[3] or 'macro', found[4] or found[7], self.normal(plain[begin:end]), bare[begin:end], (begin, end))
        return ()

    def take_function(self, file, plain, bare, begin, end, at, found, owner, is_of_trait):
        body = body_in(bare, at, end)
        # (a body that is evaluated by the compiler counts, and one that tells a type)
        is_seen = 'const ' in bare[at : found.start(2)] or '-> impl' in bare[at:body]
        seen = end if is_seen else body
        if not is_of_trait:
            file.add('fn', found[2], self.normal(plain[begin:seen]), bare[begin:seen], (begin, end), owner=owner)
        file.add('body', found[2], self.normal(plain[begin:end]), bare[begin:end], (begin, end), owner=owner, head=is_of_trait)
        return ((begin, seen),) if is_of_trait else ()

    def take_block(self, file, plain, bare, begin, end, at, indent):
        """A block of a type: of a trait one item, with all but bodies; else its head, with what is in it beside functions."""
        opened = bare.index('{', at)
        head = ' '.join(bare[at:opened].split())
        behind = head[closing_angle(head, 4) if head.startswith('impl<') else 4 :]
        trait, of, typed = behind.partition(' for ')
        subject = typed if of else trait
        owner = next(iter(re.findall(r'[A-Z]\w*', subject)), None) or 'no type'
        spans = [(begin, opened + 1)]
        for span in chunks(bare, opened + 1, closing(bare, opened) - 1, indent + 4):
            spans += self.take(file, plain, bare, *span, owner=owner, is_of_trait=trait.strip() if of else False, indent=indent + 4)
        text = ' '.join(self.normal(plain[begin:end]) for begin, end in spans)
        file.add('impl' if of else 'block', owner, text, '\n'.join(bare[begin:end] for begin, end in spans), (begin, end), owner=owner,
                 head=subject.partition(' where ')[0], names=tuple(re.findall(r'[A-Z]\w*', trait)) if of else ())


def closing_angle(text, begin):
    """Where the angle bracket closes that opens here."""
    depth = 0
    for at in range(begin, len(text)):
        depth += (text[at] == '<') - (text[at] == '>' and text[at - 1] != '-')
        if not depth:
            return at + 1
    return len(text)


def without_quotes(text):
    return re.sub(r'"(?:\\.|[^"\\\n])*"', lambda it: '"' * len(it[0]), text)


def bare_of(file, text):
    """A text as it would stand in this file, without comments and what stands in quotes."""
    return two_texts(text)[1] if file.folder == 'src' else without_quotes(text)


def declared_at(text):
    """The declarations of a file of definitions: each its names, and where it begins. None where a line isn't understood."""
    found, names = [], ()
    for line in re.finditer(r'(?m)^\S.*$', text):
        said = line[0]
        head = DECLARATION.match(said)
        if re.match(r'(?:pub )?(?:use|mod) ', said):
            names = ()
            continue
        if SECTION.match(said):
            names = ('module',)
        elif FIXITY.fullmatch(said):
            names = (FIXITY.fullmatch(said)[1],)
        elif head and (head[1] or head[2]) not in names:
            names = (head[1] or head[2],)
        elif names and (said.split()[0] in ('unfolding', *names) or said[0] in ')}]' or '◌' in names[0]):
            continue
        else:
            return None
        found.append((names, line.start()))
    return found


def read_definitions(source, crate, path, text):
    """Reads a file of definitions: each declaration with its equations is an item, a section with all that it declares is one."""
    file = File(crate, path, tuple(path.removesuffix('.antt').split('/')))
    plain = NOTE.sub(lambda it: ' ' * len(it[0]), text)
    for found in USE_OF_DEFINITIONS.finditer(plain):
        file.uses += names_of_definitions(*found.groups())
        file.use_spans.append(found.span())
    begun = declared_at(plain)
    lines = [it for it in re.findall(r'(?m)^(?:pub )?use .*$', plain) if not USE_OF_DEFINITIONS.fullmatch(it)]
    if begun is None or lines:
        file.is_odd = True
        begun = [(tuple(dict.fromkeys(re.findall(r'(?m)^(?:(?:pub|abbrev|unfoldable|data|record) )*(\S+)', plain))), 0)]
    ends = [begin for _, begin in begun[1:]] + [len(plain)]
    for (names, begin), end in zip(begun, ends):
        said = re.sub(r'(?m)^(?:pub )?(?:use|mod) .*$', '', plain[begin:end])
        is_wide = names == ('module',) or re.match(r'(?:pub )?data ', said)
        inner = tuple(it[1] or it[2] for it in INNER_NAME.finditer(said)) if is_wide else ()
        names = inner if names == ('module',) and inner else (*names, *inner)
        lines = [re.sub(r'^( *)((?:abbrev |unfoldable )?)pub ', r'\1\2', it.rstrip()) for it in said.split('\n') if it.strip()]
        text = '\n'.join(source.said.sub(lambda it: it[0] if it[1] or it[3] else '', it) for it in lines)
        file.add('definition', names[0], text, without_quotes(said), (begin, end), names=names)
    return file.spread()
