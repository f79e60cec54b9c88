#!/usr/bin/env python3
"""Tells what the pages of crates, `crates/NAME/README.md`, say that isn't so.

    .ci/crate_pages.py    at the top of the repository: status 0 where all is so; the last line counts pages and faults

All lines of a block of code stand, in their order and up to indentation, in one file that calls the crate and is compiled and run: of the
direct calls, of those that are refused memory, or of the sources of another crate. A name in backticks is of the crate (a type, function,
clause or definition), or of the crate that is named after it, `Mode` of `mpd_model`; a file `specs/X.antt` is there, and so are the pages
of docs/ and their sections. Functions have the clauses that are cited of them (.ci/cited.py). A page has at most 15 lines, without blank
ones and the fences of code, and none of more than 100 columns.
"""
import glob
import os
import re
import sys

from cited import clauses, faults, names_in
from growing import paragraphs

# The crates that others than this program call: each has a page.
CALLED = ('mpd_model', 'mpd_script', 'mpd_code', 'mpd_queue', 'mpd_rank', 'mpd_match', 'mpd_core', 'mpd_trail', 'mpd_policy', 'mpd_explore',
          'mpd_pool', 'mpd_wire', 'mpd_session', 'mpd_names', 'mpd_outcomes', 'mpd_witness', 'mpd_trace', 'mpd_server', 'mpd_check',
          'mpd_explain', 'mpd_blame', 'mpd_diagnose', 'mpd_runs', 'mpd_lines')
LINES_MAX, COLUMNS_MAX = 15, 100
CALLERS = ('compare/probe/direct/*.rattle', 'compare/probe/memory/*.rattle', 'crates/*/src/**/*.rt')
# What a file of sources declares, variants and fields among it; and a file of definitions.
DECLARED = re.compile(r'\b(?:fn|struct|enum|trait|type|const|ghost|requires|ensures) (\w+)|^ +pub (\w+):|^    ([A-Z]\w*)(?=[,({]|$)', re.M)
DEFINED = re.compile(r'^ *(?:[a-z]+ )?pub (?:record |data )?(\w+)', re.M)
QUOTED = re.compile(r'`([^`]+)`(?: of `(mpd_\w+)`)?')
SECTIONS = re.compile(r'(docs/\w+\.md)((?:(?:,| and|, and) "[^"]+")*)')


def read(path):
    with open(path, encoding='utf-8') as it:
        return it.read()


class Sources:
    """What the repository has that pages name."""

    def __init__(self, root):
        self.root, self.known = root, {}
        self.all_cited = clauses(root)
        self.callers = {path.removeprefix(f'{root}/'): [it.strip() for it in read(path).split('\n')]
                        for pattern in CALLERS for path in sorted(glob.glob(f'{root}/{pattern}', recursive=True))}

    def names(self, crate):
        """All names that a crate declares."""
        if crate not in self.known:
            found = [(DECLARED, it) for it in glob.glob(f'{self.root}/crates/{crate}/src/**/*.rt', recursive=True)]
            found += [(DEFINED, it) for it in glob.glob(f'{self.root}/crates/{crate}/specs/**/*.antt', recursive=True)]
            self.known[crate] = {name for what, path in found for it in what.finditer(read(path)) for name in it.groups() if name}
        return self.known[crate]

    def cited(self, crate):
        """What functions ensure, where a name that this crate has means its own."""
        own = f'{crate}::'
        return {**self.all_cited, **{it.removeprefix(own): of for it, of in self.all_cited.items() if it.startswith(own)}}

    def is_there(self, path):
        return os.path.exists(f'{self.root}/{path}')


def in_order(lines, text):
    """How many of these lines stand in a text, the first one first."""
    at = 0
    for line in text:
        if at < len(lines) and line == lines[at]:
            at += 1
    return at


def split(page):
    """The blocks of code, each as its lines with their numbers; and the page with blank lines in place of them."""
    blocks, rest, is_code = [], [], False
    for number, line in enumerate(page.split('\n'), 1):
        is_fence = line.startswith('```')
        if is_fence:
            blocks += [] if is_code else [[]]
            is_code = not is_code
        elif is_code and line.strip():
            blocks[-1].append((number, line.strip()))
        rest.append('' if is_code or is_fence else line)
    return blocks, '\n'.join(rest)


def faults_of_code(sources, crate, blocks):
    """The first line of each block that no caller has behind those before it."""
    for block in blocks:
        lines = [line for _, line in block]
        most = max((in_order(lines, text) for path, text in sources.callers.items() if not path.startswith(f'crates/{crate}/')), default=0)
        if most < len(lines):
            yield block[most][0], f'no caller has this line{" behind those before it" if most else ""}: {lines[most]}'


def unknown(sources, crate, piece, of):
    """What isn't there of a piece in backticks, on the page of this crate."""
    if '/' in piece or piece.endswith('.antt'):
        if not any(sources.is_there(f'{folder}{piece}') for folder in (f'crates/{of or crate}/', 'crates/', '')):
            yield f'no file {piece}'
        return
    for name in names_in(f'`{piece}`'):
        parts = name.split('::')
        owner = parts.pop(0) if re.fullmatch(r'mpd_\w+|mpdbg', parts[0]) else of or crate
        if re.fullmatch(r'\w+(::\w+)*', name):
            if not sources.is_there(f'crates/{owner}'):
                yield f'no crate {owner}'
            yield from (f'no {name} in {owner}' for it in parts if it not in sources.names(owner))


def faults_of_text(sources, crate, text):
    """What the text names that isn't there, by paragraphs."""
    cited = sources.cited(crate)
    for lines in paragraphs(text):
        lines = [(number, line.strip()) for number, line in lines if line.strip()]
        number, said = lines[0][0] if lines else 0, ' '.join(line for _, line in lines)
        found = [it for piece, of in QUOTED.findall(said) for it in unknown(sources, crate, piece, of)]
        # (what begins with a capital after its type is no function)
        found += [it for it in faults(said, cited) if not re.fullmatch(r'no function \w+::[A-Z]\w*', it)]
        for page, titles in SECTIONS.findall(said):
            heads = re.findall(r'(?m)^#+ (.*)', read(f'{sources.root}/{page}')) if sources.is_there(page) else None
            found += [f'no file {page}'] if heads is None else [f'no section {it} in {page}' for it in re.findall('"([^"]+)"', titles) if it not in heads]
        yield from ((number, it) for it in found)


def faults_of_page(sources, crate, page):
    """All that a page says that isn't so, each with a line's number."""
    blocks, text = split(page)
    lines = [it for it in page.split('\n') if it.strip() and not it.startswith('```')]
    if len(lines) > LINES_MAX:
        yield 1, f'{len(lines)} lines, and not {LINES_MAX} at most'
    yield from ((number, f'{len(line)} columns') for number, line in enumerate(page.split('\n'), 1) if len(line) > COLUMNS_MAX)
    yield from faults_of_code(sources, crate, blocks)
    yield from faults_of_text(sources, crate, text)


def all_faults(root, called=CALLED):
    """How many pages there are; and what is wrong, each with its place."""
    sources = Sources(root)
    pages = sorted(it.split('/')[-2] for it in glob.glob(f'{root}/crates/*/README.md'))
    found = [f'crates/{crate}: has no README.md' for crate in called if crate not in pages]
    for crate in pages:
        path = f'crates/{crate}/README.md'
        found += [f'{path}:{number}: {it}' for number, it in faults_of_page(sources, crate, read(f'{root}/{path}'))]
    return len(pages), found


def main():
    pages, found = all_faults('.')
    for it in found:
        print(it)
    print(f'{pages} pages of crates, {len(found)} faults')
    return 1 if found else 0


if __name__ == '__main__':
    sys.exit(__doc__ if len(sys.argv) > 1 else main())
