#!/usr/bin/env python3
"""Tells which files docs/GROWING.md names that are not there.

    .ci/growing.py    at the top of the repository: status 0 where all are

A piece in backticks with a slash in it, or that ends as a file does, names a file or a folder: from the top, or below `crates/`; by its
end alone where the same paragraph, or row of a table, names its crate. A proof or a definition may stand without its `.antt`.
"""
import os
import re
import sys

PAGE = 'docs/GROWING.md'
ENDS = ('.rt', '.antt', '.py', '.md')


def listed(root):
    """All files and folders of the repository, from the top, without what is built."""
    found = set()
    for folder, folders, files in os.walk(root):
        folders[:] = [it for it in folders if it not in ('.git', 'out', '__pycache__')]
        found.update(os.path.relpath(f'{folder}/{it}', root) for it in folders + files)
    return found


def is_there(name, crates, found):
    """Whether a name of a line that names these crates is that of a file or a folder."""
    for one in (name, f'{name}.antt'):
        if one in found or f'crates/{one}' in found:
            return True
        if any(it.startswith(f'crates/{crate}/') and it.endswith(f'/{one}') for it in found for crate in crates):
            return True
    return False


def paragraphs(text):
    """The lines of each paragraph, item of a list or row of a table, each with its number."""
    found = [[]]
    for number, line in enumerate(text.split('\n'), 1):
        if not line.strip() or re.match(r' *(?:[-*|]|\d+\.)', line):
            found.append([])
        found[-1].append((number, line))
    return found


def missing(text, found):
    """The files that a text names and that are not there, each with the number of its line."""
    gone = []
    for lines in paragraphs(text):
        pieces = [(number, it) for number, line in lines for it in re.findall(r'`([^`]+)`', line)]
        crates = {it.split('/')[0] for _, it in pieces if f"crates/{it.split('/')[0]}" in found}
        names = [(number, it.strip('/')) for number, it in pieces if ' ' not in it and ('/' in it or it.endswith(ENDS))]
        gone += [(number, it) for number, it in names if not is_there(it, crates, found)]
    return gone


def main():
    with open(PAGE, encoding='utf-8') as it:
        gone = missing(it.read(), listed('.'))
    for number, name in gone:
        print(f'{PAGE}:{number}: {name} is not there')
    return 1 if gone else 0


if __name__ == '__main__':
    sys.exit(__doc__ if len(sys.argv) > 1 else main())
