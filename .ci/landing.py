#!/usr/bin/env python3
"""Tells whether only docs differ between a commit and this tree.

    .ci/landing.py COMMIT    at the top of the repository: status 0 where only files that end in .md differ, or none
"""
import os
import subprocess
import sys


def changed(root, commit):
    """The files of the tree that differ from the commit's, those that are gone or that git doesn't know yet among them; None where
    that can't be told."""
    asked = (['diff', '--no-ext-diff', '--no-renames', '--name-only', '-z', f'{commit}^{{commit}}', '--'],
             ['ls-files', '--others', '--exclude-standard', '-z'])
    found = []
    for words in asked:
        try:
            ran = subprocess.run(['git', '-C', root, *words], stdin=subprocess.DEVNULL, capture_output=True, text=True)
        except OSError:
            return None
        if ran.returncode:
            return None
        found += [it for it in ran.stdout.split('\0') if it]
    return found


def is_of_docs(root, commit):
    """Whether all files that differ are docs: texts for a reader, which end in `.md`."""
    found = changed(root, commit)
    return found is not None and all(it.endswith('.md') for it in found)


if __name__ == '__main__':
    sys.exit(__doc__ if len(sys.argv) != 2 else 0 if is_of_docs(os.getcwd(), sys.argv[1]) else 1)
