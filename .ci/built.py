#!/usr/bin/env python3
"""Says of which crates the edits can be tried with no proof: those below which each library is built in the tree's out/ folders.

    .ci/built.py    at the top of the repository: a line for each crate that has edits, `NAME can be tried`, `NAME lacks LIBRARY`,
                    or `NAME lacks LIBRARY and is due`, where .ci/refused.txt doesn't answer for all its edits

`rt check` of a crate builds the libraries below it, and `rt lib` one by itself. One counts if it is built from the sources, under the kit, that
are there now, as `rt` itself judges it. Where a kit doesn't tell that, only crates with none of the repository's below them can be tried.
"""
import os
import sys

sys.dont_write_bytecode = True
sys.path.insert(0, os.path.dirname(os.path.abspath(__file__)))

import record
from rounds import Crate, Repository


class Libraries:
    """The libraries of the repository's crates, as they stand in out/ folders."""

    def __init__(self, repository):
        self.repository, self.found = repository, {}

    def is_built(self, crate):
        if crate not in self.found:
            self.found[crate] = self.asked(crate)
        return self.found[crate]

    def asked(self, crate):
        """What the kit says of it."""
        kit = f'{self.repository.kit}/bin'
        if kit not in sys.path:
            sys.path.append(kit)
        try:
            import rtlib  # pylint: disable=import-error,import-outside-toplevel
            return rtlib.Crate(os.path.abspath(self.repository.folder(crate)), os.path.abspath(self.repository.root), {}).is_built()
        except (ImportError, AttributeError, TypeError, OSError):
            return False

    def lacking(self, crate):
        """The first library below the crate that isn't built; None if all are."""
        return next((it for it in self.repository.below(crate) if not self.is_built(it)), None)


def with_edits(repository):
    """The crates that have edits; of each it is told whether any of these is due."""
    crates = [it for it in (Crate(repository, name) for name in repository.uses) if it.edits or it.bad]
    digests = record.digests(repository, [it.name for it in crates])
    known = {it.digest for is_here in (True, False) for it in record.read(repository, is_here).values()}
    for crate in crates:
        crate.is_due = bool(crate.bad) or any(digests[crate.name].get(it.name) not in known for it in crate.edits)
    return crates


def lines(crates, libraries):
    """What is said of each of these crates."""
    for crate in crates:
        lacks = libraries.lacking(crate.name)
        yield f"{crate.name} lacks {lacks}{' and is due' * crate.is_due}" if lacks else f'{crate.name} can be tried'


def main():
    if len(sys.argv) > 1:
        sys.exit(__doc__)
    repository = Repository(os.getcwd())
    for line in lines(with_edits(repository), Libraries(repository)):
        print(line)


if __name__ == '__main__':
    main()
