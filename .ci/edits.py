#!/usr/bin/env python3
"""Tries the must-fail edits of the crates (docs/GATE.md, "Edits"), as many in one check as can be.

    .ci/edits.py [--jobs N] [--only EDIT].. [--controls] [--log FOLDER] [CRATE..]    at the top of the repository
    .ci/edits.py --record [CRATE..]              all edits of these crates, or of all; .ci/refused.txt has those that were refused
    .ci/edits.py --due                           those that .ci/refused.txt doesn't answer for, and a twentieth of the rest; it has those
                                                 of the former that were refused

What an edit's file says is in .ci/edit_files.py, how edits are put into rounds in .ci/rounds.py, when one counts as refused in
.ci/told.py, what is remembered of an earlier run in .ci/record.py, and what an edit reaches, by which that answers, in .ci/reach.py.

The crates below are read as they were built: `rt lib` builds those that are not, or `--built` names a copy that rt ci proved, as in
.ci/run. Each crate's checks begin with what earlier checks kept in its out/ folder, where they did. Each edit is read, also where
it isn't tried. Status 1 where one that is tried is not refused, or one can't be read; the last line is `N refused, M not`.
"""
import argparse
import os
import re
import subprocess
import sys
import time
from concurrent.futures import FIRST_COMPLETED, ThreadPoolExecutor, wait

sys.path.insert(0, os.path.dirname(os.path.abspath(__file__)))
sys.dont_write_bytecode = True

import processes
import record
from rounds import Crate, Repository

# For so many seconds a processor must stay free beside rt ci before the edits of a crate are begun: between two checks it rests.
FREE_FOR = 4


def build_below(repository, crates):
    """Builds what the crates use, where it isn't built from these sources."""
    for crate in dict.fromkeys(it for name in crates for it in repository.below(name)):
        ran = subprocess.run(['rt', 'lib'], cwd=repository.folder(crate), stdin=subprocess.DEVNULL, stdout=subprocess.PIPE, stderr=subprocess.STDOUT, text=True)
        if ran.returncode:
            sys.exit(f'{ran.stdout[-2000:]}\n{crate} is not proved')


class Proofs:
    """How far a run of rt ci is: by its log, and its process."""

    def __init__(self, log=None, process=None):
        self.log, self.process = log, process

    def have_ended(self):
        if not self.process:
            return True
        try:
            with open(f'/proc/{self.process}/stat', encoding='utf-8') as it:
                return it.read().rpartition(')')[2].split()[0] == 'Z'
        except OSError:
            return True

    def busy(self):
        """How many processors it has in use."""
        return 0 if self.have_ended() else processes.checks(processes.listed(), int(self.process))

    def have(self, crate):
        """Whether the crate is proved, in this run or in one before it on this machine, and so all below it."""
        if not self.log:
            return True
        with open(self.log, encoding='utf-8', errors='replace') as it:
            return bool(re.search(rf'(?m)^rt: {crate} (?:proved$|is kept: )', it.read()))

    def named(self, crate):
        """The functions of this crate that were proved by now."""
        if not self.log:
            return []
        with open(self.log, encoding='utf-8', errors='replace') as it:
            return re.findall(rf'(?m)^fn ({crate}::\S+): proved$', it.read())


class Outcome:
    """How many edits were refused, and which were not."""

    def __init__(self):
        self.refused, self.failed = 0, []

    def take(self, verdicts):
        for verdict in verdicts:
            print(verdict, flush=True)
        self.refused += sum(it.is_refused for it in verdicts)
        self.failed += [it.edit.name for it in verdicts if not it.is_refused]


def try_all(crates, jobs, proofs, log, ended):
    """Tries the edits of all crates, so many at a time, those of rt ci among them while it goes on: a crate's edits are begun
    where a processor has been free for a while. What came of a crate is told to `ended`."""
    left, running, outcome, free_since = list(crates), set(), Outcome(), time.time()

    def tried(crate):
        return crate, crate.tried(proofs, log), time.time() - crate.began

    with ThreadPoolExecutor(jobs) as pool:
        while left or running:
            is_last = proofs.have_ended()
            room = jobs - len(running) - proofs.busy()
            ready = [it for it in left if proofs.have(it.name)]
            if room <= 0 or not ready:
                free_since = time.time()
            elif is_last or time.time() - free_since >= FREE_FOR:
                left.remove(ready[0])
                running.add(pool.submit(tried, ready[0]))
                continue
            if is_last and not running:
                print(f"their proofs failed: {' '.join(it.name for it in left)}")
                outcome.failed += [edit.name for it in left for edit in it.edits]
                return outcome
            if not running:
                time.sleep(1)
                continue
            done, running = wait(running, timeout=1, return_when=FIRST_COMPLETED)
            for run in done:
                crate, verdicts, took = run.result()
                outcome.take(verdicts)
                print(f'{crate.name}: {len(verdicts)} edits, {crate.rounds} checks, {took:.0f} s, of a processor {crate.seconds:.0f} s', flush=True)
                ended(crate, verdicts)
    return outcome


def arguments():
    words = argparse.ArgumentParser(description=__doc__, formatter_class=argparse.RawDescriptionHelpFormatter)
    words.add_argument('crates', nargs='*', metavar='CRATE')
    words.add_argument('--built', metavar='FOLDER', help='a copy of these sources, without the edits, that rt ci proved')
    words.add_argument('--beside', nargs=2, metavar=('LOG', 'PROCESS'), help='rt ci still runs in that copy, and writes this log: a crate is tried once it is proved')
    words.add_argument('--jobs', type=int, default=2, metavar='N', help='how many checks at a time, those of rt ci among them')
    words.add_argument('--only', action='append', default=[], metavar='EDIT', help='this edit, by the name of its file; may be given again')
    words.add_argument('--controls', action='store_true', help='a copy with no edit in it of each edited function, which must be proved')
    words.add_argument('--log', metavar='FOLDER', help='keep what each check said there, and how long its stages took')
    how = words.add_mutually_exclusive_group()
    how.add_argument('--due', action='store_true', help='the edits that the record does not answer for, and a twentieth of the rest')
    how.add_argument('--record', action='store_true', help='all edits of these crates, or of all; the record has those that are refused')
    given = words.parse_args()
    if given.record and given.only:
        words.error('--record is of all edits of a crate')
    return given


def main():
    given = arguments()
    repository = Repository(os.getcwd(), given.built)
    unknown = [it for it in given.crates if it not in repository.uses]
    if unknown:
        sys.exit(f'crates.txt names no {unknown[0]}')
    # (before an edit is read, so that one which changes meanwhile is seen to)
    digests = record.digests(repository) if given.record or given.due else {}
    crates = [Crate(repository, it, given.only, given.controls) for it in given.crates or repository.uses]
    crates = [it for it in crates if it.edits or it.bad]
    found = {os.path.basename(it.name).removesuffix('.edit') for crate in crates for it in [*crate.edits, *(bad.edit for bad in crate.bad)]}
    lacking = [it for it in given.only if it.removesuffix('.edit') not in found]
    if lacking:
        sys.exit(f'there is no such edit: {" ".join(lacking)}')
    written, drawn = {it.name for it in crates if given.record}, set()
    if given.due:
        written, drawn = record.take_due(repository, crates, digests)
    crates = record.longest_first(repository, [it for it in crates if it.edits or it.bad])
    if given.log:
        os.makedirs(given.log, exist_ok=True)
    if not given.built:
        build_below(repository, [it.name for it in crates])

    def ended(crate, verdicts):
        failed = {it.edit.name for it in verdicts if not it.is_refused}
        if crate.name in written or failed & drawn:
            print(record.remember(repository, crate, verdicts, digests), flush=True)

    outcome = try_all(crates, given.jobs, Proofs(*given.beside or ()), given.log, ended)
    for name in sorted(drawn & set(outcome.failed)):
        print(f'{name}: {record.FILE} says that it is refused, and that is wrong')
    if not outcome.refused + len(outcome.failed):
        print('there is no such edit')
    print(f'{outcome.refused} refused, {len(outcome.failed)} not')
    return 1 if outcome.failed or not outcome.refused else 0


if __name__ == '__main__':
    sys.exit(main())
