"""Rounds: as many edits of a crate as can be tried in one check.

A function is checked against the contracts of what it calls, so wrong bodies of different functions don't disturb one another:
they are made in one copy of the crate, and one check tells of each function whether it is proved. That is a round. What no edit
of a round changes is granted there, and not proved (.ci/assumed.py). An edit is made
in a copy of its function, which stands beside it (.ci/copies.py), so that the edits of one function are tried in one round.
What can't be made in a copy, or isn't refused in it, is made in the function itself: there edits of one function, or of one
cycle of calls, go to different rounds, and so do edits whose texts touch. What changes more than the bodies of functions, as a
constant or a definition, has a round of its own; where a lemma is to be refused, its check reads that lemma alone, by a function
that names it. Rows that are wrong, each in a file of its own, go into one round, where a crate has nothing else.

Where a round can't be compiled, the edits that are at fault are found and told as bad, and the rest are tried without them.
"""
import os
import re
import shutil
import subprocess
import tempfile
import time

from assumed import assume, granted, grants
from copies import Copies
from edit_files import PARTS, BadEdit, Edit, merged, text_of, touches
from told import Told, Verdict, is_unread, judge

# The file of a copy whose one function names the lemma that an edit turns, so that the check reads it, and little else.
READING = 'statement_read'

# What it says where no proof can be given, since it stands where the prover writes its own.
TAKEN_PATH = re.compile(r'(?m)^\./(proofs/\S+)/Proof\.antt: error\[reserved-name\]')


class Repository:
    """The crates of crates.txt, and the kit that proves them."""

    def __init__(self, root, built=None):
        self.root, self.built = root, built or root
        self.kit = os.path.dirname(os.path.dirname(os.path.realpath(shutil.which('rt'))))
        self.uses = {}
        with open(f'{root}/crates.txt', encoding='utf-8') as lines:
            for line in lines:
                name, colon, used = line.partition('#')[0].partition(':')
                if colon:
                    self.uses[name.split()[0]] = used.split()

    def below(self, crate):
        """The repository's crates below this one, lowest first."""
        found = []
        for used in self.uses[crate]:
            if used in self.uses:
                found += [it for it in [*self.below(used), used] if it not in found]
        return found

    def folder(self, crate):
        return f'{self.root}/crates/{crate}'

    def rlibs(self, crate):
        return f'{self.built}/crates/{crate}/out/rlib'

    def kept(self, crate):
        """What earlier checks of the crate kept, where they did."""
        return f'{self.built}/crates/{crate}/out/incremental'

    def check(self, crate, kept, only):
        """The words of a check of the crate in the folder that it is started in."""
        kit = self.kit
        is_program = os.path.exists(f'{self.folder(crate)}/src/main.rt')
        words = [f'{kit}/bin/rattle', 'check', '--crate-name', crate, f"src/{'main' if is_program else 'lib'}.rt"]
        for used in ['std', *self.uses[crate]]:
            of = self.rlibs(used) if used in self.uses else f'{kit}/rlibs'
            words += ['--extern', f'{used}={of}/{used}.rlib']
        for of in [f'{kit}/rlibs', *map(self.rlibs, self.below(crate))]:
            words += ['-L', f'dependency={of}']
        words += ['--antt-project', f'{kit}/rattle/logic/antt-project.json', '--logic-built', f'{kit}/logic_built']
        words += ['--links', f'{crate}=', '--jobs', '1', *(['--incremental', kept] if kept else [])]
        return words + ['--allow-holes'] + [it for path in only for it in ('--only', path)]


class Crate:
    """A crate whose edits are tried."""

    def __init__(self, repository, name, only=(), has_each_control=False):
        self.repository, self.name, self.has_each_control = repository, name, has_each_control
        self.folder = repository.folder(name)
        self.edits, self.bad = [], []
        folder, wanted = f'{self.folder}/must-fail', {it.removesuffix('.edit') for it in only}
        for file in sorted(os.listdir(folder)) if os.path.isdir(folder) else []:
            if file.endswith('.md') or wanted and file.removesuffix('.edit') not in wanted:
                continue
            edit = Edit(self.folder, f'{folder}/{file}')
            try:
                edit.read()
                edit.regions()
                edit.original()
                if edit.lemma:
                    edit.lemma_file()
                self.edits.append(edit)
            except BadEdit as error:
                self.bad.append(Verdict(edit, False, f'BAD EDIT: {error}'))

    def tried(self, proofs, log=None):
        """Tries all edits, each round over what those before it proved, and answers a verdict for each."""
        self.began, self.rounds, self.seconds, done = time.time(), 0, 0, list(self.bad)
        self.known = grants(self.folder, proofs.named(self.name))
        with tempfile.TemporaryDirectory(prefix='edits-') as room:
            kept = f'{room}/kept'
            if os.path.isdir(self.repository.kept(self.name)):
                shutil.copytree(self.repository.kept(self.name), kept)
            else:
                os.mkdir(kept)
            waiting, alone = list(self.edits), []
            while waiting or alone:
                round = Round(waiting or alone[:1], self.has_each_control)
                waiting = [it for it in waiting if it not in round.taken]
                alone = [it for it in alone if it not in round.taken]
                told = self.check(round, kept, log)
                verdicts = self.judged(round, told)
                is_last = len(round.taken) == 1 and not round.has_copies()
                done += [it for it in verdicts if is_last or not it.is_open]
                left = [it.edit for it in verdicts if it.is_open and not is_last]
                if round.has_copies():
                    # they are tried in the functions themselves
                    for edit in left if told.is_judged else [it for it in left if it.is_blamed(told)] or left:
                        edit.is_for_a_copy = False
                    waiting += left
                elif told.is_judged and len(left) < len(round.taken):
                    # what they wait for has been tried now
                    waiting += left
                else:
                    blamed = [it for it in left if it.is_blamed(told)] or left
                    alone += blamed
                    waiting += [it for it in left if it not in blamed]
        return sorted(done, key=lambda it: it.edit.name)

    def check(self, round, kept, log):
        given = granted(self.known, round.judged())
        texts = round.texts(given)
        self.rounds += 1
        kept_log = f'{os.path.abspath(log)}/{self.name}.{self.rounds}' if log else None
        words = self.repository.check(self.name, kept, round.only())
        said, seconds = check(self.folder, words, texts, lambda room: assume(room, self.name, given), kept_log)
        self.seconds += seconds
        taken = set(TAKEN_PATH.findall(said))
        if taken:
            # (the prover writes these proofs itself)
            self.known = [it for it in self.known if it.folder not in taken]
            self.rounds -= 1
            return self.check(round, kept, log)
        told = Told(texts, said)
        if kept_log:
            with open(kept_log, 'w', encoding='utf-8') as it:
                it.write('\n'.join([f'edit {edit.name} in {edit.judged}' for edit in round.taken] + told.lines + [f'{seconds:.0f} s']))
        return told

    def judged(self, round, told):
        """The verdicts of a round's edits: all are open where it wasn't judged, or where it refused what no edit changes."""
        why = None
        unread = next(filter(is_unread, told.lines), None)
        if unread:
            why = f'the edited text can not be read: {unread}'
        elif not told.is_judged:
            why = f'it did not reach the prover: {told.first_error()}'
        changed = round.changed()
        if not why and changed is not None:
            other = next((it for it in told.functions if not changed & set(it.split('::')) and told.reasons(it)), None)
            if other:
                why = f'{other} is refused too, which it does not change: {told.reasons(other)[0]}'
        if why:
            told.is_judged = False
            return [Verdict(it, False, f'BAD EDIT: {why}', is_open=True) for it in round.taken]
        return [self.judge_copied(it, round, told) if round.has_copies() else judge(it, told) for it in round.taken]

    def judge_copied(self, edit, round, told):
        """The verdict of an edit in a copy: it is open where that is not refused, or where its control was not proved."""
        verdict = judge(edit, told)
        fault = round.copies.fault(told, round.originals[edit][0], edit.clause)
        if fault:
            verdict = Verdict(edit, False, f'NOT REFUSED: a copy as it is was not proved: {fault}')
        if not verdict.is_refused:
            print(f'tried again in the function itself: {verdict}', flush=True)
            verdict.is_open = True
        return verdict


class Round:
    """As many of these edits as can be tried in one check: those that go into copies first, and else those that can't."""

    def __init__(self, edits, has_each_control=False):
        self.folder = edits[0].folder
        self.copies = Copies(has_each_control)
        self.originals = {it: it.original() for it in edits if it.is_for_a_copy}
        self.taken = [it for it, found in self.originals.items() if found]
        self.regions = {}
        for edit in self.taken:
            edit.judged = self.copies.add(edit, *self.originals[edit])
        if not self.taken:
            self.take_in_place(edits)

    def take_in_place(self, edits):
        """Makes edits in the functions themselves, where no other is in the way."""
        busy = set()
        for edit in edits:
            changed, own = edit.changed(), edit.regions()
            if changed is None and self.are_rows([*self.taken, edit]):
                changed = set()
            if self.taken and (changed is None or busy & changed) or touches(self.regions, own):
                continue
            for file, region in own.items():
                self.regions.setdefault(file, []).append(region)
            edit.judged = edit.function
            self.taken.append(edit)
            if changed is None:
                break
            busy |= changed

    def are_rows(self, edits):
        """Whether these are lemmas of a crate that has nothing else, each in a file of its own, which alone is changed."""
        files = {it.lemma_file() for it in edits if it.turns_its_lemma()}
        return len(files) == len(edits) and os.listdir(f'{self.folder}/src') == ['lib.rt']

    def reading(self):
        """The files with a function that names the lemma of this round, where there is one, and a crate that has functions."""
        edit = self.taken[0]
        if not edit.lemma or os.listdir(f'{self.folder}/src') == ['lib.rt']:
            return {}
        root = 'src/main.rt' if os.path.exists(f'{self.folder}/src/main.rt') else 'src/lib.rt'
        module = f"Rattle.{os.path.basename(self.folder)}.specs.{edit.lemma_file().removeprefix('specs/').removesuffix('.antt').replace('/', '.')}"
        return {
            root: f'{text_of(f"{self.folder}/{root}")}\nmod {READING};\n',
            f'src/{READING}.rt': f'//! Reads a statement.\nghost use {module}.{{{edit.lemma}}};\n\n'
            f'fn {READING}()\n    ensures {{ let read = {edit.lemma} in Unit {{0}} }}\n{{\n}}\n',
        }

    def has_copies(self):
        return bool(self.copies.added)

    def only(self):
        """What the check is to check."""
        return sorted({it.judged for it in self.taken if it.judged} | set(self.copies.controls.values())) or [READING] * bool(self.reading())

    def judged(self):
        """The names of the functions that it judges, or that it changes, copies aside."""
        return (self.changed() or set()) | {it.rpartition('::')[2] for it in self.only()}

    def changed(self):
        """The names of the functions that differ from those of the crate; None where something else may."""
        if self.has_copies():
            return {it.rpartition('::')[2] for it in self.only()}
        found = [it.changed() for it in self.taken]
        return None if None in found else {name for them in found for name, _ in them}

    def texts(self, given):
        """The texts of the files with all of them made, and with what stands for the functions that are granted."""
        regions = {file: list(them) for file, them in (self.copies.regions() if self.has_copies() else self.regions).items()}
        for grant in given:
            if grant.original:
                regions.setdefault(grant.original.file, []).extend(grant.regions())
        return {**merged(self.folder, regions), **self.copies.files, **self.reading()}


def check(folder, words, texts, prepare, kept_log=None):
    """Checks a copy of a crate's folder with these texts, once it is prepared, and answers what was said, and the processor seconds
    that it took; how long its stages took, and how long each function, goes beside the log, where one is kept."""
    stages = ['--stage-times', f'{kept_log}.stages', '--progress'] if kept_log else []
    with tempfile.TemporaryDirectory(prefix='edit-') as room:
        for part in PARTS:
            if os.path.isdir(f'{folder}/{part}'):
                shutil.copytree(f'{folder}/{part}', f'{room}/{part}')
        prepare(room)
        for file, text in texts.items():
            os.makedirs(os.path.dirname(f'{room}/{file}'), exist_ok=True)
            with open(f'{room}/{file}', 'w', encoding='utf-8') as it:
                it.write(text)
        started = subprocess.Popen(words + stages, cwd=room, stdin=subprocess.DEVNULL, stdout=subprocess.PIPE,
                                   stderr=subprocess.STDOUT, encoding='utf-8', errors='replace')
        said, took, before = [], [], time.time()
        for line in started.stdout:
            said.append(line)
            took.append((time.time() - before, line))
            before = time.time()
        _, _, used = os.wait4(started.pid, 0)
        started.returncode = 0
        if kept_log:
            with open(f'{kept_log}.seconds', 'w', encoding='utf-8') as it:
                it.writelines(f'{seconds:.1f} {line}' for seconds, line in sorted(took, reverse=True) if seconds >= 0.1)
        return ''.join(said), used.ru_utime + used.ru_stime
