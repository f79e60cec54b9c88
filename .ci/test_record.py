"""Tests of what the gate remembers of an earlier run, and of what differs from a commit that has passed (.ci/test_harness.py runs them)."""
import os
import shutil
import subprocess
import sys
import types
import unittest

import built
import edits
import landing
import noticed
import record
import rounds
import told
from with_folder import WithFolder


class Noticed(WithFolder):
    """Whether runs of broken models are due."""

    def setUp(self):
        super().setUp()
        for file in ('.ci/run', 'compare/model/world.py', 'compare/runs/run.py', 'examples/race.mpd', 'docs/CONSOLE.md', 'docs/FORMATS.md',
                     'docs/TOUR.md', 'crates/low/src/lib.rt'):
            self.write(file, file)

    def test_a_first_time(self):
        self.assertFalse(noticed.is_remembered(self.folder))
        noticed.record(self.folder)
        self.assertTrue(noticed.is_remembered(self.folder))

    def test_what_they_depend_on(self):
        noticed.record(self.folder)
        for file, depends in (('crates/low/src/lib.rt', False), ('docs/TOUR.md', False), ('docs/CONSOLE.md', True), ('compare/model/world.py', True),
                              ('compare/rows/new.py', True), ('examples/race.mpd', True)):
            noticed.record(self.folder)
            self.write(file, 'another')
            self.assertEqual(noticed.is_remembered(self.folder), not depends, file)

    def test_a_file_that_is_gone(self):
        noticed.record(self.folder)
        os.remove(f'{self.folder}/compare/runs/run.py')
        self.assertFalse(noticed.is_remembered(self.folder))

    def test_what_python_keeps(self):
        noticed.record(self.folder)
        self.write('compare/model/__pycache__/world.pyc', 'kept')
        self.assertTrue(noticed.is_remembered(self.folder))

    def test_transcripts(self):
        noticed.record(self.folder)
        self.write('compare/words/explained.txt', 'another')
        self.assertTrue(noticed.is_remembered(self.folder))

    def test_runs_that_all_pass(self):
        self.gate('complete', 'wide')
        self.assertEqual(noticed.runs(self.folder), [['compare/runs/complete.py', '--broken'], ['compare/runs/wide.py', '--broken']])
        self.assertEqual(noticed.run_all(self.folder), 0)
        self.assertTrue(noticed.is_remembered(self.folder))

    def test_runs_of_which_one_fails(self):
        self.gate('complete', 'wide')
        self.write('compare/runs/wide.py', 'raise SystemExit(1)')
        self.assertEqual(noticed.run_all(self.folder), '1 runs failed')
        self.assertFalse(noticed.is_remembered(self.folder))

    def test_a_run_that_changes_a_file(self):
        self.gate('complete')
        self.write('compare/runs/complete.py', 'open("examples/race.mpd", "a").write("more")')
        self.assertEqual(noticed.run_all(self.folder), 'the files have changed meanwhile')
        self.assertFalse(noticed.is_remembered(self.folder))

    def gate(self, *runs):
        """A gate with these runs, each of which passes if it is asked to break the model."""
        self.write('.ci/run', ''.join(f"beside '{it}' python3 compare/runs/{it}.py \"$program\" $broken\n" for it in runs) + 'stage other python3 other.py\n')
        for it in runs:
            self.write(f'compare/runs/{it}.py', 'import sys\nsys.exit(sys.argv[1:] != ["--broken"])\n')


class Remembered(WithFolder):
    """What is remembered of earlier runs."""

    # How many edits a crate has, and how many seconds they take.
    EDITS = {'high': (30, 29.6), 'low': (25, 200), 'side': (5, 100)}

    def setUp(self):
        super().setUp()
        self.write('crates.txt', '# libraries\nlow: std\nside: std\nhigh: low std   # above\n')
        self.write('KIT-ID', 'kit 1')
        for judge in record.JUDGES:
            self.write(f'.ci/{judge}', judge)
        self.write('crates/low/src/lib.rt', 'pub fn one() -> u64\n    ensures { result ≡ 1 }\n{\n    1\n}\n')
        self.write('crates/high/src/lib.rt', 'use low::one;\n\npub fn two() -> u64\n    ensures { result ≡ 2 }\n{\n    one() + 1\n}\n')
        self.write('crates/side/src/lib.rt', 'pub fn three() -> u64\n    ensures { result ≡ 3 }\n{\n    3\n}\n')
        for crate, name, body in (('low', 'one', '    1'), ('high', 'two', '    one() + 1'), ('side', 'three', '    3')):
            self.write(f'crates/{crate}/must-fail/README.md', 'edits')
            for at in range(self.EDITS[crate][0]):
                self.write(f'crates/{crate}/must-fail/{at}.edit', f'fn: lib::{name}\nfile: src/lib.rt\nold: {body}\nnew: {10 + at}\n')

    def repository(self):
        found = rounds.Repository(self.folder)
        found.kit = self.folder
        return found

    def digests(self):
        return record.digests(self.repository())

    def changed_by(self, file, text):
        """The crates of whose edits digests are others after a file is changed so."""
        before = self.digests()
        self.write(file, text)
        after = self.digests()
        return {it for it in before if before[it] != after.get(it)}

    def test_what_a_digest_depends_on(self):
        for file, crates in (
            ('crates/low/proofs/Lib.antt', set()),
            ('crates/low/specs/New.antt', set()),
            ('crates/low/must-fail/README.md', set()),
            ('crates/low/out/rlib', set()),
            ('crates/low/stdin', set()),
            ('docs/GATE.md', set()),
            ('.ci/copies.py', {'low', 'side', 'high'}),
            ('.ci/record.py', set()),
            ('.ci/run', set()),
            ('KIT-ID', {'low', 'side', 'high'}),
        ):
            self.assertEqual(self.changed_by(file, f'changed {file}'), crates, file)
        self.write('KIT-ID', 'kit 1')
        self.assertEqual(self.changed_by('KIT-ID', 'other 1'), set())

    def test_of_which_crates_edits_are_due(self):
        def due():
            return {it.name for it in built.with_edits(self.repository()) if it.is_due}
        self.assertEqual(due(), {'low', 'side', 'high'})
        lines = [f'{name} 9 {digest} {kit}' for crate, kit in (('low', 'kit'), ('side', 'other')) for name, digest in self.digests()[crate].items()]
        self.write('.ci/refused.txt', '\n'.join(sorted(lines)) + '\n')
        self.assertEqual(due(), {'high'})
        self.write('.ci/refused.txt', '\n'.join(sorted(lines)[1:]) + '\n')
        self.assertEqual(due(), {'low', 'high'})

    def test_an_edit_that_changes_is_another(self):
        before = self.digests()
        self.write('crates/low/must-fail/3.edit', 'fn: lib::one\nfile: src/lib.rt\nold:     1\nnew:     7\n')
        after = self.digests()
        self.assertEqual({it for it in after['low'] if after['low'][it] != before['low'][it]}, {'low/3.edit'})
        self.assertEqual((after['high'], after['side']), (before['high'], before['side']))

    def test_pieces_do_not_run_into_one_another(self):
        self.assertNotEqual(record.digest_of([('a', b'bc')]), record.digest_of([('ab', b'c')]))
        self.assertNotEqual(record.digest_of([('a', b'1'), ('b', b'')]), record.digest_of([('a', b''), ('b', b'1')]))

    def test_the_draw(self):
        names = [f'crate/{it:03}.edit' for it in range(200)]
        counts = [len(record.draw(names[:many], 'seed')) for many in (0, 1, 20, 21, 200)]
        self.assertEqual(counts, [0, 1, 1, 2, 10])
        self.assertEqual(record.draw(names[::-1], 'seed'), record.draw(names, 'seed'))
        drawn = [record.draw(names, f'commit {it}') for it in range(400)]
        self.assertEqual(set().union(*drawn), set(names))
        self.assertLess(max(sum(name in it for it in drawn) for name in names), 60)

    def crates(self):
        # (each a file of the crate's edits, as .ci/rounds.py reads them)
        return [types.SimpleNamespace(name=it, edits=[types.SimpleNamespace(name=f'{it}/{at}.edit') for at in range(count)], bad=[], seconds=took) for it, (count, took) in self.EDITS.items()]

    def verdicts(self, crate, *not_refused):
        return [told.Verdict(it, it.name not in not_refused, 'told') for it in crate.edits]

    def remember(self, *names, digests=None):
        """Remembers that the edits of these crates are refused, or of all."""
        digests = digests or self.digests()
        return [record.remember(self.repository(), it, self.verdicts(it), digests) for it in self.crates() if not names or it.name in names]

    def remembered(self, is_here=True):
        """How many edits of each crate are remembered."""
        names = [it.partition('/')[0] for it in record.read(self.repository(), is_here)]
        return {it: names.count(it) for it in names}

    def due(self, crates):
        keep, sys.stdout = sys.stdout, open(os.devnull, 'w', encoding='utf-8')
        try:
            return record.take_due(self.repository(), crates, self.digests())
        finally:
            sys.stdout.close()
            sys.stdout = keep

    def change(self, crate):
        """Changes the contract of the function that the edits of a crate are of."""
        self.write(f'crates/{crate}/src/lib.rt', self.read(f'crates/{crate}/src/lib.rt').replace('result ≡', 'result ≤'))

    def test_what_is_due(self):
        crates = self.crates()
        self.assertEqual(self.due(crates), ({'high', 'low', 'side'}, set()))
        self.assertEqual([len(it.edits) for it in crates], [30, 25, 5])
        self.remember()
        crates = self.crates()
        written, drawn = self.due(crates)
        self.assertEqual((written, len(drawn)), (set(), 3))
        self.assertEqual({edit.name for it in crates for edit in it.edits}, drawn)
        self.change('low')
        crates = self.crates()
        written, drawn = self.due(crates)
        self.assertEqual(written, {'high', 'low'})
        self.assertEqual(len(crates[0].edits) + len(crates[1].edits), 55)
        self.assertEqual({edit.name for edit in crates[2].edits}, drawn)
        self.assertEqual(len(drawn), 1)

    def test_one_edit_is_due(self):
        self.remember()
        self.write('crates/low/must-fail/3.edit', 'fn: lib::one\nfile: src/lib.rt\nold:     1\nnew:     7\n')
        crates = self.crates()
        written, drawn = self.due(crates)
        self.assertEqual(written, {'low'})
        self.assertEqual({edit.name for it in crates for edit in it.edits}, {'low/3.edit'} | drawn)
        self.assertNotIn('low/3.edit', drawn)

    def test_a_bad_edit_is_told_with_those_that_are_due(self):
        self.remember()
        crates = self.crates()
        crates[2].bad.append('a bad edit')
        self.due(crates)
        self.assertEqual(crates[2].bad, ['a bad edit'])

    def test_the_record(self):
        self.assertEqual(record.read(self.repository()), {})
        digests = self.digests()
        self.remember()
        share = {it: max(1, round(took / count)) for it, (count, took) in self.EDITS.items()}
        self.assertEqual(record.read(self.repository()), {name: (digest, share[crate]) for crate, own in digests.items() for name, digest in own.items()})

    def test_a_crate_is_remembered_by_itself(self):
        self.remember('low')
        self.assertEqual(self.remembered(), {'low': 25})
        self.remember('side')
        self.assertEqual(self.remembered(), {'low': 25, 'side': 5})
        self.remember('low')
        self.assertEqual(len(record.lines_of(self.folder)), 30)

    def test_what_is_not_refused_is_not_remembered(self):
        self.remember()
        crate = self.crates()[1]
        self.assertIn('low/3.edit was not refused', record.remember(self.repository(), crate, self.verdicts(crate, 'low/3.edit'), self.digests()))
        self.assertNotIn('low/3.edit', record.read(self.repository()))
        self.assertEqual(self.remembered(), {'high': 30, 'low': 24, 'side': 5})
        # (one that is drawn, and the one edit that is tried; by a kit of the same logic)
        self.write('KIT-ID', 'other 1')
        crate = self.crates()[2]
        del crate.edits[1:]
        record.remember(self.repository(), crate, self.verdicts(crate, 'side/0.edit'), self.digests())
        self.assertEqual(self.remembered(is_here=False), {'high': 30, 'low': 24, 'side': 4})

    def test_what_was_tried_is_remembered_by_itself(self):
        crate = self.crates()[2]
        del crate.edits[2:]
        record.remember(self.repository(), crate, self.verdicts(crate, 'side/1.edit'), self.digests())
        self.assertEqual({*record.read(self.repository())}, {'side/0.edit'})

    def test_a_drawn_edit_that_is_refused_changes_nothing(self):
        self.remember()
        before = self.read(record.FILE)
        crate = self.crates()[0]
        crate.seconds = 1000
        del crate.edits[2:]
        record.remember(self.repository(), crate, self.verdicts(crate), self.digests())
        self.assertEqual(self.read(record.FILE), before)

    def test_lines_that_answer_for_nothing_go(self):
        self.remember()
        self.change('side')
        self.remember('low')
        self.assertEqual(self.remembered(), {'high': 30, 'low': 25})
        self.write('crates.txt', 'low: std\nside: std\n')
        self.remember('side')
        self.assertEqual(self.remembered(), {'low': 25, 'side': 5})

    def test_an_edit_that_is_named_anew_is_remembered(self):
        self.remember()
        os.rename(f'{self.folder}/crates/side/must-fail/0.edit', f'{self.folder}/crates/side/must-fail/new.edit')
        crates = self.crates()
        crates[2].edits[0].name = 'side/new.edit'
        written, _ = self.due(crates)
        self.assertEqual(written, set())
        self.remember('low')
        self.assertIn('side/new.edit', record.read(self.repository()))
        self.assertNotIn('side/0.edit', record.read(self.repository()))

    def test_each_kit_has_lines_of_its_own(self):
        of_first, first = self.digests(), self.remember()
        self.write('KIT-ID', 'other 1')
        self.assertEqual(record.read(self.repository()), {})
        self.assertEqual(self.remember(), first)
        self.assertEqual(record.read(self.repository())['low/0.edit'].digest, of_first['low']['low/0.edit'])
        self.assertEqual(len(record.lines_of(self.folder)), 120)
        self.change('side')
        self.remember('low')
        self.write('KIT-ID', 'kit 1')
        self.assertEqual(self.remembered(), {'high': 30, 'low': 25})
        self.assertEqual(len(record.lines_of(self.folder)), 110)

    def test_of_what_another_kit_remembers_more_is_tried(self):
        self.remember()
        self.write('KIT-ID', 'other 1')
        crates = self.crates()
        written, drawn = self.due(crates)
        self.assertEqual(len(drawn), 12)
        # (what is refused of these has a line of this kit)
        self.assertEqual(written, {it.partition('/')[0] for it in drawn})
        self.assertEqual({edit.name for it in crates for edit in it.edits}, drawn)
        self.remember('low')
        crates = self.crates()
        written, drawn = self.due(crates)
        self.assertEqual((len(crates[1].edits), len(drawn)), (2, 9))
        self.assertNotIn('low', written)
        # (a kit of another logic)
        self.write('KIT-ID', 'third 2')
        self.assertEqual(self.due(self.crates()), ({'high', 'low', 'side'}, set()))

    def test_which_crate_is_begun_first(self):
        def order(crates):
            return [it.name for it in record.longest_first(self.repository(), crates)]

        self.assertEqual(order(self.crates()), ['high', 'low', 'side'])
        self.remember()
        self.assertEqual(order(self.crates()), ['low', 'side', 'high'])
        crates = self.crates()
        del crates[1].edits[10:]
        self.assertEqual(order(crates), ['side', 'low', 'high'])

    def test_nothing_is_recorded_of_what_has_changed(self):
        digests = self.digests()
        self.change('low')
        said = self.remember(digests=digests)
        self.assertEqual(['changed since' in it for it in said], [True, True, False])
        self.assertEqual(self.remembered(), {'side': 5})

    def test_the_seed_of_a_tree_without_a_repository(self):
        self.assertEqual(record.seed_of(self.folder, {'b': {'b/1': '2'}, 'a': {'a/2': '1', 'a/1': '0'}}), '0 1 2')


class AsTheyEnd(WithFolder):
    """A run tells what came of a crate as its edits end."""

    def crate(self, name, *words):
        verdicts = [told.Verdict(types.SimpleNamespace(name=f'{name}/{at}.edit'), word == 'refused', word) for at, word in enumerate(words)]
        return types.SimpleNamespace(name=name, began=0, rounds=1, seconds=1, edits=[it.edit for it in verdicts], tried=lambda proofs, log: verdicts)

    def run_of(self, *crates):
        ended, keep, sys.stdout = [], sys.stdout, open(os.devnull, 'w', encoding='utf-8')
        try:
            outcome = edits.try_all(crates, 1, edits.Proofs(), None, lambda crate, verdicts: ended.append((crate.name, [it.is_refused for it in verdicts])))
        except RuntimeError:
            outcome = None
        finally:
            sys.stdout.close()
            sys.stdout = keep
        return ended, outcome

    def test_each_crate(self):
        ended, outcome = self.run_of(self.crate('low', 'refused', 'proved'), self.crate('high', 'refused'))
        self.assertEqual(ended, [('low', [True, False]), ('high', [True])])
        self.assertEqual((outcome.refused, outcome.failed), (2, ['low/1.edit']))

    def test_before_a_run_is_cut_off(self):
        def cut_off(proofs, log):
            raise RuntimeError

        high = self.crate('high', 'refused')
        high.tried = cut_off
        self.assertEqual(self.run_of(self.crate('low', 'refused'), high), ([('low', [True])], None))


@unittest.skipUnless(shutil.which('git'), 'there is no git')
class Landing(WithFolder):
    """What differs from a commit."""

    def setUp(self):
        super().setUp()
        for file in ('README.md', 'crates/low/src/lib.rt', '.gitignore'):
            self.write(file, 'out/\n')
        self.git('init', '-q')
        self.commit()

    def git(self, *words):
        # (a hook of git's says in the environment which repository is meant)
        apart = {name: value for name, value in os.environ.items() if not name.startswith('GIT_')}
        subprocess.run(['git', '-C', self.folder, '-c', 'user.name=a', '-c', 'user.email=a@b', *words], check=True, env=apart)

    def commit(self):
        self.git('add', '-A')
        self.git('commit', '-q', '-m', 'as it is')

    def test_docs_alone(self):
        self.assertTrue(landing.is_of_docs(self.folder, 'HEAD'))
        for file in ('README.md', 'docs/new.md', 'crates/low/out/kept'):
            self.write(file, 'changed')
            self.assertTrue(landing.is_of_docs(self.folder, 'HEAD'), file)

    def test_another_file(self):
        for file in ('crates/low/src/lib.rt', 'crates/low/src/new.rt', '.gitignore', '.ci/refused.txt', 'docs/new.md.py'):
            self.write(file, 'changed')
            self.assertEqual(landing.changed(self.folder, 'HEAD'), [file])
            self.assertFalse(landing.is_of_docs(self.folder, 'HEAD'), file)
            self.git('clean', '-qfd')
            self.git('checkout', '-q', '.')

    def test_a_file_that_is_gone_or_renamed(self):
        os.rename(f'{self.folder}/crates/low/src/lib.rt', f'{self.folder}/lib.md')
        self.assertFalse(landing.is_of_docs(self.folder, 'HEAD'))
        self.git('add', '-A')
        self.assertFalse(landing.is_of_docs(self.folder, 'HEAD'))

    def test_what_is_committed_behind_it(self):
        self.write('crates/low/src/lib.rt', 'changed')
        self.commit()
        self.assertFalse(landing.is_of_docs(self.folder, 'HEAD~1'))
        self.assertTrue(landing.is_of_docs(self.folder, 'HEAD'))

    def test_the_seed_of_a_draw_is_the_commit(self):
        first = record.seed_of(self.folder, {'a': {'a/1': '1'}})
        self.assertRegex(first, '^[0-9a-f]{40,64}$')
        self.write('README.md', 'changed')
        self.commit()
        self.assertNotEqual(record.seed_of(self.folder, {'a': {'a/1': '1'}}), first)
        self.assertEqual(record.seed_of(f'{self.folder}/crates', {'a': {'a/1': '1'}}), '1')

    def test_what_cannot_be_told(self):
        for commit in ('nowhere', '', '--help'):
            self.assertFalse(landing.is_of_docs(self.folder, commit), commit)
