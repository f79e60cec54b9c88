"""Tests of .ci/run and .ci/test as scripts, over commands that only say what they were asked, and of which crates' edits can be rehearsed
(.ci/test_harness.py runs them)."""
import os
import shutil
import subprocess
import sys
import types

import built
from with_folder import WithFolder

HERE = os.path.dirname(os.path.abspath(__file__))
# In place of Python: keeps its words, makes the programs that it is asked for, and fails where a word is the one that FAILS names.
PYTHON = '''#!/bin/sh
echo "$*" >> "$ASKED"
case " $* " in *" $FAILS "*) echo "said by $FAILS"; exit 1 ;; esac
case "$*" in
'bench/unproved.py mpdbg '*) echo > "$3"; chmod +x "$3" ;;
.ci/built.py) printf 'low can be tried\\nside can be tried\\nhigh lacks low\\ntop lacks low and is due\\n' ;;
.ci/noticed.py) echo "$BROKEN" ;;
'.ci/noticed.py --record') echo noticed > .ci/noticed.txt ;;
'.ci/landing.py '*) exit "$OTHERS" ;;
'.ci/edits.py '*) echo remembered >> .ci/refused.txt ;;
esac
'''
RT = '''#!/bin/sh
echo "rt $*" >> "$ASKED"
'''


class OfScripts(WithFolder):
    """A repository whose scripts run over such commands."""

    def setUp(self):
        super().setUp()
        self.top, self.asked = f'{self.folder}/top', f'{self.folder}/asked'
        for file in ('run', 'test', 'stages.sh'):
            os.makedirs(f'{self.top}/.ci', exist_ok=True)
            shutil.copy(f'{HERE}/{file}', f'{self.top}/.ci')
        self.program('bin/python3', PYTHON)
        self.program('bin/rt', RT)
        self.program('top/mpdbg', '#!/bin/sh\necho "mpdbg $*" >> "$ASKED"\n[ "$FAILS" != --test ]\n')
        for file in ('.ci/refused.txt', '.ci/noticed.txt', 'crates/low/src/lib.rt', 'crates/low/must-fail/one.edit'):
            self.write(f'top/{file}', 'text\n')
        self.write('asked', '')
        self.git('init', '-q')
        self.git('add', '.')
        self.git('-c', 'user.name=one', '-c', 'user.email=one', 'commit', '-qm', 'one')

    def program(self, file, text):
        self.write(file, text)
        os.chmod(f'{self.folder}/{file}', 0o755)

    def git(self, *words):
        return subprocess.run(['git', '-C', self.top, *words], check=True, capture_output=True, text=True).stdout.strip()

    def ran(self, script, *words, **variables):
        """The status, and the lines that were written."""
        environment = {it: os.environ[it] for it in os.environ if not it.startswith('GATE_')}
        environment.update({'PATH': f'{self.folder}/bin:/usr/bin:/bin', 'ASKED': self.asked, 'FAILS': '', 'BROKEN': '', 'OTHERS': '1', **variables})
        ended = subprocess.run([f'{self.top}/.ci/{script}', *words], stdin=subprocess.DEVNULL, stdout=subprocess.PIPE, stderr=subprocess.STDOUT,
                               text=True, env=environment, timeout=900)
        return ended.returncode, ended.stdout.splitlines()

    def words_of(self, name):
        """The words that a script was asked with, each time."""
        return [it for it in self.read('asked').splitlines() if it.split()[0] == name]

    def rehearsed(self):
        file = f'{self.top}/.git/rehearsed'
        return self.read('top/.git/rehearsed').strip() if os.path.exists(file) else None


class Rehearsals(OfScripts):
    """What a rehearsal runs, leaves out and remembers, and the gate beside it."""

    LAST = ('gate: rehearsed, but for calls that are refused memory, edits of 2 crates whose libraries are not built, '
            'proofs and tests of crates (rt ci), wrong bodies that a run shows')

    def test_one_that_passes(self):
        status, lines = self.ran('run', '--rehearse', BROKEN='--broken')
        self.assertEqual((status, lines[-1]), (0, self.LAST))
        self.assertEqual(self.rehearsed(), self.git('rev-parse', 'HEAD^{tree}'))
        self.assertEqual(self.words_of('rt'), [])
        self.assertEqual(self.words_of('mpdbg'), ['mpdbg --test'])
        self.assertIn('high lacks low', lines)
        self.assertIn('gate: left out: edits of 2 crates whose libraries are not built: some are due of top', lines)
        self.assertEqual(self.git('status', '--porcelain'), '')

    def test_its_edits_are_tried_in_a_copy(self):
        self.ran('run', '--rehearse', GATE_JOBS='3')
        self.assertEqual(self.words_of('.ci/edits.py'), [f'.ci/edits.py --due --jobs 3 --built {os.path.realpath(self.top)} low side'])
        self.assertEqual(self.read('top/.ci/refused.txt'), 'text\n')
        self.ran('run', '--rehearse', GATE_JOBS='3', GATE_WHOLE='1')
        self.assertEqual(self.words_of('.ci/edits.py')[1].split()[1], '--record')

    def test_one_of_which_a_run_fails(self):
        self.ran('run', '--rehearse')
        status, lines = self.ran('run', '--rehearse', FAILS='compare/runs/slots.py')
        self.assertEqual((status, lines[-1]), (1, 'gate: FAILED (modes that are the same)'))
        self.assertEqual(lines[-3:-1], ["gate: what 'modes that are the same' said last:", 'said by compare/runs/slots.py'])
        self.assertIsNone(self.rehearsed())

    def test_each_part_can_fail(self):
        for word, name in (('--test', 'the test command'), ('--due', 'edits, over libraries that are built'), ('.ci/built.py', 'edits, over libraries that are built'),
                           ('compare/runs/why.py', 'comparison of why and before'), ('bench/unproved.py', 'the program, not proved')):
            status, lines = self.ran('run', '--rehearse', FAILS=word)
            self.assertEqual((status, lines[-1]), (1, f'gate: FAILED ({name})'), word)

    def test_without_a_program_nothing_is_run_by_it(self):
        self.ran('run', '--rehearse', FAILS='bench/unproved.py')
        self.assertEqual(self.words_of('compare/runs/slots.py'), [])

    def test_a_tree_that_is_not_clean(self):
        for file in ('new', 'crates/low/src/lib.rt'):
            self.write(f'top/{file}', 'other')
            status, lines = self.ran('run', '--rehearse')
            self.assertEqual((status, lines[-1]), (0, self.LAST))
            self.assertIn('gate: this is not remembered', lines[-2])
            self.assertIsNone(self.rehearsed())
            self.git('stash', '-qu')

    def test_a_file_that_changes_meanwhile(self):
        self.program('top/mpdbg', '#!/bin/sh\necho other > "$OTHER"\n')
        self.git('-c', 'user.name=one', '-c', 'user.email=one', 'commit', '-qam', 'two')
        self.assertEqual(self.ran('run', '--rehearse', OTHER=f'{self.top}/other')[0], 0)
        self.assertIsNone(self.rehearsed())

    def test_only_docs_differ(self):
        status, lines = self.ran('run', '--rehearse', GATE_LANDED='HEAD', OTHERS='0')
        self.assertEqual((status, lines[-1]), (0, 'gate: rehearsed, but for all that takes a program or a proof'))
        self.assertEqual(self.words_of('mpdbg') + self.words_of('compare/runs/slots.py'), [])
        self.assertEqual(len(self.words_of('compare/runs/worked.py')), 1)

    def test_other_words(self):
        for words in (('--rehearsed',), ('--rehearse', '--rehearse'), ('x',)):
            self.assertEqual(self.ran('run', *words), (2, ['.ci/run takes --rehearse, or nothing']))

    def test_the_gate_itself(self):
        status, lines = self.ran('run', BROKEN='--broken')
        self.assertEqual((status, lines[-1]), (0, 'gate: passed'))
        self.assertEqual(self.words_of('rt'), ['rt ci'])
        self.assertEqual(self.words_of('mpdbg'), ['mpdbg --test'])
        self.assertIsNone(self.rehearsed())
        self.assertEqual((self.read('top/.ci/refused.txt'), self.read('top/.ci/noticed.txt')), ('text\nremembered\n', 'noticed\n'))
        for run in ('compare/runs/refused_calls.py', '.ci/planted.py', 'compare/runs/slots.py'):
            self.assertEqual(len(self.words_of(run)), 1, run)

    def test_a_rehearsal_makes_the_runs_of_the_gate(self):
        def runs():
            found = sorted(it.split()[0] for it in self.read('asked').splitlines())
            self.write('asked', '')
            return found
        self.ran('run')
        of_gate = runs()
        self.ran('run', '--rehearse')
        rehearsed = runs()
        self.assertEqual([it for it in of_gate if it not in rehearsed], ['.ci/planted.py', 'compare/runs/refused_calls.py', 'rt'])


class TestCommand(OfScripts):
    """What the test command says at its end."""

    def test_all_pass(self):
        status, lines = self.ran('test')
        self.assertEqual((status, lines[-1]), (0, '12 passed, 0 failed'))

    def test_by_a_program(self):
        status, lines = self.ran('test', sys.executable)
        self.assertEqual((status, lines[-1].split()[1:]), (0, ['passed,', '0', 'failed']))
        asked = self.read('asked').splitlines()
        self.assertEqual(lines[-1].split()[0], str(len([it for it in asked if it.split()[0] != '.ci/processes.py']) + 1))
        self.assertTrue([it for it in asked if os.path.realpath(sys.executable) in it.split()])

    def test_one_fails(self):
        status, lines = self.ran('test', FAILS='compare/runs/worked.py')
        self.assertEqual((status, lines[-1]), (1, '11 passed, 1 failed'))
        self.assertEqual(lines[-3:-1], ["test: what 'worked rows of the model' said last:", 'said by compare/runs/worked.py'])

    def test_a_proof_by_hand(self):
        self.write('top/crates/low/proofs/one/Proof.antt', '')
        status, lines = self.ran('test')
        self.assertEqual((status, lines[-1]), (1, '11 passed, 1 failed'))
        self.assertIn('crates/low/proofs/one/Proof.antt', lines)

    def test_a_program_and_more(self):
        self.assertEqual(self.ran('test', 'one', 'two')[0], 2)


class Built(WithFolder):
    """Of which crates the edits can be tried with no proof."""

    def setUp(self):
        super().setUp()
        self.write('crates.txt', 'low: std\nside: std\nhigh: low std\ntop: high side\n')
        self.write('kit/bin/rtlib.py', '')

    def lines(self, *there):
        """What is said of these crates, each with an edit, where the libraries of some are there and the record answers for `top`."""
        repository = types.SimpleNamespace(
            uses={'low': [], 'side': [], 'high': ['low'], 'top': ['high', 'side'], 'bare': []}, root=self.folder, kit=f'{self.folder}/kit',
            below=lambda it: {'high': ['low'], 'top': ['low', 'high', 'side']}.get(it, []), folder=lambda it: f'{self.folder}/crates/{it}')
        libraries = built.Libraries(repository)
        libraries.asked = lambda crate: crate in there
        crates = [types.SimpleNamespace(name=it, is_due=it != 'top') for it in ('low', 'side', 'high', 'top')]
        return list(built.lines(crates, libraries))

    def test_none_is_there(self):
        self.assertEqual(self.lines(), ['low can be tried', 'side can be tried', 'high lacks low and is due', 'top lacks low'])

    def test_some_are_there(self):
        self.assertEqual(self.lines('low', 'side'), ['low can be tried', 'side can be tried', 'high can be tried', 'top lacks high'])

    def test_a_kit_that_does_not_tell(self):
        repository = types.SimpleNamespace(kit=f'{self.folder}/none', root=self.folder, folder=lambda it: f'{self.folder}/crates/{it}')
        self.assertFalse(built.Libraries(repository).is_built('low'))
