#!/usr/bin/env python3
"""Shows that the comparison with the model refuses wrong bodies that no contract can.

    .ci/planted.py [--builds N] [--jobs N] [PROGRAM]    at the top of the repository
    .ci/planted.py --read                               only whether each body can be made, those of other runs too

A body that answers want of memory where there is no want of it may still be proved. Each file of compare/broken/ is such a body:
an edit as those of must-fail/, with its crate and an input that meets it:

    crate: mpd_core
    fn: Core::apply, file:, old:, new:    as in must-fail/ (.ci/edits.py); the function is the one that what it changes stands in
    in: TEXT                              a line of the input; `in N: TEXT` is N such lines, `wide N: TEXT` one line of N such texts
    words: check FILE --runs 1            the words of the command line, where there are any: FILE stands for a file that has the input
    witness: TEXT                         a line of the file that WITNESS stands for in `words: verify FILE WITNESS`
    script: TEXT                          a line of the file that FILE stands for in `words: run FILE`; the input is then read as requests

What the program must answer to each input is worked out by the model of compare/, and PROGRAM, where it is named, must answer so
to all of them. The bodies are planted together, in a few copies that `rt try` runs, with no proof: each body in half of the
copies. Its input must be answered wrongly in each copy that has it, and rightly in each that has it not. Without `--builds` there
are so many copies that no two bodies are in the same ones: then it is this body that the input shows, and no other. With
`--builds 2`, as in .ci/run, this is shown of the bodies in the other half. Status 1 where that isn't so; the last line is
`N refused, M not`.

Other runs of compare/ plant wrong bodies, too (`served/broken/`, `probe/broken*/`), and make copies with other changes (`probe/*.edit`);
not all of them are stages of the gate. With `--read` each file below compare/ that ends in `.edit` is read: its old texts must stand in
the sources, once, and of a wrong body in the function that it names, and the scenario or the row that is to find it must be there. So a
body that a change of the sources or of the rows has left behind fails the gate's first stages, whichever run plants it.
"""
import argparse
import functools
import glob
import itertools
import math
import os
import re
import shutil
import subprocess
import sys
import tempfile
from concurrent.futures import ThreadPoolExecutor

HERE = os.path.dirname(os.path.abspath(__file__))
sys.path[:0] = [HERE, f'{os.path.dirname(HERE)}/compare']
sys.dont_write_bytecode = True

from cases.explore_cases import Case
from copies import head_around
from edit_files import BadEdit, Edit, merged, text_of, touches
from model import explorer, session, witness
from model.debugger import RENDEZVOUS, answer
from model.files import held
from probe.call_rows import direct_names, rows as rows_of_calls
from runs.serving import BY_NAME as SCENARIOS

FOLDER = 'compare/broken'
# What the words of a command line have in place of paths.
FILE, WITNESS = 'FILE', 'WITNESS'


class InCrate(Edit):
    """A change of the sources of a crate that it names."""

    def reads(self, key, value):
        if key == 'crate':
            self.folder = f'crates/{value.strip()}'
        return key == 'crate'


class Body(InCrate):
    """A wrong body: what it changes stands in the function that it names."""

    def regions(self):
        found, name = super().regions(), self.function.rpartition('::')[2]
        heads = [head_around(text_of(f'{self.folder}/{file}'), begin, end) for file, (begin, end, _) in found.items()]
        if name not in [head and head[3] for head in heads]:
            raise BadEdit(f'what it changes stands in {" and ".join(head[3] if head else "no one function" for head in heads)}, and not in {name}')
        return found


@functools.cache
def calls():
    """The names of the rows of calls, those of direct calls among them (compare/runs/refused_calls.py)."""
    return {row.name for row in rows_of_calls()} | {f'direct {name}' for name in direct_names()}


class OfOthers(Body):
    """A wrong body that another run plants, and the scenario or the row that is to find it, where it names one."""

    def reads(self, key, value):
        if key == 'scenario' and value.strip() not in SCENARIOS:
            raise BadEdit(f'no scenario: {value.strip()}')
        if key == 'row' and value.strip() not in calls():
            raise BadEdit(f'no row: {value.strip()}')
        return key in ('scenario', 'row', 'said') or super().reads(key, value)


class Planted(Body):
    """A wrong body, and the input that meets it."""

    def __init__(self, path):
        super().__init__('', path)
        self.name = os.path.basename(path).removesuffix('.edit')
        self.lines, self.words, self.witness_lines, self.script_lines = [], [], [], []
        self.read()
        if not self.lines:
            raise BadEdit('it has no input')
        self.input = lined(self.lines)
        self.witness, self.script = lined(self.witness_lines), lined(self.script_lines)
        self.wanted = self.answer_of_model()

    def reads(self, key, value):
        word, _, count = key.partition(' ')
        times = int(count) if count.isdigit() else 1
        if word == 'in':
            self.lines += [value] * times
        elif word == 'wide':
            self.lines.append(value * times)
        elif key == 'words':
            self.words = value.split()
        elif key == 'witness':
            self.witness_lines.append(value)
        elif key == 'script':
            self.script_lines.append(value)
        else:
            return super().reads(key, value)
        return True

    def answer_of_model(self):
        """What the program must give."""
        if not self.words:
            return answer(self.input)
        command, *words = self.words
        if self.script and command == 'run' and words[:1] == [FILE] and words[1:2] in ([], ['--mode']):
            return session.serve(self.script, self.input, words[2] if words[2:] else RENDEZVOUS)
        if command == 'check' and words.count(FILE) == 1:
            return Case(self.name, self.input, explorer.asked_by(words)[1]).wanted()
        if command == 'verify' and [word for word in words if word in (FILE, WITNESS)] == [FILE, WITNESS]:
            return witness.Verification(self.input, self.witness, witness.asked_by(words)[2]).wanted()
        raise BadEdit('its words are no `check FILE`, no `verify FILE WITNESS` and no `run FILE` with a script, with options')

    def words_with(self, file, witness_file):
        """The words of the command line, with these paths."""
        return [{FILE: file, WITNESS: witness_file}.get(word, word) for word in self.words]

    def write(self, cases, data):
        """Writes its input, words and answer to a folder, as `rt try --cases` takes them, and a witness or a script to another."""
        held(cases, self.name, self.input)
        held(cases, f'{self.name}.stdout', self.wanted.output)
        if self.words:
            file = f'{self.name}.script' if self.script else '{}'
            held(cases, f'{self.name}.args', '\n'.join(self.words_with(file, f'{self.name}.witness')).encode())
        if self.witness:
            held(data, f'{self.name}.witness', self.witness)
        if self.script:
            held(data, f'{self.name}.script', self.script)

    def run(self, program):
        """What a program gives for its input."""
        with tempfile.TemporaryDirectory() as folder:
            words = self.words_with(held(folder, 'input', self.script or self.input), held(folder, 'witness', self.witness))
            given = self.input if self.script or not words else b''
            return subprocess.run([program, *words], input=given, capture_output=True, timeout=120)


def lined(lines):
    return ''.join(f'{line}\n' for line in lines).encode()


def words(count, builds=None):
    """For each body the copies that have it, half of them: another half for each body, where there are copies enough."""
    builds = builds or next(it for it in itertools.count(2) if math.comb(it, it // 2) >= count)
    return builds, list(itertools.islice(itertools.cycle(itertools.combinations(range(builds), builds // 2)), count))


def plant(bodies, room):
    """Makes a copy of the repository with these bodies; those that touch others are answered, and left out."""
    for name in ('crates.txt', 'HANDLES'):
        if os.path.exists(name):
            shutil.copy(name, room)
    shutil.copytree('crates', f'{room}/crates', ignore=shutil.ignore_patterns('out', 'must-fail', 'proofs'))
    regions, left = {}, []
    for body in bodies:
        own = {f'{body.folder}/{file}': region for file, region in body.regions().items()}
        if touches(regions, own):
            left.append(body)
            continue
        for file, region in own.items():
            regions.setdefault(file, []).append(region)
    for file, text in merged('.', regions).items():
        with open(f'{room}/{file}', 'w', encoding='utf-8') as it:
            it.write(text)
    return left


def tried(bodies, cases, data):
    """What a copy with these bodies answers to each input, its output (as expected or not) and status, and all that was said. The
    inputs are in one folder, and other files that their words name in another."""
    with tempfile.TemporaryDirectory(prefix='planted-') as room:
        left = plant(bodies, room)
        if left:
            return {}, f'{left[0].name} touches another body'
        files = [word for name in sorted(os.listdir(data)) for word in ('--data', f'{name}={data}/{name}')]
        ran = subprocess.run(['rt', 'try', '--cases', cases, *files], cwd=f'{room}/crates/mpdbg', stdin=subprocess.DEVNULL, stdout=subprocess.PIPE, stderr=subprocess.STDOUT, text=True, errors='replace')
    said = re.findall(r'(?m)^case=(\S+) run=ended status=(\d+) .*output=(differs|expected) proved=no$', ran.stdout)
    return {name: (output == 'expected', int(status)) for name, status, output in said}, ran.stdout


def differs(program, body):
    ended = body.run(program)
    return (ended.stdout, ended.stderr, ended.returncode) != tuple(body.wanted)


def read_bodies():
    """The bodies that can be made, and how many can't."""
    bodies, failed = [], 0
    for name in sorted(it for it in os.listdir(FOLDER) if it.endswith('.edit')):
        try:
            body = Planted(f'{FOLDER}/{name}')
            body.regions()
            bodies.append(body)
        except BadEdit as error:
            failed += 1
            print(f'{name}: BAD EDIT: {error}')
    return bodies, failed


def unmade():
    """How many changes there are that other runs make, and why some can't be made."""
    paths = sorted(it for it in glob.glob('compare/**/*.edit', recursive=True) if os.path.dirname(it) != FOLDER)
    said = []
    for path in paths:
        # (what stands in probe/ itself makes a copy for a run, and is no wrong body)
        change = (InCrate if os.path.dirname(path) == 'compare/probe' else OfOthers)('', path)
        try:
            change.read()
            change.regions()
        except BadEdit as error:
            said.append(f'{path}: BAD EDIT: {error}')
    return len(paths), said


def main():
    given = argparse.ArgumentParser(description=__doc__, formatter_class=argparse.RawDescriptionHelpFormatter)
    given.add_argument('program', nargs='?', metavar='PROGRAM')
    given.add_argument('--builds', type=int, metavar='N', help='how many copies, 2 at least')
    given.add_argument('--jobs', type=int, default=2, metavar='N', help='how many at a time')
    given.add_argument('--read', action='store_true', help='only read the bodies: whether each can be made')
    given = given.parse_args()
    bodies, failed = read_bodies()
    if given.read:
        others, said = unmade()
        failed += len(said)
        print(*said, f'{len(bodies) + others - len(said)} wrong bodies and other changes can be made, {failed} not', sep='\n')
        return 1 if failed or not bodies or not others else 0
    if given.program:
        for body in bodies:
            if differs(os.path.abspath(given.program), body):
                failed += 1
                print(f'{body.name}: the program itself answers otherwise than the model')
    builds, taken = words(len(bodies), given.builds)
    with tempfile.TemporaryDirectory(prefix='cases-') as cases, tempfile.TemporaryDirectory(prefix='data-') as data, ThreadPoolExecutor(given.jobs) as pool:
        for body in bodies:
            body.write(cases, data)
        runs = [pool.submit(tried, [it for it, word in zip(bodies, taken) if build in word], cases, data) for build in range(builds)]
        said = [it.result() for it in runs]
    refused = 0
    for body, word in zip(bodies, taken):
        right = True, body.wanted.status
        found = [{None: 'none', right: 'right'}.get(it.get(body.name), 'wrong') for it, _ in said]
        wanted = ['wrong' if build in word else 'right' for build in range(builds)]
        if found == wanted:
            refused += 1
            print(f"{body.name}: refused: answered wrongly in {len(word)} of {builds} copies, those that have it")
        else:
            failed += 1
            shown = ' '.join(found)
            print(f"{body.name}: NOT REFUSED: it is in the copies {' '.join(map(str, word))}, and the answers are: {shown}")
    for build, (found, text) in enumerate(said):
        if len(found) < len(bodies):
            print(f'copy {build} answered {len(found)} of {len(bodies)} inputs: {text[-1500:]}')
    print(f'{refused} refused, {failed} not')
    return 1 if failed or not refused else 0


if __name__ == '__main__':
    sys.exit(main())
