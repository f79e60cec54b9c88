"""Copies of the program in which a word is answered by calls that no trace word tells: made, tried on many inputs, compared.

What is changed in a copy stands in compare/probe/. `rt try` builds it, with no proof, and runs it under its checks of memory.
"""

import argparse
import os
import re
import shutil
import subprocess
import sys
import tempfile
from collections import Counter
from concurrent.futures import ThreadPoolExecutor
from typing import Callable, NamedTuple
from unittest import mock

from cases.explore_cases import Beside
from places import TOP

sys.path.append(f'{TOP}/.ci')
sys.dont_write_bytecode = True

from edit_files import BadEdit
from planted import InCrate, plant

PROBES = 'compare/probe'
# A batch is what the copy answers in one run, which may write 1 MiB under `rt try`.
MOST_OUTPUT = 1_000_000
MOST_WALKS = 50
# How many walks a process makes at a time; and among so many one is sought on which a broken model says otherwise.
CHUNK, MOST_SOUGHT = 20, 1000
DIVIDER = b'\0'


class Probe(NamedTuple):
    """What is changed in a copy: an edit, a file that comes to `mpd_trace` under a name, the main file, and crates for `mpd_trace`.

    All but the name and the crates are files of compare/probe/.
    """
    edit: str
    file: str
    name: str
    main: str
    crates: tuple = ()


class Walked(NamedTuple):
    """A script with a walk that asks at some places, what the model answers, and what was met there."""
    name: str
    data: bytes
    wanted: bytes
    met: Counter


class Batch(NamedTuple):
    """Some walks that the copy answers in one run."""
    name: str
    walks: list

    def write(self, folder):
        """Writes its input, and what must be answered to it, as `rt try --cases` takes them."""
        for ending, data in (('', b''.join(walk.data + DIVIDER for walk in self.walks)),
                             ('.stdout', b''.join(walk.wanted for walk in self.walks))):
            with open(f'{folder}/{self.name}{ending}', 'wb') as it:
                it.write(data)


def batches(walks):
    """The walks in batches."""
    found, size = [], 0
    for walk in walks:
        size += len(walk.wanted)
        if not found or size > MOST_OUTPUT or len(found[-1].walks) == MOST_WALKS:
            found.append(Batch(f'batch-{len(found)}', []))
            size = len(walk.wanted)
        found[-1].walks.append(walk)
    return found


class Change(InCrate):
    """A change of a copy: the edit of a probe, or a wrong body."""

    def __init__(self, path):
        super().__init__('', path)
        self.name = os.path.basename(path).removesuffix('.edit')
        self.read()


def make_copy(room, probe, changes):
    """Makes the copy of the program in an empty folder, with these changes; gives where it is to be tried."""
    left = plant([Change(f'{PROBES}/{probe.edit}'), *changes], room)
    if left:
        raise BadEdit(f'{left[0].name} touches another change')
    shutil.copy(f'{PROBES}/{probe.file}', f'{room}/crates/mpd_trace/src/{probe.name}')
    shutil.rmtree(f'{room}/crates/mpdbg/src')
    os.mkdir(f'{room}/crates/mpdbg/src')
    shutil.copy(f'{PROBES}/{probe.main}', f'{room}/crates/mpdbg/src/main.rt')
    for crate in probe.crates:
        use_crate(f'{room}/crates.txt', crate)
    return f'{room}/crates/mpdbg'


def use_crate(path, crate):
    """Has `mpd_trace`, and the program, use a crate where they don't yet."""
    with open(path, encoding='utf-8') as file:
        lines = file.read().splitlines()
    for place, line in enumerate(lines):
        name, _, used = line.partition(':')
        if name in ('mpd_trace', 'mpdbg') and crate not in used.split():
            lines[place] = f'{line} {crate}'
    with open(path, 'w', encoding='utf-8') as file:
        file.writelines(f'{line}\n' for line in lines)


def tried(probe, batches, changes, seconds):
    """What came of each batch in the copy with these changes, `expected`, `differs` or how it ended; and all that was said."""
    with tempfile.TemporaryDirectory(prefix='probe-') as room, tempfile.TemporaryDirectory(prefix='cases-') as cases:
        for batch in batches:
            batch.write(cases)
        # a run with few steps of the interpreter leaves the answer to the built copy
        words = ['rt', 'try', '--steps', '1000', '--seconds', str(seconds), '--cases', cases]
        ran = subprocess.run(words, cwd=make_copy(room, probe, changes), stdin=subprocess.DEVNULL, stdout=subprocess.PIPE,
                             stderr=subprocess.STDOUT, text=True, errors='replace')
    said = {}
    for name, what in re.findall(r'(?m)^case=(\S+) (.*) proved=no$', ran.stdout):
        ended = re.fullmatch(r'run=ended status=0 .*output=(differs|expected)', what)
        said[name] = ended[1] if ended else what
    return said, ran.stdout


def first_difference(probe, walk, seconds):
    """The first line of a walk that the copy answers otherwise than the model, with both answers."""
    with tempfile.TemporaryDirectory(prefix='probe-') as room:
        ran = subprocess.run(['rt', 'try', '--steps', '1000', '--seconds', str(seconds)], cwd=make_copy(room, probe, []),
                             input=walk.data + DIVIDER, capture_output=True)
    lines, wanted = (data.decode(errors='replace').split('\n') for data in (ran.stdout, walk.wanted))
    for place in range(max(len(lines), len(wanted))):
        pair = [it[place] if place < len(it) else '(nothing)' for it in (lines, wanted)]
        if pair[0] != pair[1]:
            return f'  answer {place + 1}: {pair[0]}\n  wanted: {pair[1]}'
    return '  no difference in a run of its own'


def report(probe, found, text, seconds):
    """Says on which walks the copy differs, keeps these, and shows the first."""
    print(text[-2000:])
    singles = [Batch(walk.name, [walk]) for batch in found[:4] for walk in batch.walks]
    said, _ = tried(probe, singles, [], seconds)
    differing = [batch for batch in singles if said.get(batch.name) != 'expected']
    folder = tempfile.mkdtemp(prefix='probe-')
    for batch in differing:
        batch.write(folder)
        print(f'{folder}/{batch.name}: {said.get(batch.name, "no answer")}')
    if differing:
        print(first_difference(probe, differing[0].walks[0], seconds))


# ---- walks, and faults of the model that some walk must show

class Trial(NamedTuple):
    """What is tried in a copy: a probe; functions of a module that give the walk of a seed and number, None where there is none, what must be
    answered to its input, and the faults of the model; and the folder of wrong bodies."""
    probe: Probe
    walked: Callable
    expected: Callable
    faults: Callable
    bodies: str


def parser_of(description):
    """What reads the words of a command line."""
    parser = argparse.ArgumentParser(description=description, formatter_class=argparse.RawDescriptionHelpFormatter)
    parser.add_argument('--count', type=int, default=300, help='how many scripts of version 1 (300), and half as many of version 2')
    parser.add_argument('--version', type=int, choices=[1, 2], default=2, help='the last version that the crates know (2)')
    parser.add_argument('--seed', type=int, default=1, help='another seed gives other scripts (1)')
    parser.add_argument('--planted', action='store_true', help='plant the wrong bodies too: a build for each')
    parser.add_argument('--seconds', type=int, default=60, help='how long a run of the copy may take (60)')
    parser.add_argument('--jobs', type=int, default=len(os.sched_getaffinity(0)), help='how many processes (one for each core)')
    return parser


def walked_chunk(walked, seed, numbers):
    """The walks of some numbers."""
    return [walk for number in numbers if (walk := walked(seed, number))]


def some_walked(pool, walked, seed, count):
    """So many walks."""
    found, first = [], 0
    while len(found) < count:
        chunks = range(first, first + max(count - len(found), CHUNK) * 5 // 4, CHUNK)
        tasks = [pool.submit(walked_chunk, walked, seed, range(chunk, chunk + CHUNK)) for chunk in chunks]
        found += [walk for task in tasks for walk in task.result()]
        first = chunks[-1] + CHUNK
    return found[:count]


def all_walked(pool, walked, chosen):
    """So many walks of scripts of version 1, and half as many of version 2."""
    found = some_walked(pool, walked, chosen.seed, chosen.count)
    return found + (some_walked(pool, walked, Beside(chosen.seed), chosen.count // 2) if chosen.version > 1 else [])


def noticing(trial, place, walks):
    """The first walk on which this broken model says otherwise, with what it says, as a batch; None where there is none."""
    fault = trial.faults()[place]
    with mock.patch.object(fault.owner, fault.attribute, fault.replacement):
        for walk in walks:
            said = trial.expected(walk.data)
            if said != walk.wanted:
                return Batch(f'broken-{place}', [walk._replace(wanted=said)])
    return None


def sought_among(walks):
    """The walks among which one is sought on which a broken model says otherwise: those of version 2 stand last."""
    return walks[:MOST_SOUGHT] + walks[max(MOST_SOUGHT, len(walks) - MOST_SOUGHT):]


def compare(trial, pool, chosen, walks):
    """Compares the walks, and the broken models; gives how much is wrong."""
    faults = trial.faults()
    sought = [pool.submit(noticing, trial, place, sought_among(walks)) for place in range(len(faults))]
    broken = [it.result() for it in sought]
    all_batches = batches(walks)
    said, text = tried(trial.probe, [*all_batches, *filter(None, broken)], [], chosen.seconds)
    differing = [batch for batch in all_batches if said.get(batch.name) != 'expected']
    if differing:
        report(trial.probe, differing, text, chosen.seconds)
    missed = [fault.name for fault, batch in zip(faults, broken) if not batch or said.get(batch.name) != 'differs']
    for name in missed:
        print(f'not noticed in the model: {name}')
    print(f'{len(all_batches)} runs, {len(differing)} different; {len(broken)} broken models, {len(broken) - len(missed)} noticed')
    return len(differing) + len(missed)


def compare_planted(trial, chosen, walks):
    """Plants each wrong body in a copy of its own; gives how many were not noticed."""
    all_batches, missed = batches(walks), 0
    bodies = [Change(f'{trial.bodies}/{name}') for name in sorted(os.listdir(trial.bodies))] if os.path.isdir(trial.bodies) else []
    with ThreadPoolExecutor(chosen.jobs) as pool:
        for body, (said, text) in zip(bodies, pool.map(lambda body: tried(trial.probe, all_batches, [body], chosen.seconds), bodies)):
            found = Counter(said.get(batch.name, 'no answer') for batch in all_batches)
            print(f'{body.name}: {dict(found)}', flush=True)
            if set(found) - {'expected', 'differs'} or not found['differs']:
                missed += 1
                print(f'{body.name}: NOT NOTICED: {text[-1000:]}')
    print(f'{len(bodies)} wrong bodies, {len(bodies) - missed} noticed')
    return missed or not bodies
