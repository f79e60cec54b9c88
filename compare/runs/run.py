"""Compares a program with the model, byte for byte, on many inputs: the same ones for the same seed and count.

    python3 compare/runs/run.py PROGRAM                 2,000 inputs of version 1, of all kinds, 500 of version 2, and 500 that show slots
    python3 compare/runs/run.py PROGRAM --two-modes     a program that has no modes `slots:K`: no inputs in one, and a model of that
    python3 compare/runs/run.py PROGRAM --version 1     a program that knows version 1 alone: no other inputs, and a model of that; two modes
    python3 compare/runs/run.py --broken                faults of the model, each noticed; with no program the sound model stands for it

The status is 0 where inputs were compared and none differed. A program that crashes, takes too long, too much memory or
writes too much differs.
"""

import os
import sys
import tempfile
import time
from concurrent.futures import ProcessPoolExecutor
from typing import NamedTuple

sys.path.insert(0, os.path.dirname(os.path.dirname(os.path.abspath(__file__))))

from cases.kinds import KINDS, counts_up_to, random_case, shares
from faults import slots_faults, waitany_faults
from faults.breakages import breakages
from model.debugger import Result, answer, answer_file, answer_packets
from model.files import held
from model.language import read_script, read_up_to
from model.modes import has_slots, know_modes
from runs import driving
from started.programs import run_at_once, run_in_packets

CHUNK = 8


def run(program, case, seconds):
    """What the program gives, with its script in a file where the case is of a mode."""
    if case.mode is None:
        return run_words(program, case, seconds, ())
    with tempfile.NamedTemporaryFile(prefix='compare-', suffix='.mpd') as file:
        file.write(case.script)
        file.flush()
        return run_words(program, case, seconds, ('trace', file.name, '--mode', case.mode))


def run_words(program, case, seconds, words):
    if case.packets is None:
        return run_at_once(program, case.data, seconds, words=words)
    return run_in_packets(program, case.packets, seconds, words)


def expected(case):
    """What the model gives; a case of a mode has few reads, so how they are cut is of no weight."""
    if case.mode is not None:
        return answer_file(case.script, case.data, case.mode)
    return answer(case.data) if case.packets is None else answer_packets(case.packets)


def differing_parts(result, wanted):
    """Which of output, errors and status differ, and how the program ended."""
    parts = [part for part in Result._fields if getattr(result, part) != getattr(wanted, part)]
    return f'{", ".join(parts)} (status {result.status}, wanted {wanted.status})'


class Different(NamedTuple):
    """An input on which the program and the model differ."""
    case: object
    parts: str


def different(program, case, seconds):
    """What is different on an input, in a list that has nothing where nothing is."""
    result, wanted = run(program, case, seconds), expected(case)
    return [] if result == wanted else [Different(case, differing_parts(result, wanted))]


def compare_chunk(chosen, kind, numbers):
    """Compares some inputs of a kind: how many, and what is different."""
    found = []
    for number in numbers:
        found += different(chosen.program, random_case(kind, chosen.seed, number, chosen.packets), chosen.seconds)
    return len(numbers), found


def kept(files, case):
    """Keeps an input, and its script where that is a file; says where."""
    path = held(files.folder(''), case.name, case.data)
    if case.mode is None:
        return path
    held(files.folder(''), f'{case.name}.mpd', case.script)
    return f'trace {path}.mpd --mode {case.mode} < {path}'


def report(files, kind, count, found):
    for case, parts in found:
        print(f'{kept(files, case)}: {parts}')
    print(f'{kind}: {count} inputs, {len(found)} different', flush=True)


def prepare(chosen):
    """Readies a process for its part of a run."""
    driving.prepare(chosen)
    know(chosen)


def know(chosen):
    """Has the model know what the program does."""
    read_up_to(chosen.version)
    know_modes(has_slots(chosen))


def counts_of(chosen):
    """How many inputs of each kind there are in a run."""
    return shares(chosen.count, chosen.kind) if chosen.kind else counts_up_to(chosen.version, chosen.count)


def compare_random(chosen):
    """Compares inputs of the kinds; gives how many there were, and how many differed."""
    counts, files = counts_of(chosen), driving.Kept('compare-')
    compared = differing = 0
    with ProcessPoolExecutor(chosen.jobs, initializer=prepare, initargs=(chosen,)) as pool:
        tasks = {kind: [pool.submit(compare_chunk, chosen, kind, range(first, min(first + CHUNK, count)))
                        for first in range(0, count, CHUNK)] for kind, count in counts.items()}
        for kind, chunks in tasks.items():
            results = [chunk.result() for chunk in chunks]
            count, found = sum(count for count, _ in results), sum((found for _, found in results), [])
            report(files, kind, count, found)
            compared += count
            differing += len(found)
    return compared, differing


def write_cases(chosen):
    """Writes the inputs that are one file, with what must be written for each, for `rt try --cases FOLDER`."""
    os.makedirs(chosen.write, exist_ok=True)
    count = 0
    for kind, number_of_kind in counts_of(chosen).items():
        for number in range(number_of_kind):
            case = random_case(kind, chosen.seed, number, False)
            if case.mode is not None:
                continue
            for name, data in ((case.name, case.data), (f'{case.name}.stdout', answer(case.data).output)):
                held(chosen.write, name, data)
            count += 1
    print(f'{count} cases in {chosen.write}')
    return 0 if count else 1


def count_noticed(chosen, breakage):
    """Of inputs on which program and model agree, the number on which the program and the broken model don't."""
    noticed = 0
    for number in range(chosen.count):
        case = random_case(breakage.kind, chosen.seed, number, chosen.packets)
        result = run(chosen.program, case, chosen.seconds) if chosen.program else expected(case)
        if result == expected(case):
            with driving.broken(breakage):
                read_script.cache_clear()
                noticed += int(result != expected(case))
            read_script.cache_clear()
    print(f'{breakage.name}: kind {breakage.kind}, {chosen.count} inputs, {noticed} noticed', flush=True)
    return noticed


def faults(chosen):
    """The faults of what the program knows."""
    kinds = counts_up_to(chosen.version, chosen.count)
    return [fault for fault in (*breakages(), *waitany_faults.breakages(), *slots_faults.breakages()) if fault.kind in kinds]


def arguments():
    told = ('inputs of version 1 (2000), a quarter of these of version 2 beside them, and a quarter that show slots; with --kind in all; '
            'with --broken of each kind')
    flags = (('--packets', 'each input cut into reads, and not only every third'),)
    parser = driving.parser_of(__doc__, told, 2000, 'input', *driving.CORES, others='inputs', flags=flags)
    driving.add_versions(parser)
    parser.add_argument('--kind', action='append', choices=list(KINDS), help='only this kind; may be given again')
    parser.add_argument('--write', metavar='FOLDER', help='compare nothing: write inputs and outputs for `rt try --cases`')
    chosen = driving.chosen_by(parser, 'broken', 'write')
    if chosen.broken and chosen.kind:
        parser.error('--broken has kinds of its own')
    return chosen


def main():
    chosen = arguments()
    know(chosen)
    if chosen.write:
        return write_cases(chosen)
    if chosen.broken:
        noticed = [count_noticed(chosen, breakage) for breakage in faults(chosen)]
        return 0 if all(noticed) else 1
    began = time.monotonic()
    compared, differing = compare_random(chosen)
    print(f'{compared} inputs compared, {differing} different, {time.monotonic() - began:.1f} seconds')
    if not compared:
        print('nothing was compared')
    return 0 if compared and not differing else 1


if __name__ == '__main__':
    sys.exit(main())
