"""Runs tools/record: records become scripts, scripts are checked, and real programs are recorded where there is an MPI library.

    python3 compare/runs/recorded.py PROGRAM             worked rows, stored records, 200 records that are cut, and, under the first
                                                         library on the path, the programs of compare/recorded and the round trip
    python3 compare/runs/recorded.py PROGRAM --all       under both libraries, the examples in both modes, and more runs that are forced
    python3 compare/runs/recorded.py PROGRAM --no-mpi    without these

Rows (worked_records.py) are records of a few calls, with their statements or their refusals worked out by hand. Stored records, of eight programs
with a bug each, give scripts that are stored too, byte for byte; what `check` says of these, and what receives could have taken, was worked out by
hand. A record that is cut anywhere, with zeros after it, gives a script that `check` takes, or a refusal. Under a library the programs are run, with
the matches of their stored record forced, and give the same scripts; mended, nothing bad is told of them, also in runs that are forced. A program
in Fortran is recorded, one whose result hangs on an order of messages is told by what it prints, and what was forced on one passes when it is mended. The round trip
goes from the examples by `mpdbg c` through the library and the recorder back to scripts, which must end as `check --ends` lists. What is skipped is
said. The status is 0 where nothing was wrong.
"""

import argparse
import os
import random
import re
import shutil
import subprocess
import sys
import tempfile
import time
from collections import Counter
from dataclasses import replace

sys.path.insert(0, os.path.dirname(os.path.dirname(os.path.abspath(__file__))))

from libraries.library_runs import ENVIRONMENT, LIBRARIES
from places import TOP
from rows.worked_pages import PAGES
from rows.worked_records import CARRIED, MESSAGES, RUNS, STATEMENTS, UNSEEN, UNSEEN_ENDS

from runs.recorded_pages import ALARMS, wrong_held, wrong_interrupt, wrong_live, wrong_pages, wrong_right

sys.path.insert(0, f'{TOP}/tools/record')

import checking
import forcing
from matching import others
from plan import Plan
from records import WORLD, Refused, paths_of, read_run
from page import Page, tags_of
from report import recorded, tell_record
from script import script_of
from signatures import Signature, are_a_message, are_alike
from trying import Tries, tell_tries

STORED = f'{TOP}/compare/recorded'
SEED, CUT = 65, 200
RANKS = {'butterfly': 4}
FEW_ENDS, MOST_TRIES = 8, 60
MODES = ('rendezvous', 'buffered')


def named(rank, number):
    return f'{rank}.{number}'


# ---- rows

def write_records(folder, records):
    for rank, text in enumerate(records):
        members = ' '.join(map(str, range(len(records))))
        with open(f'{folder}/rank.{rank}', 'w', encoding='ascii') as file:
            file.write(f'mpdrec 1 rank {rank} size {len(records)} program a\ncomm world {members}\ncomm self {rank}\n{text}')


def blocks_of(text):
    """The statements of each rank of a script."""
    found, inside = [], None
    for line in text.splitlines():
        if line.startswith('if rank == '):
            inside = []
        elif line == '}':
            found.append('\n'.join(inside))
        elif inside is not None:
            inside.append(line[2:])
    return tuple(found)


def wrong_row(row, folder):
    """What is wrong with a row; None where nothing is."""
    write_records(folder, row.records)
    try:
        run = read_run(folder)
        script = script_of(Plan(run), frozenset(range(run.size)))
    except Refused as why:
        return None if row.statements is None and str(why) == row.refused else f'refused: {why}'
    if row.statements is None:
        return f'not refused: {script.text}'
    if blocks_of(script.text) != row.statements:
        return f'{blocks_of(script.text)}, wanted {row.statements}'
    with open(f'{folder}/a.mpd', 'w', encoding='ascii') as file:
        file.write(script.text)
    try:
        checking.report_of(f'{folder}/a.mpd', 'buffered', 10)
    except checking.NotChecked as why:
        return str(why)
    return None


def wrong_unseen(folder):
    """What is wrong with the hang of a receive that takes another message unseen, and with the record of that."""
    problems = []
    for records, wanted in zip(UNSEEN, UNSEEN_ENDS):
        write_records(folder, records)
        found = others(Plan(read_run(folder)))
        ends = [(receive.place, send.place, other.hang.named if other.hang else None) for other in found.found for receive, send in other.taken]
        problems += [] if found.is_whole and ends == wanted else [f'a message that is taken unseen: {ends}, wanted {wanted}']
    return problems


# ---- stored records

def wrong_stored(row):
    """What is wrong with a stored record."""
    folder, problems = f'{STORED}/records/{row.name}', []
    run = read_run(folder)
    plan = Plan(run)
    for name, asked in (('same.mpd', frozenset()), ('run.mpd', frozenset(range(run.size)))):
        with open(f'{folder}/{name}', encoding='ascii') as file:
            problems += [] if script_of(plan, asked).text == file.read() else [f'another {name}']
    for mode, wanted in (('buffered', row.buffered), ('rendezvous', row.rendezvous)):
        ends = [' '.join([leaf.outcome, *leaf.named]) for leaf in checking.report_of(f'{folder}/same.mpd', mode, 10).leaves]
        problems += [] if ends == [wanted] else [f'{mode}: ends {ends}, wanted {wanted}']
    found = others(plan)
    taken = sorted((named(receive.rank, receive.number), send.rank, int(send.send_tag)) for other in found.found for receive, send in other.taken)
    too_long = sorted({named(receive.rank, receive.number) for other in found.found for receive, _ in other.too_long})
    clash = tuple(named(call.rank, call.number) for calls in plan.clashes for call in calls)
    for what, has, wanted in (('others', tuple(taken), row.others), ('too long', tuple(too_long), row.too_long), ('clash', clash, row.clash)):
        problems += [] if has == wanted else [f'{what}: {has}, wanted {wanted}']
    return problems + ([] if found.is_whole else ['not whole'])


# ---- records that are cut

def wrong_cut(number, folder, met):
    """Cuts a stored record somewhere, by a seed; what is wrong with what comes of it."""
    drawn = random.Random(f'{SEED}/{number}')
    name = drawn.choice(RUNS).name
    for path in paths_of(f'{STORED}/records/{name}'):
        with open(path, 'rb') as file:
            text = file.read()
        if drawn.random() < 0.6:
            text = text[:drawn.randrange(len(text))] + bytes(drawn.choice((0, 1, 4096)))
        with open(f'{folder}/{os.path.basename(path)}', 'wb') as file:
            file.write(text)
    try:
        made = recorded(read_run(folder))
    except Refused:
        met['refused'] += 1
        return None
    met['scripts'] += 1
    met['without a rank'] += any(beside.no_record for beside in made.run.beside)
    try:
        for path in (made.same_path, made.asked_path):
            checking.report_of(path, 'buffered', 20)
    except checking.NotChecked as why:
        return f'{name}, cut {number}: {why}'
    return None


# ---- programs under a library

def compiled(library, source, program, words=()):
    subprocess.run([library.compiler, '-w', '-g', '-O1', *words, source, '-o', program], check=True)
    return program


def command_of(library, recorder, program, ranks, is_synchronous=False):
    return forcing.Command([program], ranks, [library.starter], recorder, 1.5, 60.0, is_synchronous)


def forced_of(path):
    """What a file forces; None where there is none."""
    if not os.path.exists(path):
        return None
    with open(path, encoding='ascii') as file:
        return {(rank, call): (source, tag) for rank, call, source, tag in (map(int, line.split()) for line in file)}


def wrong_program(library, recorder, row, folder, most):
    """What is wrong with a program and its mended form, each recorded; the latter with so many runs that are forced."""
    source, ranks, problems = f'{STORED}/programs/{row.name}.c', RANKS.get(row.name, 3), []
    program = compiled(library, source, f'{folder}/{row.name}')
    ran = forcing.run(command_of(library, recorder, program, ranks), f'{folder}/0', forced_of(f'{STORED}/records/{row.name}/force'))
    made = recorded(read_run(ran.folder))
    with open(f'{STORED}/records/{row.name}/run.mpd', encoding='ascii') as file:
        if made.asked.text != file.read():
            problems.append(f'{row.name}: another script than that of the stored record')
    command = command_of(library, recorder, compiled(library, source, f'{folder}/{row.name}', ('-DMENDED',)), ranks)
    ran, page = forcing.run(command, f'{folder}/0'), Page()
    told = tell_record(page, ran, read_run(ran.folder))
    made, found = told.found, told.others
    alarms = [line for line in page.lines if line.startswith(ALARMS)]
    problems += [f'{row.name}, mended: {line}' for line in alarms + ([] if ran.status == 0 else ['did not end well'])]
    tries = Tries(command, folder, made.plan, found)
    while len(tries.tried) < most and (fresh := tries.next()):
        tries.run(fresh)
    return problems + [f'{row.name}, mended, forced: {tried.came}' for tried in tries.tried if tried.is_bad]


# The calls of rank 0 of rod.f90, and their lines, in each of its two turns and after them; then comes MPI_Finalize.
TURN = [('Irecv', 15), ('Isend', 16), ('Waitall', 17), ('Sendrecv', 18)]
ROD = [(name, f'rod.f90:{line}') for name, line in [*TURN, *TURN, ('Reduce', 21)]]
# Tags, and how they are told.
TAGS = (([3], 'tag 3'), ([3, 3], 'tag 3'), ([1, 2], 'tags 1, 2'), ([7, 1, 3, 2], 'tags 1 to 3, 7'))


def wrong_fortran(library, recorder, folder):
    """What is wrong with the record of a program in Fortran; None in place of it where there is no compiler."""
    compiler = f'mpif90.{library.name}'
    if shutil.which(compiler) is None or shutil.which('gfortran') is None:
        return None
    program = f'{folder}/rod'
    subprocess.run([compiler, '-g', f'{STORED}/programs/rod.f90', '-o', program], check=True, capture_output=True)
    run = read_run(forcing.run(command_of(library, recorder, program, 3), f'{folder}/0').folder)
    calls = [(call.name, call.place) for call in run.calls[0]]
    return [] if calls[:-1] == ROD and calls[-1][0] == 'Finalize' else [f'rod.f90: {calls}']


def wrong_printed(library, recorder, folder):
    """What is wrong with what is told of a program whose result hangs on the order of messages, and of its mended form."""
    problems = []
    for words in ((), ('-DMENDED',)):
        command = command_of(library, recorder, compiled(library, f'{STORED}/programs/minors.c', f'{folder}/minors', words), 4)
        ran = forcing.run(command, f'{folder}/0')
        plan, page = recorded(read_run(ran.folder)).plan, Page()
        tell_tries(page, command, 3, ran, plan, others(plan))
        if page.has('PRINTED') == bool(words) or page.is_bad:
            problems.append(f'minors.c {words}: {page.lines}')
    return problems


def wrong_old_force(library, recorder, folder):
    """What is wrong where messages are forced on a program that was mended, so that it can't take one of them."""
    program = compiled(library, f'{TOP}/examples/gather_results.c', f'{folder}/gather', ('-DMENDED',))
    ran = forcing.run(command_of(library, recorder, program, 3), f'{folder}/0', {(0, 0): (2, 1), (0, 1): (2, 2)})
    sources = [completion.message.source for call in read_run(ran.folder).calls[0][:2] for completion in call.completions]
    return [] if ran.ending == forcing.Ending.WELL and sources == [2, 1] else [f'forced on the mended gather_results: {ran}, {sources}']


# ---- the round trip

def ends_of_script(path, mode):
    """The ends that `check --ends` lists of a script, and None where they are not all."""
    report = checking.report_of(path, mode, FEW_ENDS * 8)
    return Counter(end_told(leaf) for leaf in report.leaves) if report.is_whole else None


def end_told(leaf):
    """An end with its calls; of a trap the ranks alone, since the others are ended wherever they are."""
    return leaf.outcome if leaf.outcome == 'trap' else ' '.join([leaf.outcome, *leaf.named])


def read_of_script(folder):
    """The run of a program that `mpdbg c` wrote, without what it does before and after the statements of the script: it makes a
    communicator, on which its ranks wait for one another at the end."""
    run = read_run(folder)
    calls = [[replace(call, name='Finalize') if call.comm != WORLD else call for call in calls if call.name != 'Comm_dup'] for calls in run.calls]
    return replace(run, calls=calls)


def ends_of_runs(command, folder, mode):
    """The ends of all runs of a program that forced matches lead to."""
    ran = forcing.run(command, f'{folder}/0')
    plan = Plan(read_of_script(ran.folder))
    tries = Tries(command, folder, plan, others(plan, mode), read_of_script)
    while len(tries.tried) < MOST_TRIES and (fresh := tries.next()):
        tries.run(fresh)
    by_matches = {}
    for plan in tries.plans:
        made = recorded(plan.run)
        leaves = checking.report_of(made.same_path, mode, 10).leaves
        by_matches[tuple(sorted(plan.took.items()))] = end_told(leaves[0])
    return Counter(by_matches.values()), tries.next() is None and tries.is_whole


def round_trip(library, recorder, path, mode, folder):
    """What is wrong with the way of an example through C, the library and a record; None where nothing is, and '' where it is left out."""
    with open(path, encoding='ascii') as file:
        text = file.read()
    ranks = int(re.search(r'\branks (\d+) *;', re.sub(r'#.*', '', text))[1])
    wanted = ends_of_script(path, mode)
    if 'waitany' in text or wanted is None or sum(wanted.values()) > FEW_ENDS:
        return ''
    with open(f'{folder}/program.c', 'w', encoding='ascii') as file:
        file.write(checking.said('c', path))
    program = compiled(library, f'{folder}/program.c', f'{folder}/program')
    ends, is_whole = ends_of_runs(command_of(library, recorder, program, ranks, mode == 'rendezvous'), f'{folder}/runs', mode)
    return None if is_whole and ends == wanted else f'{os.path.basename(path)}, {mode}: ends {dict(ends)}, wanted {dict(wanted)}, whole {is_whole}'


def under(library, chosen, folder):
    """What is wrong under a library."""
    problems, met = [], Counter()
    recorder = forcing.built_recorder([library.compiler], folder)
    for row in RUNS:
        problems += wrong_program(library, recorder, row, folder, 10 if chosen.all else 3)
        met['programs'] += 1
    for row in PAGES:
        problems += wrong_live(library, recorder, row, folder)
        met['programs'] += 1
    problems += wrong_interrupt(library, folder) + wrong_right(library, recorder, folder) + wrong_held(library, recorder, folder)
    met['programs'] += 3
    for wrong in (wrong_printed, wrong_old_force, wrong_fortran):
        found = wrong(library, recorder, folder)
        problems += found or []
        met['programs'] += found is not None
        if found is None:
            print(f'skipped: no program in Fortran, since there is no compiler of it for {library.name}')
    examples = [name for name in sorted(os.listdir(f'{TOP}/examples')) if name.endswith('.mpd')]
    for number, name in enumerate(examples):
        for mode in MODES if chosen.all else MODES[number % 2:][:1]:
            wrong = round_trip(library, recorder, f'{TOP}/examples/{name}', mode, folder)
            met['left out' if wrong == '' else 'round trips'] += 1
            problems += [wrong] if wrong else []
    print(f'{library.name}: {met["programs"]} programs, {met["round trips"]} round trips, {met["left out"]} left out, {len(problems)} wrong')
    return [f'{library.name}: {problem}' for problem in problems]


def main():
    parser = argparse.ArgumentParser(description=__doc__, formatter_class=argparse.RawDescriptionHelpFormatter)
    parser.add_argument('program', type=os.path.abspath)
    parser.add_argument('--all', action='store_true', help='both libraries, both modes, and more runs that are forced')
    parser.add_argument('--no-mpi', action='store_true', help='no library')
    chosen = parser.parse_args()
    os.environ.update(ENVIRONMENT | {'MPDBG': chosen.program})
    began, problems, met = time.monotonic(), [], Counter()
    with tempfile.TemporaryDirectory(prefix='recorded-') as folder:
        for number, row in enumerate(STATEMENTS):
            os.mkdir(f'{folder}/row{number}')
            wrong = wrong_row(row, f'{folder}/row{number}')
            problems += [] if wrong is None else [f'{row.name}: {wrong}']
        os.mkdir(f'{folder}/unseen')
        problems += wrong_unseen(f'{folder}/unseen')
        problems += [f'tags {tags}: {tags_of(tags)}, wanted {told}' for tags, told in TAGS if tags_of(tags) != told]
        problems += [f'a message: {row}' for row in MESSAGES if are_a_message(Signature(row[0]), Signature(row[1])) != row[2]]
        problems += [f'a collective: {row}' for row in CARRIED if are_alike([Signature(text) for text in row[0]]) != row[1]]
        for row in RUNS:
            problems += [f'{row.name}: {wrong}' for wrong in wrong_stored(row)]
        for number in range(CUT):
            os.mkdir(f'{folder}/cut{number}')
            wrong = wrong_cut(number, f'{folder}/cut{number}', met)
            problems += [] if wrong is None else [wrong]
        problems += wrong_pages(f'{folder}/pages')
        if met['scripts'] < CUT // 4 or met['without a rank'] < CUT // 20:
            problems.append(f'too few of the records that were cut are scripts, or of fewer ranks: {dict(met)}')
        print(f'{len(STATEMENTS)} rows, {len(RUNS)} stored records, {2 * len(PAGES)} stored pages, {CUT} cut: {met["scripts"]} scripts, '
              f'{met["without a rank"]} of these without the record of a rank, {met["refused"]} refused')
        there = [] if chosen.no_mpi else [library for library in LIBRARIES if library.is_there() and shutil.which('addr2line')]
        if not there:
            print('skipped: no program is recorded, since there is no MPI library on the path, or none is asked for')
        for library in there if chosen.all else there[:1]:
            os.mkdir(f'{folder}/{library.name}')
            problems += under(library, chosen, f'{folder}/{library.name}')
    for problem in problems:
        print(problem)
    print(f'{time.monotonic() - began:.0f} seconds, {len(problems)} wrong')
    return 1 if problems else 0


if __name__ == '__main__':
    sys.exit(main())
