"""Pages of recorded runs: those of stored records, byte for byte, and those of programs that are run; for compare/runs/recorded.py.

    python3 compare/runs/recorded_pages.py PROGRAM [NAME..]     records these programs, or all, anew, and stores their records with pages

A stored record is a text in compare/recorded/pages: how the run ended, the record of each rank, what was printed, and the page, each
after a line `--- NAME`. Of each program there is one with its mistake, and one mended, of which nothing bad may be told. What pages must
have of a mistake, and in which line of the program, was worked out by hand (rows/worked_pages.py). Commands that a page shows are tried:
`diagnose` of the matches of the run finds a hang in the mode that is shown if, and only if, the page tells one.
"""

import os
import re
import signal
import subprocess
import sys
import tempfile

sys.path.insert(0, os.path.dirname(os.path.dirname(os.path.abspath(__file__))))

from libraries.library_runs import ENVIRONMENT, LIBRARIES
from places import TOP
from rows.worked_pages import PAGES, Shown

sys.path.insert(0, f'{TOP}/tools/record')

import checking
import forcing
from forcing import Ending, Ran
from matching import others
from page import Page
from records import Refused, read_run
from report import recorded, tell_end, tell_record
from trying import tell_tries

STORED = f'{TOP}/compare/recorded/pages'
SOURCES = f'{TOP}/compare/recorded/programs'
# Words of a page that tell something bad.
ALARMS = ('HANG', 'SENDS', 'LEFT', 'LENGTH', 'DIFFER', 'STILL', 'ABSENT', 'REQUEST', 'TYPES', 'BUFFER', 'FINALIZE', 'ERROR', 'COMM', 'OPEN')
FORMS = (('', ()), ('.mended', ('-DMENDED',)))
# How long mpdrec may take, in seconds, to end after an interrupt, on a machine that does much else.
CLEANING = 300
COMMAND = re.compile(r'(?:^  |steps: )\./mpdbg (?:debug|diagnose) (\S+) --mode (\S+)$')


def page_of(folder, ending, status):
    """The page of a record in the folder `run` of a folder, as it is told there."""
    page, before = Page(), os.getcwd()
    os.chdir(folder)
    try:
        ran = Ran('run', Ending(ending), status, 60.0)
        told = tell_record(page, ran, read_run('run'))
        tell_end(page, told.found, '')
    except Refused as why:
        page.tell('REFUSED', str(why))
    finally:
        os.chdir(before)
    shown = checking.shown().strip()
    return page, [line.replace(shown, './mpdbg') for line in page.lines]


def sections_of(text):
    """The sections of a stored record, by name."""
    parts = re.split(r'^--- (\S+)\n', text, flags=re.M)
    return dict(zip(parts[1::2], parts[2::2]))


def wrong_commands(folder, form, lines):
    """What is wrong with the commands of a page: in its mode each finds a hang of the matches of the run if the page tells one, and nothing
    but an end that is done if the program is mended."""
    problems, hangs = [], any(line.startswith('HANG ') and 'if ' not in line for line in lines)
    for path, mode in {found.groups() for found in map(COMMAND.search, lines) if found}:
        if path.endswith('run.mpd'):
            continue
        wanted = hangs or mode == 'rendezvous'
        ends = {leaf.outcome for leaf in checking.report_of(f'{folder}/{path}', mode, 10).leaves}
        if ('deadlock' in ends) != wanted and not any(line.startswith('UNSURE') for line in lines):
            problems.append(f'{path} in {mode}: ends {ends}, and the page tells a hang: {wanted}')
        if form and ends != {'done'}:
            problems.append(f'{path} in {mode}: ends {ends} of a right program')
    return problems


def wrong_form(row, form, folder):
    """What is wrong with a stored record, with its mistake or mended."""
    name = f'{row.name}{form}'
    with open(f'{STORED}/{name}.txt', encoding='utf-8') as file:
        sections = sections_of(file.read())
    os.makedirs(f'{folder}/{name}/run')
    for part in (part for part in sections if part not in ('ending', 'page')):
        with open(f'{folder}/{name}/run/{part}', 'w', encoding='utf-8') as file:
            file.write(sections[part])
    ending, _, status = sections['ending'].strip().rpartition(' ')
    page, lines = page_of(f'{folder}/{name}', ending, int(status))
    problems = [] if '\n'.join(lines) + '\n' == sections['page'] else ['another page: ' + '\n'.join(lines)]
    problems += wrong_commands(f'{folder}/{name}', form, lines)
    return [f'{name}: {problem}' for problem in problems + wrong_told(row, form, page)]


def wrong_told(row, form, page):
    """What a page doesn't tell of a mistake, or tells of a program that is right."""
    if form:
        return [f'told of a right program: {line}' for line in page.lines if line.startswith(ALARMS)] + (['bad'] if page.is_bad else [])
    text = '\n'.join(page.lines)
    return [f'not told: {told}, but {text}' for told in row.told if told not in text]


def wrong_pages(folder):
    """What is wrong with the pages of stored records."""
    return [wrong for row in PAGES for form, _ in FORMS for wrong in wrong_form(row, form, folder)]


# ---- programs under a library

def run_of(library, recorder, row, words, folder):
    """A run of a program, in the folder `run` of a folder."""
    program = f'{folder}/{row.program or row.name}'
    subprocess.run([library.compiler, '-w', '-g', '-O1', *words, f'{SOURCES}/{row.program or row.name}.c', '-o', program], check=True)
    return forcing.run(forcing.Command([program], row.ranks, [library.starter], recorder, row.patience, 60.0), f'{folder}/run')


def wrong_live(library, recorder, row, folder):
    """What is wrong with the pages of a program, with its mistake and mended, that is run under a library."""
    problems = []
    for form, words in FORMS if row.is_steady and row.library in ('', library.name) else ():
        at = tempfile.mkdtemp(dir=folder)
        ran = run_of(library, recorder, row, words or row.words, at)
        page, _ = page_of(at, ran.ending.value, ran.status)
        problems += [f'{row.name}{form}: {wrong}' for wrong in wrong_told(row, form, page)]
    return problems


def wrong_right(library, recorder, folder):
    """What is wrong with the page of a program of many kinds of calls, all of them right."""
    at, row = tempfile.mkdtemp(dir=folder), Shown('calls', 3, ())
    ran = run_of(library, recorder, row, (), at)
    page, _ = page_of(at, ran.ending.value, ran.status)
    return [f'calls: {wrong}' for wrong in wrong_told(row, '.mended', page) + ([] if ran.ending == Ending.WELL else page.lines)]


def wrong_held(library, recorder, folder):
    """What is wrong with what is told of a program that hangs if a look comes too early, and of its mended form: only the first hangs where
    a look is held back."""
    problems = []
    for form, words in FORMS:
        at = tempfile.mkdtemp(dir=folder)
        ran = run_of(library, recorder, Shown('decide', 3, ()), words, at)
        plan, page = recorded(read_run(ran.folder)).plan, Page()
        command = forcing.Command([f'{at}/decide'], 3, [library.starter], recorder, 1.5, 60.0)
        tell_tries(page, command, 4, ran, plan, others(plan))
        hung = [line for line in page.lines if re.search(r'hung.*: rank 1 stands at decide.c:35 MPI_Recv$', line)]
        if bool(hung) == bool(form) or page.is_bad == bool(form) or 'looks held back' not in page.lines[0]:
            problems.append(f'decide{form}: {page.lines}')
    return problems


def wrong_interrupt(library, folder):
    """What is wrong with the page of mpdrec if it is interrupted after a run that was forced, and with what it told by then."""
    program, at = f'{folder}/farm', tempfile.mkdtemp(dir=folder)
    subprocess.run([library.compiler, '-w', '-g', f'{SOURCES}/farm.c', '-o', program], check=True)
    words = [f'{TOP}/tools/record/mpdrec', '-n', '3', '--try', '60', '--folder', f'{at}/runs', program]
    environment = dict(os.environ) | {'MPIEXEC': f'env {library.starter}', 'MPICC': library.compiler}
    process = subprocess.Popen([sys.executable, *words], env=environment, stdout=subprocess.PIPE, stderr=subprocess.PIPE, text=True,
                               preexec_fn=lambda: signal.signal(signal.SIGINT, signal.default_int_handler))
    told = []
    while not told or not told[-1].startswith('run 1 of 60: ') and told[-1]:
        told.append(process.stderr.readline())
    process.send_signal(signal.SIGINT)
    try:
        page, more = process.communicate(timeout=CLEANING)
    except subprocess.TimeoutExpired:
        process.kill()
        return [f'interrupted: {told}, and not ended after {CLEANING} seconds']
    is_right = told[0].startswith('first run: ') and ('; interrupted\n' in page or '\nSTOPPED ' in page) and 'Traceback' not in more
    return [] if is_right and '\nRUN ' in page and '\nORDER ' in page else [f'interrupted: {told}, {more}, {page}']


def store(row, folder):
    """Records a program anew, and stores its record and its page."""
    library = next(library for library in LIBRARIES if library.name == (row.library or 'mpich'))
    recorder = forcing.built_recorder([library.compiler], folder)
    for form, words in FORMS:
        at = tempfile.mkdtemp(dir=folder)
        ran = run_of(library, recorder, row, words or row.words, at)
        with open(f'{at}/run/printed', encoding='utf-8', errors='replace') as file:
            printed = re.sub(r'RUNNING AT \S+', 'RUNNING AT host', re.sub(r'\[\w+:\d+\]', '[host:1]', file.read()))
        with open(f'{at}/run/printed', 'w', encoding='utf-8') as file:
            file.write(printed)
        _, lines = page_of(at, ran.ending.value, ran.status)
        names = sorted(name for name in os.listdir(f'{at}/run') if re.fullmatch(r'(rank|early)\.\d+|printed', name))
        with open(f'{STORED}/{row.name}{form}.txt', 'w', encoding='utf-8') as file:
            file.write(f'--- ending\n{ran.ending.value} {ran.status}\n')
            for name in names:
                with open(f'{at}/run/{name}', encoding='utf-8', errors='replace') as part:
                    file.write(f'--- {name}\n{part.read()}')
            file.write('--- page\n' + '\n'.join(lines) + '\n')
        print('\n'.join([f'{row.name}{form}', *lines]))


def main():
    os.environ.update(ENVIRONMENT | {'MPDBG': os.path.abspath(sys.argv[1])})
    os.makedirs(STORED, exist_ok=True)
    with tempfile.TemporaryDirectory(prefix='pages-') as folder:
        for row in [row for row in PAGES if not sys.argv[2:] or row.name in sys.argv[2:]]:
            store(row, folder)


if __name__ == '__main__':
    main()
