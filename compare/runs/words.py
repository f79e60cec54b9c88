"""Runs each command that a transcript of compare/words shows, and compares all that it answers with what stands there, byte for byte.

    python3 compare/runs/words.py PROGRAM                       each difference is shown, as lines that go and lines that come
    python3 compare/runs/words.py PROGRAM --only NAME           those of one file, or of one case, by its name; may stand several times
    python3 compare/runs/words.py PROGRAM --write               files in which a case differs are written anew; read what git says of them

Transcripts show what people read: explanations, the console, screens, pictures, help, and what is told of faults. How they are written is
told in compare/rows/transcripts.py. Nothing says what the words should be but these files: who changes a sentence reads the difference, and
writes it anew. The status is 0 where some were run, none differs or they are written, and all files could be read.
"""

import argparse
import difflib
import glob
import os
import re
import subprocess
import sys
import tempfile
import threading
import tty
from concurrent.futures import ProcessPoolExecutor
from typing import NamedTuple

sys.path.insert(0, os.path.dirname(os.path.dirname(os.path.abspath(__file__))))

from model.debugger import Result
from places import EXAMPLES, TOP
from rows.transcripts import Case, Unread, read_page, result_shown
from runs import driving
from started.devices import at_terminal, rest_told
from started.programs import limit, run_at_once

FOLDER = f'{TOP}/compare/words'
# How far a check is stands at a terminal meanwhile, by the clock, and is wiped.
WIPED = re.compile(rb'(?:\rpieces [^\r]*)+\r\x1b\[K')


class Told(NamedTuple):
    """A case of a file, and what it must be run with."""
    page: str
    case: Case
    program: str
    seconds: float

    @property
    def name(self):
        return f'{self.page}: {self.case.name}'


# ---- files that are read again

def lay(path, later):
    """Has a file, of which a text was just opened, bring the next one; after the last it has that for good, and None takes it away."""
    if later[0] is None:
        os.remove(path)
        return
    if len(later) > 1:
        os.mkfifo(f'{path}.next')
    else:
        with open(f'{path}.next', 'wb') as file:
            file.write(later[0])
    os.replace(f'{path}.next', path)


def bring(path, texts):
    """Brings each of several texts to whoever opens a file, in turn. What is next stands there before a text has ended."""
    for place, text in enumerate(texts[:-1]):
        with open(path, 'wb') as pipe:
            lay(path, texts[place + 1:])
            pipe.write(text)


def put(folder, name, texts):
    """Puts a file into a folder; one that is read again is a pipe, of which each opening brings the next text."""
    path = os.path.join(folder, name)
    if len(texts) > 1:
        os.mkfifo(path)
        threading.Thread(target=bring, args=(path, texts), daemon=True).start()
        return
    with open(path, 'wb') as file:
        file.write(texts[0])


# ---- runs

def run_on_screen(program, words, data, seconds):
    """The result of a run whose three files are one terminal, which passes each byte as it is."""
    ours, theirs = os.openpty()
    tty.setraw(theirs)
    process = subprocess.Popen([program, *words], stdin=theirs, stdout=theirs, stderr=theirs)
    os.close(theirs)
    watch = threading.Timer(seconds, process.kill)
    watch.start()
    try:
        os.write(ours, data)
        screen = rest_told(ours)
        return Result(screen, b'', process.wait())
    finally:
        watch.cancel()


def run(told):
    """What the program gives in the folder of a case, which this process is in."""
    case = told.case
    if case.terminal == 'all':
        return run_on_screen(told.program, case.words, case.data, told.seconds)
    if case.terminal == 'errors':
        result = at_terminal(told.program, *case.words, data=case.data)
        return result._replace(errors=WIPED.sub(b'', result.errors))
    return run_at_once(told.program, case.data, told.seconds, words=case.words)


def shown(told):
    """The lines that show what the program gives, in a folder that has the files of the case and the examples."""
    with tempfile.TemporaryDirectory(prefix='words-') as folder:
        os.symlink(EXAMPLES, f'{folder}/examples')
        for name, texts in told.case.files.items():
            put(folder, name, texts)
        os.chdir(folder)
        try:
            return result_shown(run(told), told.case.terminal)
        finally:
            os.chdir(TOP)


# ---- files of transcripts

def read(path):
    with open(path, encoding='utf-8', newline='\n') as file:
        return file.read()


def write(path, text):
    with open(path, 'w', encoding='utf-8', newline='\n') as file:
        file.write(text)


def pages_read(paths):
    """The files of transcripts by their names, and how many can't be read, each of which is told."""
    pages, wrong = {}, 0
    for path in sorted(paths):
        try:
            pages[os.path.basename(path)[:-4]] = read_page(read(path))
        except Unread as unread:
            wrong += 1
            print(f'{os.path.relpath(path, TOP)}, line {unread.args[0]}: {unread.args[1]}')
    return pages, wrong


def is_asked(only, page, case):
    """Whether a case is one of those that are asked for."""
    return not only or any(name in (page, case.name, f'{page}: {case.name}') for name in only)


def differences(told, lines):
    """The lines in which a case differs from its transcript."""
    return list(difflib.unified_diff(told.case.shown, lines, told.name, f'{told.name}, as it runs', lineterm=''))


def written_anew(pages, made):
    """Writes files of which a case differs, each case with what it has given; gives how many."""
    count = 0
    for name, page in pages.items():
        text = page.text([made.get(f'{name}: {case.name}', case.shown) for case in page.cases])
        path = f'{FOLDER}/{name}.txt'
        if text != read(path):
            write(path, text)
            count += 1
    return count


def compared(chosen, pages):
    """What each case that is asked for has given, by its name, and how many differ, each of which is shown."""
    all_told = [Told(name, case, chosen.program, chosen.seconds) for name, page in pages.items() for case in page.cases
                if is_asked(chosen.only, name, case)]
    made, different = {}, 0
    with ProcessPoolExecutor(chosen.jobs, initializer=limit, initargs=(chosen.memory, chosen.output)) as pool:
        for told, lines in zip(all_told, pool.map(shown, all_told)):
            made[told.name] = lines
            found = differences(told, lines)
            different += bool(found)
            if found:
                print('\n'.join(found), flush=True)
    return made, different


def parser():
    found = argparse.ArgumentParser(description=__doc__, formatter_class=argparse.RawDescriptionHelpFormatter)
    found.add_argument('program', metavar='PROGRAM')
    found.add_argument('--only', action='append', metavar='NAME', help='a file without its .txt, or a case; may stand several times')
    found.add_argument('--write', action='store_true', help='write files anew in which a case differs')
    found.add_argument('--jobs', type=int, default=2, help='how many processes (2)')
    found.add_argument('--seconds', type=float, default=600, help='how long one run may take (600)')
    found.add_argument('--memory', type=int, default=4096, help='how much memory the program may take, in MiB (4096)')
    found.add_argument('--output', type=int, default=64, help='how much the program may write, in MiB (64)')
    return found


def main():
    chosen = driving.chosen_by(parser())
    pages, wrong = pages_read(glob.glob(f'{FOLDER}/*.txt'))
    made, different = compared(chosen, pages)
    if chosen.write:
        print(f'{written_anew(pages, made)} files were written')
    print(f'{len(made)} transcripts, {different} different{f", {wrong} files that cannot be read" if wrong else ""}')
    return 1 if wrong or not made or (different and not chosen.write) else 0


if __name__ == '__main__':
    sys.exit(main())
