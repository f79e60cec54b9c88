"""What `run` and `debug` have in common: both answer what is asked of the script of a file, in a mode, and both are cut off in the same ways.

Each has rows of its own (session_statuses.py, console_statuses.py), which are run on a folder with two scripts; here are those that differ
only in what is asked.
"""

import os
import resource
import tempfile
from typing import NamedTuple

from model.files import held
from model.modes import KNOWN
from started.devices import Files, broken_off, device, file_of_any_size, full, soft_limit, unread_pipe
from started.programs import file_of
from statuses.worked_program import BAD_MODE


class Asked(NamedTuple):
    """A command, two scripts, the second of which waits for ever but where sends are buffered, what is asked of the first, and the answers."""
    command: str
    first: bytes
    both: bytes
    lines: list
    answers: list

    @property
    def data(self):
        return b''.join(self.lines)

    @property
    def answered(self):
        return b''.join(self.answers)


class Folder:
    """A folder with the files of scripts, and a program that is run on them."""

    def __init__(self, program, path, asked):
        self.program, self.path, self.asked = program, path, asked
        self.first, self.both = self.file('first', asked.first), self.file('both', asked.both)

    def file(self, name, data):
        return held(self.path, name, data)

    def run(self, *words, data=None, **files):
        return Files(file_of(self.asked.data if data is None else data), **files).run(self.program, self.asked.command, *words)

    def run_reading(self, reading, *words, **files):
        return Files(reading, **files).run(self.program, self.asked.command, *words)


def folder_of(asked, rows):
    """Rows of a program, from those of a folder."""
    def rows_of(program):
        with tempfile.TemporaryDirectory(prefix=f'{asked.command}-') as path:
            yield from ((f'{asked.command}, {name}', *results) for name, *results in rows(Folder(program, path, asked)))
    return rows_of


def mode_rows(folder, data, waits, passes):
    """Modes, of the script that waits for ever but where sends are buffered; and the order in which mode, file and script are tested."""
    both = folder.both
    bad, missing = folder.file('bad', b'mpd 1;ranks 1;print'), os.path.join(folder.path, 'none')
    yield 'no mode', folder.run(both, data=data), waits
    yield 'rendezvous', folder.run(both, '--mode', 'rendezvous', data=data), waits
    yield 'buffered', folder.run(both, '--mode', 'buffered', data=data), passes
    yield 'buffered first', folder.run('--mode=buffered', both, data=data), passes
    yield 'a file behind --', folder.run('--mode', 'buffered', '--', both, data=data), passes
    yield from ((f'mode {mode!r}', folder.run(both, '--mode', mode, data=data), passes) for mode in ('slots:1', 'slots:65536') * bool(KNOWN))
    for mode in ('buffer', '', 'Buffered', 'buffered ', 'slots:', 'slots:65537', 'rendezvous buffered', *(() if KNOWN else ('slots:1',))):
        yield f'mode {mode!r}', folder.run(folder.first, '--mode', mode), BAD_MODE
    yield 'a mode before a missing file', folder.run(missing, '--mode', 'none'), BAD_MODE
    yield 'a mode before a bad script', folder.run(bad, '--mode', 'none'), BAD_MODE


def input_rows(folder):
    """Input that fails: what had been answered stands."""
    for name, reading in (('closed', None), ('a directory', os.open('/', os.O_RDONLY)), ('that is written', unread_pipe())):
        yield f'input {name}', folder.run_reading(reading, folder.first), device()
    asked = folder.asked
    yield ('input broken off in a line that is too long', folder.run_reading(broken_off(asked.lines[0] + b'x' * 5000), folder.first),
           device(asked.answers[0]))


def output_rows(folder):
    """Output that fails, or has room for so many bytes."""
    for name, output in (('full', full()), ('closed', None), ('unread', unread_pipe())):
        yield f'output {name}', folder.run(folder.first, output=output), device()
    answers, answered = folder.asked.answers, folder.asked.answered
    for size in (0, 1, 40, len(answers[0]), len(answers[0]) + 7, len(answered) - 1):
        # standard error is a pipe, so that it has no such limit
        reading, writing = os.pipe()
        with soft_limit(resource.RLIMIT_FSIZE, size):
            result = folder.run_reading(file_of_any_size(folder.asked.data), folder.first, errors=writing)
        with open(reading, 'rb') as errors:
            yield f'output of {size} bytes', result._replace(errors=errors.read()), device(answered[:size])
