"""The examples: scripts with words behind them, and the lessons of docs/COURSE.md ("More scripts") (its five first scripts, its nine mistakes, and the
reports at its end), whose script and words are files of their own.

NAME.trace is answered by NAME.stdout. NAME.mpd with NAME.words is answered by NAME.stdout, and in the mode `buffered` by
NAME.buffered.stdout, in `slots:1` by NAME.slots1.stdout, where that is there. NAME.console has words for the console on NAME.mpd, and
NAME.console.stdout its answers; NAME.buffered.console, and NAME.slots1.console, are the same in these modes. Each line of
NAME.checks is the status and the options of a check of NAME.mpd; NAME.reports has what these write, one behind the other. The lines of
NAME.requests are the requests of a session on NAME.mpd, and NAME.replies has its replies. client.py drives a session by itself; docs/SESSIONS.md shows what it writes. NAME.dialogue is a session on NAME.mpd that clients
share: `0 > LINE` is what client 0 sends, `0 < LINE` what it is replied, one behind the other, and the last line is what `serve` says when
all have left. socket_client.py is such a client. adapter_client.py asks the debug adapter; docs/EDITORS.md shows what it writes. join_parts.sh and piece.slurm are those of docs/CLUSTER.md. NAME.c is a program of
docs/FROM_MPI.md (mpi_programs.py).
"""

import os
from typing import NamedTuple

from model.debugger import BUFFERED, RENDEZVOUS, Result
from places import EXAMPLES

# The modes that a lesson may have answers for beside rendezvous, and how their files are called.
OTHER_MODES = (BUFFERED, BUFFERED), ('slots:1', 'slots1')


class Lesson(NamedTuple):
    """A lesson in a mode, and the file of its answers."""
    name: str
    mode: str
    answers: str

    @property
    def script(self):
        """The path of the script."""
        return os.path.join(EXAMPLES, f'{self.name}.mpd')


def open_example(name):
    """What a file of the examples holds."""
    with open(os.path.join(EXAMPLES, name), 'rb') as file:
        return file.read()


def example_names(ending):
    """The names of the examples that have a file with such an ending."""
    return sorted(name.removesuffix(ending) for name in os.listdir(EXAMPLES) if name.endswith(ending))


def lessons():
    """All lessons, in each mode that they have answers for."""
    found = []
    for name in example_names('.words'):
        found.append(Lesson(name, RENDEZVOUS, f'{name}.stdout'))
        for mode, ending in OTHER_MODES:
            if os.path.exists(os.path.join(EXAMPLES, answers := f'{name}.{ending}.stdout')):
                found.append(Lesson(name, mode, answers))
    return found


class Typed(NamedTuple):
    """What is typed at the console on a script in a mode, by the beginning of the names of its files."""
    name: str
    mode: str
    beginning: str

    @property
    def script(self):
        """The path of the script."""
        return os.path.join(EXAMPLES, f'{self.name}.mpd')

    @property
    def answers(self):
        """The file of its answers."""
        return f'{self.beginning}.console.stdout'

    @property
    def data(self):
        """What is typed."""
        return open_example(f'{self.beginning}.console')

    def wanted(self):
        """What it must be answered."""
        return Result(open_example(self.answers), b'', 0)


def consoles():
    """All dialogues of the console, each in its mode."""
    modes = {'': RENDEZVOUS, **{ending: mode for mode, ending in OTHER_MODES}}
    parts = [(name, *name.partition('.')[::2]) for name in example_names('.console')]
    return [Typed(script, modes[ending], name) for name, script, ending in parts]


class Checked(NamedTuple):
    """A check of a lesson, and its result."""
    name: str
    options: tuple
    wanted: Result

    @property
    def script(self):
        """The path of the script."""
        return os.path.join(EXAMPLES, f'{self.name}.mpd')


def reports_of(text):
    """The reports that stand one behind the other: each ends with the line that counts its leaves, or says which mode is the first."""
    found, lines = [], []
    for line in text.splitlines(keepends=True):
        lines.append(line)
        if line.startswith((b'leaves ', b'least ')):
            found.append(b''.join(lines))
            lines = []
    assert not lines, lines
    return found


def checks():
    """All checks of lessons."""
    found = []
    for name in example_names('.checks'):
        asked = [line.split() for line in open_example(f'{name}.checks').decode().splitlines()]
        reports = reports_of(open_example(f'{name}.reports'))
        assert len(asked) == len(reports), name
        found += [Checked(name, tuple(options), Result(report, b'', int(status))) for (status, *options), report in zip(asked, reports)]
    return found


def dialogues():
    """The names of all sessions."""
    return example_names('.requests')


class Spoken(NamedTuple):
    """A line that a client of a shared session sends, or that it is replied."""
    client: int
    is_sent: bool
    line: str


def shared_dialogue(name):
    """What is spoken in a session that clients share, in its order, and the last line of the server."""
    *spoken, last = open_example(f'{name}.dialogue').decode().splitlines()
    parts = [line.split(' ', 2) for line in spoken]
    assert all(sign in '<>' for _, sign, _ in parts), name
    return [Spoken(int(client), sign == '>', line) for client, sign, line in parts], last


def shared_dialogues():
    """The names of all sessions that clients share."""
    return example_names('.dialogue')


def strays():
    """Files of answers that nothing asks for."""
    asked = {f'{name}.stdout' for name in example_names('.trace')} | {lesson.answers for lesson in lessons()}
    asked |= {f'{name}.replies' for name in dialogues()} | {typed.answers for typed in consoles()}
    return sorted({f'{name}{ending}' for ending in ('.stdout', '.replies') for name in example_names(ending)} - asked)
