"""What mpdbg says of a script: its reports, and the steps of a run."""

import os
import re
import signal
import subprocess
from dataclasses import dataclass, field
from typing import List, NamedTuple, Optional, Tuple

TOP = os.path.dirname(os.path.dirname(os.path.dirname(os.path.abspath(__file__))))
SECONDS = 120

LEAF = re.compile(r'leaf \d+ \[([\d ]*)\] (\w+)(?: (.*))?$')
MODE = re.compile(r'(\S+) leaves \d+ deadlocks (\d+) traps (\d+) leftovers \d+ cut \d+ more (yes|no)$')


class NotChecked(Exception):
    """A script that mpdbg doesn't check: what it said."""


@dataclass
class Leaf:
    """A run that a report lists: its choices, how it ends, what its outcome names, and how it is explained."""
    choices: str
    outcome: str
    named: List[str]
    told: List[str] = field(default_factory=list)


class Report(NamedTuple):
    leaves: List[Leaf]
    is_whole: bool


class Match(NamedTuple):
    """A match of a send and a receive, each by its rank and number."""
    send: Tuple[int, int]
    receive: Tuple[int, int]


def program() -> str:
    """The mpdbg that is asked: that of MPDBG, else the one of this tree."""
    return os.environ.get('MPDBG') or os.path.join(TOP, 'mpdbg')


def shown(*words: str) -> str:
    """A command of mpdbg as it is typed where mpdrec was started."""
    path = os.path.relpath(program())
    path = program() if path.startswith('..') else path
    return ' '.join([path if '/' in path else f'./{path}', *words])


def make_ready() -> None:
    """Waits until mpdbg answers. The one of this tree is built first where it is not, which it says itself, and may take long."""
    try:
        ran = subprocess.run([program(), '--version'], stdin=subprocess.DEVNULL, stdout=subprocess.DEVNULL, check=False)
    except OSError as why:
        raise NotChecked(f'no mpdbg: {why}') from None
    if ran.returncode:
        raise NotChecked(f'{program()} doesn\'t start: build it, or name another by MPDBG')


def said(*words: str) -> str:
    """What mpdbg answers; it is started as one that is not at a terminal."""
    told = ' '.join(words[:2])
    try:
        process = subprocess.Popen([program(), *words], stdin=subprocess.DEVNULL, stdout=subprocess.PIPE, stderr=subprocess.PIPE,
                                   text=True, start_new_session=True)
    except OSError as why:
        raise NotChecked(f'{told}: {why}') from None
    try:
        output, errors = process.communicate(timeout=SECONDS)
    except (subprocess.TimeoutExpired, KeyboardInterrupt) as why:
        os.killpg(process.pid, signal.SIGKILL)
        process.communicate()
        if isinstance(why, KeyboardInterrupt):
            raise
        raise NotChecked(f'{told}: no answer in {SECONDS} seconds') from None
    if process.returncode not in (0, 1):
        raise NotChecked(f'{told}: {errors.strip()}')
    return output


def report_of(path: str, mode: str, runs: int) -> Report:
    """The report of a script, each end once, with explanations."""
    leaves: List[Leaf] = []
    is_whole = False
    for line in said('check', path, '--mode', mode, '--ends', '--explain', '--runs', str(runs)).splitlines():
        found = LEAF.match(line)
        if found:
            leaves.append(Leaf(found[1], found[2], (found[3] or '').split()))
        elif line.startswith('leaves '):
            is_whole = line.endswith(' more no')
        elif leaves:
            leaves[-1].told.append(line)
    return Report(leaves, is_whole and all(leaf.outcome != 'cut' for leaf in leaves))


def matches_of(path: str, mode: str, choices: str) -> List[Match]:
    """The matches of the run that a list of choices leads to, in their order."""
    told = said('words', path, '--mode', mode, '--choices', choices)
    return [Match((int(a), int(b)), (int(c), int(d))) for a, b, c, d in re.findall(r'^match (\d+)\.(\d+) (\d+)\.(\d+)$', told, re.M)]


def least_mode(path: str, slots: int) -> Optional[str]:
    """The first mode, of those that buffer ever more, in which no run deadlocks; None if none of those tried is one."""
    for line in said('check', path, '--modes', str(slots)).splitlines():
        found = MODE.match(line)
        if found and found[2] == '0' and found[4] == 'no':
            return found[1]
    return None
