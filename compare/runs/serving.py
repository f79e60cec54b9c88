"""Tries `serve` of a program over sockets: clients that share a session, each in a scenario of its own, and what they are told.

    python3 compare/runs/serving.py PROGRAM             all scenarios
    python3 compare/runs/serving.py PROGRAM --two-modes a program that has no modes `slots:K`
    python3 compare/runs/serving.py PROGRAM --broken    and a stand-in: without a fault, and with each of its faults, which must be noticed
    python3 compare/runs/serving.py --broken            needs no program

What is worked out by hand stands in served_leavers.py and served_starts.py. What sixteen clients are answered at once (served_crowds.py)
must have an order in which the model gives exactly that (served_order.py). The stand-in is a server in Python over the model
(stand_in.py). A scenario is ended after some seconds. The status is 0 where each ended as it must, and each fault was noticed.
"""

import argparse
import os
import sys
import time
from collections import Counter
from concurrent.futures import ProcessPoolExecutor
from typing import NamedTuple, Optional

sys.path.insert(0, os.path.dirname(os.path.dirname(os.path.abspath(__file__))))

from model.modes import know_modes
from served import served_crowds, served_leavers, served_starts
from served.served_clients import Wrong
from served.served_program import Tried
from served.stand_in_server_faults import FAULTS

HERE = os.path.dirname(os.path.abspath(__file__))
# The stand-in, and how much of it is tried.
ENTRIES = 5000
LITTLE = Tried((sys.executable, os.path.join(HERE, 'stand_in.py'), '--history', str(ENTRIES)), sessions=9, crowd=150, entries=ENTRIES)
# Where each client of a crowd sends so many lines, all is met that must be.
MANY = 1000


class Scenario(NamedTuple):
    """What is tried, by a name, and what tries it."""
    name: str
    function: object


SCENARIOS = (
    Scenario('a dialogue', served_leavers.dialogue), Scenario('clients one by one', served_leavers.one_by_one),
    Scenario('looks of two clients', served_leavers.looked),
    Scenario('what is counted', served_leavers.counted), Scenario('when all have left', served_leavers.at_last),
    Scenario('a silent client', served_leavers.silent), Scenario('left in mid-line', served_leavers.in_mid_line),
    Scenario('broken off', served_leavers.broken_off), Scenario('no UTF-8', served_leavers.no_text),
    Scenario('a line without an end', served_leavers.endless), Scenario('replies that nobody reads', served_leavers.unread),
    Scenario('started again', served_starts.again), Scenario('a port that is taken', served_starts.taken_port),
    Scenario('wrong words', served_starts.wrong_words), Scenario('one address', served_starts.one_address),
    Scenario('so many clients', served_starts.so_many_clients), Scenario('no thread', served_starts.no_thread), Scenario('outputs', served_starts.outputs),
    Scenario('a terminal', served_starts.at_terminal), Scenario('the example', served_starts.example_client),
    Scenario('sessions of one client', served_starts.as_run), Scenario('a full history', served_crowds.full_history),
    *(Scenario(f'a crowd, {crowd.name}', served_crowds.scenario_of(crowd)) for crowd in served_crowds.CROWDS))
BY_NAME = {scenario.name: scenario for scenario in SCENARIOS}


class Came(NamedTuple):
    """What came of a scenario: how many replies there were, what was met, and what was wrong."""
    replies: int
    met: Counter
    problem: Optional[str]
    seconds: float


def came_of(tried, name):
    """What comes of the scenario of a name."""
    began, replies, met, problem = time.monotonic(), 0, Counter(), None
    try:
        found = BY_NAME[name].function(tried)
        replies, met = found if isinstance(found, tuple) else (found, met)
    except (Wrong, OSError) as wrong:
        problem = str(wrong) or repr(wrong)
    return Came(replies, met, problem, time.monotonic() - began)


def unmet(tried, met):
    """Says what crowds met; gives how much was not that must be, where they are large."""
    print('; '.join(f'{name} {met[name]}' for name in served_crowds.MUST_MEET))
    missed = [name for name in served_crowds.MUST_MEET if not met[name]] if tried.crowd >= MANY else []
    for name in missed:
        print(f'{name} was not met')
    return len(missed)


def try_all(tried, what, pool, names=tuple(BY_NAME)):
    """Tries the scenarios of these names; gives how many were wrong."""
    began, met, replies, wrong = time.monotonic(), Counter(), 0, 0
    for name, came in zip(names, pool.map(came_of, [tried] * len(names), names)):
        wrong, replies, met = wrong + (came.problem is not None), replies + came.replies, met + came.met
        print(f'{name}: {came.problem or f"{came.replies} replies"}, {came.seconds:.1f} seconds', flush=True)
    missed = unmet(tried, met) if len(names) == len(BY_NAME) else 0
    print(f'{what}: {replies} replies in {len(names)} scenarios, {wrong} different, {time.monotonic() - began:.1f} seconds', flush=True)
    return wrong + missed + (replies < 1)


def noticed(place):
    """What the scenario says that must notice a fault; None where it says nothing."""
    fault = FAULTS[place]
    return came_of(LITTLE._replace(words=(*LITTLE.words, '--fault', fault.name), seconds=10), fault.by).problem


def try_broken(pool):
    """How many faults of the stand-in are not noticed."""
    found = list(pool.map(noticed, range(len(FAULTS))))
    for fault, problem in zip(FAULTS, found):
        print(f'{fault.name}: {f"noticed by {fault.by}: {problem}" if problem else "NOT NOTICED"}', flush=True)
    missed = found.count(None)
    print(f'{len(FAULTS)} broken servers, {len(FAULTS) - missed} noticed')
    return missed + (not FAULTS)


def arguments():
    parser = argparse.ArgumentParser(description=__doc__, formatter_class=argparse.RawDescriptionHelpFormatter)
    parser.add_argument('program', nargs='?', metavar='PROGRAM')
    parser.add_argument('--broken', action='store_true', help='break the stand-in on purpose; each fault must be noticed')
    parser.add_argument('--two-modes', action='store_true', help='the program has no modes `slots:K`')
    parser.add_argument('--only', action='append', choices=BY_NAME, metavar='SCENARIO', help='a scenario of PROGRAM in the place of all, by its name')
    parser.add_argument('--seed', type=int, default=1, help='another seed gives other crowds and sessions (1)')
    parser.add_argument('--crowd', type=int, default=1200, help='how many lines each client of a crowd sends (1200)')
    parser.add_argument('--sessions', type=int, default=40, help='how many sessions of one client (40)')
    parser.add_argument('--seconds', type=float, default=20, help='how long one scenario may wait (20)')
    parser.add_argument('--jobs', type=int, default=len(os.sched_getaffinity(0)), help='how many scenarios at a time (one for each core)')
    chosen = parser.parse_args()
    if chosen.program is None and not chosen.broken:
        parser.error('PROGRAM is left out with --broken alone')
    if chosen.program and (not os.access(chosen.program, os.X_OK) or os.path.isdir(chosen.program)):
        parser.error(f'{chosen.program} is no program')
    return chosen


def main():
    chosen, wrong = arguments(), 0
    know_modes(not chosen.two_modes)
    with ProcessPoolExecutor(chosen.jobs) as pool:
        if chosen.program:
            program = Tried((os.path.abspath(chosen.program),), chosen.seed, chosen.sessions, chosen.crowd, seconds=chosen.seconds)
            wrong += try_all(program, 'the program', pool, chosen.only or tuple(BY_NAME))
        if chosen.broken:
            wrong += try_all(LITTLE._replace(seconds=chosen.seconds), 'the stand-in', pool) + try_broken(pool)
    return 1 if wrong else 0


if __name__ == '__main__':
    sys.exit(main())
