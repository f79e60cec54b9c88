"""How a run of a script can end, as a program in C tells it: what each rank has printed, which ranks have ended, and which trapped or hang.

`listed` has the ends of the reports of a script in some modes, by the model or by a program; `searched` those of all interleavings in which
each standard send may be buffered or not, whatever was done with those before.
"""

import re
import tempfile
from typing import NamedTuple

from model.debugger import BUFFERED, RENDEZVOUS, after_local, can_run, enabled_steps, find_call, first_world, next_world
from model.explorer import CUT, has_waitany, is_whole, report
from model.files import held
from model.report_lines import read_report
from started.programs import run_at_once

ENDED, TRAPPED, HUNG = 'ended', 'trapped', 'hung'
# So many runs of a script, of so many steps, are listed; where these aren't all, the script is left out.
RUNS, FUEL = 40, 600
SECONDS = 60
# The modes whose ends a library may come to, by how its standard sends are (mpi_shim.c): a real library buffers some of them.
MODES_OF = {'synchronous': (RENDEZVOUS,), 'plain': (RENDEZVOUS, BUFFERED, 'slots:1', 'slots:2'),
            'mixed': (RENDEZVOUS, BUFFERED, 'slots:1', 'slots:2')}
# So many worlds are looked at in search of all ends.
MOST_WORLDS = 20000


class End(NamedTuple):
    """How a run ended: what each rank printed, the ranks that ended, and of each that trapped its number, the trap, and the line, which is
    None where that isn't told. Free calls of ranks that have all ended aren't told."""
    kind: str
    printed: tuple
    ended: tuple
    traps: tuple


def is_prefix(one, other):
    return other[:len(one)] == one


def is_of(seen, wanted):
    """Whether the end of a run is one that is told. The first trap ends all ranks of a program in C, which the others don't come further."""
    if seen.kind != wanted.kind:
        return False
    if seen.kind != TRAPPED:
        return (seen.printed, seen.ended) == (wanted.printed, wanted.ended)
    return (all(any((rank, name) == there[:2] and there[2] in (None, line) for there in wanted.traps) for rank, name, line in seen.traps)
            and all(map(is_prefix, seen.printed, wanted.printed)) and set(seen.ended) <= set(wanted.ended))


def end_of_world(world):
    """The end that a world is in which no step is enabled."""
    ranks = list(enumerate(world.ranks))
    traps = tuple((number, rank.trap, rank.rest[0].line) for number, rank in ranks if rank.mode == 'trapped')
    kind = TRAPPED if traps else HUNG if any(rank.mode == 'blocked' for _, rank in ranks) else ENDED
    ended = tuple(number for number, rank in ranks if rank.mode == 'running' and rank.rest is None)
    return End(kind, tuple(rank.printed for _, rank in ranks), ended, traps)


# ---- reports

class NotWhole(Exception):
    """A report that doesn't list all runs to their ends: nothing follows of it."""


def listed_by_model(script, mode):
    """The ends of a report of the model."""
    found = report(script, mode, RUNS, FUEL)
    if not is_whole(found):
        raise NotWhole
    for leaf in found.leaves:
        world = first_world(script, mode)
        for step in leaf.steps:
            world = next_world(world, step)
        yield end_of_world(world)


def said(program, words, data=b''):
    """What a program writes."""
    result = run_at_once(program, data, SECONDS, words=words)
    assert result.status in (0, 1) and not result.errors, (words, result)
    return result.output


def listed_by(program, text, mode):
    """The ends of a report of a program: of each leaf `words` tells the run, and `trace` what it comes to."""
    with tempfile.TemporaryDirectory(prefix='ends-') as folder:
        file, options = held(folder, 'script.mpd', text), ('--mode', mode)
        told = read_report(said(program, ('check', file, *options, '--runs', str(RUNS), '--split', '0', '--fuel', str(FUEL))))
        if told.more or any(leaf.outcome == CUT for leaf in told.leaves):
            raise NotWhole
        for leaf in told.leaves:
            words = said(program, ('words', file, *options, '--fuel', str(FUEL), '--choices', ' '.join(map(str, leaf.choices))))
            yield end_of_show(said(program, ('trace', file, *options), words + b'show\n').decode())


def end_of_show(text):
    """The end that a state is, as `show` tells it."""
    states = re.findall(r'^rank \d+ (.*)$', text, re.M)
    printed = tuple(tuple(map(int, values.split())) for values in re.findall(r'^out((?: -?\d+)*)$', text, re.M))
    traps = tuple((number, state.split()[1], None) for number, state in enumerate(states) if state.startswith('trapped'))
    kind = TRAPPED if traps else HUNG if any(state.startswith('blocked') for state in states) else ENDED
    return End(kind, printed, tuple(number for number, state in enumerate(states) if state == 'ended'), traps)


def listed(text, script, modes, program=None):
    """The ends of the reports in some modes, each once; raises where one of them isn't whole."""
    ends = {}
    for mode in modes:
        ends.update(dict.fromkeys(listed_by(program, text, mode) if program else listed_by_model(script, mode)))
    return list(ends)


# ---- all interleavings

def behind_local(world, number, may_buffer):
    """The worlds behind the next statement of a rank: a standard send that it issues is buffered there, or isn't."""
    return [after for mode in ((RENDEZVOUS, BUFFERED) if may_buffer else (RENDEZVOUS,))
            if (after := after_local(world._replace(mode=mode), number)) is not None]


def is_named(world, step):
    """Whether a match is that of a receive which names its source: it can be taken first, since nothing that may come takes it away."""
    return step.kind == 'match' and find_call(world, step.second).other is not None


def worlds_behind(world, may_buffer):
    """The worlds behind one that have to be looked at: a step that no other one takes away is taken first, alone."""
    for number, rank in enumerate(world.ranks):
        if can_run(rank):
            return behind_local(world, number, may_buffer)
    steps = enabled_steps(world)
    alone = next((step for step in steps if step.kind in ('release', 'wake') or is_named(world, step)), None)
    return [next_world(world, step) for step in ([alone] if alone else steps)]


def key(world):
    """What tells a world from others; the order in which steps were taken is no part of it."""
    ranks = tuple((rank.cells, rank.handles, rank.calls, rank.printed, rank.mode, rank.trap, left(rank.rest)) for rank in world.ranks)
    return ranks, frozenset(world.partners.items())


def left(rest):
    """The statements that are left, by what tells each from others."""
    found = []
    while rest is not None:
        statement, rest = rest
        found.append(id(statement))
    return tuple(found)


def searched(script, may_buffer):
    """All ends of a script, whatever the order of its steps; raises where there are too many worlds."""
    ahead, met, ends = [first_world(script)], set(), {}
    while ahead:
        world = ahead.pop()
        if (known := key(world)) in met:
            continue
        met.add(known)
        if len(met) > MOST_WORLDS:
            raise NotWhole
        behind = worlds_behind(world, may_buffer)
        ahead += behind
        if not behind:
            ends[end_of_world(world)] = None
    return list(ends)


def is_told(script, sends):
    """Whether reports alone tell all ends that there are: with a wait for any they don't, nor where each send may be buffered or not."""
    return sends == 'synchronous' and not has_waitany(script.body)
