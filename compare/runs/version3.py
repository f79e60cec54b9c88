"""What must hold of version 3 of the script language, in the model: collectives, probes, and what stands for several statements.

    python3 compare/runs/version3.py                  worked rows, and 150 small random scripts (version3_cases.py) in rendezvous, buffered and slots
    python3 compare/runs/version3.py --count 3000     more of them
    python3 compare/runs/version3.py --broken         faults of the model (version3_faults.py), each of which these rows or scripts must notice

The program doesn't read version 3 yet, so this compares the model with itself, and with rules that are stated here once more. All interleavings of
a script are tried, as wide.py tries them; a script that has too many worlds is counted and left out. It is checked, of each world or each step:

| | |
|---|---|
| `steps` | two steps that don't conflict lead to one world in either order |
| `walks` | the wide walk, with sleep sets and without, has each end and no other; without a choice but matches it is the walk along decisions |
| `one end` | a script in which nothing can be chosen has one end, whichever rank came first |
| `meets` | a rank goes on from a collective exactly if those that it gets from, or all, have come to the same one; it writes what its kind says |
| `kept` | a complete collective stays complete, with the same values, and so does a probe that names its source |
| `told` | a probe is told of what a receive in its place would be paired with, which stays, and which a receive of that source and tag gets next |
| `keys` | states of one key (states.py) have the same steps, which lead to states of one key |
| `order` | calls complete in the order that order.py tells, and nobody goes on from a collective before those awaited have left all before it |
| `less` | where collectives wait for those alone that they get from, every world is reached that is reached where they wait for all |
| `texts` | the canonical text is read as the same script, and prints itself |
| `faults` | a text that is refused is refused at the same token, whatever stands behind that |

The status is 0 if all of that holds, and was seen.
"""

import os
import re
import sys
from collections import Counter
from functools import partial
from itertools import islice
from random import Random
from typing import NamedTuple
from unittest import mock

sys.path.insert(0, os.path.dirname(os.path.dirname(os.path.abspath(__file__))))

from cases.explore_cases import kind_of, script_of
from cases.version3_cases import KINDS_OF_3
from faults.version3_faults import breakages
from model import canonical as canonical_texts
from model import collectives, debugger, explaining, language, states
from model.canonical import canonical
from model.complete import TooMany, key, tried
from model.debugger import eligible, enabled_steps, find_call, first_world, last_call, next_world, pending
from model.explorer import has_choice_of_wakes
from model.language import OPERATIONS, Branch, Fault, Line, Receive, While, read_script, reading_up_to
from model.modes import BUFFERED, RENDEZVOUS
from model.worlds import Call, CallId, Woken
from rows import worked_version3, worked_version3_calls
from runs import driving
from runs.complete import fuel_for
from runs.order import out_of_order, places_of
from runs.wide import Told, conflicts_wrong, rule_wrong, why_other

IN_TURN = (RENDEZVOUS, BUFFERED, 'slots:1', BUFFERED, RENDEZVOUS, 'slots:2')
# What any token is, or a byte that is none; and what is put in the place of one.
TOKEN = re.compile(rb'\w+|\.\.|[=!<>]=|&&|\|\||\S')
PIECES_OF_3 = ('with', 'into', 'from', 'to', 'in', 'for', 'const', 'waitall', 'sendrecv', 'scan', 'bcast', 'gather', 'probe', 'sum', 'x', 'a', 'h',
               'r', 'N', 'q', 'sendrecv_', 'size', '0', '..', '.', ';', '}', '{', '(', ']', 'any', 'else', 'if', 'var x', '$', '9223372036854775808')
# The kinds of collectives, to say once more what each gets: of what all give, by rank, for one rank.
GETS = ('bcast', 'reduce', 'allreduce', 'gather', 'scatter', 'allgather', 'alltoall', 'scan')
# So many scripts meet all that must be met.
MANY = 150
MUST_MEET = (
    'scripts', RENDEZVOUS, BUFFERED, 'slots:1', 'slots:2', 'over the bound', 'done', 'leftovers', 'deadlock', 'trap', 'several ends',
    'nothing to choose', *GETS, *OPERATIONS, 'barrier', 'waitany', 'release', 'probe of a source', 'probe of any source', 'calls that differ',
    'gone on before another came', 'what was given and is forgotten', 'rounds of which some have left', 'keys of several states',
    'worlds with more waiting', 'for', 'else if', 'const', 'waitall', 'sendrecv', 'cut',
    'bad-token', 'expected', 'unknown-name', 'twice')


# ---- what is met by whom, stated once more

class Calls(NamedTuple):
    """The calls of a round by rank; None for a rank that hasn't come to it."""
    turn: int
    of: list


def calls_of_round(world, call_id):
    """The calls of the round of a collective call: each rank's call of that number among its barriers and collectives."""
    counted = [[call for call in rank.calls if call.kind == 'barrier' or call.kind in GETS] for rank in world.ranks]
    before = sum(call.kind == 'barrier' or call.kind in GETS for call in world.ranks[call_id.rank].calls[:call_id.number])
    return Calls(before, [calls[before] if before < len(calls) else None for calls in counted])


def needed(world, call_id):
    """The ranks without whose calls a collective can't go on."""
    call, own, everybody = find_call(world, call_id), call_id.rank, list(range(len(world.ranks)))
    if world.mode != BUFFERED or call.kind.startswith('all'):
        return everybody
    if call.kind in ('bcast', 'scatter'):
        return [call.root]
    if call.kind == 'scan':
        return everybody[:own + 1]
    return everybody if call.root == own else []


def is_same(one, other):
    return other is not None and other.kind == one.kind and other.root == one.root and other.operation == one.operation


def signed(number):
    """A number of 64 bits of a sum or a product."""
    return (number + 2 ** 63) % 2 ** 64 - 2 ** 63


def folded(operation, values):
    """Values joined, one by one."""
    found = {'sum': 0, 'prod': 1, 'min': 2 ** 63 - 1, 'max': -2 ** 63, 'and': 1, 'or': 0}[operation]
    for value in values:
        found = {'sum': signed(found + value), 'prod': signed(found * value), 'min': min(found, value), 'max': max(found, value),
                 'and': int(bool(found) and bool(value)), 'or': int(bool(found) or bool(value))}[operation]
    return found


def due(call, own, calls):
    """What a rank gets from the calls of a round, in turn."""
    if call.kind == 'bcast':
        return [calls[call.root].values[0]]
    if call.kind == 'scatter':
        return [calls[call.root].values[own]]
    if call.kind == 'alltoall':
        return [other.values[own] for other in calls]
    if call.kind in ('reduce', 'gather') and call.root != own:
        return []
    values = [other.values[0] for other in (calls[:own + 1] if call.kind == 'scan' else calls)]
    return values if call.operation is None else [folded(call.operation, values)]


def collective_of(world, number):
    """The collective that a rank is at; None where it is at none."""
    rank = world.ranks[number]
    return last_call(world, number) if rank.mode == 'blocked' and rank.calls[-1].kind in GETS else None


def meets_wrong(world, behind, met):
    """What is wrong with ranks that go on from collectives, or don't."""
    wakes = {step.first: after for step, after in behind.items() if step.kind == 'wake'}
    for number in range(len(world.ranks)):
        if (call_id := collective_of(world, number)) is None:
            continue
        call, calls = find_call(world, call_id), calls_of_round(world, call_id)
        may = all(is_same(call, calls.of[other]) for other in needed(world, call_id))
        met['calls that differ'] += any(other is not None and not is_same(call, other) for other in calls.of)
        if may != (number in wakes):
            yield f'meets: rank {number} {"stays at" if may else "goes on from"} {call.kind} of round {calls.turn}'
        elif may:
            yield from written_wrong(world, number, wakes[number], calls, met)


def written_wrong(world, number, after, calls, met):
    """What is wrong with what a rank writes as it goes on from a collective."""
    rank, call = world.ranks[number], world.ranks[number].calls[-1]
    cells = list(rank.cells)
    values = due(call, number, calls.of)
    cells[call.cell:call.cell + len(values)] = values
    met.update([call.kind] + [call.operation] * (call.operation is not None))
    met['gone on before another came'] += None in calls.of
    met['what was given and is forgotten'] += call.kind == 'bcast' and calls.of[call.root].values[0] != world.ranks[call.root].cells[
        calls.of[call.root].cell]
    if list(after.ranks[number].cells) != cells:
        yield f'meets: rank {number} has {after.ranks[number].cells} behind {call.kind}, and not {cells}'
    if after.with_rank(number, rank)._replace(records=world.records) != world:
        yield f'meets: {call.kind} changes more than rank {number}'


def held(world, number):
    """What a rank has that a step of its own alone may change."""
    rank = world.ranks[number]
    return rank.cells, rank.handles, rank.calls, rank.mode


def kept_wrong(world, behind, met):
    """What is wrong with calls that are complete and don't stay so, or get something else then."""
    for step, after in behind.items():
        for number in range(len(world.ranks)):
            done = behind.get(debugger.Step('wake', number))
            if done is None or step in (debugger.Step('wake', number), debugger.Step('release')):
                continue
            there = next_world(after, debugger.Step('wake', number))
            if there is None or held(there, number) != held(done, number):
                yield f'kept: rank {number} goes on otherwise behind {debugger.step_text(step)}'
            met['kept'] += 1


# ---- probes

def with_receive(world, number, source, tag):
    """The world in which a rank waits for a receive in the place of a probe, or behind it."""
    rank = world.ranks[number]
    calls = rank.calls[:-1] if rank.mode == 'blocked' else rank.calls
    receive = Call('recv', True, source, tag, None, 0)
    return world.with_rank(number, rank._replace(calls=(*calls, receive), free=(*rank.free, len(calls)), mode='blocked'))


def taken_by(world, number):
    """The sends that the last receive of a rank may be paired with."""
    receive = last_call(world, number)
    return [send for source in range(len(world.ranks)) for send in pending(world, source, number) if eligible(world, send, receive)]


def probe_of(world, number):
    """The probe that a rank is at; None where it is at none."""
    rank = world.ranks[number]
    return rank.calls[-1] if rank.mode == 'blocked' and rank.calls[-1].kind == 'probe' else None


def probes_wrong(world, behind, met):
    """What is wrong with probes: when they go on, and what they are told of."""
    for number in range(len(world.ranks)):
        if (call := probe_of(world, number)) is None:
            continue
        sends = taken_by(with_receive(world, number, call.other, call.tag), number)
        if call.other is None:
            wanted = {debugger.Step('wakeany', number, send.rank): send for send in sends}
        else:
            wanted = {debugger.Step('wake', number): send for send in sends}
        there = {step for step in behind if step.kind in ('wake', 'wakeany') and step.first == number}
        if there != wanted.keys() or len(wanted) != len(sends):
            yield f'told: rank {number} may take {sorted(map(debugger.step_text, there))} at a probe'
        for step in there & wanted.keys():
            met['probe of any source' if call.other is None else 'probe of a source'] += 1
            yield from told_wrong(world, number, wanted[step], behind[step])


def told_wrong(world, number, send, after):
    """What is wrong with a world behind a probe: what was told, what else changed, and what the next receive of that source and tag gets."""
    rank, tag = world.ranks[number], find_call(world, send).tag
    cells = list(rank.cells)
    for cell, value in zip(rank.calls[-1].status or (), (send.rank, tag)):
        cells[cell] = value
    if list(after.ranks[number].cells) != cells:
        yield f'told: rank {number} has {after.ranks[number].cells} behind a probe, and not {cells}'
    if after.with_rank(number, rank)._replace(records=world.records) != world:
        yield f'told: a probe changes more than rank {number}'
    for later in (after, *(next_world(after, step) for step in enabled_steps(after) if step != debugger.Step('local', number))):
        if taken_by(with_receive(later, number, send.rank, tag), number) != [send]:
            yield f'told: rank {number} was told of {send}, and gets another'


# ---- the order of calls, and keys

def across_wrong(world):
    """What is wrong with the records where ranks went on from collectives: each rank that one waits for had left what blocks it and stands before
    its own call of that round."""
    _, left = places_of(world)
    for place, record in enumerate(world.records):
        if not isinstance(record, Woken) or find_call(world, record.call).kind not in GETS:
            continue
        turn = calls_of_round(world, record.call).turn
        for other in needed(world, record.call):
            own = collectives.in_round(world, other, turn)
            before = [CallId(other, number) for number in range(own.number if own else 0) if find_call(world, CallId(other, number)).blocks]
            if own is None or any(left.get(call_id, place) >= place for call_id in before):
                yield f'order: {record.call} went on before rank {other} was there'


def order_wrong(world, met):
    """What is wrong with the order that the records of a world show."""
    yield from across_wrong(world)
    there, wrong = out_of_order(world)
    met['pairs in order'] += sum(there.values())
    yield from [f'order: {first} before {second} by {case}' for case, first, second in wrong]


class Keys:
    """The states that were met, by their keys: what of the steps that are enabled leads where."""

    def __init__(self):
        self.found = {}

    def wrong(self, world, behind, met):
        """What is wrong with a state whose key another one had."""
        here = states.key(world)
        ways = {step: states.key(after) for step, after in behind.items()}
        ends = debugger.outcome(world) if not behind else None
        before = self.found.setdefault(here, (ways, ends))
        met['keys of several states'] += before[0] is not ways
        met['rounds of which some have left'] += any(len(collectives.collectives(world, number)) > len(collectives.collectives(world, 0))
                                                     for number in range(len(world.ranks)))
        if before != (ways, ends):
            yield 'keys: two states of one key go on otherwise'


# ---- more waiting, and texts

def all_worlds(start):
    """The keys of all worlds behind one."""
    found = set()
    tried(start, Counter(), lambda world, behind, met: found.add(key(world)) or [])
    return found


def less_wrong(start, met):
    """What is wrong with the worlds that are reached where collectives wait for all, in the mode `buffered`."""
    with mock.patch.object(collectives, 'waits_for', lambda world, call_id: list(range(len(world.ranks)))):
        more = all_worlds(start)
    met['worlds with more waiting'] += len(more)
    return [] if more <= all_worlds(start) else ['less: a world that is reached only where all wait for all']


def bare(tree):
    """A tree without its lines."""
    if isinstance(tree, list):
        return [bare(one) for one in tree]
    if isinstance(tree, tuple) and hasattr(tree, '_fields'):
        return (type(tree).__name__, *(bare(part) for part in tree))
    return 0 if isinstance(tree, Line) else tree


def texts_wrong(script, met):
    """What is wrong with the canonical text of a script."""
    text = canonical(script)
    again = read_script(text)
    met['canonical texts'] += 1
    if bare(again) != bare(script) or canonical(again) != text:
        return ['texts: the canonical text is that of another script']
    return []


def refused_at(text):
    """The number and the place of the fault of a text; None if it has none."""
    try:
        read_script(text)
    except Fault as fault:
        return fault.number, fault.place
    return None


def faults_wrong(random, text, met):
    """What is wrong with the faults of a text that is changed: each stays where it is, whatever stands behind its token."""
    places = [found.start() for found in TOKEN.finditer(text)]
    first = random.choice(places)
    changed = text[:first] + random.choice(PIECES_OF_3).encode() + b' ' + text[TOKEN.match(text, first).end() if random.random() < 0.6 else first:]
    there = refused_at(changed)
    if there is None or there[1] == len(changed):
        return []
    met[language.FAULT_NAMES[there[0]]] += 1
    end = TOKEN.match(changed, there[1]).end()
    for behind in random.sample(PIECES_OF_3, 3):
        if refused_at(changed[:end] + b' ' + behind.encode()) != there:
            return [f'faults: {there} is another before {behind}: {changed}']
    return []


# ---- scripts

def may_choose(statements):
    """Whether a statement among some, or in a block of one, leaves something to choose: it is of any source, or a wait for any."""
    return has_choice_of_wakes(statements) or any(
        isinstance(one, Receive) and one.source is None or isinstance(one, Branch) and (may_choose(one.then) or may_choose(one.otherwise))
        or isinstance(one, While) and may_choose(one.body) for one in statements)


def world_wrong(keys, world, behind, met):
    """What is wrong in a world, and with the steps behind it."""
    wrong = [f'steps: {what}' for what in conflicts_wrong(world, behind, met)]
    for checked_part in (meets_wrong, kept_wrong, probes_wrong, keys.wrong):
        wrong += islice(checked_part(world, behind, met), 2)
    return wrong + list(islice(order_wrong(world, met), 2))


def script_wrong(random, script, mode, met):
    """What is wrong with a script in a mode."""
    start = first_world(script, mode)
    every, wrong = tried(start, met, partial(world_wrong, Keys()))
    if wrong:
        return wrong
    told = Told(start, every, fuel_for(random, every), why_other(script, mode))
    wrong = [f'walks: {what}' for what in rule_wrong(told, False, met)]
    met.update([end.split()[0] for end in every.ends.values()] + ['several ends'] * (len(every.ends) > 1))
    met['cut'] += every.longest is None or told.fuel < every.longest
    if not may_choose(script.body) and every.longest is not None:
        met['nothing to choose'] += 1
        wrong += [] if len(every.ends) == 1 else [f'one end: there are {len(every.ends)}, though nothing can be chosen']
    return wrong + (less_wrong(start, met) if mode == BUFFERED else []) + texts_wrong(script, met)


def drawn(seed, number):
    """A script and its mode, and what else is drawn for it; the script is None if it is refused."""
    random, mode = Random(f'version3/{seed}/{number}'), IN_TURN[number % len(IN_TURN)]
    text = script_of(random, KINDS_OF_3[kind_of(random, KINDS_OF_3)])
    try:
        return random, mode, text, read_script(text)
    except Fault:
        return random, mode, text, None


def met_in_text(text):
    """What stands in the text of a script."""
    words = ('barrier', 'waitany', 'for', 'else if', 'const', 'waitall', 'sendrecv')
    return [word for word in words if f'{word} '.encode() in text.replace(b';', b' ')]


def checked(seed, number, met):
    """What is wrong with one script; None if it isn't small, or is refused."""
    random, mode, text, script = drawn(seed, number)
    here = Counter()
    if script is None:
        met['refused'] += 1
        return None
    try:
        wrong = script_wrong(random, script, mode, here)
    except TooMany:
        met['over the bound'] += 1
        return None
    for _ in range(3):
        wrong += faults_wrong(random, text, here)
    met.update(here)
    met.update([mode, 'scripts', *met_in_text(text)])
    return [f'script {number} ({mode}): {what}' for what in wrong]


def check(seed, count, to_end=True):
    """Checks so many scripts, or those up to the first that is wrong; gives what was met, and what is wrong."""
    met, wrong, number = Counter(), [], 0
    with reading_up_to(3):
        while met['scripts'] < count and number < 10 * count and (to_end or not wrong):
            wrong += checked(seed, number, met) or []
            number += 1
    return met, wrong


def rows_wrong():
    """What worked rows show that is wrong."""
    with reading_up_to(3):
        problems = worked_version3.problems(worked_version3.ALL + worked_version3_calls.ALL)
    return [f'{name}: {problem}' for name, problem in problems if problem]


def is_ahead():
    """Whether the model reads version 3 where that is asked for, and nowhere else."""
    text = b'mpd 3; ranks 1; const N = 1;'
    with reading_up_to(3):
        read_script(text)
    try:
        read_script(text)
    except Fault as fault:
        return (fault.number, fault.place, language.LANGUAGE_MAX) == (language.NOT_IN_VERSION, 4, 2)
    return False


# ---- faults

OF_TEXTS = (language, language.Reader, language.Tokens, canonical_texts, explaining)


def shown_by_scripts(seed, count):
    """The first that scripts show to be wrong; None where nothing is."""
    try:
        _, wrong = check(seed, count, to_end=False)
    except Exception as error:  # pylint: disable=broad-except
        return f'{type(error).__name__}: {error}'
    return wrong[0] if wrong else None


def unnoticed(chosen):
    """How many faults neither rows nor scripts notice; tells of each what does."""
    missed = 0
    for fault in breakages():
        with driving.broken(fault):
            language.read_script.cache_clear()
            rows = rows_wrong()
            # (what is read, or told, otherwise is shown by rows)
            script = shown_by_scripts(chosen.seed, chosen.count) if not rows or fault.owner not in OF_TEXTS else None
        missed += not rows and script is None
        by_rows = f'{len(rows)} rows, the first {rows[0]}'[:150] if rows else 'no row'
        by_script = '' if rows and fault.owner in OF_TEXTS else f'; {script or "no script"}'
        print(f'{fault.name}: {by_rows}{by_script}' if rows or script else f'{fault.name}: NOT NOTICED', flush=True)
    language.read_script.cache_clear()
    return missed


def main():
    chosen = driving.rule_parser(__doc__, 'scripts', 150).parse_args()
    rows = rows_wrong() + ([] if is_ahead() else ['version 3 is read where nobody asks for it, or not where somebody does'])
    driving.tell(rows)
    met, wrong = check(chosen.seed, chosen.count)
    missed = driving.not_met(MUST_MEET, met, chosen.count >= MANY)
    driving.tell_wrong(met, wrong, missed)
    if rows or wrong or missed or met['scripts'] < chosen.count:
        return 1
    return 1 if chosen.broken and unnoticed(chosen) else 0


if __name__ == '__main__':
    sys.exit(main())
