"""Compares `why` of calls and `before` of pairs of calls, as the crates answer them, with the model.

    python3 compare/runs/why.py               300 random scripts of version 1, and 150 of version 2
    python3 compare/runs/why.py --version 1   crates that know version 1 alone
    python3 compare/runs/why.py --planted     each wrong body of compare/probe/broken/ too, in a copy of its own

No trace word tells what the crates say of `why` and `before`. So a copy of the program is made in which the word `enabled` is
answered by a line of them: compare/probe/ has what is changed in it, and `Board::why` and `Board::before` are called as they
are. `rt try` builds the copy, with no proof, and runs it under its checks of memory. On random walks through random scripts, with
undos, that line is asked for behind many steps and undos, and whatever is said must be, byte for byte, what the model says
(compare/model/order.py). A crash, a hang or too much output is a difference.

Each run shows that it can fail: the model is broken on purpose in several ways, the program gets an input on which the broken
model says otherwise, and what that one says must be found different. The status is 0 where there were scripts, all that can be
said was said, nothing differed, and each broken model did.
"""

import os
import sys
import time
from collections import Counter
from concurrent.futures import ProcessPoolExecutor
from random import Random
from unittest import mock

sys.path.insert(0, os.path.dirname(os.path.dirname(os.path.abspath(__file__))))

from cases.explore_cases import Beside
from cases.kinds import KINDS
from faults import waitany_faults
from faults.policy_faults import Breakage
from model import debugger, language, order
from model.debugger import CallId, Debugger, Released, divided, find_call
from model.language import Fault, read_script, read_up_to
from probe.probing import DIVIDER, PROBES, TOP, Probe, Trial, Walked, all_walked, compare, compare_planted, parser_of
from runs.order import without_case as without_case_of

WHY = Probe('answer.edit', 'why.rattle', 'why.rt', 'main.rattle')
CHOSEN = ('wildcards', 'wildcards', 'wildcards', 'requests', 'script', 'states', 'barriers', 'barriers', 'exchanges')
CHOSEN_OF_2 = ('waitany',)
# Worlds with more calls are not asked: the pairs of these are too many.
MOST_CALLS = 40
# What must have been met, or the run compared too little.
MUST_MEET = ('worlds', 'undos', 'whys', 'pairs', 'eligible', 'held by a send', 'held by a recv', 'sends', 'receives', 'wait',
             'blocks', 'any source', 'any tag', 'status', 'barrier', 'synchronous send', 'release', 'behind a barrier')
MUST_MEET_OF_2 = ('wait for any', 'behind a wait for any', 'a request and its wait for any')


def asked(world):
    """The calls that are asked: all, and behind the last one of each rank, and behind the last rank, one that is not there."""
    counts = [*(len(rank.calls) for rank in world.ranks), 0]
    return [CallId(rank, number) for rank, count in enumerate(counts) for number in range(count + 1)]


def asked_pairs(world):
    """The pairs of these that are asked: all of one rank, and each call with the next number at each other rank."""
    calls = asked(world)
    return [(one, two) for one in calls for two in calls if one.rank == two.rank or one.number + 1 == two.number]


def told(world):
    """The line that the copy answers."""
    listed = [(call_id, order.why(world, call_id)) for call_id in asked(world)]
    whys = ''.join(f' {call_id}:{partners_text(partners)};' for call_id, partners in listed if partners)
    pairs = ''.join(f' {one} {two};' for one, two in asked_pairs(world) if order.before(world, one, two))
    return f'why{whys} before{pairs}'


def partners_text(partners):
    return ''.join(f' {other} ' + ('eligible' if held is None else f'held by {held}') for other, held in partners)


def expected(data):
    """What the copy writes for an input."""
    with mock.patch.object(debugger, 'enabled_text', told):
        return debugger.answer(data).output + b'ended' + DIVIDER


def met_in(world, is_undo):
    """What is asked in a world, and what there is to be told wrongly."""
    calls, pairs = asked(world), asked_pairs(world)
    found = Counter(worlds=1, undos=is_undo, whys=len(calls), pairs=len(pairs))
    for call_id in calls:
        call = find_call(world, call_id)
        if call is not None and call.kind == 'recv':
            found.update({'any source': call.other is None, 'any tag': call.tag is None, 'status': call.status is not None})
        found['barrier'] += call is not None and call.kind == 'barrier'
        found['wait for any'] += call is not None and call.kind == 'waitany'
        found['synchronous send'] += call is not None and call.kind == 'send' and call.synchronous
        found.update(way_of(world, held) for _, held in order.why(world, call_id))
    for one, two in pairs:
        found.update(order.cases_of(world, one, two))
        found['behind a barrier'] += order.before(world, one, two) and find_call(world, one).kind == 'barrier'
        found['behind a wait for any'] += order.before(world, one, two) and find_call(world, one).kind == 'waitany'
        found['a request and its wait for any'] += waits_for(world, one, two)
    found['release'] += any(isinstance(record, Released) for record in world.records)
    return found


def waits_for(world, one, two):
    """Whether a call is one of those that a later call of its rank is to wait for any of; neither is before the other by that."""
    request, call = find_call(world, one), find_call(world, two)
    if request is None or call is None or call.kind != 'waitany' or one.rank != two.rank or request.blocks or one.number > two.number:
        return False
    return one.number in world.ranks[one.rank].handles[call.first:call.first + call.count]


def way_of(world, held):
    return 'eligible' if held is None else f'held by a {find_call(world, held).kind}'


class Walk:
    """A walk through a script, as the copy gets it: its lines, with the word that asks among them."""

    def __init__(self, script):
        self.debugger = Debugger(read_script(script))
        self.lines, self.met = [], Counter()
        self.is_undo = False

    def take(self, line):
        """Takes a line; answers whether it was a step or an undo, behind which it may be asked."""
        depth = self.debugger.depth
        self.lines.append(line)
        is_taken = (self.debugger.answer(line) or '').startswith('ok')
        self.is_undo = self.debugger.depth < depth
        return is_taken and sum(len(rank.calls) for rank in self.debugger.world.ranks) <= MOST_CALLS

    def ask(self):
        self.lines.append(b'enabled')
        self.met += met_in(self.debugger.world, self.is_undo)


def walked(seed, number):
    """The walk of this number; None where its script can't be read, or there is nothing to ask."""
    kinds = CHOSEN_OF_2 if isinstance(seed, Beside) else CHOSEN
    kind = kinds[number % len(kinds)]
    random = Random(f'why/{kind}/{seed}/{number}')
    script, lines = divided(KINDS[kind].draw(random))
    try:
        walk = Walk(script)
    except Fault:
        return None
    rate = random.choice([0.05, 0.2, 0.6])
    may_ask = False
    for line in lines:
        if DIVIDER in line or line.split()[:1] in ([b'enabled'], [b'show']):
            continue
        may_ask = walk.take(line)
        if may_ask and random.random() < rate:
            walk.ask()
            may_ask = False
    if may_ask:
        walk.ask()
    if not walk.met['worlds']:
        return None
    data = script + b'---\n' + b''.join(line + b'\n' for line in walk.lines)
    return Walked(f'{kind}-{seed}-{number}', data, expected(data), walk.met)


def fault(name, attribute, replacement):
    """A fault put into the model on purpose: what stands in the place of something of compare/model/order.py."""
    return Breakage(name, order, attribute, replacement)


def latest_holder(world, send_id, receive_id):
    ahead = order.sends_ahead(world, send_id, receive_id) or order.receives_ahead(world, send_id, receive_id)
    return ahead[-1] if ahead else None


def receive_first(world, send_id, receive_id):
    ahead = order.receives_ahead(world, send_id, receive_id) or order.sends_ahead(world, send_id, receive_id)
    return ahead[0] if ahead else None


def send_alone(world, send_id, receive_id):
    ahead = order.sends_ahead(world, send_id, receive_id)
    return ahead[0] if ahead else None


def changed(why, change):
    """What changes the list that `why` gives."""
    return lambda world, call_id: change(why(world, call_id))


def without_case(cases_of, case):
    """What leaves a case out of those by which calls are in order."""
    return lambda world, first, second: cases_of(world, first, second) - {case}


def any_tags(cases_of):
    """What has all sends to one rank in order."""
    def cases(world, first, second):
        found = cases_of(world, first, second)
        two = find_call(world, second)
        if two is not None and first.rank == second.rank and first.number < second.number:
            one = find_call(world, first)
            found |= {'sends'} if one.kind == two.kind == 'send' and one.other == two.other else set()
        return found
    return cases


def calls_there(cases_of):
    """What has the calls of a rank in order with one that is not there."""
    def cases(world, first, second):
        there = find_call(world, first) is not None and find_call(world, second) is None
        return {'blocks'} if there and first.rank == second.rank else cases_of(world, first, second)
    return cases


def either_way(cases_of):
    """What has two calls in order both ways."""
    return lambda world, first, second: cases_of(world, min(first, second), max(first, second))


def of_two_ranks(cases_of):
    """What has a call that blocks before the calls of other ranks too."""
    def cases(world, first, second):
        if first.rank == second.rank or first.number >= second.number or find_call(world, second) is None:
            return cases_of(world, first, second)
        one = find_call(world, first)
        return {'blocks'} if one is not None and one.blocks else set()
    return cases


def apart(cases_of):
    """What has synchronous sends in an order of their own."""
    def cases(world, first, second):
        found = cases_of(world, first, second)
        if 'sends' in found and find_call(world, first).synchronous != find_call(world, second).synchronous:
            found.remove('sends')
        return found
    return cases


def standard_alone(fits):
    """What has synchronous sends fit nothing."""
    return lambda world, send_id, receive_id: fits(world, send_id, receive_id) and not find_call(world, send_id).synchronous


def breakages_of_barriers():
    return (
        fault('no order behind a barrier', 'cases_of', without_case_of(order.cases_of, 'blocks', 'barrier')),
        fault('synchronous sends in an order of their own', 'cases_of', apart(order.cases_of)),
        fault('synchronous sends as no partners', 'fits', standard_alone(order.fits)),
    )


def breakages():
    why, cases_of, fits, covers = order.why, order.cases_of, order.fits, order.covers
    return (
        fault('the latest call that is in the way', 'holder', latest_holder),
        fault('a receive in the way named before a send', 'holder', receive_first),
        fault('no receive in the way', 'holder', send_alone),
        fault('the last partner left out', 'why', changed(why, lambda listed: listed[:-1])),
        fault('the third partner left out', 'why', changed(why, lambda listed: listed[:2] + listed[3:])),
        fault('partners of the last rank first', 'why', changed(why, lambda listed: listed[::-1])),
        fault('partners of a paired call', 'partner', lambda *_: None),
        fault('partners that do not fit', 'fits', lambda world, send_id, receive_id: fits(world, send_id, receive_id)
              or find_call(world, send_id).other == receive_id.rank),
        fault('sends of other tags in order', 'cases_of', any_tags(cases_of)),
        fault('equal sends in no order', 'cases_of', without_case(cases_of, 'sends')),
        fault('covered receives in no order', 'cases_of', without_case(cases_of, 'receives')),
        fault('a call behind its wait', 'cases_of', without_case(cases_of, 'wait')),
        fault('no order behind what blocks', 'cases_of', without_case(cases_of, 'blocks')),
        fault('any covers any alone', 'covers', lambda number, other: number == other),
        fault('the covered receive first', 'covers', lambda number, other: covers(other, number)),
        fault('both ways', 'cases_of', either_way(cases_of)),
        fault('calls of two ranks in order', 'cases_of', of_two_ranks(cases_of)),
        fault('before a call that is not there', 'cases_of', calls_there(cases_of)),
    ) + breakages_of_barriers() + (breakages_of_2() if 2 in language.VERSIONS else ())


def breakages_of_2():
    """Those of waits for any."""
    return tuple(it for it in waitany_faults.order_faults(order) if it.owner is order)


TRIAL = Trial(WHY, walked, expected, breakages, f'{PROBES}/broken')


def main():
    chosen = parser_of(__doc__).parse_args()
    os.chdir(TOP)
    began = time.monotonic()
    read_up_to(chosen.version)
    with ProcessPoolExecutor(chosen.jobs, initializer=read_up_to, initargs=(chosen.version,)) as pool:
        walks = all_walked(pool, walked, chosen)
        met = sum((walk.met for walk in walks), Counter())
        print(', '.join(f'{name} {count}' for name, count in sorted(met.items())), flush=True)
        must_meet = MUST_MEET + MUST_MEET_OF_2 * (chosen.version > 1)
        wrong = [f'{name} was not met' for name in must_meet if not met[name]]
        print('\n'.join(wrong), end='\n' if wrong else '')
        is_wrong = compare(TRIAL, pool, chosen, walks) if walks else True
    if chosen.planted:
        is_wrong = compare_planted(TRIAL, chosen, walks) or is_wrong
    print(f'{len(walks)} scripts compared, {time.monotonic() - began:.1f} seconds')
    return 1 if wrong or is_wrong else 0


if __name__ == '__main__':
    sys.exit(main())
