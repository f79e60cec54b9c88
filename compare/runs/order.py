"""What holds a match back, and the order that a run shows: rules with no trace word, in the model, and what must hold of them.

    python3 compare/runs/order.py             300 walks of all scripts with wildcards, requests, messages and barriers, in all modes, 150 of
                                              scripts with waits for any, and 75 of scripts with many sends, in modes of slots
    python3 compare/runs/order.py --broken    faults of the model, each of which these walks must notice
    python3 compare/runs/order.py --rows 40   rows of `why` and `before`, for tests of the crate that answers them: script, words, a
                                              line for each call with what `why` says of it, and the calls that come before others

Behind each step of a walk it is checked that a receive has at most one send of each sender that it may be matched with, that
`why` tells the matches that are enabled and what stands in the way of each other one, that wakes and the release are enabled where the
calls and the records say so, and that those sends are buffered, and have a slot, of which the steps say it; where it has the
most records, and at its end, that the calls of each rank are in the order that `before` says, and that each rank has left a barrier as
often as all have (docs/DEFINITIONS.md). The status is 0 where all of that holds, and was seen.
"""

import json
import os
import sys
from collections import Counter
from itertools import chain
from random import Random
from typing import NamedTuple

sys.path.insert(0, os.path.dirname(os.path.dirname(os.path.abspath(__file__))))

from cases.kinds import KINDS
from faults import slots_faults, waitany_faults
from faults.breakages import buffered_by, going_on, one_left, wakes_at_barriers, without_gone, without_running
from faults.policy_faults import Breakage
from model import debugger, order
from model.debugger import (BUFFERED, RENDEZVOUS, CallId, Debugger, Pair, Step, Woken, divided, eligible, enabled_steps, find_call, partner, slots_used,
                            step_text)
from model.language import Fault, read_script
from model.modes import MODES, SLOTS_DRAWN, by_turns, slots_of
from runs import driving

CHOSEN = ('wildcards', 'wildcards', 'requests', 'script', 'states')
LATER = ('barriers', 'exchanges')
# Of version 2, and with many sends, beside the others.
WITH_WAITANY, WITH_SLOTS = ('waitany',), ('slots',)
# What must have been seen: the cases of the order, in which a release, or a send that is complete as it is issued, has a part.
MUST_MEET = ('worlds', 'releases', 'sends', 'receives', 'wait', 'blocks', 'behind a release', 'before a release', 'buffered',
             'wakes by a handle', 'waits for any of nothing', 'behind a wait for any', 'slots that are used', 'sends that find no slot',
             'slots that fall free')


def barriers_of(world, number):
    """The barriers of a rank, in the order of issue."""
    calls = enumerate(world.ranks[number].calls)
    return [CallId(number, place) for place, call in calls if call.kind == 'barrier']


def places_of(world):
    """Where each call was paired, and where its rank went on from it, among the records.

    A release is of one barrier of each rank: behind so many others, of that before which the rank had issued so many barriers.
    """
    paired, left = {}, {}
    releases = 0
    for place, record in enumerate(world.records):
        if isinstance(record, Pair):
            paired[record.send] = paired[record.receive] = place
        elif isinstance(record, Woken):
            left[record.call] = place
        else:
            for number in range(len(world.ranks)):
                left.update({call_id: place for call_id in barriers_of(world, number)[releases:releases + 1]})
            releases += 1
    return paired, left


def is_standard_send(call):
    return call.kind == 'send' and not call.synchronous


def was_buffered(world, call):
    """Whether a call is a send that was buffered as it was issued: by the mode alone where that says it, and else by its mark."""
    if slots_of(world.mode) is not None:
        return is_standard_send(call) and call.buffered
    return world.mode == BUFFERED and is_standard_send(call)


class Places(NamedTuple):
    """What the records must show of two calls: each of `bounds` is behind `held`, which is None where it isn't there."""
    case: str
    bounds: list
    held: object
    also: list


def places_between(world, first, second, paired, left):
    """What the records must show of two calls of a rank in each case by which the first completes before the second.

    `also` says what was met in that beside the case.
    """
    one, two = find_call(world, first), find_call(world, second)
    buffered = was_buffered(world, one)
    for case in order.cases_of(world, first, second):
        if case in ('sends', 'receives'):
            yield Places(case, [paired[second]] if second in paired else [], paired.get(first), [])
        elif case == 'wait':
            # what was buffered was complete as it was issued, before any record
            done = -1 if buffered else paired.get(first)
            yield Places(case, [left[second]] if second in left else [], done, ['buffered'] * buffered)
        else:
            bounds = [places[second] for places in (paired, left) if second in places]
            also = ['behind a release'] * (one.kind == 'barrier') + ['before a release'] * (two.kind == 'barrier')
            also += ['behind a wait for any'] * (one.kind == 'waitany')
            yield Places(case, bounds, left.get(first), also)


def out_of_order(world):
    """The cases that were met, and those in which a pair of calls isn't in its order."""
    paired, left = places_of(world)
    met, wrong = Counter(), []
    for number, rank in enumerate(world.ranks):
        calls = [CallId(number, place) for place in range(len(rank.calls))]
        for first, second in ((one, two) for one in calls for two in calls if one.number < two.number):
            for case, bounds, held, also in places_between(world, first, second, paired, left):
                met.update({name: len(bounds) for name in (case, *also)})
                if any(held is None or held >= bound for bound in bounds):
                    wrong.append((case, first, second))
    return met, wrong


def told_of_barriers(world):
    """What the barriers of a rank say otherwise than the releases: it has left one by each, and is at the one behind these."""
    releases = sum(not isinstance(record, (Pair, Woken)) for record in world.records)
    return [f'barriers of rank {number}' for number, rank in enumerate(world.ranks)
            if len(barriers_of(world, number)) != releases + (rank.mode == 'blocked' and rank.calls[-1].kind == 'barrier')]


def due_by_any(world, call_id, is_done):
    """The wakes that must be enabled of a rank that waits for any: by what its handles hold."""
    call = find_call(world, call_id)
    held = list(enumerate(world.ranks[call_id.rank].handles))[call.first:call.first + call.count]
    if all(number is None for _, number in held):
        return {Step('wake', call_id.rank)}
    return {Step('wakeany', call_id.rank, handle - call.first) for handle, number in held
            if number is not None and is_done(CallId(call_id.rank, number))}


def steps_due(world):
    """The wakes and the release that must be enabled, by the calls, what handles hold, and the records alone."""
    def is_done(call_id):
        return call_id in paired or was_buffered(world, find_call(world, call_id))

    paired, left = places_of(world)
    last = [CallId(number, len(rank.calls) - 1) for number, rank in enumerate(world.ranks)]
    waited = [call_id for call_id in last if call_id.number >= 0 and find_call(world, call_id).blocks and call_id not in left]
    barriers = [call_id for call_id in waited if find_call(world, call_id).kind == 'barrier']
    due = {Step('release')} if len(barriers) == len(last) else set()
    for call_id in waited:
        call = find_call(world, call_id)
        if call.kind == 'waitany':
            due |= due_by_any(world, call_id, is_done)
            continue
        if call.kind == 'wait':
            is_due = call.target is None or is_done(CallId(call_id.rank, call.target))
        else:
            is_due = call.kind != 'barrier' and is_done(call_id)
        due |= {Step('wake', call_id.rank)} if is_due else set()
    return due


def told_wrong(world):
    """What `why` says otherwise than the enabled matches, or says of what is not there; senders with two eligible sends."""
    steps = enabled_steps(world)
    matches = {(step.first, step.second) for step in steps if step.kind == 'match'}
    wrong = [f'two sends of a rank are eligible for {receive}' for send, receive in matches
             if any(other.rank == send.rank and other != send and taken == receive for other, taken in matches)]
    for number, rank in enumerate(world.ranks):
        for call_id, call in ((CallId(number, place), call) for place, call in enumerate(rank.calls)):
            for other, held in order.why(world, call_id):
                pair = (call_id, other) if call.kind == 'send' else (other, call_id)
                if (held is None) != (pair in matches):
                    wrong.append(f'why of {call_id} at {other}')
                if held is not None and (partner(world, held) is not None or held.rank not in (pair[0].rank, pair[1].rank)):
                    wrong.append(f'why of {call_id}: {held}')
    if matches != all_matches(world):
        wrong.append('the enabled matches')
    if {step for step in steps if step.kind in ('wake', 'wakeany', 'release')} != steps_due(world):
        wrong.append('the enabled wakes, or the release')
    return wrong + told_of_barriers(world)


class Held(NamedTuple):
    """The sends that were buffered as they were issued, and those of them that aren't matched."""
    buffered: set
    free: set


def held_by(walked):
    """What was buffered, and is: by the steps from the start, what they issued and what they matched."""
    held, slots = Held(set(), set()), slots_of(walked.world.mode)
    for step, before, behind in zip(walked.steps, walked.worlds, walked.worlds[1:]):
        if step.kind == 'match':
            held.free.discard(step.first)
        if step.kind != 'local' or len(all_calls(behind)) == len(all_calls(before)):
            continue
        call_id = CallId(step.first, len(before.ranks[step.first].calls))
        used = sum(other.rank == step.first for other in held.free)
        has_slot = walked.world.mode == BUFFERED if slots is None else used < slots
        if has_slot and is_standard_send(find_call(behind, call_id)):
            held.buffered.add(call_id)
            held.free.add(call_id)
    return held


def slots_wrong(walked):
    """What sends are buffered, and the sends that have a slot, are otherwise than by the steps."""
    held, world = held_by(walked), walked.world
    sends = [call_id for call_id in all_calls(world) if find_call(world, call_id).kind == 'send']
    wrong = [f'the buffer of {call_id}' for call_id in sends if find_call(world, call_id).buffered != (call_id in held.buffered)]
    slots = {CallId(number, place) for number, rank in enumerate(world.ranks) for place in rank.slots}
    counts = [slots_used(world, number) for number in range(len(world.ranks))]
    is_counted = counts == [sum(call_id.rank == number for call_id in held.free) for number in range(len(world.ranks))]
    return wrong + ['the sends that have a slot'] * (slots != held.free) + ['how many slots are used'] * (not is_counted)


def all_matches(world):
    """All matches of two calls that are eligible, sought among all pairs of calls."""
    return {(one, two) for one in all_calls(world) for two in all_calls(world) if eligible(world, one, two)}


def all_calls(world):
    return [CallId(number, place) for number, rank in enumerate(world.ranks) for place in range(len(rank.calls))]


def mode_of(kinds, number):
    """The mode of the walk of a number, among those of some kinds."""
    turn = number // len(kinds)
    if kinds == WITH_SLOTS:
        return f'slots:{turn % SLOTS_DRAWN}'
    return RENDEZVOUS if kinds == CHOSEN else by_turns(MODES[turn % 2], turn)


def walks(seed, count, kinds=CHOSEN):
    """Inputs of scripts that are read, each with what the model's debugger is of it, and its lines."""
    for number in range(count):
        kind = kinds[number % len(kinds)]
        mode = mode_of(kinds, number)
        data = KINDS[kind].draw(Random(f'order/{kind}/{seed}/{number}'), mode)
        script, lines = divided(data)
        try:
            yield data, Debugger(read_script(script), mode), lines
        except Fault:
            continue


def all_walks(seed, count, kinds=CHOSEN + LATER):
    """So many walks of scripts of version 1, half as many of version 2 beside, and a quarter as many of scripts with many sends."""
    return chain(walks(seed, count, kinds), walks(seed, count // 2, WITH_WAITANY), walks_of_sends(seed, count))


def walks_of_sends(seed, count):
    """A quarter as many walks of scripts with many sends."""
    return walks(seed, count // 4, WITH_SLOTS)


def check(seed, count, to_end=True, drawn=all_walks):
    """Checks so many walks, or those up to the first that is wrong; gives what was met, and what is wrong."""
    met, wrong = Counter(), []
    for _, walked, lines in drawn(seed, count):
        if wrong and not to_end:
            break
        longest = walked.world
        for line in lines:
            if not (walked.answer(line) or '').startswith('ok'):
                continue
            longest = max(longest, walked.world, key=lambda world: len(world.records))
            if len(all_calls(walked.world)) > 40:
                continue
            met['worlds'] += 1
            met.update(met_by_step(walked))
            met.update(met_by_slots(walked))
            wrong += told_wrong(walked.world) + slots_wrong(walked)
        for world in (longest, walked.world):
            cases, found = out_of_order(world)
            met += cases
            wrong += found
    return met, wrong


def met_by_step(walked):
    """What was met as the last step that isn't undone was taken."""
    step = walked.steps[walked.depth - 1] if walked.depth else Step('none')
    is_of_nothing = step.kind == 'wake' and walked.world.ranks[step.first].calls[-1].kind == 'waitany'
    names = {'release': 'releases', 'wakeany': 'wakes by a handle', 'wake': 'waits for any of nothing' if is_of_nothing else 'wakes'}
    return [names[step.kind]] if step.kind in names else []


def met_by_slots(walked):
    """What was met of slots as that step was taken."""
    slots, before = slots_of(walked.world.mode), walked.worlds[-2:-1]
    if not slots or not before:
        return []
    found = ['slots that are used'] * any(rank.slots for rank in walked.world.ranks)
    found += ['slots that fall free'] * any(len(was.slots) > len(now.slots) for was, now in zip(before[0].ranks, walked.world.ranks))
    step = walked.steps[walked.depth - 1]
    issued = step.kind == 'local' and len(all_calls(walked.world)) > len(all_calls(before[0]))
    call = walked.world.ranks[step.first].calls[-1] if issued else None
    return found + ['sends that find no slot'] * (issued and is_standard_send(call) and not call.buffered)


def missed(met):
    return [name for name in MUST_MEET if not met[name]]


def without_case(cases_of, case, kind):
    """What leaves a case out where the first call is of a kind."""
    def cases(world, first, second):
        found = cases_of(world, first, second)
        return found - {case} if found and find_call(world, first).kind == kind else found
    return cases


def breakages():
    return (
        Breakage('before without barriers', order, 'cases_of', without_case(order.cases_of, 'blocks', 'barrier')),
        Breakage('before without waits for sends', order, 'cases_of', without_case(order.cases_of, 'wait', 'send')),
        Breakage('a barrier released without ranks that are gone', debugger, 'can_release', without_gone),
        Breakage('a barrier released without ranks that run', debugger, 'can_release', without_running),
        Breakage('a release that leaves one rank blocked', debugger, 'after_release', one_left(debugger.after_release)),
        Breakage('a wake at a barrier', debugger, 'can_wake', wakes_at_barriers(debugger.can_wake)),
        Breakage('a synchronous send complete as it is issued', debugger, 'is_buffered',
                 buffered_by(lambda mode, _: mode == BUFFERED)),
        Breakage('all standard sends buffered in every mode', debugger, 'is_buffered',
                 buffered_by(lambda _, call: not call.synchronous)),
        Breakage('a rank that goes on behind a buffered send without a wake', debugger, 'after_local',
                 going_on(debugger.after_local)),
        *waitany_faults.order_faults(order))


def check_broken(seed, count):
    """How many broken models are not noticed: nothing is wrong, and all that the sound model meets was met."""
    sound = check(seed, count)
    unnoticed = len(sound[1])
    for breakage in breakages():
        with driving.broken(breakage):
            met, wrong = check(seed, count, to_end=False)
        lost = [name for name in missed(met) if sound[0][name]]
        told = wrong[0] if wrong else f'not met: {", ".join(lost)}' if lost else 'NOT NOTICED'
        unnoticed += not (wrong or lost)
        print(f'{breakage.name}: {told}', flush=True)
    # the same of slots, by walks of scripts with many sends
    return unnoticed + driving.count_unnoticed(slots_faults.order_faults(), lambda: check(seed, count, to_end=False, drawn=walks_of_sends))


def row(data, taken, world):
    """A row: a script, the words taken, what `why` says of each send and receive, and which calls come before which."""
    script = divided(data)[0].decode('ascii')
    told = [f'{call_id}: {order.why_text(order.why(world, call_id))}'.rstrip() for call_id in all_calls(world)]
    pairs = [f'{one} {two}' for one in all_calls(world) for two in all_calls(world) if order.before(world, one, two)]
    return [script, ''.join(f'{line}\n' for line in taken), '\n'.join(told), ', '.join(pairs)]


def rows(seed, count):
    """So many rows of small scripts, in each of which a match is held back or a receive has two to choose among."""
    found = []
    for data, debugger, lines in walks(seed, 50 * count):
        if len(found) == count:
            break
        best = None
        for line in lines:
            answer = debugger.answer(line) or ''
            if not answer.startswith('ok'):
                continue
            taken = [step_text(step) for step in debugger.steps[:debugger.depth]]
            partners = [order.why(debugger.world, call_id) for call_id in all_calls(debugger.world)]
            weight = sum(held is not None for listed in partners for _, held in listed), max(map(len, partners), default=0)
            if len(taken) <= 24 and weight > (0, 1) and (best is None or weight > best[0]):
                best = weight, row(data, taken, debugger.world)
        if best and len(best[1][0]) <= 400:
            found.append(best[1])
    return found


def main():
    parser = driving.rule_parser(__doc__, 'walks', 300, 'another seed gives other walks (1)')
    parser.add_argument('--rows', type=int, metavar='N', help='write so many rows, each a list of texts in JSON')
    chosen = parser.parse_args()
    if chosen.rows:
        found = rows(chosen.seed, chosen.rows)
        for texts in found:
            print(json.dumps(texts))
        return 0 if len(found) == chosen.rows else 1
    if chosen.broken:
        return 1 if check_broken(chosen.seed, chosen.count) else 0
    met, wrong = check(chosen.seed, chosen.count)
    driving.tell_wrong(met, wrong)
    return 0 if not wrong and not missed(met) else 1


if __name__ == '__main__':
    sys.exit(main())
