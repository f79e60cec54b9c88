"""Which messages wildcard receives took in recorded runs, and which ones they could have taken in their place."""

import tempfile
import time
from collections import Counter, defaultdict
from concurrent.futures import ThreadPoolExecutor
from dataclasses import dataclass, field, replace
from typing import Dict, List, NamedTuple, Optional, Tuple

from checking import Leaf, Match, matches_of, report_of
from forcing import Forced
from plan import Plan
from records import Call
from script import Script, script_of

MOST_LEAVES = 400
# How many runs of a script are asked for at a time, and for how many seconds.
AT_ONCE, SECONDS = 16, 20.0
# Matches are looked for where each send is buffered: there are the most.
MODE = 'buffered'


class Kind(NamedTuple):
    """A receive and a send of the program that were matched, or could be."""
    receive: str
    send: str


@dataclass
class Other:
    """A run of the script in which some receives took other messages than in the recorded one, and the matches that must
    be forced on the program so that it goes the same way. It leaves the record as a rank gets such a message; `hang` is
    its end if all is blocked before any rank did."""
    taken: List[Tuple[Call, Call]]
    forced: Forced
    too_long: List[Tuple[Call, Call]] = field(default_factory=list)
    hang: Optional[Leaf] = None
    script: Optional[Script] = None


@dataclass
class Others:
    """What could have been taken in a run, and whether all of that is known."""
    found: List[Other] = field(default_factory=list)
    is_whole: bool = True


def kind_of(receive: Call, send: Call) -> Kind:
    return Kind(f'{receive.told()}{receive.on}', f'{send.told()}{send.on} (tag {send.send_tag})')


def taken_kinds(plan: Plan) -> Counter:
    """How often each kind of match came in a run, of wildcard receives."""
    sent: Dict[Tuple[int, str, str, str], List[Call]] = defaultdict(list)
    for call in plan.run.all_calls():
        if call.is_send:
            sent[call.rank, call.fields['to'], call.comm, call.send_tag].append(call)
    found: Counter = Counter()
    turns: Counter = Counter()
    for call in plan.run.all_calls():
        took = plan.took.get((call.rank, call.number))
        if took is None or call.name in ('Probe', 'Iprobe') and call not in plan.fused or call in plan.received_before:
            continue
        key = (took.source, str(call.rank), call.comm, str(took.tag))
        turn, turns[key] = turns[key], turns[key] + 1
        if call.is_wildcard and turn < len(sent[key]):
            found[kind_of(call, sent[key][turn])] += 1
    return found


def other_of(plan: Plan, script: Script, matches: List[Match], leaves: bool) -> Other:
    """What a run of a script has that the recorded one hasn't. What a receive took that was not complete as the record
    ended is not known: if the run leaves the record, and by no other match, it is by that of such a receive."""
    other, unknown = Other([], {}), []
    for match in matches:
        send, receive = script.sends.get(match.send), script.receives.get(match.receive)
        if send is None or receive is None:
            continue
        if send.comm != receive.comm:
            return Other([], {})            # no match of MPI: a script has one communicator alone
        message = (send.rank, int(send.send_tag))
        took = plan.took.get((receive.rank, receive.number))
        if receive.is_wildcard:
            other.forced[receive.rank, receive.number] = message
            if took is None:
                unknown.append((receive, send))
            elif (took.source, took.tag) != message:
                other.taken.append((receive, send))
        if 'room' in receive.fields and int(send.fields['bytes']) > int(receive.fields['room']):
            other.too_long.append((receive, send))
    if leaves and not other.taken:
        other.taken = unknown
    return other


def others_of_rank(plan: Plan, rank: int, mode: str, until: float) -> Others:
    """What the receives of one rank could have taken, while the other ranks are on the record."""
    script = script_of(plan, {rank})
    if script.too_long():
        return Others(is_whole=False)
    with tempfile.NamedTemporaryFile('w', suffix='.mpd', encoding='ascii') as file, ThreadPoolExecutor() as pool:
        file.write(script.text)
        file.flush()
        report = report_of(file.name, mode, MOST_LEAVES)
        left = [leaf for leaf in report.leaves if leaf.outcome in ('trap', 'deadlock')]
        found: List[Other] = []
        while left and time.monotonic() < until:
            matches = pool.map(lambda leaf: matches_of(file.name, mode, leaf.choices), left[:AT_ONCE])
            for leaf, of_leaf in zip(left, matches):
                is_hang = leaf.outcome == 'deadlock'
                other = other_of(plan, script, of_leaf, not is_hang)
                found.append(replace(other, hang=leaf, script=script) if is_hang else other)
            left = left[AT_ONCE:]
    return Others([other for other in found if other.taken or other.too_long], report.is_whole and not left)


def others(plan: Plan, mode: str = MODE, seconds: float = SECONDS) -> Others:
    """What each wildcard receive of a run could have taken in the place of what it took, one step off the record; what is not found
    in so many seconds is left out."""
    all_found, until = Others(), time.monotonic() + min(seconds, SECONDS)
    for rank, calls in enumerate(plan.run.calls):
        if any(call.is_wildcard or plan.can_be_too_long(call) for call in calls):
            of_rank = others_of_rank(plan, rank, mode, until)
            all_found.found += of_rank.found
            all_found.is_whole = all_found.is_whole and of_rank.is_whole
    return all_found
