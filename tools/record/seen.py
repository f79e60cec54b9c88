"""What a record shows beside its matches: calls that name what isn't there, requests that are lost, types and operations that
differ, buffers that change while they are sent, communicators that are never freed, and ranks that never finalize."""

from collections import Counter, defaultdict
from typing import Dict, Iterator, List, Tuple

from page import Page, ranks_of, times_told
from plan import Plan, could_take
from records import Call, Run
from signatures import Signature, are_a_message, are_alike

# A call of these brings no message: the receive after it does.
PROBES = ('Probe', 'Iprobe')


class Occurrences:
    """What is told of calls, each kind once, with the ranks of which it is."""

    def __init__(self) -> None:
        self.ranks: Dict[Tuple[str, str], List[int]] = defaultdict(list)

    def add(self, call: str, rank: int, text: str) -> None:
        self.ranks[call, text].append(rank)

    def tell(self, page: Page, word: str, is_bad: bool) -> None:
        for (call, text), ranks in self.ranks.items():
            often = times_told(len(ranks)) if len(ranks) > len(set(ranks)) else ''
            page.tell(word, f'{call} of {ranks_of(ranks)}{text}{often}', is_bad)


# ---- what isn't there

def tell_invalid(page: Page, run: Run) -> None:
    """Calls that name a rank, a root, a tag or a communicator which isn't there, and those that gave an error back."""
    absent, errors = Occurrences(), Occurrences()
    for beside in run.beside:
        for call in beside.invalid:
            absent.add(call.told(), call.rank, f' names {call.absent}: {why_absent(call, run)}')
        for call in beside.failed:
            errors.add(call.told(), call.rank, f' gave back {call.error}')
    absent.tell(page, 'ABSENT', True)
    errors.tell(page, 'ERROR', False)


def why_absent(call: Call, run: Run) -> str:
    what = call.absent or ''
    if what.startswith('tag'):
        return 'a message has none below 0'
    if what == 'MPI_COMM_NULL' or call.comm not in run.comms:
        return 'that is no communicator'
    return f'{run.told_comm(call.comm)} has ranks 0 to {len(run.comms[call.comm]) - 1}'


# ---- requests and communicators

def ended_well(calls: List[Call]) -> bool:
    return bool(calls) and calls[-1].name == 'Finalize'


def lost_requests(calls: List[Call]) -> Iterator[Call]:
    """The calls of a rank that came to MPI_Finalize for whose requests it never waited, and which it never freed."""
    done = {completion.request for call in calls for completion in call.completions}
    done |= {call.request for call in calls if call.name == 'Request_free'}
    return (call for call in calls if call.request is not None and call.name != 'Request_free' and call.request not in done)


def tell_lost(page: Page, run: Run) -> None:
    told = Occurrences()
    for call in (call for calls in run.calls if ended_well(calls) for call in lost_requests(calls)):
        told.add(call.told(), call.rank, ': its request is never waited for, nor freed')
    told.tell(page, 'REQUEST', True)


def tell_not_freed(page: Page, run: Run) -> None:
    """Communicators that some rank never frees."""
    ranks: Dict[Tuple[str, str], List[int]] = defaultdict(list)
    for rank, (calls, beside) in enumerate(zip(run.calls, run.beside)):
        for comm, maker in beside.made.items() if ended_well(calls) else ():
            if comm not in beside.freed:
                told = run.told_comm(comm)
                ranks[told, f'{told} is never freed' if maker.told() in told else f'{told} of {maker.told()} is never freed'].append(rank)
    for (_, text), of_ranks in ranks.items():
        page.tell('COMM', f'{text}, by {ranks_of(sorted(of_ranks))}')


def tell_not_finalized(page: Page, run: Run) -> None:
    """Ranks that ended by themselves, and well, without MPI_Finalize."""
    ranks: Dict[str, List[int]] = defaultdict(list)
    for rank, (calls, beside) in enumerate(zip(run.calls, run.beside)):
        if beside.end and beside.end[:2] == ('exit', 0) and not (calls and calls[-1].name in ('Finalize', 'Abort')):
            ranks[f'without MPI_Finalize, after {calls[-1].told()}' if calls else 'without MPI_Finalize'].append(rank)
    for text, of in ranks.items():
        page.tell('FINALIZE', f'{ranks_of(of)} end{"s" * (len(of) == 1)} {text}', True)


# ---- what is sent, and what is taken

def paired(plan: Plan) -> Iterator[Tuple[Call, Call]]:
    """Each send with the receive that took its message. After a receive of which isn't known what it took, none is paired
    with a message that it could have taken."""
    sent: Dict[Tuple[int, str, str, str], List[Call]] = defaultdict(list)
    turns: Counter = Counter()
    for call in plan.run.all_calls():
        if call.is_send:
            sent[call.rank, call.fields['to'], call.comm, call.send_tag].append(call)
    for rank, calls in enumerate(plan.run.calls):
        unknown: List[Call] = []
        for call in (call for call in calls if call.source is not None and call.name not in PROBES):
            took = plan.took.get((rank, call.number))
            if took is None:
                unknown.append(call)
                continue
            wanted = (str(took.source), str(took.tag))
            if any(other.comm == call.comm and could_take(other, wanted) for other in unknown):
                continue
            key = (took.source, str(rank), call.comm, str(took.tag))
            turn, turns[key] = turns[key], turns[key] + 1
            if turn < len(sent[key]):
                yield sent[key][turn], call


def tell_types(page: Page, plan: Plan) -> None:
    """Messages that are received as other types than they are sent as."""
    told: Counter = Counter()
    for send, receive in paired(plan):
        if 'out' in send.fields and 'in' in receive.fields:
            out, taken = Signature(send.fields['out']), Signature(receive.fields['in'])
            if not are_a_message(out, taken):
                told[f'{send.told()}{send.on} sends {out.told()}, which {receive.told()} takes as {taken.told()}'] += 1
    for text, count in told.items():
        page.tell('TYPES', text + times_told(count), True)


def carried(call: Call) -> List[Signature]:
    return [Signature(call.fields[key]) for key in ('out', 'in') if key in call.fields]


def tell_carried(page: Page, plan: Plan) -> None:
    """Collectives of one name and root whose ranks name other operations, or carry other types or amounts."""
    told: Counter = Counter()
    for calls in plan.alike:
        if len({call.fields.get('op') for call in calls}) > 1:
            told[(f'operations of one MPI_{calls[0].name} differ{calls[0].on}:', *by_ranks(calls, lambda call: call.fields.get('op', 'none')))] += 1
        found = [signature for call in calls for signature in carried(call)]
        if not are_alike(found):
            told[(f'what one MPI_{calls[0].name} carries differs{calls[0].on}:', *by_ranks(calls, carried_told))] += 1
    for (first, *lines), count in told.items():
        page.tell('DIFFER', first + times_told(count), True)
        for line in lines:
            page.tell('', line)


def carried_told(call: Call) -> str:
    return ', and takes '.join(signature.told() for signature in carried(call)) or 'nothing'


def by_ranks(calls: List[Call], told_of) -> List[str]:
    """What is told of the calls of a collective, once for all the ranks of which it is the same."""
    ranks: Dict[str, List[int]] = defaultdict(list)
    for call in calls:
        ranks[f'{call.told()}: {told_of(call)}'].append(call.rank)
    return [f'{ranks_of(of)} at {told}' for told, of in ranks.items()]


def tell_changed(page: Page, run: Run) -> None:
    """Buffers that were changed while they were sent."""
    told = Occurrences()
    for rank, (calls, beside) in enumerate(zip(run.calls, run.beside)):
        issued = {call.request: call for call in calls if call.request is not None and call.name != 'Request_free'}
        for change in (change for change in beside.changes if change.request in issued):
            when = f'before {change.before.told()} is over' if change.after in (None, change.before) else \
                f'between {change.after.told()} and {change.before.told()}'
            told.add(issued[change.request].told(), rank, f': what it still sends is changed {when}')
    told.tell(page, 'BUFFER', True)


def tell_seen(page: Page, plan: Plan) -> None:
    """All that the record shows beside its matches."""
    tell_types(page, plan)
    tell_carried(page, plan)
    tell_changed(page, plan.run)
    tell_lost(page, plan.run)
    tell_not_finalized(page, plan.run)
    tell_not_freed(page, plan.run)
