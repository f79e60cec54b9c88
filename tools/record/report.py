"""The page that mpdrec prints of a recorded run: what it shows, and what was taken for granted."""

import os
import re
import signal
from collections import Counter, defaultdict
from dataclasses import dataclass
from typing import Any, Callable, Dict, List, NamedTuple, Optional, Tuple

from checking import Leaf, least_mode, report_of, shown
from explaining import Explained
from forcing import Ending, Ran, printed_of
from matching import MODE, Kind, Others, kind_of, others, taken_kinds
from page import Page, ranks_of, tags_of, times_told
from plan import Plan
from records import Call, Refused, Run, name_of_signal
from script import Note, Script, script_of
from seen import tell_invalid, tell_seen

FIRST_LINE = 'mpdrec stands beside mpdbg: nothing on this page is proved'
GRANTED = ['Taken for granted: a rank that has got the same messages (source and tag) makes the same calls; nothing else decides,',
           '  neither time nor chance nor a thread. A rank that gets another message has left the record: nothing is said of what follows.']
MOST_SLOTS = 8
# What could have been taken is looked for so many seconds, and twice as long as the run took.
LEAST_SECONDS = 3.0
MOST_SHOWN = 12
# The last lines that a run printed which ended badly: so many, each so long, without what a starter adds: frames, what it says
# between rules, and of itself.
MOST_PRINTED, MOST_LENGTH = 5, 110
OF_STARTERS = re.compile(r'(\[\S+\] )?(\[ *\d+\]|\*\*\* +(Process received|End of error|and (potentially|MPI will))| *\d+  \S+\()|.*ORTE_ERROR_LOG|'
                         r'\[\S+\] (Signal|Failing at)|\[.*\] Caught signal|=+( backtrace .*)?$|'
                         r'\S*(mpirun|mpiexec|prterun)|YOUR APPLICATION|This typically refers|Please see the FAQ|= ')
RULE = re.compile(r'[-=]{20}')
SAYS = re.compile(r'mpirun|mpiexec|prterun|MPI_ABORT|Primary job|BAD TERMINATION')


@dataclass
class Recorded:
    """A recorded run with its scripts: one that has its matches alone, and one in which each wildcard stays."""
    run: Run
    plan: Plan
    same: Script
    asked: Script
    same_path: str
    asked_path: str


def recorded(run: Run) -> Recorded:
    """Makes both scripts of a run, and writes them to its folder."""
    plan = Plan(run)
    same, asked = script_of(plan, frozenset()), script_of(plan, frozenset(range(run.size)))
    why = same.too_long()
    if why:
        raise Refused(f'too long: {why}, even with repeated blocks as loops; record a run of fewer turns')
    paths = [os.path.join(run.folder, name) for name in ('same.mpd', 'run.mpd')]
    for path, script in zip(paths, (same, asked)):
        with open(path, 'w', encoding='ascii', errors='replace') as file:
            file.write(script.text)
    return Recorded(run, plan, same, asked, *paths)


# ---- how it ended

ENDED = {Ending.WELL: 'ended well', Ending.STANDS: 'stood still, and was ended', Ending.LATE: 'did not end in time, and was ended',
         Ending.BROKEN: 'was ended by an interrupt'}


FATAL = (signal.SIGABRT, signal.SIGBUS, signal.SIGFPE, signal.SIGILL, signal.SIGKILL, signal.SIGSEGV)


def signal_of(status: int, run: Run) -> str:
    """The signal that a status stands for, as starters tell it; empty if it stands for none. A number that is no more than 128
    stands for one if a rank was ended by it, or if it is one that no process sees."""
    number = status - 128 if status > 128 else status
    seen = {beside.end.number for beside in run.beside if beside.end and beside.end.how == 'signal'} | {signal.SIGKILL}
    return f' ({signal.Signals(number).name})' if number in FATAL and (status > 128 or number in seen) else ''


def tell_ending(page: Page, ran: Ran, run: Run) -> None:
    """How the run ended, and where ranks stood."""
    how = ENDED.get(ran.ending) or f'ended with status {ran.status}{signal_of(ran.status, run)}'
    wildcards = sum(call.is_wildcard for call in run.all_calls())
    calls = sum(map(len, run.calls))
    page.tell('RUN', f'{how}: {calls} calls on {run.size} ranks, {wildcards} of them with a wildcard', ran.ending != Ending.WELL)
    for beside in (beside for beside in run.beside if beside.no_record):
        page.tell('', beside.no_record, True)
    if ran.ending == Ending.WELL:
        return
    standing = {call.rank: call for call in run.standing()}
    ended = {rank: told for rank, told in ((rank, own_end(run, rank, standing.get(rank))) for rank in range(run.size)) if told}
    for told in ended.values():
        page.tell('', told)
    for rank, call in standing.items():
        if rank not in ended:
            looks = f', which only looks, and found nothing{times_told(call.times)}' if call.looks else ''
            others_too = [f'; nor did {look.told()}{times_told(look.times)}' for look in run.beside[rank].looks if look is not call]
            page.tell('', f'rank {rank} stands at {call.told()}{looks}{"".join(others_too) if looks else ""}')
    for call in (calls[-1] for calls in run.calls if calls and calls[-1].name == 'Abort'):
        page.tell('', f'rank {call.rank} aborts at {call.told()}')
    if ran.ending == Ending.STATUS:
        for rank, calls in enumerate(run.calls):
            has_left = run.beside[rank].end is not None or rank in standing
            if calls and calls[-1].name not in ('Finalize', 'Abort') and not has_left:
                page.tell('', f'rank {rank} ended in no call, after {calls[-1].told()}')
        tell_printed_last(page, run.folder)


def own_end(run: Run, rank: int, stands: Optional[Call]) -> Optional[str]:
    """How a rank ended by itself: in a call, that is by its library, or in none."""
    end, calls = run.beside[rank].end, run.calls[rank]
    if end is None or (calls and calls[-1].name == 'Abort'):
        return None
    how = f'exit {end.number}' if end.how == 'exit' else name_of_signal(end.number)
    if stands is not None and not stands.looks:
        return f'rank {rank} was ended in {stands.told()}, by {how}'
    if end[:2] == ('exit', 0):
        return None                         # that it doesn't finalize is told by itself
    place = f' at {end.place}' if end.place else ''
    return f'rank {rank} ended by {how}{place}' + (f', after {calls[-1].told()}' if calls else '')


def own_lines(lines: List[str]) -> List[str]:
    """What a program printed, without what its starter or its library said of how it ended."""
    rules = [number for number, line in enumerate(lines) if RULE.match(line)]
    left_out = set()
    for first, last in zip(rules, rules[1:]):
        if SAYS.search('\n'.join(lines[first:last])):
            left_out |= set(range(first, last + 1))
    return [line for number, line in enumerate(lines) if line and number not in left_out and not OF_STARTERS.match(line)]


def tell_printed_last(page: Page, folder: str) -> None:
    """The last lines that a run printed."""
    for line in own_lines([line.rstrip() for line in printed_of(folder)])[-MOST_PRINTED:]:
        page.tell('', f'| {line[:MOST_LENGTH]}')
    page.tell('', f'what was printed stands in {folder}/printed')


def tell_clashes(page: Page, plan: Plan) -> None:
    for calls in plan.clashes:
        page.tell('DIFFER', f'collectives differ at one turn on {plan.run.told_comm(calls[0].comm)}:', True)
        by_call = defaultdict(list)
        for call in calls:
            by_call[call.told() + (f' of root {call.fields["root"]}' if call.fields['root'] != '-1' else '')].append(call.rank)
        for told, ranks in by_call.items():
            page.tell('', f'{ranks_of(ranks)} at {told}')


# ---- what the matches of the run come to

def tell_same_matches(page: Page, found: Recorded, ran: Ran) -> bool:
    """Whether the run hangs with the matches that it had, in the modes; and what is left of it. Gives whether it hangs
    only where sends are not buffered."""
    needs_buffers = False
    buffered = report_of(found.same_path, 'buffered', MOST_SHOWN)
    blocked = [leaf for leaf in buffered.leaves if leaf.outcome == 'deadlock']
    for leaf in blocked[:1]:
        held = 'it ended well here, but hangs where a collective waits for all its ranks, as MPI_Bcast and MPI_Reduce may:'
        tell_hang(page, 'HANG', held if ran.ending == Ending.WELL else 'it hangs, whatever is buffered:', leaf, found.run, found.same)
    for leaf in [leaf for leaf in buffered.leaves if leaf.outcome == 'leftovers'][:1]:
        tell_leftovers(page, leaf, found.same)
    if not blocked:
        blocked = [leaf for leaf in report_of(found.same_path, 'rendezvous', MOST_SHOWN).leaves if leaf.outcome == 'deadlock']
        for leaf in blocked[:1]:
            needs_buffers = tell_hang(page, 'SENDS', 'it hangs where sends are not buffered:', leaf, found.run, found.same)
            if needs_buffers:
                page.tell('', least_told(least_mode(found.same_path, MOST_SLOTS)))
                page.tell('', f'steps: {shown("debug", found.same_path, "--mode", "rendezvous")}')
    absent = any(call.absent for call in found.run.standing())
    if ran.ending == Ending.STANDS and not blocked and not found.plan.clashes and not absent:
        page.tell('STILL', 'all ranks stood in calls, and the record does not say why: perhaps the run was slow (--patience)')
    return needs_buffers


def least_told(mode: Optional[str]) -> str:
    slots = re.fullmatch(r'slots:(\d+)', mode or '')
    if not slots:
        return f'it does not where enough sends of each rank are buffered: more than {MOST_SLOTS}'
    return f'it does not where {slots[1]} send{"s" * (slots[1] != "1")} of each rank can be buffered (mode {mode})'


def tell_hang(page: Page, word: str, text: str, leaf: Leaf, run: Run, script: Script) -> bool:
    """Tells a deadlock of the script; whether it is one of the program. Where a rank only looks, or waits for one of
    several, it may go on in the program: then a cycle of other ranks is one all the same, and nothing else is."""
    looks = [call for call in run.looks if call is not None]
    explained = Explained(leaf, script)
    soft = explained.soft()
    at = looks[0].told() if looks else next((mark.told() for mark in soft.values()), None)
    ranks = {rank for cycle in explained.cycles() for rank in cycle} if at else None
    if at and (not ranks or ranks & set(soft)):
        page.tell('UNSURE', f'the script hangs, but at {at} the program only looks, or waits for one of several, and may go on')
        return False
    page.tell(word, text, True)
    for line in explained.told(ranks) + explained.sent_to_nobody(run):
        page.tell('', line)
    return True


def blocked_in(path: str, mode: str) -> List[Leaf]:
    return [leaf for leaf in report_of(path, mode, MOST_SHOWN).leaves if leaf.outcome == 'deadlock']


def mode_of_hang(path: str) -> str:
    """The mode in which the script of a run that hung hangs: where sends are buffered, if it does there."""
    return 'rendezvous' if not blocked_in(path, MODE) and blocked_in(path, 'rendezvous') else MODE


def tell_why(page: Page, found: Recorded) -> None:
    """Why a run hung that was forced, if its script tells."""
    for leaf in blocked_in(found.same_path, MODE)[:1]:
        tell_hang(page, 'HANG', f'the first of those that hung, {os.path.dirname(found.same_path)}:', leaf, found.run, found.same)


def tell_leftovers(page: Page, leaf: Leaf, script: Script) -> None:
    """Messages that nobody receives, by the sends that they are of."""
    named = [tuple(map(int, word.split('.'))) for word in leaf.named]
    sends = [script.sends[call] for call in named if call in script.sends]
    receives = [script.receives[call] for call in named if call in script.receives]
    kinds = Counter(f'{call.told()} of rank {call.rank} to rank {call.fields["to"]}{call.on} (tag {call.send_tag})' for call in sends)
    for told, count in kinds.items():
        page.tell('LEFT', f'nobody receives {told}{times_told(count)}', True)
    for told, count in Counter(f'{call.told()} of rank {call.rank}{call.on}' for call in receives).items():
        page.tell('OPEN', f'no message comes for {told}{times_told(count)}')


# ---- what could have been taken

def tell_others(page: Page, run: Run, found: Others, took: Counter) -> None:
    """Each kind of match that could have come, those that no run showed first; and a hang that one of them comes to."""
    for other in [other for other in found.found if other.hang][:1]:
        kind = kind_of(*other.taken[0]) if other.taken else None
        tell_hang(page, 'HANG', f'it can hang, if {kind.receive} takes {kind.send}:' if kind else 'it hangs:', other.hang, run, other.script)
    too_long: Dict[Kind, Tuple[Call, Call]] = {}
    could: Dict[Kind, set] = defaultdict(set)
    for other in found.found:
        for receive, send in other.too_long:
            too_long.setdefault(kind_of(receive, send), (receive, send))
        for receive, send in other.taken:
            could[kind_of(receive, send)].add((receive.rank, receive.number))
    for kind, (receive, send) in sorted(too_long.items()):
        page.tell('LENGTH', f'{kind.receive} has room for {receive.fields["room"]} bytes, and could get {send.fields["bytes"]} of {kind.send}', True)
    for never in (True, False):
        for told, calls in together({kind: calls for kind, calls in could.items() if (kind not in took) == never}):
            page.tell('ORDER', f'{told.receive} could have taken {told.send} {times_of(len(set().union(*calls)))}'
                      + ('; it never did in this run' if never else ''))
    if not found.is_whole:
        page.tell('NOT ALL', 'some matches that could have come are not listed: there are too many')


def times_of(count: int) -> str:
    return f'at {count} call{"s" * (count != 1)}'


def together(by_kind: Dict[Kind, Any]) -> List[Tuple[Kind, List[Any]]]:
    """Kinds that differ in the tag alone as one, with what belongs to each."""
    tags, values = defaultdict(list), defaultdict(list)
    for kind, value in sorted(by_kind.items(), key=lambda pair: pair[0]):
        place, _, tag = kind.send.rpartition(' (tag ')
        tags[kind.receive, place].append(int(tag[:-1]))
        values[kind.receive, place].append(value)
    return [(Kind(receive, f'{place} ({tags_of(tags[receive, place])})'), values[receive, place]) for receive, place in tags]


def tell_taken(page: Page, took: Counter) -> None:
    """What the wildcard receives of a run took that did not end well: what came seldom first."""
    kinds = sorted(((sum(counts), kind) for kind, counts in together(took)))
    by_receive = Counter(kind.receive for _, kind in kinds)
    for count, kind in [(count, kind) for count, kind in kinds if by_receive[kind.receive] > 1][:MOST_SHOWN]:
        page.tell('TOOK', f'{kind.receive} took {kind.send} {times_of(count)}')


class Told(NamedTuple):
    """What was told of a recorded run: its scripts, what else could have been taken, and what was."""
    found: Recorded
    others: Others
    took: Counter


def tell_record(page: Page, ran: Ran, run: Run, synchronous: Callable[[], None] = lambda: None) -> Told:
    """Tells all that the record of a run shows. Where sends that are not buffered hang, `synchronous` is done then."""
    tell_ending(page, ran, run)
    tell_invalid(page, run)
    found = recorded(run)
    took = taken_kinds(found.plan)
    tell_clashes(page, found.plan)
    if tell_same_matches(page, found, ran):
        synchronous()
    tell_seen(page, found.plan)
    if ran.ending != Ending.WELL:
        tell_taken(page, took)
    other = others(found.plan, seconds=LEAST_SECONDS + 2 * ran.seconds)
    tell_others(page, run, other, took)
    return Told(found, other, took)


def tell_end(page: Page, found: Recorded, seconds: str) -> None:
    """What was taken for granted, and how the scripts are opened: in the mode in which all but SENDS was found."""
    for note in found.plan.notes:
        page.tell('NOTE', note)
    page.lines += GRANTED
    page.lines.append(f'{seconds}the script with the matches of this run, {found.same.statements} statements:')
    page.lines += [f'  {shown(word, found.same_path, "--mode", MODE)}' for word in ('debug', 'diagnose')]
    if found.asked.statements > found.same.statements:
        page.lines.append(f'and with its wildcards, {found.asked.statements} statements, where a trap marked [{Note.LEFT.value}] is a rank '
                          'that leaves the record:')
        page.lines += [f'  {shown(word, found.asked_path, "--mode", MODE)}' for word in ('debug', 'diagnose')]
