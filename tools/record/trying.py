"""Runs the program again with messages forced that it could have taken, and tells what came of each."""

import os
import re
from collections import Counter, defaultdict
from dataclasses import dataclass, replace
from typing import Callable, Dict, List, Optional, Set, Tuple

import forcing
from checking import NotChecked, shown
from forcing import Command, Ending, Forced, Ran, printed_of
from matching import MODE, Other, Others, kind_of, others, taken_kinds
from plan import Plan
from records import Refused, Run, read_run
from page import Page, times_told
from report import ENDED, Recorded, mode_of_hang, recorded, tell_why

# What is told of a run as it has ended, on its own line.
Progress = Callable[[str], None]
# So many lines that a run printed, and others did not, are told, up to so many characters each.
MOST_LINES, MOST_LENGTH = 3, 100
HUNG = 'hung'
# What stands for a source and a tag of a look that is held back (record.c).
HELD = (-2, -2)


@dataclass
class Tried:
    """A run that was forced: what was forced, how it ended, where ranks stood, and its scripts, if they could be made."""
    folder: str
    came: str
    stands: Tuple[str, ...]
    is_bad: bool
    made: Optional[Recorded] = None


def key_of(forced: Forced) -> Tuple:
    return tuple(sorted(forced.items()))


def is_shown(forced: Forced, plans: List[Plan]) -> bool:
    """Whether a run had all the matches that would be forced."""
    return any(all(call in plan.took and (plan.took[call].source, plan.took[call].tag) == wanted for call, wanted in forced.items())
               for plan in plans)


def held_back(plan: Plan) -> List[Other]:
    """Looks that found something, and that can be held back: of each place the first, where the rank looks at others, too."""
    found = []
    for calls in plan.run.calls:
        first = {call.place: call for call in reversed(calls) if call.name == 'Iprobe'}
        found += [Other([], {(call.rank, call.number): HELD}) for call in first.values() if len(first) > 1]
    return found


def not_followed(run: Run, forced: Forced) -> bool:
    """Whether a rank stands at a receive that was forced, or waits for one: then the run did not go the way that it should."""
    for call in run.standing():
        asked = {call.number} | {other.number for other in run.calls[call.rank] if other.name == 'Irecv' and other.request in call.requests}
        if any(forced.get((call.rank, number), HELD) != HELD for number in asked):
            return True
    return False


class Tries:
    """The runs that are tried, one after another: those first that show a kind of match that none has shown."""

    def __init__(self, command: Command, folder: str, first: Plan, found: Others, read: Callable[[str], Run] = read_run):
        self.command, self.folder, self.read = command, folder, read
        self.plans, self.waiting = [first], [*found.found, *held_back(first)]
        self.keys: Set[Tuple] = set()
        self.took = taken_kinds(first)
        self.tried: List[Tried] = []
        self.is_whole = found.is_whole
        self.has_held = False               # whether a look was held back in one of them

    def next(self) -> Optional[Other]:
        """What is tried next; None if nothing is left."""
        self.waiting = [other for other in self.waiting if key_of(other.forced) not in self.keys and not is_shown(other.forced, self.plans)]
        if not self.waiting:
            return None
        fresh = min(self.waiting, key=lambda other: -sum(kind_of(*pair) not in self.took for pair in other.taken))
        self.waiting.remove(fresh)
        self.keys.add(key_of(fresh.forced))
        return fresh

    def run(self, other: Other) -> None:
        """Runs the program with these matches forced, and looks what else it could have taken then."""
        folder = os.path.join(self.folder, str(len(self.tried) + 1))
        self.has_held = self.has_held or HELD in other.forced.values()
        ran = forcing.run(self.command, folder, other.forced)
        if ran.ending == Ending.BROKEN:
            raise KeyboardInterrupt
        try:
            run = self.read(folder)
        except Refused as why:
            self.tried.append(Tried(folder, f'was refused: {why}', (), False))
            return
        self.tried.append(self.tried_of(ran, run, other.forced))
        try:
            made = recorded(run)
            self.tried[-1].made, plan = made, made.plan
            self.plans.append(plan)
            self.took += taken_kinds(plan)
            found = others(plan, 'rendezvous' if self.command.is_synchronous else MODE)
        except (Refused, NotChecked):
            self.is_whole = False
            return
        self.waiting += found.found
        self.is_whole = self.is_whole and found.is_whole

    def tried_of(self, ran: Ran, run: Run, forced: Forced) -> Tried:
        if ran.ending == Ending.STANDS and not_followed(run, forced):
            return Tried(ran.folder, 'could not be followed', (), False)
        came = HUNG if ran.ending == Ending.STANDS else ENDED.get(ran.ending, f'ended with status {ran.status}')
        return Tried(ran.folder, came, stands_of(ran, run), ran.ending != Ending.WELL)


def went(ran: Ran, run: Run) -> str:
    """How a run went, in a few words: where a rank stood, if it hung."""
    stands = run.standing() if ran.ending in (Ending.STANDS, Ending.LATE) else []
    came = HUNG if ran.ending == Ending.STANDS else ENDED.get(ran.ending, f'ended with status {ran.status}')
    return came + (f' at {", ".join(sorted({call.place for call in stands}))}' if stands else '')


def stands_of(ran: Ran, run: Run) -> Tuple[str, ...]:
    """Where ranks stood in a run that was ended."""
    is_ended = ran.ending in (Ending.STANDS, Ending.LATE)
    return tuple(f'rank {call.rank} stands at {call.told()}' for call in run.standing()) if is_ended else ()


def tell_synchronous(page: Page, command: Command, folder: str) -> None:
    """Runs the program with synchronous sends, where the script hangs with these."""
    ran = forcing.run(replace(command, is_synchronous=True), os.path.join(folder, 'synchronous'))
    if ran.ending == Ending.BROKEN:
        raise KeyboardInterrupt
    try:
        stands = stands_of(ran, read_run(ran.folder))
    except Refused as why:
        stands = (f'refused: {why}',)
    came = {Ending.STANDS: HUNG, Ending.WELL: 'ended well'}.get(ran.ending, ran.ending.value)
    page.tell('TRIED', f'with synchronous sends it {came}' + (f': {"; ".join(stands)}' if stands else ''), ran.ending != Ending.WELL)
    if ran.ending != Ending.WELL:
        page.tell('', f'  again: {replace(command, is_synchronous=True).shown(ran.folder)}')


# ---- what was printed

def form_of(line: str) -> str:
    """A line without its numbers."""
    return re.sub(r'-?\d+(?:\.\d*)?(?:[eE][-+]?\d+)?|-?\b(?:nan|inf)\b', '0', line)


def more_printed(one: str, other: str) -> List[str]:
    """The lines that a run printed and another did not, whatever their order."""
    return [line.strip() for line in Counter(printed_of(one)) - Counter(printed_of(other)) if line.strip()]


def tell_printed(page: Page, command: Command, folder: str, first: Plan, tried: List[Tried]) -> None:
    """Tells of runs that ended well and printed other lines than the first, which ended well too. What a run with the matches of
    the first prints otherwise, such as a time, is left out."""
    of_first, well = os.path.join(folder, '0'), [one for one in tried if one.came == ENDED[Ending.WELL]]
    if not any(more_printed(one.folder, of_first) for one in well):
        return
    again = forcing.run(command, os.path.join(folder, 'same'), {call: took[:2] for call, took in first.took.items()})
    if again.ending != Ending.WELL:
        return
    unsteady = {form_of(line) for line in more_printed(of_first, again.folder) + more_printed(again.folder, of_first)}
    by_form: Dict[str, Dict[str, Tried]] = defaultdict(dict)
    for one in well:
        for line in more_printed(one.folder, of_first):
            by_form[form_of(line)].setdefault(line, one)
    for form in [form for form in by_form if form not in unsteady][:MOST_LINES]:
        tell_lines(page, command, by_form[form], [line.strip() for line in printed_of(of_first) if form_of(line.strip()) == form])


def tell_lines(page: Page, command: Command, others_printed: Dict[str, Tried], of_first: List[str]) -> None:
    """Tells lines of one form that runs printed, and those that the first printed."""
    lines = [line[:MOST_LENGTH] for line in others_printed]
    told = '; '.join(lines[:MOST_LINES]) + (f'; and {len(lines) - MOST_LINES} others' if len(lines) > MOST_LINES else '')
    page.tell('PRINTED', f'{told}; the first run: {"; ".join(line[:MOST_LENGTH] for line in of_first[:MOST_LINES]) or "no such line"}')
    tell_again(page, command, next(iter(others_printed.values())))


def tell_again(page: Page, command: Command, tried: Tried) -> None:
    """The commands that run a run again, and that open its script."""
    page.tell('', f'  again: {command.shown(tried.folder)}')
    if tried.made:
        page.tell('', f'  steps: {shown("debug", tried.made.same_path, "--mode", mode_of_hang(tried.made.same_path))}')


def tried_all(tries: Tries, most: int, progress: Progress) -> bool:
    """Runs what can be tried, at most so often; whether it was not interrupted."""
    try:
        while len(tries.tried) < most and (fresh := tries.next()):
            tries.run(fresh)
            tried = tries.tried[-1]
            at = sorted({told.split(' stands at ')[1].split()[0] for told in tried.stands})
            progress(f'run {len(tries.tried)} of {most}: {tried.came}' + (f' at {", ".join(at)}' if at else ''))
        return True
    except KeyboardInterrupt:
        return False


def tell_tries(page: Page, command: Command, most: int, first: Ran, plan: Plan, found: Others, progress: Progress = lambda line: None) -> None:
    """Tries what could have come in the first run, at most so often, and tells what came of it."""
    folder = os.path.dirname(first.folder)
    if not most:
        if found.found:
            page.tell('NOT TRIED', f'what follows {len(found.found)} of these: --try N runs the program with each of them forced')
        return
    tries = Tries(command, folder, plan, found)
    is_over = tried_all(tries, most, progress)
    left = 0 if tries.next() is None else len(tries.waiting) + 1
    if tries.tried or left:
        more = f'; {left} more could be tried' if left else '; nothing is left to try' if tries.is_whole and is_over else ''
        how = 'messages forced' + (' or looks held back' if tries.has_held else '')
        page.tell('TRIED', f'{len(tries.tried)} run{"s" * (len(tries.tried) != 1)} with {how}{more}{"" if is_over else "; interrupted"}')
    by_end: Dict[Tuple, List[Tried]] = defaultdict(list)
    for tried in tries.tried:
        by_end[tried.came, tried.stands].append(tried)
    for (came, stands), alike in by_end.items():
        page.tell('', f'{came}{times_told(len(alike))}{": " if stands else ""}{"; ".join(stands)}', alike[0].is_bad)
        if alike[0].is_bad:
            tell_again(page, command, alike[0])
    hung = [tried.made for tried in tries.tried if tried.came == HUNG and tried.made]
    if hung and not page.has('HANG'):
        tell_why(page, hung[0])
    if first.ending == Ending.WELL and is_over:
        tell_printed(page, command, folder, plan, tries.tried)
