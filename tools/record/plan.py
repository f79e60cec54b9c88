"""What must be known of a whole run before a script of it is written: what its wildcards took, its tags, and its collectives."""

from itertools import islice
from typing import Any, Dict, List, Optional, Set, Tuple

from records import ANY, WORLD, Call, Message, Refused, Run

MOST_RANKS = 16
# Tags of the world up to this one stay as they are; those above, those of other communicators, and those of messages
# that stand for collectives are numbered from there on.
LAST_KEPT_TAG, LAST_TAG = 20000, 32767

# Which way messages go that stand for a collective: to the root, from it, or both.
TO_ROOT = {'Reduce', 'Gather', 'Gatherv', 'Ireduce', 'Igather'}
FROM_ROOT = {'Bcast', 'Scatter', 'Scatterv', 'Ibcast', 'Iscatter'}


class Chosen:
    """Calls, found by what they are and not by what they hold."""

    def __init__(self, calls=()):
        self.keys: Set[Tuple[int, int]] = {(call.rank, call.number) for call in calls}

    def add(self, call: Call) -> None:
        self.keys.add((call.rank, call.number))

    def __contains__(self, call: Call) -> bool:
        return (call.rank, call.number) in self.keys


class Plan:
    """A run, with what is known of it as a whole. Refuses what no script can be made of."""

    def __init__(self, run: Run):
        self.run = run
        self.notes: List[str] = []
        if run.size > MOST_RANKS:
            raise Refused(f'{run.size} ranks: a script has at most {MOST_RANKS}')
        for call in run.all_calls():
            if call.comm not in run.comms:
                raise Refused(f'{call.told()}: its communicator is not known')
        self.tags: Dict[Tuple[str, str], int] = {}
        self.written: Dict[Tuple[int, bool], Any] = {}      # the statements of a rank, as taken or as asked, once they are written
        self.took: Dict[Tuple[int, int], Message] = {}
        self.turn: Dict[Tuple[int, int], int] = {}
        self.fused, self.received_before, self.clashing = Chosen(), Chosen(), Chosen()
        for calls in run.calls:
            self.find_taken(calls)
            self.find_probes(calls)
        self.sizes = {(call.rank, call.fields['to'], call.comm, call.send_tag, int(call.fields['bytes']))
                      for call in run.all_calls() if call.is_send}
        self.alike: List[List[Call]] = []       # the calls of each collective that are of one name and root
        self.clashes = self.find_clashes()
        self.find_notes()

    # ---- what was taken

    def find_taken(self, calls: List[Call]) -> None:
        """What each receive, each probe and each wait for a receive got."""
        asking: Dict[Optional[int], Call] = {}
        for call in calls:
            if call.name == 'Irecv':
                asking[call.request] = call
            for completion in call.completions:
                by = asking.get(completion.request, call) if completion.request is not None else call
                if completion.message is not None:
                    self.took[by.rank, by.number] = completion.message

    def find_probes(self, calls: List[Call]) -> None:
        """A probe and the receive of just the message that it found are one receive, where the probe stands."""
        for index, call in enumerate(calls):
            if call.name not in ('Probe', 'Iprobe'):
                continue
            found = self.took.get((call.rank, call.number))
            if found is None:
                if not call.has_ended:
                    self.fused.add(call)
                continue
            wanted = (str(found.source), str(found.tag))
            after = (other for other in islice(calls, index + 1, None) if other.comm == call.comm and could_take(other, wanted))
            taker = next(after, None)
            if taker is None or taker in self.received_before:
                continue
            if taker.name in ('Recv', 'Irecv') and (taker.source, taker.tag) == wanted:
                self.fused.add(call)
                self.received_before.add(taker)
            elif taker.name not in ('Probe', 'Iprobe'):
                self.note(f'{call.told()} finds a message, and {taker.told()} may take another: the probe is left out')

    def can_be_too_long(self, call: Call) -> bool:
        """Whether some message of the run fits a receive but for its length."""
        return 'room' in call.fields and any(
            to == str(call.rank) and comm == call.comm and call.source in (ANY, str(rank)) and call.tag in (ANY, tag)
            and size > int(call.fields['room']) for rank, to, comm, tag, size in self.sizes)

    # ---- tags

    def tag(self, comm: str, tag: str) -> int:
        """The tag that stands in the script for one of a communicator."""
        if comm == WORLD and int(tag) <= LAST_KEPT_TAG:
            return int(tag)
        number = self.tags.setdefault((comm, tag), LAST_KEPT_TAG + 1 + len(self.tags))
        if number > LAST_TAG:
            raise Refused(f'more than {LAST_TAG - LAST_KEPT_TAG:,} tags that are above {LAST_KEPT_TAG:,} or of other communicators')
        return number

    def told_tags(self) -> Dict[int, str]:
        """What the tags stand for that are not those of the program: a tag of the world or of a communicator, or a collective."""
        found = {}
        for (comm, tag), number in self.tags.items():
            space = comm.partition(' collective')
            told = self.run.told_comm(space[0])
            found[number] = tag if comm == WORLD else f'of {tag.split()[0]} on {told}' if space[1] else f'{tag} on {told}'
        return found

    # ---- collectives

    def members(self, call: Call) -> List[int]:
        return self.run.comms[call.comm]

    def is_of_world(self, call: Call) -> bool:
        return call.comm == WORLD

    def root(self, call: Call) -> int:
        root = int(call.fields['root'])
        return root if root >= 0 else min(self.members(call))

    def gathers(self, call: Call) -> bool:
        return call.name not in FROM_ROOT

    def spreads(self, call: Call) -> bool:
        return call.name not in TO_ROOT

    def collective_tag(self, call: Call) -> int:
        return self.tag(f'{call.comm} collective', f'{call.name} {self.turn[call.rank, call.number]}' if call.request is not None else call.name)

    def told_by(self, call: Call, rank: int) -> List[int]:
        """The ranks to which one sends as it begins a collective that doesn't block."""
        others = [member for member in self.members(call) if member != rank]
        if call.name in TO_ROOT:
            return [] if rank == self.root(call) else [self.root(call)]
        if call.name in FROM_ROOT:
            return others if rank == self.root(call) else []
        return others

    def heard_by(self, call: Call, rank: int) -> List[int]:
        """The ranks that a rank must have heard of before such a collective is complete at it."""
        return [member for member in self.members(call) if member != rank and rank in self.told_by(call, member)]

    def find_clashes(self) -> List[List[Call]]:
        """The first collective on each communicator that isn't the same at all its ranks."""
        found = []
        by_comm: Dict[str, List[List[Call]]] = {comm: [[] for _ in self.run.calls] for comm in self.run.comms}
        for call in self.run.all_calls():
            if call.is_collective:
                by_comm[call.comm][call.rank].append(call)
        for by_rank in by_comm.values():
            is_alike = True
            for turn in range(max(map(len, by_rank))):
                here = [calls[turn] for calls in by_rank if turn < len(calls)]
                self.turn.update({(call.rank, call.number): turn for call in here})
                is_alike = is_alike and len({(call.name, call.fields['root']) for call in here}) == 1
                if is_alike:
                    self.alike.append(here)
                elif not found:
                    found.append(here)
                    self.clashing.keys |= Chosen(here).keys
        return found

    # ---- what is said of the run

    def note(self, text: str) -> None:
        if text not in self.notes:
            self.notes.append(text)

    def find_notes(self) -> None:
        looks = sorted({call.told() for call in self.run.all_calls() if call.looks} | {call.told() for call in self.run.looks if call})
        if looks:
            self.note(f'{", ".join(looks)}: what the program does may hang on when it looks; of that --try tries the first looks by MPI_Iprobe alone')
        several = sorted({call.told() for call in self.run.all_calls() if call.waits_for_one and not call.looks})
        if several:
            self.note(f'{", ".join(several)}: of several requests the one that was done is waited for; others are not tried')
        spaces = {call.comm for call in self.run.all_calls() if call.tag is not None or call.is_send}
        if any(call.tag == ANY for call in self.run.all_calls()) and (len(spaces) > 1 or self.has_messages_for_collectives()):
            self.note('a receive of any tag, and messages of several communicators: some matches are not tried')

    def has_messages_for_collectives(self) -> bool:
        return any(call.is_collective and len(self.members(call)) > 1 and (call.request is not None or not self.is_of_world(call))
                   for call in self.run.all_calls())


def could_take(call: Call, wanted: Tuple[str, str]) -> bool:
    """Whether a call is a receive or a probe that a message of this source and tag fits."""
    return call.source in (ANY, wanted[0]) and call.tag in (ANY, wanted[1])
