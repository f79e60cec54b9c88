"""What `check --explain` says of a script, told with the program's places, tags, lengths and communicators."""

import re
from collections import Counter
from typing import Dict, List, Optional, Tuple

from checking import Leaf
from page import times_told
from plan import could_take
from records import NOBODY, Call, Run
from script import Mark, Note, Script, marks_of

SOFT = (Note.POLL.value, Note.SEVERAL.value)
EXPLAINED = re.compile(r'rank \d+ waits at|nearest miss|the last that fits|is not there|a cycle|^    line ')
# A line of a script, with its place, if it has one, and with the number of a call, if one is told.
AT_LINE = re.compile(r'line (\d+)(?: \([^)]*\))?')
AT_CALL = re.compile(r'(line \d+(?: \([^)]*\))?), (\d+)\.(\d+) ')
LEFT_OVER = re.compile(r'  left over: ')
MOST_LEFT = 6


class Explained:
    """The explanation of a leaf of a script."""

    def __init__(self, leaf: Leaf, script: Script):
        self.leaf, self.script = leaf, script
        self.marks: Dict[int, Mark] = marks_of(script.text)

    def call_in(self, line: str) -> Optional[Call]:
        """The call of the program that a line tells first."""
        found = AT_CALL.search(line)
        key = (int(found[2]), int(found[3])) if found else None
        return self.script.sends.get(key) or self.script.receives.get(key)

    def with_places(self, line: str) -> str:
        """A line with what the program has in the place of the script's lines, tags and values."""
        line = re.sub(r', wait \d+: for request \d+\.\d+$', ', for its request', AT_CALL.sub(r'\1, ', line.strip()))
        line = re.sub(r'\btag (\d+)(?: value (\d+))?', lambda match: self.tag_told(int(match[1]), match[2]), line)
        return AT_LINE.sub(lambda match: self.marks[int(match[1])].told() if int(match[1]) in self.marks else match[0], line)

    def tag_told(self, tag: int, value: Optional[str]) -> str:
        """A tag of the script as the program has it, with the bytes of its message, and its communicator."""
        name, on, comm = self.script.tags.get(tag, str(tag)).partition(' on ')
        return f'tag {name}' + (f' of {value} bytes' if value else '') + on + comm

    def waiting(self) -> List[Tuple[int, Optional[Mark]]]:
        """Each rank that waits, and the mark of the line where it does."""
        found = re.findall(r'rank (\d+) waits at line (\d+)', '\n'.join(self.leaf.told))
        return [(int(rank), self.marks.get(int(number))) for rank, number in found]

    def soft(self) -> Dict[int, Mark]:
        """The ranks that are blocked in the script, and only look in the program, or wait for one of several."""
        return {rank: mark for rank, mark in self.waiting() if mark and mark.note in SOFT}

    def cycles(self) -> List[List[int]]:
        """The cycles of ranks, of which each waits for the next and for no other."""
        told = re.findall(r'a cycle, where each waits for the next: (.*)', '\n'.join(self.leaf.told))
        return [[int(word.split()[1]) for word in line.split(', ')][:-1] for line in told]

    def sent_to_nobody(self, run: Run) -> List[str]:
        """Sends to MPI_PROC_NULL that would be what a blocked receive waits for, where nothing misses it nearly."""
        after = [*self.leaf.told[1:], '']
        waited = [self.call_in(line) for line, then in zip(self.leaf.told, after) if ': for a send of ' in line and 'nearest miss' not in then]
        kinds = Counter(f'{send.told()} of rank {send.rank} sends to MPI_PROC_NULL, with tag {send.send_tag}{send.on}'
                        for send in run.all_calls() if send.is_send and send.fields['to'] == NOBODY
                        if any(call and call.comm == send.comm and could_take(call, (str(send.rank), str(send.send_tag))) for call in waited))
        return [told + times_told(count) for told, count in kinds.items()]

    def told(self, ranks: Optional[set]) -> List[str]:
        """The lines that are of these ranks, or of all."""
        found, is_of, wish = [], True, None
        for line in self.leaf.told:
            by = re.match(r'  rank (\d+) ', line)
            is_of = ranks is None or (int(by[1]) in ranks if by else is_of)
            if not is_of or not EXPLAINED.search(line):
                continue
            call = self.call_in(line)
            if 'nearest miss' in line:
                if call and wish and call.comm != wish.comm:
                    line = line.replace(': another tag', ': another communicator')
            else:
                wish = call or wish
            found.append(('  ' if line.startswith('    ') else '') + self.with_places(line))
        return found + self.left_over(ranks)

    def left_over(self, ranks: Optional[set]) -> List[str]:
        """Messages of the program that nobody has received, and receives that have none, each kind once; without near misses."""
        missed = {found[0] for found in map(AT_CALL.search, self.leaf.told) if found and 'nearest miss' in found.string}
        lines = [line for line in self.leaf.told if LEFT_OVER.match(line) and AT_CALL.search(line)[0] not in missed]
        calls = [(line, self.call_in(line)) for line in lines]
        kinds = Counter(f'{self.with_places(line)} by rank {call.rank}' for line, call in calls
                        if call and not call.is_collective and (ranks is None or call.rank in ranks))
        told = [kind + times_told(count) for kind, count in kinds.items()]
        return told[:MOST_LEFT] + ([f'left over: {len(told) - MOST_LEFT} more'] if len(told) > MOST_LEFT else [])
