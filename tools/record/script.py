"""A script of mpdbg for one recorded run, with a mark after each statement that says which call of the program it is.

Two readings of wildcards are written. *As taken*: each wildcard receive names the source and the tag that it got, so
the script has the matches of the run, and no other. *As asked*: a wildcard stays one, and an assertion after it holds
only for the message that came in the run. A rank for which it doesn't hold has left the record: what the program would
do then is not known, and nothing is concluded from what the script does afterwards.
"""

import re
from dataclasses import dataclass
from enum import Enum
from typing import AbstractSet, Dict, List, NamedTuple, Optional, Tuple

from folding import Line, folded
from plan import Plan
from records import ANY, NOBODY, Call, Refused, Run

MOST_BYTES, MOST_STATEMENTS, MOST_HANDLES = 65536, 4096, 256

BLOCKING_SENDS = {'Send': 'send', 'Ssend': 'ssend', 'Rsend': 'send'}
NONBLOCKING_SENDS = {'Isend': 'isend', 'Issend': 'issend', 'Irsend': 'isend'}
# A buffered send is complete at once: nobody waits for it.
BUFFERED_SENDS = ('Bsend', 'Ibsend')
RECEIVES = ('Recv', 'Mprobe', 'Improbe')


class Note(Enum):
    """What a mark says of its statement, beside the call."""
    LEFT = 'left'
    TOO_LONG = 'too long'
    POLL = 'poll'
    SEVERAL = 'one of several'
    STOOD = 'stood here'
    CLASH = 'another collective'
    ABORTS = 'aborts'


MARK = re.compile(r'#@ (\S+) (\w+)(?: \[([^]]*)\])?\s*$')


class Mark(NamedTuple):
    """A mark of a line: a place of the program, the call that stands there, and a note or None."""
    place: str
    call: str
    note: Optional[str]

    def told(self) -> str:
        return f'{self.place} {self.call}'


def marks_of(text: str) -> Dict[int, Mark]:
    """The marks of a script, by line."""
    found = {number: MARK.search(line) for number, line in enumerate(text.split('\n'), 1)}
    return {number: Mark(*match.groups()) for number, match in found.items() if match}


@dataclass
class Script:
    """The text of a script, which call of the program each call of the script is, and what its own tags stand for."""
    text: str
    statements: int
    sends: Dict[Tuple[int, int], Call]
    receives: Dict[Tuple[int, int], Call]
    tags: Dict[int, str]

    def too_long(self) -> Optional[str]:
        """What limit of the language the text is over; None if it is over none."""
        if self.statements > MOST_STATEMENTS:
            return f'{self.statements:,} statements, and a script has at most {MOST_STATEMENTS:,}'
        if len(self.text) > MOST_BYTES:
            return f'{len(self.text):,} bytes, and a script has at most {MOST_BYTES:,}'
        return None


class RankWriter:
    """Writes the statements of one rank."""

    def __init__(self, plan: Plan, rank: int, is_asked: bool):
        self.plan, self.rank, self.is_asked = plan, rank, is_asked
        self.lines: List[Line] = []
        self.issued = 0                     # how many calls the script has issued
        self.sends: Dict[int, Call] = {}
        self.receives: Dict[int, Call] = {}
        self.handles: Dict[int, int] = {}   # of each request that is open its handle
        self.asking: Dict[int, Call] = {}   # of each request of a receive that call
        self.collectives: Dict[int, Call] = {}
        self.most_handles = 0

    # ---- lines

    def put(self, text: str, call: Optional[Call] = None, note: Optional[Note] = None) -> None:
        mark = '' if call is None else f'#@ {call.told()}' + (f' [{note.value}]' if note else '')
        self.lines.append(Line(text, mark))

    def put_send(self, text: str, call: Call, note: Optional[Note] = None) -> None:
        self.sends[self.issued] = call
        self.put_call(text, call, note)

    def put_receive(self, text: str, call: Call, note: Optional[Note] = None) -> None:
        self.receives[self.issued] = call
        self.put_call(text, call, note)

    def put_call(self, text: str, call: Call, note: Optional[Note] = None) -> None:
        self.put(text, call, note)
        self.issued += 1

    # ---- parts of statements

    def handle(self, request: int) -> int:
        """The handle of a request: the lowest that is free."""
        taken = set(self.handles.values())
        self.handles[request] = next(number for number in range(len(taken) + 1) if number not in taken)
        self.most_handles = max(self.most_handles, self.handles[request] + 1)
        if self.most_handles > MOST_HANDLES:
            raise Refused(f'rank {self.rank} has more than {MOST_HANDLES} requests at once')
        return self.handles[request]

    def pattern(self, call: Call, source_place: str, tag_place: str) -> str:
        """The source and the tag of a receive, and a status where an assertion needs one."""
        took = self.plan.took.get((self.rank, call.number))
        if call.is_wildcard and took is not None and not self.is_asked:
            return f'from {took.source} tag {self.plan.tag(call.comm, str(took.tag))}'
        source = 'any' if call.source == ANY else call.source
        tag = 'any' if call.tag == ANY else self.plan.tag(call.comm, call.tag)
        status = f' status {source_place} {tag_place}' if call.is_wildcard and self.is_asked else ''
        return f'from {source} tag {tag}{status}'

    def guard(self, call: Call, value: str, source: str, tag: str) -> None:
        """What must hold of the message that a receive got, so that the rank stays on the record."""
        took = self.plan.took.get((self.rank, call.number))
        if not self.is_asked or took is None:
            return
        if self.plan.can_be_too_long(call):
            self.put(f'assert {value} <= {call.fields["room"]};', call, Note.TOO_LONG)
        parts = [f'{source} == {took.source}'] if call.source == ANY else []
        parts += [f'{tag} == {self.plan.tag(call.comm, str(took.tag))}'] if call.tag == ANY else []
        if parts:
            self.put(f'assert {" && ".join(parts)};', call, Note.LEFT)

    # ---- calls

    def write(self) -> None:
        """Writes all calls of the rank, up to the one in which it stood. One that stood where it only looks has come to
        an end in the script: what it looks for has not come."""
        calls = self.plan.run.calls[self.rank]
        for call in calls:
            if call.name == 'Finalize':
                return
            self.write_call(call)
            if call.name == 'Abort':
                return
            if not call.has_ended:
                self.put('assert 0;', call, Note.STOOD)
                return
        stood = next((call for call in self.plan.run.beside[self.rank].invalid if not call.has_ended), None)
        if stood is not None:
            self.put('assert 0;', stood, Note.STOOD)
        elif self.plan.run.looks[self.rank] is None:
            self.put('assert 0;')           # it stood in none: what it would do is not known

    def write_call(self, call: Call) -> None:
        if call.name == 'Abort':
            self.put('assert 0;', call, Note.ABORTS)
        elif call.is_collective:
            self.write_collective(call)
        elif call.name.startswith('Sendrecv'):
            self.write_exchange(call)
        elif call.is_send:
            self.write_send(call)
        elif call.name in RECEIVES or call in self.plan.fused:
            self.write_receive(call)
        elif call.name == 'Irecv':
            self.write_irecv(call)
        elif call.name.startswith(('Wait', 'Test')):
            self.write_wait(call)
        elif call.name == 'Request_free':
            self.handles.pop(call.request, None)
        elif call.name not in ('Probe', 'Iprobe'):
            raise Refused(f'{call.told()}: this call is not known')

    def write_send(self, call: Call) -> None:
        if call.fields['to'] == NOBODY:
            return
        rest = f'{call.fields["bytes"]} to {call.fields["to"]} tag {self.plan.tag(call.comm, call.send_tag)};'
        if call.name in BUFFERED_SENDS:
            self.put_send(f'isend b {rest}', call)
        elif call.name in BLOCKING_SENDS:
            self.put_send(f'{BLOCKING_SENDS[call.name]} {rest}', call)
        else:
            self.put_send(f'{NONBLOCKING_SENDS[call.name]} h[{self.handle(call.request)}] {rest}', call)

    def write_receive(self, call: Call) -> None:
        """A receive, or a probe with the receive that takes what it found."""
        if call.source == NOBODY or call in self.plan.received_before:
            return
        note = Note.POLL if call.looks else None
        self.put_receive(f'recv x {self.pattern(call, "s", "t")};', call, note)
        self.guard(call, 'x', 's', 't')

    def write_irecv(self, call: Call) -> None:
        if call.source == NOBODY or call in self.plan.received_before:
            return
        h = self.handle(call.request)
        self.asking[call.request] = call
        self.put_receive(f'irecv h[{h}] y[{h}] {self.pattern(call, f"u[{h}]", f"v[{h}]")};', call)

    def write_exchange(self, call: Call) -> None:
        """A Sendrecv: the receive is posted, then both are waited for."""
        receives = call.source != NOBODY
        if receives:
            self.put_receive(f'irecv q x {self.pattern(call, "s", "t")};', call)
        if call.fields['to'] != NOBODY:
            self.put_send(f'send {call.fields["bytes"]} to {call.fields["to"]} tag {self.plan.tag(call.comm, call.send_tag)};', call)
        if receives:
            self.put_call('wait q;', call)
            self.guard(call, 'x', 's', 't')

    def write_wait(self, call: Call) -> None:
        """Waits for what was done, in order; where the rank stood, for all that it waited for, of several for the first."""
        done = [completion.request for completion in call.completions]
        if not call.has_ended:
            done = call.requests[:1] if call.waits_for_one else call.requests
        note = Note.POLL if call.looks else Note.SEVERAL if call.waits_for_one else None
        for request in done:
            if request in self.collectives:
                self.end_collective(self.collectives.pop(request), call, note)
            elif request in self.handles:
                h = self.handles.pop(request)
                self.put_call(f'wait h[{h}];', call, note)
                if request in self.asking:
                    self.guard(self.asking.pop(request), f'y[{h}]', f'u[{h}]', f'v[{h}]')

    # ---- collectives

    def write_collective(self, call: Call) -> None:
        """A barrier on the world; on others, and where it doesn't block, messages with a tag of their own."""
        members = self.plan.members(call)
        if call in self.plan.clashing:
            self.put('assert 0;', call, Note.CLASH)
        elif len(members) < 2:
            return
        elif call.request is not None:
            self.begin_collective(call, members)
        elif self.plan.is_of_world(call):
            self.put_call('barrier;', call)
        else:
            self.pass_hub(call, members)

    def pass_hub(self, call: Call, members: List[int]) -> None:
        """Messages to the root, or to the lowest rank, and back from it."""
        hub, tag = self.plan.root(call), self.plan.collective_tag(call)
        others = [member for member in members if member != hub] if self.rank == hub else [hub]
        first, then = ('recv', 'send') if self.rank == hub else ('send', 'recv')
        for step in (first, then):
            if (step == 'recv') == (self.rank == hub) and not self.plan.gathers(call):
                continue
            if (step == 'send') == (self.rank == hub) and not self.plan.spreads(call):
                continue
            for other in others:
                self.pass_one(step, other, tag, call)

    def pass_one(self, step: str, other: int, tag: str, call: Call, note: Optional[Note] = None) -> None:
        self.put_call(f'isend b 0 to {other} tag {tag};' if step == 'send' else f'recv z from {other} tag {tag};', call, note)

    def begin_collective(self, call: Call, members: List[int]) -> None:
        """What a rank sends as it begins a collective that doesn't block."""
        self.collectives[call.request] = call
        for other in self.plan.told_by(call, self.rank):
            self.pass_one('send', other, self.plan.collective_tag(call), call)

    def end_collective(self, begun: Call, call: Call, note: Optional[Note]) -> None:
        for other in self.plan.heard_by(begun, self.rank):
            self.pass_one('recv', other, self.plan.collective_tag(begun), call, note)


def written(plan: Plan, rank: int, is_asked: bool) -> RankWriter:
    """The statements of a rank, with its repeated blocks as loops; they are written once for each reading."""
    if (rank, is_asked) not in plan.written:
        writer = plan.written[rank, is_asked] = RankWriter(plan, rank, is_asked)
        writer.write()
        writer.lines = folded(writer.lines)
    return plan.written[rank, is_asked]


def script_of(plan: Plan, asked: AbstractSet[int]) -> Script:
    """The script of a run, in which wildcards of the ranks `asked` stay, and those of others are as taken."""
    run, body, sends, receives, handles = plan.run, [], {}, {}, 0
    for rank in range(run.size):
        writer = written(plan, rank, rank in asked)
        sends.update({(rank, number): call for number, call in writer.sends.items()})
        receives.update({(rank, number): call for number, call in writer.receives.items()})
        handles = max(handles, writer.most_handles)
        body += [Line(f'if rank == {rank} {{'), *writer.lines, Line('}')]
    lines = [*head_of(run, asked), *declarations(body, handles), *body]
    statements = sum(line.text not in ('', '}') for line in body)
    return Script('\n'.join(laid_out(lines)) + '\n', statements, sends, receives, plan.told_tags())


def head_of(run: Run, asked: AbstractSet[int]) -> List[Line]:
    """The first lines: what the script is of, and how it is to be read."""
    said = {0: 'each wildcard as taken', run.size: 'each wildcard as asked'}.get(len(asked), 'wildcards of some ranks as asked')
    return [Line('', f'# {run.program}, {run.size} ranks: one recorded run, {said}'), Line('mpd 1;'), Line(f'ranks {run.size};')]


def declarations(body: List[Line], handles: int) -> List[Line]:
    """The variables and handles that the statements use."""
    used = set(re.findall(r'[a-z]+', ' '.join(line.text for line in body)))
    found = [Line(f'var {name};') for name in 'xstzi' if name in used]
    found += [Line(f'var {name}[{handles}];') for name in 'yuv' if name in used]
    found += [Line(f'req h[{handles}];')] if 'h' in used else []
    return found + [Line(f'req {name};') for name in 'bq' if name in used]


def laid_out(lines: List[Line]) -> List[str]:
    """Lines of text, two spaces for each open block."""
    told, depth = [], 0
    for line in lines:
        depth -= line.text == '}'
        told.append('  ' * depth + line.text + ('  ' if line.text and line.mark else '') + line.mark)
        depth += line.text.endswith('{')
    return told
