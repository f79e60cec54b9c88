"""Records of a run: what record.c writes for each rank, read back.

A record names its places by offsets in files of code. `settle` makes lines of the program of them, once, so that a
record can be kept and read without the program.
"""

import os
import re
import signal
import subprocess
from collections import defaultdict
from dataclasses import dataclass, field
from typing import Dict, Iterator, List, NamedTuple, Optional, Tuple

ANY = '*'
NOBODY = 'none'
# What a field begins with that names a rank, a root or a tag which isn't there, and the communicator MPI_COMM_NULL.
ABSENT, NULL = 'absent:', 'null'
WORLD, SELF = 'world', 'self'
FRAMES_LEFT_OUT = re.compile(r'(_start|__libc_start_\w+)\b')
# The call of a program that makes a communicator, by its line of the program.
MAKES = re.compile(r'\b(?:MPI_Comm_\w+|MPI_Cart_\w+)\s*\(', re.IGNORECASE)
MADE_IN_PYTHON = re.compile(r'([A-Za-z_][\w.]*)\s*=\s*[\w.]+\.(?:Split|Dup|Create\w*|Sub|Split_type|Clone)\(')


class Refused(Exception):
    """A record of which no script is made; says why, by the name of what is in the way."""


class Message(NamedTuple):
    """What a receive got: its source in the world, its tag and its bytes."""
    source: int
    tag: int
    bytes: int


class Completion(NamedTuple):
    """A request that a call completed; None is the call's own. A send that completes brings no message."""
    request: Optional[int]
    message: Optional[Message]


@dataclass
class Call:
    """A call of a rank: its number among those of the rank, and what stands in the record."""
    rank: int
    number: int
    name: str
    fields: Dict[str, str]
    frames: Tuple[str, ...]
    has_ended: bool = False
    completions: List[Completion] = field(default_factory=list)
    error: str = ''                     # the error that it gave back, by the name of its class
    on: str = ''                        # its communicator as pages tell it, ` on communicator NAME`; empty for the world

    @property
    def place(self) -> str:
        """The innermost frame that is the program's."""
        return self.frames[0] if self.frames else '?'

    @property
    def comm(self) -> str:
        return self.fields.get('comm', WORLD)

    @property
    def source(self) -> Optional[str]:
        """The source that a receive or a probe asks for."""
        return self.fields.get('from')

    @property
    def tag(self) -> Optional[str]:
        """The tag that a receive or a probe asks for, or that a send has."""
        return self.fields.get('tag')

    @property
    def send_tag(self) -> Optional[str]:
        return self.fields.get('send_tag', self.tag)

    @property
    def is_wildcard(self) -> bool:
        return ANY in (self.source, self.tag)

    @property
    def is_send(self) -> bool:
        return 'to' in self.fields

    @property
    def is_collective(self) -> bool:
        return 'collective' in self.fields

    @property
    def absent(self) -> Optional[str]:
        """What the call names that isn't there: a rank, a root, a tag or a communicator."""
        if self.comm == NULL:
            return 'MPI_COMM_NULL'
        for key, told in (('to', 'rank'), ('from', 'rank'), ('root', 'root'), ('tag', 'tag'), ('send_tag', 'tag')):
            if self.fields.get(key, '').startswith(ABSENT):
                return f'{told} {self.fields[key][len(ABSENT):]}'
        return None

    @property
    def request(self) -> Optional[int]:
        return int(self.fields['request']) if 'request' in self.fields else None

    @property
    def requests(self) -> List[int]:
        """The requests that a wait or a test has, without those that hold nothing."""
        return [int(word) for word in self.fields.get('requests', '').split(',') if word not in ('', '-')]

    @property
    def waits_for_one(self) -> bool:
        """Whether it waits or tests for one of several requests."""
        return self.name in ('Waitany', 'Waitsome', 'Testany', 'Testsome') and ',' in self.fields.get('requests', '')

    @property
    def looks(self) -> bool:
        """Whether the call only looks whether something is there."""
        return self.name in ('Iprobe', 'Improbe') or self.name.startswith('Test')

    @property
    def times(self) -> int:
        """How often a look found nothing."""
        return int(self.fields.get('times', 1))

    def told(self) -> str:
        """The call as pages tell it."""
        return f'{self.place} MPI_{self.name}'


class End(NamedTuple):
    """How a process ended by itself: an exit or a signal, its number, and the place."""
    how: str
    number: int
    place: str


class Change(NamedTuple):
    """What a request still sends was changed after one call of its rank, and before the end of another."""
    request: int
    after: Optional[Call]
    before: Call


@dataclass
class Beside:
    """What the record of a rank has beside its calls: how its process ended, communicators that it made, by the call, and
    freed, sends that were changed under way, calls that name what isn't there, and calls that failed otherwise."""
    end: Optional[End] = None
    made: Dict[str, Call] = field(default_factory=dict)
    freed: List[str] = field(default_factory=list)
    changes: List[Change] = field(default_factory=list)
    invalid: List[Call] = field(default_factory=list)
    failed: List[Call] = field(default_factory=list)
    looks: List[Call] = field(default_factory=list)     # all that it looked at since its last call
    no_record: str = ''                 # why there is no record, if there is none


@dataclass
class Run:
    """A recorded run: the calls of each rank, the look at which a rank stood, where it stood at one, and what is known beside
    the calls. A call that names what isn't there does nothing, and is none of the calls."""
    folder: str
    program: str
    calls: List[List[Call]]
    looks: List[Optional[Call]]
    comms: Dict[str, List[int]]
    beside: List[Beside]
    names: Dict[str, str] = field(default_factory=dict)    # those that the program gives to communicators

    @property
    def size(self) -> int:
        return len(self.calls)

    def all_calls(self) -> Iterator[Call]:
        return (call for calls in self.calls for call in calls)

    def standing(self) -> List[Call]:
        """The calls in which ranks stood as the record ends; none in MPI_Finalize."""
        found = []
        for look, calls, beside in zip(self.looks, self.calls, self.beside):
            if look is not None:
                found.append(look)
            elif calls and not calls[-1].has_ended and calls[-1].name not in ('Finalize', 'Abort'):
                found.append(calls[-1])
            found += [call for call in beside.invalid if not call.has_ended]
        return found

    def told_comm(self, comm: str) -> str:
        """A communicator as pages tell it: by the name that the program gives it, else by the call that made it."""
        if comm == WORLD or comm.startswith(SELF):
            return 'MPI_COMM_WORLD' if comm == WORLD else 'MPI_COMM_SELF'
        makers = [made[other] for made in (beside.made for beside in self.beside) for other in made if other == comm]
        name = self.names.get(comm)
        others = {self.sort_of(other) for other, told in self.names.items() if told == name}
        if name and len(others) == 1:
            return f'communicator {name}'
        of = f' of {makers[0].told()}' if makers else ''
        return f'communicator {name}{of}' if name else f'the communicator{of}' if makers else f'communicator {comm}'

    def sort_of(self, comm: str) -> str:
        """What is the same of all the communicators that one call makes, whatever their ranks."""
        return comm.rpartition('/')[0]


# ---- reading

def text_of(path: str) -> str:
    """The lines of a rank's record: all that was written before its end, or before it was cut off."""
    parts = []
    with open(path, 'rb') as file:
        while part := file.read(1 << 16):
            parts.append(part.split(b'\0', 1)[0])
            if b'\0' in part:
                break
    text = b''.join(parts).decode(errors='replace')
    return text[:text.rfind('\n') + 1]


def paths_of(folder: str) -> List[str]:
    """The records of a run, by rank."""
    names = [name for name in os.listdir(folder) if re.fullmatch(r'rank\.\d{1,6}', name)]
    return [os.path.join(folder, name) for name in sorted(names, key=lambda name: int(name[5:]))]


def frames_of(word: str) -> Tuple[str, ...]:
    """The frames of a place, `=a.c:3<a.c:9` once it is settled."""
    return tuple(word[1:].split('<')) if word.startswith('=') else tuple(filter(None, word.split(',')))


def message_of(words: List[str]) -> Optional[Message]:
    return Message(*map(int, words)) if words else None


class Reader:
    """Reads the lines of one rank's record, in their order."""

    def __init__(self, rank: int, comms: Dict[str, List[int]], names: Dict[str, str]):
        self.rank, self.comms, self.names = rank, comms, names
        self.calls: List[Call] = []
        self.look: Optional[Call] = None    # the last since the last call
        self.beside = Beside()
        self.changed: List[int] = []
        self.size, self.program = 0, ''

    def call_of(self, words: List[str]) -> Call:
        frames = frames_of(words[-1][1:]) if words[-1].startswith('@') else ()
        fields = dict(word.split('=', 1) for word in words[3:] if '=' in word and not word.startswith('@'))
        return Call(self.rank, int(words[1]), words[2], fields, frames)

    def end_call(self, words: List[str]) -> None:
        call = self.calls[-1] if self.calls else None
        if call is None or call.number != int(words[1]):
            raise ValueError('an end of no call')
        call.has_ended = True
        for word in words[2:]:
            key, _, value = word.partition('=')
            if key == 'error':
                call.error = value
            elif key == 'changed':
                self.beside.changes.append(Change(int(value), call, call))
            elif key == 'done':
                request, *message = value.split(':')
                call.completions.append(Completion(None if request == '-' else int(request), message_of(message)))

    def read(self, line: str) -> None:
        words = line.split()
        kind = words[0] if words else ''
        if kind == '>':
            call = self.call_of(words)
            self.beside.changes += [Change(request, self.calls[-1] if self.calls else None, call) for request in self.changed]
            self.changed = []
            self.calls.append(call)
            self.look = None
            self.beside.looks = []
        elif kind == '<':
            self.end_call(words)
        elif kind == '?':
            look = self.call_of(words)
            self.beside.looks.append(look)
            if self.look is None or last_of(look) >= last_of(self.look):
                self.look = look
        elif kind == 'mpdrec':
            self.size, self.program = int(words[5]), ' '.join(words[7:])
        elif kind == 'comm':
            self.comms[words[1]] = [int(word) for word in words[2:]]
            if self.calls:
                self.beside.made[words[1]] = self.calls[-1]
        elif kind == 'named':
            self.names[words[1]] = ' '.join(words[2:])
        elif kind == 'freed':
            self.beside.freed.append(words[1])
        elif kind == 'changed':
            self.changed.append(int(words[1]))
        elif kind == 'end':
            self.beside.end = End(words[1], int(words[2]), place_of(words[3:]))
        elif kind == '!':
            raise Refused(why_refused(words))
        elif kind != 'module':
            raise ValueError('no line of a record')


    def without_invalid(self) -> List[Call]:
        """The calls but those that did nothing, since they name what isn't there, or failed at once."""
        self.beside.invalid = [call for call in self.calls if call.absent]
        self.beside.failed = [call for call in self.calls if call.error]
        return [call for call in self.calls if not call.absent and not (call.error and not call.completions)]


def last_of(look: Call) -> int:
    """The number of the last look at a place that found nothing."""
    return int(look.fields.get('last', 0))


def place_of(words: List[str]) -> str:
    """The innermost frame of a place; empty if there is none."""
    frames = frames_of(words[0][1:]) if words else ()
    return frames[0] if frames else ''


def why_refused(words: List[str]) -> str:
    """What a record says that it doesn't have."""
    if words[1] == 'threads':
        return 'several threads call MPI: the order of their calls is one of many'
    if words[1].startswith('more-than'):
        return 'the record of a rank is longer than 64 MB'
    frames = frames_of(words[2][1:]) if len(words) > 2 else ()
    return f'{frames[0] if frames else "?"} MPI_{words[1]}: this call is not recorded'


def why_no_record(folder: str, rank: int) -> str:
    """Why a rank left no record, as far as its process told: its last line, if it ended by itself."""
    try:
        end = next(line.split() for line in text_of(os.path.join(folder, f'early.{rank}')).splitlines() if line.startswith('end '))
        place = place_of(end[3:])
        by = f'exit {end[2]}' if end[1] == 'exit' else f'signal {name_of_signal(int(end[2]))}'
        return f'rank {rank} left no record: it ended before MPI_Init, by {by}' + (f' at {place}' if place else '')
    except (OSError, StopIteration, IndexError, ValueError):
        return f'rank {rank} left no record: it didn\'t come to MPI_Init, or was ended there'


def name_of_signal(number: int) -> str:
    try:
        return signal.Signals(number).name
    except ValueError:
        return str(number)


def read_rank(rank: int, path: str, comms: Dict[str, List[int]], names: Dict[str, str]) -> Reader:
    """Reads the record of a rank."""
    reader = Reader(rank, comms, names)
    for number, line in enumerate(text_of(path).splitlines(), 1):
        try:
            reader.read(line)
        except (ValueError, IndexError, TypeError):
            raise Refused(f'line {number} of the record of rank {rank} can\'t be read') from None
    return reader


def read_run(folder: str) -> Run:
    """The run whose records stand in a folder. Refuses what can't be read, and what isn't whole."""
    comms: Dict[str, List[int]] = {}
    names: Dict[str, str] = {}
    paths = {int(os.path.basename(path)[5:]): path for path in paths_of(folder)}
    found = {rank: read_rank(rank, path, comms, names) for rank, path in paths.items()}
    found = {rank: reader for rank, reader in found.items() if reader.size > 0 or reader.calls}
    if not found:
        early = sorted(int(name[6:]) for name in os.listdir(folder) if re.fullmatch(r'early\.\d{1,6}', name))
        raise Refused(why_no_record(folder, early[0]) if early else
                      'nothing was recorded: no rank came to MPI_Init, or they called another MPI library than the recorder was built for')
    size = max(reader.size for reader in found.values())
    if any(reader.size != size for reader in found.values()) or max(found) >= size:
        raise Refused(f'{sum(reader.size > 0 for reader in found.values())} ranks of {size} left a record')
    first = found[min(found)]
    readers = [found.get(rank) or Reader(rank, comms, names) for rank in range(size)]
    for rank in set(range(size)) - set(found):
        readers[rank].beside.no_record = why_no_record(folder, rank)
    calls = [reader.without_invalid() for reader in readers]
    run = Run(folder, os.path.basename(first.program), calls, [reader.look for reader in readers], comms,
              [reader.beside for reader in readers], names)
    for call in [*run.all_calls(), *(call for beside in run.beside for call in beside.invalid + beside.failed)]:
        call.on = '' if call.comm in (WORLD, NULL) or call.comm not in comms else f' on {run.told_comm(call.comm)}'
    return run


# ---- places

def settle(folder: str) -> None:
    """Makes lines of the program of the places in the records of a run, so that they can be read without it."""
    names = [name for name in os.listdir(folder) if re.fullmatch(r'(rank|early)\.\d{1,6}', name)]
    texts = {path: text_of(path) for path in (os.path.join(folder, name) for name in names)}
    modules = {path: dict(re.findall(r'^module (\d+) (.*)$', text, re.M)) for path, text in texts.items()}
    places = {path: set(re.findall(r'@(\d\S*)$', text, re.M)) for path, text in texts.items()}
    wanted = defaultdict(set)
    for path, of_path in places.items():
        for module, offset in re.findall(r'(\d+):([0-9a-f]+)', ' '.join(of_path)):
            wanted[modules[path].get(module, '?')].add(offset)
    lines = {(module, found.offset): found for module, offsets in wanted.items() for found in lines_of(module, sorted(offsets))}
    for path, text in texts.items():
        with open(path, 'w', encoding='utf-8') as file:
            file.writelines(Settling(modules[path], lines).settled(text))


class Located(NamedTuple):
    """An offset in a file of code, what is told of it, and the file of the program, if it is known."""
    offset: str
    told: str
    source: str


class Settling:
    """Settles the record of one rank, each place once."""

    def __init__(self, modules: Dict[str, str], lines: Dict[Tuple[str, str], Located]):
        self.modules, self.lines = modules, lines
        self.places: Dict[str, str] = {}
        self.sources: Dict[str, str] = {}

    def place(self, place: str) -> str:
        """The frames of a place, as lines of the program."""
        if place not in self.places:
            found = [self.lines[self.modules.get(module, '?'), offset] for module, offset in re.findall(r'(\d+):([0-9a-f]+)', place)]
            found = [frame for frame in found if not FRAMES_LEFT_OUT.match(frame.told)]
            self.places[place] = '@=' + '<'.join(frame.told for frame in found)
            self.sources[self.places[place]] = found[0].source if found else ''
        return self.places[place]

    def settled(self, text: str) -> Iterator[str]:
        """The lines of the record, with a name for each communicator whose variable the program's line tells."""
        place = ''
        for line in text.splitlines(True):
            if line.startswith('module '):
                continue
            if line.startswith('mpdrec '):
                head, between, program = line.rpartition(' program ')
                line = head + between + os.path.basename(program)
            start = line.rfind(' @') + 1
            if start and (line[start + 1].isdigit() or line[start + 1] == '='):
                place = line[start:].rstrip('\n') if line[start + 1] == '=' else self.place(line[start + 1:].rstrip('\n'))
                line = f'{line[:start]}{place}\n'
            yield NUMBERS.sub(lambda match: f'{match[1]}={int(match[2])}', line) if line.startswith('? ') else line
            name = variable_of(self.sources.get(place, ''), place) if line.startswith('comm ') and place else ''
            if name:
                yield f'named {line.split()[1]} {name}\n'


NUMBERS = re.compile(r'\b(last|times)=(\d+)')


def variable_of(source: str, place: str) -> str:
    """The variable that holds a communicator, by the line of the program that makes it; empty if the line doesn't tell."""
    number = place[2:].split('<')[0].rpartition(':')[2]
    try:
        with open(source, encoding='utf-8', errors='replace') as file:
            lines = file.read().splitlines()[int(number) - 1:int(number) + 4]
    except (OSError, ValueError):
        return ''
    if source.endswith('.py'):
        found = MADE_IN_PYTHON.search(lines[0]) if lines else None
        return found[1] if found else ''
    text = ' '.join(line.strip().removesuffix('&') for line in lines)
    start = MAKES.search(text)
    words = arguments_of(text[start.end():]) if start and lines and MAKES.search(lines[0]) else []
    is_fortran = bool(re.search(r'\.f\w*$', source, re.IGNORECASE))
    word = words[-2 if is_fortran and len(words) > 3 and words[-1].lower().startswith('ierr') else -1] if words else ''
    word = word.strip().removeprefix('&').strip('() ')
    return word if re.fullmatch(r'[A-Za-z_][\w.>\[\]%-]*', word) else ''


def arguments_of(text: str) -> List[str]:
    """The arguments of a call, from after the bracket that opens it; none if it isn't closed there."""
    found, depth = [''], 0
    for letter in text:
        if letter in '([{':
            depth += 1
        elif letter in ')]}':
            if depth == 0:
                return found
            depth -= 1
        if letter == ',' and depth == 0:
            found.append('')
        else:
            found[-1] += letter
    return []


def lines_of(module: str, offsets: List[str]) -> Iterator[Located]:
    """For each offset in a file of code its line, or its function and offset where there are no lines."""
    try:
        ran = subprocess.run(['addr2line', '-f', '-e', module], input='\n'.join(offsets), capture_output=True, text=True, check=False)
        told = ran.stdout.splitlines()
    except OSError:
        told = []
    for number, offset in enumerate(offsets):
        function, line = (told[2 * number:2 * number + 2] + ['??', '??'])[:2] if len(told) > 2 * number + 1 else ('??', '??')
        source = line.split(' ')[0]
        line = os.path.basename(source)
        named = os.path.basename(module) if function == '??' else function
        is_none = line.startswith('?') or line.endswith((':?', ':0'))
        yield Located(offset, f'{named}+0x{offset}' if is_none else line, '' if is_none else source.rpartition(':')[0])
