"""The lines of the console, in the model: how long ones are cut, steps in words, calls, lists of the script, variables, requests that are lost,
what happens on the way, and why a call isn't matched.

What they are told of is `at`: a world, and the line of each call that was issued up to it (explaining.py).
"""

from model import explaining, order
from model.debugger import (available, call_line, enabled_steps, find_call, is_at_collective, is_at_probe, is_done, last_call, next_world, partner, pending,
                            posted, step_text)
from model.explaining import Reached, call_text, next_line, plain_text, short_value, wish
from model.language import Branch, While
from model.worlds import CallId, Step

ABOUT = 4
# How long a line of an answer is at most where it can be cut, and how many blanks stand before what goes on.
WIDTH, INDENT = 80, 8
MESSAGES = 'send', 'recv'
# What is told of the candidates of a choice.
TAKES_ONE = 'next N takes one:'


def cut(line, room):
    """Where a line is cut that has so much room: at the last blank that leaves no more before it, else at the first one, of those that have
    something before them; None where there is none, or the line has room."""
    if len(line) <= room:
        return None
    begin = len(line) - len(line.lstrip(' '))
    place = line.rfind(' ', begin, room + 1)
    place = line.find(' ', begin) if place < 0 else place
    return None if place < 0 else place


def folded(line, width=WIDTH):
    """A line of an answer, in as many as it takes."""
    found, rest, room, indent = [], line, width, ''
    while (place := cut(rest, room)) is not None:
        found.append(indent + rest[:place])
        rest, room, indent = rest[place + 1:], width - INDENT, ' ' * INDENT
    return [*found, indent + rest]


def all_folded(lines, width=WIDTH):
    return [part for line in lines for part in folded(line, width)]


def reached(walked):
    """Where a debugger is: its world, and the line of each call, which is that of the statement that its rank was at."""
    lines = {}
    for step, before, behind in zip(walked.steps, walked.worlds, walked.worlds[1:]):
        if step.kind == 'local' and len(behind.ranks[step.first].calls) > len(before.ranks[step.first].calls):
            lines[last_call(behind, step.first)] = next_line(before.ranks[step.first])
    return Reached(walked.world, lines)


def line_of(at, call_id):
    """The line of a call; 0 where there is none."""
    return at.lines.get(call_id, 0)


def plural(count, word):
    return f'{count} {word}' if count == 1 else f'{count} {word}s'


# ---- steps

def step_words(at, step):
    """A step in words, on the state before it."""
    text = step_text(step)
    if step.kind == 'release':
        return f'{text}: all ranks leave the barrier'
    if step.kind == 'match':
        send, receive = step.first, step.second
        return f'{text}: rank {send.rank}, line {line_of(at, send)}, to rank {receive.rank}, line {line_of(at, receive)}'
    if step.kind == 'local':
        return f'{text}: line {next_line(at.world.ranks[step.first])}'
    waiting = f'{text}: line {line_of(at, last_call(at.world, step.first))}'
    return f'{waiting}, by {call_text(at, request_of(at.world, step))}' if step.kind == 'wakeany' else waiting


def is_told(world, step):
    """Whether a step is one by which a rank goes on from a probe."""
    return step.kind in ('wake', 'wakeany') and is_at_probe(world.ranks[step.first])


def request_of(world, step):
    """The call that a wake by one of some handles is of: what its handle holds; or of one from a probe the send that it is told of."""
    wait = find_call(world, last_call(world, step.first))
    if wait.kind == 'probe':
        return next(send_id for send_id in available(world, last_call(world, step.first)) if step.second in (None, send_id.rank))
    return CallId(step.first, world.ranks[step.first].handles[wait.first + step.second])


def lines_about(at, step):
    """The numbers of the lines that a step is about, each once."""
    if step.kind == 'release':
        return []
    if step.kind == 'match':
        return list(dict.fromkeys([line_of(at, step.first), line_of(at, step.second)]))
    return [next_line(at.world.ranks[step.first]) if step.kind == 'local' else line_of(at, last_call(at.world, step.first))]


def chosen_for(at, step):
    """The call that a candidate is of: the receive of a match, or the wait for any of a wake."""
    return step.second if step.kind == 'match' else last_call(at.world, step.first)


def in_line(at, call_id):
    return f'(line {line_of(at, call_id)})'


def whose(at, call_id):
    """The rank of a call, and its line."""
    return f'rank {call_id.rank} {in_line(at, call_id)}'


def message_told(at, step):
    """Who sends what, of a match."""
    send = find_call(at.world, step.first)
    return f'rank {step.first.rank} sends {send.value}, tag {send.tag} {in_line(at, step.first)}'


def request_told(at, names, step):
    """By which request a rank goes on from a wait for any, and the value of that."""
    wait, call_id = find_call(at.world, last_call(at.world, step.first)), request_of(at.world, step)
    call = find_call(at.world, call_id)
    word, send = ('send', call) if call.kind == 'send' else ('receive', find_call(at.world, partner(at.world, call_id)))
    return f'request {cell_name(names, "req", wait.first + step.second)}, the {word} of line {line_of(at, call_id)} (value {send.value})'


def step_told(at, names, step, is_one):
    """What a step does that is enabled; that of a candidate doesn't tell the call which all candidates are for."""
    if step.kind == 'release':
        return 'all ranks leave the barrier'
    if step.kind == 'local':
        return f'rank {step.first} runs line {next_line(at.world.ranks[step.first])}'
    if is_told(at.world, step):
        return f'rank {step.first} is told of {call_text(at, request_of(at.world, step))}'
    if step.kind == 'wake' and is_at_collective(at.world.ranks[step.first]):
        return f'rank {step.first} goes on from {call_text(at, last_call(at.world, step.first))}'
    if step.kind == 'wake':
        return f'rank {step.first} goes on from line {line_of(at, last_call(at.world, step.first))}'
    if step.kind == 'match':
        return message_told(at, step) + ('' if is_one else f', to {whose(at, step.second)}')
    return request_told(at, names, step) + ('' if is_one else f', for rank {step.first}')


def candidate_words(at, names, step, is_one=False):
    """What a step does, and its trace word behind that."""
    return f'{step_told(at, names, step, is_one)}; {step_text(step)}'


def choice_lines(at, names, text, steps):
    """What is told of a choice, with the line of the script where it is one of a single call. No two candidates are told alike: of the sends
    of a rank that fit a receive the first alone is one."""
    calls = {chosen_for(at, step) for step in steps}
    is_one = len(calls) == 1
    assert len({step_told(at, names, step, is_one) for step in steps}) == len(steps)
    candidates = [f'  {number}: {candidate_words(at, names, step, is_one)}' for number, step in enumerate(steps, 1)]
    if not is_one:
        return [f'stopped at a choice; {TAKES_ONE}', *candidates]
    call_id, = calls
    line = line_of(at, call_id)
    return [f'stopped at a choice of rank {call_id.rank}, line {line}; {TAKES_ONE}', *source(text, [line]), *candidates]


# ---- ends

def went_on(at, steps):
    """Where steps lead on from somewhere."""
    world, lines = at.world, dict(at.lines)
    for step in steps:
        behind = next_world(world, step)
        if step.kind == 'local' and len(behind.ranks[step.first].calls) > len(world.ranks[step.first].calls):
            lines[last_call(behind, step.first)] = next_line(world.ranks[step.first])
        world = behind
    return Reached(world, lines)


def end_places(at, outcome):
    """Which ranks an outcome is about, each with its line, and why it is trapped; `at` is where the run has ended."""
    name, *parts = outcome.split()
    if name == 'trap':
        places = [f'rank {rank} at line {next_line(at.world.ranks[int(rank)])} ({trap})' for rank, trap in zip(parts[::2], parts[1::2])]
    else:
        calls = [CallId(*map(int, part.split('.'))) for part in parts]
        places = [f'rank {call_id.rank} at line {at.lines[call_id]}' for call_id in calls]
    return f': {", ".join(places)}' if places else ''


def end_words(at, outcome):
    return outcome.split()[0] + end_places(at, outcome)


# ---- the script

def source_lines(text):
    """The lines of a script, each without its end."""
    lines = text.decode().split('\n')
    return [line.removesuffix('\r') for line in (lines[:-1] if lines[-1] == '' else lines)]


def numbered(number, line):
    """A line of the script as it is listed."""
    return f'{number:5}  {line}'


def source(text, numbers):
    """The lines of a script of some numbers, in this order; those that it doesn't have are left out."""
    lines = source_lines(text)
    return [numbered(number, lines[number - 1]) for number in numbers if 0 < number <= len(lines)]


def statement_lines(body):
    """The lines at which the statements of a block begin, those of the blocks in it too."""
    for statement in body:
        yield statement.line
        if isinstance(statement, Branch):
            yield from statement_lines([*statement.then, *statement.otherwise])
        elif isinstance(statement, While):
            yield from statement_lines(statement.body)


def has_ended(rank):
    return rank.mode == 'running' and rank.rest is None


def stands_at(at, number):
    """The line that a rank stands at; None where it has ended."""
    rank = at.world.ranks[number]
    if has_ended(rank):
        return None
    return line_of(at, last_call(at.world, number)) if rank.mode == 'blocked' else next_line(rank)


def standing(at, number):
    """A rank as it is told beside its line."""
    mode = at.world.ranks[number].mode
    note = {'running': '', 'trapped': ' trapped', 'blocked': ' can go on' if can_go_on(at.world, number) else ' waits'}[mode]
    return f'rank {number}{note}'


def listed(at, text, lines):
    """Those lines of a script of the numbers that are asked for, with the ranks that stand at each."""
    for number, line in enumerate(source_lines(text), 1):
        ranks = [standing(at, rank) for rank in range(len(at.world.ranks)) if stands_at(at, rank) == number]
        if number in lines:
            yield numbered(number, line) + (f'  <- {", ".join(ranks)}' if ranks else '')


def whole_list(at, text):
    """The script, and the ranks that have ended."""
    ended = [f'rank {number}' for number, rank in enumerate(at.world.ranks) if has_ended(rank)]
    return [*listed(at, text, range(1, len(text) + 2)), *([f'ended: {", ".join(ended)}'] if ended else [])]


def list_about(at, text, number):
    """The lines about a rank."""
    line = stands_at(at, number)
    return [f'rank {number} has ended'] if line is None else list(listed(at, text, range(line - ABOUT, line + ABOUT + 1)))


# ---- variables and requests

def request_text(at, number, handle):
    """What a handle of a rank holds."""
    held = at.world.ranks[number].handles[handle]
    return 'no request' if held is None else call_text(at, CallId(number, held))


def value_text(at, number, declared, place):
    """What stands at a place of what was declared, of a rank."""
    cell = declared.first + place
    return str(at.world.ranks[number].cells[cell]) if declared.kind == 'var' else request_text(at, number, cell)


def place_name(name, declared, place):
    return name if declared.size is None else f'{name}[{place}]'


def cell_name(names, kind, cell):
    """The name of a cell of variables, or of a handle."""
    return next(place_name(name, declared, cell - declared.first) for name, declared in names.items()
                if declared.kind == kind and cell - declared.first in all_places(declared))


def value_line(at, number, name, declared, places):
    """The line of a name of a rank, with these places of it."""
    values = [f'{place_name(name, declared, place)} = {value_text(at, number, declared, place)}' for place in places]
    return f'rank {number}: {", ".join(values) or f"{name} has no cell"}'


def all_places(declared):
    return range(1 if declared.size is None else declared.size)


def names_line(at, names, number):
    """All names of a rank in a line."""
    values = [f'{name} = {short_value(at, number, declared)}' for name, declared in names.items()]
    return f'rank {number}: {", ".join(values)}' if values else f'rank {number} has no variable'


def variable_lines(at, names, number):
    """All names of a rank, what it has printed, and its requests that are lost."""
    printed = at.world.ranks[number].printed
    told = [f'rank {number} has printed {" ".join(map(str, printed))}'] if printed else []
    return [names_line(at, names, number), *told, *lost_lines(at, number)]


# ---- requests that are lost

def may_be_waited_for(rank, number):
    """Whether a handle of a rank holds a call, or a wait of it is for that."""
    return number in rank.handles or any(call.kind == 'wait' and call.target == number for call in rank.calls)


def is_told_lost(world, call_id):
    """Whether nobody can wait for a call any more, there is something left to wait for, and no wait for any may have done so."""
    rank, call = world.ranks[call_id.rank], find_call(world, call_id)
    if call.kind not in MESSAGES or call.blocks or may_be_waited_for(rank, call_id.number):
        return False
    return not (is_done(world, call_id) and (call.kind == 'send' or any(other.kind == 'waitany' for other in rank.calls)))


def lost_calls(world, number):
    """The requests of a rank that are lost."""
    calls = [CallId(number, place) for place in range(len(world.ranks[number].calls))]
    return [call_id for call_id in calls if is_told_lost(world, call_id)]


def place_of(at, call_id):
    """The rank and the line of a call."""
    return call_id.rank, at.lines[call_id]


def lost_line(at, found):
    """What is told of the requests that a rank has lost of one line."""
    first = found[0]
    told = f'a request: {call_text(at, first)}'
    if len(found) > 1:
        told = f'{len(found)} requests of line {at.lines[first]}, the first {first} {plain_text(at.world, first)}'
    return f'rank {first.rank} has lost {told}'


def lost_by_lines(at, calls):
    """What is told of some that are lost: a line for each rank and line, where the first of it stands."""
    places = {}
    for call_id in calls:
        places.setdefault(place_of(at, call_id), []).append(call_id)
    return [lost_line(at, found) for found in places.values()]


def lost_lines(at, number):
    """The requests of a rank that are lost, by lines."""
    return lost_by_lines(at, lost_calls(at.world, number))


# ---- what happens on the way

def print_lines(before, world):
    """What each rank has printed since a world that was before."""
    printed = [rank.printed[len(old.printed):] for old, rank in zip(before.ranks, world.ranks)]
    return [f'rank {number} prints {" ".join(map(str, values))}' for number, values in enumerate(printed) if values]


def newly_lost_lines(before, at):
    """The requests that are lost, of lines of which a rank had lost none in a world that was before."""
    ranks = range(len(before.ranks))
    told = {place_of(at, call_id) for number in ranks for call_id in lost_calls(before, number)}
    return lost_by_lines(at, [call_id for number in ranks for call_id in lost_calls(at.world, number) if place_of(at, call_id) not in told])


# ---- ranks and calls

def can_go_on(world, number):
    """Whether the call that a rank waits in is complete: its wake is enabled. A wake by a request of a wait for any is none."""
    return Step('wake', number) in enabled_steps(world)


def rank_line(at, number):
    """What a rank is doing."""
    rank = at.world.ranks[number]
    if rank.mode == 'blocked':
        told = 'can go on from' if can_go_on(at.world, number) else 'waits at'
        return f'rank {number} {told} {call_text(at, last_call(at.world, number))}'
    if rank.mode == 'trapped':
        return f'rank {number} is trapped at line {next_line(rank)}: {rank.trap}'
    return f'rank {number} has ended' if has_ended(rank) else f'rank {number} is at line {next_line(rank)}'


def whole_text(at, call_id):
    """A call, with all that is shown of it."""
    return f'line {line_of(at, call_id)}, {call_line(at.world, call_id).removeprefix("call ")}'


def call_lines(at, numbers):
    """The calls of some ranks."""
    return [whole_text(at, CallId(number, place)) for number in numbers for place in range(len(at.world.ranks[number].calls))]


def queue_lines(at):
    """The free sends of each two ranks, and behind them the free receives of each."""
    ranks = range(len(at.world.ranks))
    sends = [(f'pending {source} to {other}', call_id) for source in ranks for other in ranks for call_id in pending(at.world, source, other)]
    receives = [(f'posted {number}', call_id) for number in ranks for call_id in posted(at.world, number)]
    return [f'{where}: {call_text(at, call_id)}' for where, call_id in sends + receives]


# ---- why

def partner_line(at, other, held):
    """A call that another one could be matched with, and what holds that back."""
    if held is None:
        return f'  can be matched with {call_text(at, other)}'
    return f'  could be matched with {call_text(at, other)}, but for {call_text(at, held)}'


def is_free(world, call_id):
    return find_call(world, call_id).kind in MESSAGES and partner(world, call_id) is None


def message_lines(at, call_id):
    """A send or a receive, and what it could be matched with."""
    lines = [whole_text(at, call_id)]
    if not is_free(at.world, call_id):
        return lines
    partners = [partner_line(at, other, held) for other, held in order.why(at.world, call_id)]
    if partners:
        return lines + partners
    return [*lines, f'  has no partner yet: {wish(at, call_id)}', *(f'    {line}' for line in explaining.chances(at, call_id))]


def is_waited_at(world, call_id):
    """Whether a call is the one that its rank waits for."""
    return world.ranks[call_id.rank].mode == 'blocked' and last_call(world, call_id.rank) == call_id


def requests(world, call_id):
    """The requests of a wait; a wait for any has some only as long as its rank waits."""
    call = find_call(world, call_id)
    if call.kind == 'wait':
        return [] if call.target is None else [CallId(call_id.rank, call.target)]
    return explaining.requests(world, call_id.rank) if call.kind == 'waitany' and is_waited_at(world, call_id) else []


def waiting(world):
    """The calls that ranks wait for, by rank."""
    return [last_call(world, number) for number, rank in enumerate(world.ranks) if rank.mode == 'blocked']


def why_lines(at, call_id):
    """Why a call isn't matched."""
    kind = find_call(at.world, call_id).kind
    if kind in MESSAGES:
        return message_lines(at, call_id)
    lines = [whole_text(at, call_id)]
    if kind == 'barrier':
        return lines + ([f'    {line}' for line in explaining.behind(at, call_id)] if is_waited_at(at.world, call_id) else [])
    return lines + [line for request in requests(at.world, call_id) for line in message_lines(at, request)]


def waiting_lines(at, call_id):
    """Why a call isn't matched that its rank waits for, or that the rank can go on."""
    is_complete = can_go_on(at.world, call_id.rank)
    return [*why_lines(at, call_id), *[f'  the call is complete: rank {call_id.rank} can go on'] * is_complete]
