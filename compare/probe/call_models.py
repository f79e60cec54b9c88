"""What each public call of the crates must answer, told by the model: the answer, the state before the call and behind it, as texts.

A row names a call, as the program of compare/probe/memory/ does, and what that is given (call_given.py). What isn't in the model stands in
the row, as it was worked out by hand (call_rows.py, call_listings.py). What is told of calls that explore is in call_reports.py.
"""

from model import order, policy, session
from model.c_script import c_text
from model.canonical import canonical
from model.debugger import (RENDEZVOUS, CallId, Debugger, enabled_steps, find_call, next_world, outcome, partner, pending, rank_state, record_line, show,
                            slots_used, step_of, step_text)
from model.explorer import has_waitany
from model.language import FAULT_NAMES, Branch, Fault, While, read_script
from probe.call_consoles import CONSOLES
from probe.call_given import Wanted, by_hand, decided_text, line, no_state, numbered, steps_line, trail_text, unchanged, walked, world_of
from probe.call_outcomes import OUTCOMES
from probe.call_pages import PAGES
from probe.call_pictures import PICTURES
from probe.call_reports import REPORTS
from probe.call_wide import WIDES


# ---- scripts

def statements_of(body):
    """All statements in text order."""
    for statement in body:
        yield statement
        if isinstance(statement, Branch):
            yield from statements_of([*statement.then, *statement.otherwise])
        elif isinstance(statement, While):
            yield from statements_of(statement.body)


def lines_text(script):
    return numbered('lines', (statement.line for statement in statements_of(script.body)))


def script_text(script):
    return canonical(script).decode() + lines_text(script)


def fault_text(fault):
    return line(f'refused {fault.number} {FAULT_NAMES[fault.number]} at {fault.place}')


def read(row):
    try:
        return no_state(script_text(row.read()))
    except Fault as fault:
        return no_state(fault_text(fault))


def prefixes(row):
    """How each beginning of a text is read: the place of a fault is at most its length."""
    texts = []
    for length in range(len(row.script)):
        try:
            read_script(row.script[:length].encode())
            texts.append('script\n')
        except Fault as fault:
            assert fault.place <= length
            texts.append(fault_text(fault))
    return no_state(''.join(texts) + '\n')


def printed(row):
    script = row.read()
    return unchanged(script_text(script), canonical(script).decode() + '\n')


def printed_in_c(row):
    script = row.read()
    return unchanged(script_text(script), c_text(script).decode() + '\n')


def written_in_c(row):
    return no_state('ended\n', c_text(row.read()).decode())


def following(body, behind, number_of):
    """For each statement in text order the number of the one that follows it."""
    for statement, after in zip(body, [*map(number_of, body[1:]), behind]):
        yield after
        if isinstance(statement, Branch):
            yield from following(statement.then, after, number_of)
            yield from following(statement.otherwise, after, number_of)
        elif isinstance(statement, While):
            yield from following(statement.body, number_of(statement), number_of)


def code_text(script):
    numbers = {id(statement): number for number, statement in enumerate(statements_of(script.body))}
    count = len(numbers)
    head = f'nodes {count} start 0 ranks {script.ranks} cells {script.cells} handles {script.handles} decls {len(script.names)}'
    return line(head) + lines_text(script) + numbered('next', following(script.body, count, lambda statement: numbers[id(statement)]))


def lowered(row):
    return no_state(code_text(row.read()))


def code_looks(row):
    script = row.read()
    count = len(list(statements_of(script.body)))
    old = 'false' if has_waitany(script.body) else 'true'
    told = [count, 0, script.ranks, script.cells, script.handles, count, script.body[0].line, len(script.names), 'true', old]
    return unchanged(code_text(script), line(' '.join(map(str, told))))


def text_read(row):
    return no_state(line(row.script[:int(row.argument) + 1]))


def script_read(row):
    return told_read(row, script_text)


def code_read(row):
    return told_read(row, code_text)


def told_read(row, told):
    try:
        return no_state(told(row.read()))
    except Fault as fault:
        return no_state(fault_text(fault) + line(f'line {1 + row.script.count(chr(10), 0, fault.place)}'))


# ---- states

def core_text(world):
    return line(show(world, 0, 0))


def core_started(row):
    return no_state(core_text(world_of(row)))


def core_copied(row):
    text = core_text(world_of(row))
    return Wanted(text, text, text)


def core_room(row):
    return unchanged(core_text(world_of(row)), 'done\n')


def stepped(row, step, answer):
    world = world_of(row)
    new = next_world(world, step)
    if new is None:
        return unchanged(core_text(world), 'not-enabled\n')
    return Wanted(core_text(world), line(answer), core_text(new))


def record_told(step):
    """What a record says of a step that was taken."""
    kind, *rest = step.split()
    woke = ' '.join(['woke', *rest[:1]])
    return {'match': 'matched', 'release': 'released', 'wake': woke, 'wakeany': woke}.get(kind, step)


def core_applied(row):
    return stepped(row, row.step(), record_told(row.argument))


def core_local(row):
    return stepped(row, step_of([b'local', row.argument.encode()]), 'ok')


def core_undone(row, step=None):
    """The state before the undo is the one behind the step."""
    world = world_of(row)
    new = next_world(world, step or row.step())
    return Wanted(core_text(new), 'undone\n', core_text(world))


def core_local_undone(row):
    return core_undone(row, step_of([b'local', row.argument.encode()]))


def core_told(told):
    """A text of a core; the argument has the numbers that it is asked of."""
    def wanted(row):
        world = world_of(row)
        return unchanged(core_text(world), line(told(world, row.numbers())))
    return wanted


def outcome_told(row):
    world = world_of(row)
    return unchanged(core_text(world), line('none' if enabled_steps(world) else outcome(world)))


def enabled_told(row):
    world = world_of(row)
    return unchanged(core_text(world), steps_line('enabled', enabled_steps(world)))


def any_wakes_told(row):
    """The steps of the waitany of the rank that the argument names."""
    world, head = world_of(row), f'wakeany {row.argument} '
    return unchanged(core_text(world), steps_line('enabled', [step for step in enabled_steps(world) if step_text(step).startswith(head)]))


def step_printed(row):
    return no_state(line(row.argument))


def outcome_printed(row):
    return no_state(line(outcome(world_of(row))))


def listed(row):
    return no_state(steps_line('enabled', enabled_steps(world_of(row))) + '\n')


def shown(row):
    world = world_of(row)
    return unchanged(core_text(world), line(show(world, 3, 4)) + '\n')


# ---- boards

def is_complete(world, call_id):
    """Whether a call is complete, told by what it waits for."""
    call = find_call(world, call_id)
    if call.kind == 'wait':
        return call.target is None or is_complete(world, CallId(call_id.rank, call.target))
    if call.kind == 'waitany':
        return not call.active
    if call.kind == 'barrier':
        return False
    return partner(world, call_id) is not None or call.buffered


def board_text(world):
    lines = [f'ranks {len(world.ranks)} sets {len(world.records)}']
    for rank, held in enumerate(world.ranks):
        for number in range(len(held.calls)):
            call_id = CallId(rank, number)
            other = partner(world, call_id)
            lines.append(f'call {call_id}' + (f' with {other}' if other else '') + (' complete' if is_complete(world, call_id) else ''))
        for receiver in range(len(world.ranks)):
            if waiting := list(pending(world, rank, receiver)):
                first = waiting[0]
                lines.append(f'pending {rank} to {receiver} {getattr(first, "number", first)}')
    return ''.join(map(line, lines))


def board_made(row):
    return no_state(line(f'ranks {row.argument} sets 0'))


def board_copied(row):
    text = board_text(world_of(row))
    return Wanted(text, text, text)


def board_room(row):
    return unchanged(board_text(world_of(row)), 'done\n')


def why_told(row):
    world = world_of(row)
    return unchanged(board_text(world), ''.join(map(line, map(session.partner_text, order.why(world, row.call_id())))))


def matches_told(row):
    world = world_of(row)
    steps = [step for step in enabled_steps(world) if step.kind == 'match']
    if row.argument == 'open':
        steps = [step for step in steps if find_call(world, step.second).other is None]
    elif row.argument != 'all':
        steps = [step for step in steps if step.second.rank == int(row.argument)]
    return unchanged(board_text(world), steps_line('matches', steps))


def board_looked_at(row):
    world, call_id = world_of(row), row.call_id()
    told = [len(world.ranks), row.mode == RENDEZVOUS, len(world.records), len(world.ranks[call_id.rank].calls), slots_used(world, call_id.rank)]
    told += [is_complete(world, call_id)]
    call = find_call(world, call_id)
    told += [bool(list(pending(world, 0, 1))), call.blocks, call.kind == 'barrier']
    return unchanged(board_text(world), line(' '.join(str(it).lower() for it in told)))


def board_looks(row):
    """What is answered by hand, over an unchanged board."""
    return unchanged(board_text(world_of(row)), row.by_hand)


def rank_changed(row):
    """What is answered by hand: the state before, the answer and the state behind, of a rank alone."""
    return row.by_hand


# ---- trails

def trail_started(row):
    return no_state(trail_text(walked(row)))


def trail_copied(row):
    text = trail_text(found := walked(row))
    del found.steps[found.depth:]
    return Wanted(text, trail_text(found), text)


def trail_room(row):
    return unchanged(trail_text(walked(row)), 'done\n')


def changed(words, forms):
    """A change of a trail by words; what is said of it, by what the model answers."""
    def wanted(row):
        found = walked(row)
        before = trail_text(found)
        said = found.answer(words(row))
        return Wanted(before, line(forms.get(said.split()[0], said.removeprefix('refused '))), trail_text(found))
    return wanted


def put_back(row):
    """Undone steps that are forgotten and put back."""
    found = walked(row)
    told = f'{found.depth} {found.depth} {"true" if found.depth < len(found.steps) else "false"} {len(found.world.ranks)}'
    return unchanged(trail_text(found), line(told))


def replayed(row):
    """What commands are answered, and the debugger behind them."""
    found = Debugger(row.read(), row.mode)
    said = [found.answer(words.encode()) for words in row.lines]
    words = ''.join(line('ok' if it.startswith('ok') else it.removeprefix('refused ')) for it in said)
    return no_state(words + trail_text(found))


def decided(row):
    found = walked(row)
    return unchanged(trail_text(found), decided_text(policy.decision(found.world)))


def forced(row):
    found = walked(row)
    step = policy.decision(found.world)
    return unchanged(trail_text(found), line(step_text(step.step) if isinstance(step, policy.Forced) else 'none'))


def breaks_of(row):
    """The breakpoints with the one that the argument names, if it names one."""
    breaks = policy.Breaks()
    kinds = {'line': policy.LineBreak, 'match': policy.MatchBreak, 'change': policy.ChangeBreak, 'handle': policy.HandleBreak}
    words = row.argument.split()
    if len(words) > 1:
        breaks.add(kinds[words[1]](*map(int, words[2:])))
    return breaks


def run_by(go):
    """A run forward or back."""
    def wanted(row):
        found = walked(row)
        before = trail_text(found)
        stop = go(found, row)
        return Wanted(before, line(f'steps {stop.steps} stop {stop.cause}'), trail_text(found))
    return wanted


# ---- sessions

def replied(held, request):
    """The text of a reply to a line."""
    return session.reply_bytes(session.answer_line(held, request.encode())).decode()


def session_of(row):
    held = session.Session(row.read(), row.mode, wide=True)
    for request in row.lines:
        session.answer_line(held, request.encode())
    return held


STATE, BREAKS = '{"cmd":"state"}', '{"cmd":"breaks"}'


def session_text(held):
    return replied(held, STATE) + replied(held, BREAKS)


def session_started(row):
    return no_state(session_text(session_of(row)))


def session_answered(row):
    held = session_of(row)
    before = session_text(held)
    said = replied(held, row.argument)
    return Wanted(before, said, session_text(held))


def request_parsed(wide):
    """A request is told by the reply to it at the start of the script, a line that is none by the name of its refusal."""
    def wanted(row):
        held = session.Session(row.read(), row.mode, wide)
        try:
            return no_state(session.reply_bytes(held.answer(session.parse(row.argument.encode(), wide))).decode())
        except session.Refused as refused:
            return no_state(line(session.NAMES[refused.number]))
    return wanted


def reply_printed(row):
    return no_state(replied(session_of(row), row.argument))


def reply_copied(row):
    said = replied(session_of(row), row.argument)
    return unchanged(said, said)


def compared(row):
    return unchanged(replied(session_of(row), row.argument), row.by_hand)


def taken(row):
    held, count = session_of(row), len(row.lines)
    said = replied(held, row.argument)
    end = replied(held, STATE)
    before, behind = (line(f'entries {number} {word}') for number, word in ((count, 'agrees'), (count + 1, 'counts-differ')))
    return Wanted(before, said + f'receipt {count} {said}', behind, end + f'receipt {count + 1} {end}')


def book_looks(row):
    nodes = len(list(statements_of(row.read().body)))
    count = len(row.lines)
    return no_state(line(f'{nodes} 0 {"counts-differ" if count else "agrees"} agrees {count}'))


def seats_text(said):
    return 'client 0\n' + ''.join(f'receipt {entry} {text}' for entry, text in enumerate(said)) + 'client 1\n'


def shared_called(row):
    held = session.Session(row.read(), row.mode, wide=True)
    said = [replied(held, request) for request in row.lines]
    answer = replied(held, row.argument)
    return Wanted(seats_text(said), answer, seats_text([*said, answer]), line(f'settled {len(said) + 1}') + replied(held, STATE))


def shared_opened(row):
    return no_state(seats_text([]) + 'settled 0\n' + replied(session.Session(row.read(), row.mode), STATE))


# ---- devices

def traced(row):
    found = Debugger(row.read(), row.mode)
    return ''.join(line(said) for words in row.argument.splitlines() if (said := found.answer(words.encode())) is not None)


def trace_written(row):
    return no_state('ended\n', traced(row))


def plain_written(row):
    script, _, words = row.argument.partition('---\n')
    try:
        return no_state('ended\n', traced(row._replace(script=script, argument=words)))
    except Fault as fault:
        return no_state(line(f'refused {FAULT_NAMES[fault.number]} at {fault.place} line {1 + script.count(chr(10), 0, fault.place)}'), '')


def requests_served(wide):
    """What the requests are replied, with `--wide` or without it."""
    def wanted(row):
        held = session_of(row)
        held.wide = wide
        said = [replied(held, request) for request in row.argument.splitlines() if request]
        return no_state(line(f'ended {len(said)}'), ''.join(said))
    return wanted


MODELS = {
    'mpd_script::read': read, 'mpd_script::read of all beginnings': prefixes, 'mpd_script::print': printed, 'mpd_code::lower': lowered,
    'mpd_c::print_c': printed_in_c, 'write_c': written_in_c, 'mpd_trace::read_script': script_read,
    'mpd_code looks': code_looks, 'eval': by_hand, 'Expr::unary, element, binary': by_hand, 'numbers and names': by_hand, 'words and lines': by_hand,
    'read_up_to': text_read, 'mpd_trace::read_code': code_read, 'mpd_trace::excerpt': by_hand, 'mpd_trace::allowed': by_hand, 'mpd_trace::hint': by_hand,
    'Tape::filled': by_hand, 'Tape::keep_room': by_hand, 'Tape::copy': by_hand, 'Tape changes': by_hand,
    'Lists::new': by_hand, 'Lists::keep_room': by_hand, 'Lists::copy': by_hand, 'Lists changes': by_hand,
    'Board::new': board_made, 'Board::copy': board_copied, 'Board::keep_room': board_room, 'Board::why': why_told,
    'Board looks': board_looked_at,
    'Board::push_matches': matches_told, 'Board::pair': board_looks, 'Board::issue': board_looks, 'Board::woke': board_looks,
    'Board::released': board_looks, 'RankState::start': rank_changed, 'RankState::copy': rank_changed, 'RankState::keep_room': rank_changed,
    'RankState::commit': rank_changed, 'RankState::complete': rank_changed, 'RankState::go_on': rank_changed,
    'Core::start': core_started, 'Core::copy': core_copied, 'Core::keep_room': core_room, 'Core::apply': core_applied,
    'Core::step_local': core_local, 'Core::undo': core_undone, 'Core::undo_local': core_local_undone, 'Core looks': by_hand,
    'Core::step_other': core_applied, 'Core::undo_other': core_undone,
    'Core::call_text': core_told(lambda world, numbers: session.text_of_call(world, CallId(*numbers))),
    'Core::push_call': core_told(lambda world, numbers: session.text_of_call(world, CallId(*numbers))),
    'Core::rank_text': core_told(lambda world, numbers: rank_state(world.ranks[numbers[0]])),
    'Core::push_rank': core_told(lambda world, numbers: rank_state(world.ranks[numbers[0]])),
    'Core::set_text': core_told(lambda world, numbers: record_line(world.records[numbers[0]]).removeprefix('set ')),
    'Core::outcome': outcome_told, 'Core::ending': outcome_told, 'Core::enabled': enabled_told, 'Core::push_any_wakes_of': any_wakes_told, 'print_step': step_printed,
    'print_outcome': outcome_printed, 'mpd_trace::listed': listed, 'mpd_trace::show': shown,
    'Debugger::start': trail_started, 'Debugger::copy': trail_copied, 'Debugger::keep_room': trail_room,
    'Debugger::apply': changed(lambda row: row.argument.encode(), {'ok': 'ok'}),
    'Debugger::forward': changed(lambda row: row.argument.encode(), {'ok': 'done'}),
    'Debugger::redo': changed(lambda row: b'redo', {'ok': 'ok'}), 'Debugger::undo': changed(lambda row: b'back', {'ok': 'ok'}),
    'Debugger::undo_to': changed(lambda row: b'goto ' + row.argument.encode(), {'ok': 'ok'}),
    'Debugger looks, forget_undone, put_steps': put_back,
    'mpd_trail::answer': changed(lambda row: row.argument.encode(), {'ok': 'ok'}),
    'mpd_trail::follow': replayed, 'mpd_trail::replay': replayed, 'decide': decided, 'forced_step': forced,
    'mpd_policy::run': run_by(lambda found, row: policy.run(found, breaks_of(row), row.numbers()[0])),
    'run_back': run_by(lambda found, row: policy.run_back(found, breaks_of(row))), 'Breaks': by_hand,
    **REPORTS, **CONSOLES, **PAGES, **PICTURES, **WIDES, **OUTCOMES,
    'Session::start': session_started, 'Session::answer': session_answered, 'mpd_wire::parse': request_parsed(False),
    'mpd_wire::parse_by': request_parsed(True),
    'mpd_wire::print': reply_printed, 'Reply::copy': reply_copied, 'same_request, same_reply': compared, 'Book::take': taken,
    'Book::new, len, audit': book_looks, 'Shared::new': shared_opened, 'Shared::call': shared_called, 'Shared::settle, code, SeatDesk': by_hand,
    'trace': trace_written, 'plain': plain_written, 'plain_keeping': plain_written, 'mpd_server::run': requests_served(False), 'serve': requests_served(False),
    'run_by': requests_served(True), 'serve_by': requests_served(True),
    'TraceDesk::start': by_hand, 'Divider::new': by_hand, 'Divider looks': by_hand, 'read_options': by_hand, 'UsageFault looks': by_hand,
    'mode_of, step_of, trace_word_of, has_word': by_hand}


def wanted(row):
    """What must be told of a row."""
    return MODELS[row.call](row)
