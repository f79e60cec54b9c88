"""Faults that are put into the model on purpose where ranks wait for any of some requests.

`breakages()` are noticed by the inputs of their kinds (run.py), `decision_faults()` and `hit_faults()` by walks (follow.py,
policy_probe.py) and by sessions (sessions.py), `walk_faults()` by reports (explore.py), `order_faults()` by walks of order.py.
"""

from faults.breakages import Breakage
from model import debugger, language, policy, walks
from model.debugger import CallId, enabled_steps, is_at_any, written
from model.policy import Choice, Forced

ANY = 'wakeany'


def of_any(steps):
    return [step for step in steps if step.kind == ANY]


# ---- steps back

def places_of(world, step):
    """The cells that a wake by a handle writes, in order, each with what it holds before that write."""
    cells, found = world.ranks[step.first].cells, []
    for cell, value in debugger.writes_by(world, step.first, step.second):
        found.append((cell, cells[cell]))
        cells = written(cells, cell, value)
    return found


def back_to(restored):
    """What takes a wake by a handle back, and leaves the cells as `restored` says: by those behind it, and what each write replaced."""
    back = debugger.Debugger.back

    def back_of(self):
        behind, answer_of = self.world, back(self)
        step = self.steps[self.depth] if self.depth < len(self.steps) else None
        if answer_of.startswith('ok') and step is not None and step.kind == ANY:
            rank = self.world.ranks[step.first]
            cells = restored(behind.ranks[step.first].cells, places_of(self.world, step))
            self.worlds[-1] = self.world.with_rank(step.first, rank._replace(cells=cells))
        return answer_of
    return back_of


def restoring(chosen):
    """What restores the writes that are chosen, the last one first."""
    def restored(cells, writes):
        for cell, was in reversed(chosen(writes)):
            cells = written(cells, cell, was)
        return cells
    return back_to(restored)


def restored_in_order(cells, writes):
    """What restores all of them, the first one first."""
    for cell, was in writes:
        cells = written(cells, cell, was)
    return cells


def handle_left(back):
    """What takes a wake by a handle back, and leaves the handle null."""
    def back_of(self):
        behind, answer_of = self.world, back(self)
        step = self.steps[self.depth] if self.depth < len(self.steps) else None
        if answer_of.startswith('ok') and step is not None and step.kind == ANY:
            rank = self.world.ranks[step.first]._replace(handles=behind.ranks[step.first].handles)
            self.worlds[-1] = self.world.with_rank(step.first, rank)
        return answer_of
    return back_of


# ---- which wakes are enabled, and what they do

def held(world, number, place):
    """The call that a handle holds that a rank waits for any of, or None; and whether there is such a handle."""
    if number >= len(world.ranks) or not is_at_any(world.ranks[number]):
        return None
    rank = world.ranks[number]
    handle = debugger.chosen_handle(rank.calls[-1], place)
    return None if handle is None else rank.handles[handle]


def whatever_is_done(world, number, place):
    return held(world, number, place) is not None


def done_by_another(world, number, place):
    """Looks a call up in the next rank."""
    call = held(world, number, place)
    other = None if call is None else CallId((number + 1) % len(world.ranks), call)
    return other is not None and debugger.find_call(world, other) is not None and debugger.is_done(world, other)


def once_matched(world, number, place):
    """What takes no send for complete that is buffered and not matched."""
    call = held(world, number, place)
    return call is not None and debugger.partner(world, CallId(number, call)) is not None


def first_alone(can_wake_by):
    """What lets a rank go on by the first handle alone that has a complete call."""
    return lambda world, number, place: can_wake_by(world, number, place) and not any(can_wake_by(world, number, one) for one in range(place))


def nothing_null(can_wake_by):
    """What lets a rank go on only where no handle is null."""
    def can(world, number, place):
        return can_wake_by(world, number, place) and all(held(world, number, one) is not None for one in range(world.ranks[number].calls[-1].count))
    return can


def receives_alone(can_wake_by):
    def can(world, number, place):
        return can_wake_by(world, number, place) and debugger.find_call(world, CallId(number, held(world, number, place))).kind == 'recv'
    return can


def all_done(can_wake_by):
    """What lets a rank go on only where all that it waits for is complete."""
    def can(world, number, place):
        places = range(world.ranks[number].calls[-1].count) if held(world, number, place) is not None else []
        return bool(places) and all(held(world, number, one) is None or can_wake_by(world, number, one) for one in places)
    return can


def for_any_wake(after_wake_by):
    """What takes a wake by the first handle for a wake of any kind."""
    return lambda world, number, place: after_wake_by(world, number, place) or (debugger.after_wake(world, number) if place == 0 else None)


def never_without(can_wake):
    """What waits for ever where no handle has a request."""
    return lambda world, number: can_wake(world, number) and not is_at_any(world.ranks[number])


def wakes_anyway(can_wake):
    """What wakes a rank that waits for any as soon as one is complete."""
    def can(world, number):
        places = range(world.ranks[number].calls[-1].count) if is_at_any(world.ranks[number]) else []
        return can_wake(world, number) or any(debugger.can_wake_by(world, number, place) for place in places)
    return can


def handles_behind(change):
    """What leaves other handles behind a wake by one: by those before it, the first handle, how many, and the place."""
    after_wake_by = debugger.after_wake_by

    def after(world, number, place):
        woken = after_wake_by(world, number, place)
        if woken is None:
            return None
        rank, call = world.ranks[number], world.ranks[number].calls[-1]
        return woken.with_rank(number, woken.ranks[number]._replace(handles=change(rank.handles, call, place)))
    return after


def null(handles, places):
    return tuple(None if place in places else handle for place, handle in enumerate(handles))


def record_behind(change):
    """What makes another record of a wake by a handle, or none: by the world before, the rank and the place."""
    after_wake_by = debugger.after_wake_by

    def after(world, number, place):
        woken = after_wake_by(world, number, place)
        return woken and woken._replace(records=world.records + change(world, number, place))
    return after


def blocked_behind(after_wake_by):
    """What leaves the rank blocked."""
    def after(world, number, place):
        woken = after_wake_by(world, number, place)
        return woken and woken.with_rank(number, woken.ranks[number]._replace(mode='blocked'))
    return after


def of_writes(change):
    """What writes otherwise as a rank goes on by a handle: by what is to be written, the call, and the place."""
    writes_by = debugger.writes_by
    return lambda world, number, place: change(writes_by(world, number, place), world.ranks[number].calls[-1], place)


def value_of_send(received_writes):
    """What writes the value of a send, too, to the first cell."""
    def writes(world, call_id):
        call = debugger.find_call(world, call_id)
        return [(0, call.value)] if call.kind == 'send' and world.ranks[call_id.rank].cells else received_writes(world, call_id)
    return writes


def called(change):
    """What makes another call of a wait for any."""
    waited_for_any = debugger.waited_for_any
    return lambda statement, rank, view: change(waited_for_any(statement, rank, view), rank)


def going_on(issued):
    """What has a rank go on behind a wait for any of nothing, without a wake."""
    def after(rank, statement, view):
        behind = issued(rank, statement, view)
        call = behind.calls[-1]
        if call.kind != 'waitany' or call.active:
            return behind
        return behind._replace(mode='running', cells=written(behind.cells, call.cell, debugger.NO_HANDLE))
    return after


def without_waits(outcome):
    """What leaves ranks that wait for any out of a deadlock."""
    def ending(world):
        ranks = [rank._replace(mode='running', rest=None) if is_at_any(rank) else rank for rank in world.ranks]
        return outcome(world._replace(ranks=tuple(ranks))) if outcome(world).startswith('deadlock') else outcome(world)
    return ending


# ---- texts

def listed_by(order_of):
    """What lists the enabled steps in another order."""
    return lambda world: sorted(enabled_steps(world), key=order_of)


BEFORE_WAKES = {'local': 0, 'release': 1, ANY: 2, 'wake': 3, 'match': 4}
BEHIND_MATCHES = {'local': 0, 'release': 1, 'wake': 2, 'match': 3, ANY: 4}
BEFORE_RELEASE = {'local': 0, ANY: 1, 'release': 2, 'wake': 3, 'match': 4}


def among_wakes(world):
    """What lists both kinds of wakes by rank."""
    steps = enabled_steps(world)
    wakes = sorted((step for step in steps if step.kind in ('wake', ANY)), key=lambda step: step.first)
    others = [step for step in steps if step.kind not in ('wake', ANY)]
    behind = [step for step in others if step.kind == 'match']
    return [step for step in others if step.kind != 'match'] + wakes + behind


def otherwise_listed(key=None, back=False):
    """What lists these wakes among themselves in another order."""
    def steps_of(world):
        steps = enabled_steps(world)
        found = sorted(of_any(steps), key=key, reverse=back)
        return [found.pop(0) if step.kind == ANY else step for step in steps]
    return steps_of


def line_of(change):
    """What shows a wait for any otherwise: by the line, and the call."""
    call_line = debugger.call_line

    def line(world, call_id):
        call = debugger.find_call(world, call_id)
        return change(call_line(world, call_id), call) if call.kind == 'waitany' else call_line(world, call_id)
    return line


def words_as(change):
    """What reads the words of such a wake otherwise."""
    step_of = debugger.step_of
    return lambda words: change(step_of, words) if words and words[0] == b'wakeany' else step_of(words)


def is_like_next(self, step):
    """Takes a wake by another handle for the undone one."""
    undone = self.steps[self.depth] if self.depth < len(self.steps) else None
    return undone is not None and (undone == step or undone.kind == step.kind == ANY and undone.first == step.first)


# ---- the reader

def with_index(named_handles):
    """What reads an index behind the name, where there is one."""
    def read(reader):
        found = named_handles(reader)
        if reader.at('['):
            reader.tokens.advance()
            reader.expression()
            reader.expect(']')
        return found
    return read


def of_any_kind(named_handles):
    """What takes a variable for handles."""
    def read(reader):
        declared = reader.names.get(reader.tokens.current.value)
        if declared is None or declared.kind == 'req':
            return named_handles(reader)
        name = reader.tokens.current.value
        reader.tokens.advance()
        return name, 0, 0
    return read


def sized_alone(named_handles):
    """What takes no handles that have no size."""
    def read(reader):
        declared = reader.names.get(reader.tokens.current.value)
        if declared is not None and declared.kind == 'req' and declared.size is None:
            raise reader.fault(language.UNKNOWN_NAME)
        return named_handles(reader)
    return read


def without_place(waiting_for_any):
    """What reads a wait for any that has no place, where none stands there."""
    def read(reader, line):
        place = reader.tokens.behind, reader.tokens.current
        name, first, count = reader.named_handles()
        if reader.at(';'):
            reader.tokens.advance()
            return language.WaitAny(line, name, first, count, language.Place('', 0, None, None))
        reader.tokens.behind, reader.tokens.current = place
        return waiting_for_any(reader, line)
    return read


def reader_faults():
    reader = language.Reader
    return [Breakage(name, 'waitany-texts', reader, attribute, replacement) for name, attribute, replacement in (
        ('version 1 reads a wait for any', 'has_waitany', lambda self: True),
        ('version 2 reads no wait for any', 'has_waitany', lambda self: False),
        ('an index behind the handles', 'named_handles', with_index(reader.named_handles)),
        ('variables as handles', 'named_handles', of_any_kind(reader.named_handles)),
        ('no handles without a size', 'named_handles', sized_alone(reader.named_handles)),
        ('a wait for any without a place', 'waiting_for_any', without_place(reader.waiting_for_any)),
    )] + [
        Breakage('version 3 is read', 'waitany-texts', language, 'VERSIONS', [1, 2, 3]),
        Breakage('version 2 is not read', 'waitany-texts', language, 'VERSIONS', [1]),
        Breakage('another version refused as a wrong token', 'waitany-texts', language, 'NOT_IN_VERSION', language.EXPECTED)]


def step_faults():
    can_wake_by, after_wake_by, back = debugger.can_wake_by, debugger.after_wake_by, debugger.Debugger.back
    return [Breakage(name, 'waitany', owner, attribute, replacement) for owner, faults in (
        (debugger.Debugger, (
            ('a step back that restores three of four cells', 'back', restoring(lambda writes: writes[:3])),
            ('a step back that restores all but the value', 'back', restoring(lambda writes: writes[1:] if len(writes) > 1 else writes)),
            ('a step back that restores all but the place', 'back', restoring(lambda writes: writes[:-1])),
            ('a step back that restores in the order of the writes', 'back', back_to(restored_in_order)),
            ('a step back that leaves the handle null', 'back', handle_left(back)),
            ('a wake by another handle taken for the undone one', 'is_next_undone', is_like_next))),
        (debugger, (
            ('a wake by a call that is not complete', 'can_wake_by', whatever_is_done),
            ('a wake by a call of another rank', 'can_wake_by', done_by_another),
            ('no wake by a buffered send', 'can_wake_by', once_matched),
            ('a wake by the first complete call alone', 'can_wake_by', first_alone(can_wake_by)),
            ('a wake by receives alone', 'can_wake_by', receives_alone(can_wake_by)),
            ('no wake where a handle is null', 'can_wake_by', nothing_null(can_wake_by)),
            ('no wake before all is complete', 'can_wake_by', all_done(can_wake_by)),
            ('a wake by the first handle of a rank that waits for something else', 'after_wake_by', for_any_wake(after_wake_by)),
            ('a wait for any of nothing that never ends', 'can_wake', never_without(debugger.can_wake)),
            ('a wake without a handle as soon as one is complete', 'can_wake', wakes_anyway(debugger.can_wake)),
            ('0 written where there is no request', 'NO_HANDLE', 0),
            ('the handle left as it was', 'after_wake_by', handles_behind(lambda handles, call, place: handles)),
            ('the first handle of all nulled', 'after_wake_by', handles_behind(lambda handles, call, place: null(handles, [place]))),
            ('the first of the handles nulled', 'after_wake_by', handles_behind(lambda handles, call, place: null(handles, [call.first]))),
            ('all handles nulled', 'after_wake_by', handles_behind(
                lambda handles, call, place: null(handles, range(call.first, call.first + call.count)))),
            ('no record of a wake by a handle', 'after_wake_by', record_behind(lambda world, number, place: ())),
            ('a record of the request', 'after_wake_by', record_behind(
                lambda world, number, place: (debugger.Woken(CallId(number, held(world, number, place))),))),
            ('a rank that stays blocked', 'after_wake_by', blocked_behind(after_wake_by)),
            ('the place written first', 'writes_by', of_writes(lambda writes, call, place: [writes[-1], *writes[:-1]])),
            ('the place not written', 'writes_by', of_writes(lambda writes, call, place: writes[:-1])),
            ('the handle written in place of the place', 'writes_by', of_writes(
                lambda writes, call, place: [*writes[:-1], (call.cell, call.first + place)])),
            ('the place counted from one', 'writes_by', of_writes(lambda writes, call, place: [*writes[:-1], (call.cell, place + 1)])),
            ('no status written', 'writes_by', of_writes(lambda writes, call, place: [*writes[:-1][:1], writes[-1]])),
            ('no value written', 'writes_by', of_writes(lambda writes, call, place: writes[-1:])),
            ('the value of a send written', 'received_writes', value_of_send(debugger.received_writes)),
            ('a wait for any that looks at the first handle alone', 'waited_for_any', called(lambda call, rank: call._replace(
                active=call.count > 0 and rank.handles[call.first] is not None))),
            ('a wait for any that looks at all handles of its rank', 'waited_for_any', called(lambda call, rank: call._replace(
                active=any(handle is not None for handle in rank.handles)))),
            ('a wait for any of one handle less', 'waited_for_any', called(lambda call, rank: call._replace(count=max(0, call.count - 1)))),
            ('a wait for any of one handle more', 'waited_for_any', called(lambda call, rank: call._replace(
                count=min(call.count + 1, len(rank.handles) - call.first)))),
            ('a wait for any of all handles from the first on', 'waited_for_any', called(lambda call, rank: call._replace(first=0))),
            ('a rank that goes on behind a wait for any of nothing', 'issued', going_on(debugger.issued)),
            ('a deadlock without waits for any', 'outcome', without_waits(debugger.outcome)))),
    ) for name, attribute, replacement in faults]


def text_faults():
    return [Breakage(name, 'waitany', debugger, attribute, replacement) for name, attribute, replacement in (
        ('wakes by a handle listed before wakes', 'enabled_steps', listed_by(lambda step: BEFORE_WAKES[step.kind])),
        ('wakes by a handle listed behind matches', 'enabled_steps', listed_by(lambda step: BEHIND_MATCHES[step.kind])),
        ('wakes by a handle listed before the release', 'enabled_steps', listed_by(lambda step: BEFORE_RELEASE[step.kind])),
        ('both kinds of wakes listed by rank', 'enabled_steps', among_wakes),
        ('wakes by a handle listed by place', 'enabled_steps', otherwise_listed(lambda step: (step.second, step.first))),
        ('wakes by a handle listed from the last on', 'enabled_steps', otherwise_listed(back=True)),
        ('no wake by a handle listed', 'wakes_by_handles', lambda world: []),
        ('nothing told of a wait for any of nothing', 'call_line', line_of(lambda line, call: line.removesuffix(' none'))),
        ('every wait for any told as one of nothing', 'call_line', line_of(lambda line, call: line.removesuffix(' none') + ' none')),
        ('the last handle told in place of how many', 'call_line', line_of(
            lambda line, call: line.replace(f'{call.first} {call.count}', f'{call.first} {call.first + call.count - 1}'))),
        ('a declaration of size 0 told by handle 0', 'call_line', line_of(
            lambda line, call: line if call.count else line.replace(f'{call.first} 0', '0 0'))),
        ('the word of the step in place of that of the call', 'call_line', line_of(lambda line, call: line.replace('waitany', 'wakeany'))),
        ('a wake by no handle read as one by the first', 'step_of', words_as(
            lambda step_of, words: step_of([*words, b'0'] if len(words) == 2 else words))),
        ('a word more', 'step_of', words_as(lambda step_of, words: step_of(words[:3]))),
        ('rank and place turned round', 'step_of', words_as(
            lambda step_of, words: step_of([words[0], *words[:0:-1]]))),
        ('no such word', 'step_of', words_as(lambda step_of, words: None)),
    )]


def breakages():
    """All that traces show."""
    return [*step_faults(), *text_faults(), *reader_faults()]


# ---- decisions, breakpoints and reports

def deciding(change):
    """What decides otherwise where there are wakes by a handle: by the sound decision, and these."""
    decision = policy.decision

    def decided(world):
        wakes = of_any(enabled_steps(world))
        return change(decision(world), wakes, world) if wakes else decision(world)
    return decided


def of_wakes(change):
    """The same where such wakes are to be chosen among."""
    return deciding(lambda found, wakes, world: change(found, wakes) if isinstance(found, Choice) else found)


def before(kinds):
    """What offers such wakes before steps of these kinds."""
    def change(found, wakes, world):
        is_later = isinstance(found, Forced) and found.step.kind in kinds
        return Choice(tuple(step for step in wakes if step.first == wakes[0].first)) if is_later else found
    return deciding(change)


def behind_any_source(found, wakes, world):
    """What offers matches of any source first."""
    matches = [step for step in enabled_steps(world) if step.kind == 'match']
    return Choice(tuple(matches)) if isinstance(found, Choice) and matches else found


def beside_matches(found, wakes, world):
    """What offers such wakes and the matches of any source at once."""
    matches = [step for step in enabled_steps(world) if step.kind == 'match']
    return Choice(found.steps + tuple(matches)) if isinstance(found, Choice) else found


DECISIONS = (
    ('one wake by a handle forced', of_wakes(lambda found, wakes: Forced(found.steps[0]) if len(found.steps) == 1 else found)),
    ('the first wake by a handle forced', of_wakes(lambda found, wakes: Forced(found.steps[0]))),
    ('the wakes by a handle of all ranks', of_wakes(lambda found, wakes: Choice(tuple(wakes)))),
    ('the wakes by a handle of the highest rank', of_wakes(
        lambda found, wakes: Choice(tuple(step for step in wakes if step.first == wakes[-1].first)))),
    ('the last wake by a handle passed by', of_wakes(lambda found, wakes: Choice(found.steps[:-1] or found.steps))),
    ('wakes by a handle from the last on', of_wakes(lambda found, wakes: Choice(found.steps[::-1]))),
    ('wakes by a handle before matches that name their source', before(('match',))),
    ('wakes by a handle before wakes', before(('wake', 'match'))),
    ('wakes by a handle before the release', before(('release', 'wake', 'match'))),
    ('wakes by a handle before local steps', before(('local', 'release', 'wake', 'match'))),
    ('wakes by a handle behind matches of any source', deciding(behind_any_source)),
    ('wakes by a handle beside matches of any source', deciding(beside_matches)))


def decision_faults():
    """Those of what a debugger does by itself."""
    return [Breakage(name, 'waitany', policy, 'decision', decided) for name, decided in DECISIONS]


def walk_faults():
    """The same of reports."""
    return [Breakage(name, 'waitany', walks, 'decision', decided) for name, decided in DECISIONS]


def hitting(change):
    """What a wake by a handle hits otherwise: by the sound test, the breakpoint, the world before and the step."""
    is_hit = policy.is_hit

    def hits(stop, world, step):
        found = is_hit(stop, world, step)
        return change(found, stop, world, step) if step.kind == ANY else found
    return hits


def of_kind(kind, told):
    """The same of one kind of breakpoints."""
    return hitting(lambda found, stop, world, step: told(stop, world, step) if isinstance(stop, kind) else found)


def at_its_statement(stop, world, step):
    """What is hit by a match at the line of the request that a rank goes on by."""
    request = CallId(step.first, held(world, step.first, step.second))
    return debugger.find_call(world, request).line == stop.line


def by_place_alone(stop, world, step):
    """What sees the cell of the place alone change."""
    after = debugger.next_world(world, step)
    cell = world.ranks[step.first].calls[-1].cell
    return (stop.rank, stop.cell) == (step.first, cell) and policy.cell_in(world, *stop) != policy.cell_in(after, *stop)


def hit_faults():
    def line_of_rank(stop, world, step):
        return any(policy.is_at_line(rank, stop.line) for rank in debugger.next_world(world, step).ranks)

    return [Breakage(name, 'waitany', policy, 'is_hit', is_hit) for name, is_hit in (
        ('no line by a wake by a handle', of_kind(policy.LineBreak, lambda *_: False)),
        ('a line of any rank by a wake by a handle', of_kind(policy.LineBreak, line_of_rank)),
        ('no change by a wake by a handle', of_kind(policy.ChangeBreak, lambda *_: False)),
        ('a change of the place alone by a wake by a handle', of_kind(policy.ChangeBreak, by_place_alone)),
        ('a match by a wake by a handle', of_kind(policy.MatchBreak, at_its_statement)))]


# ---- the order of calls

def with_targets(cases_of):
    """What has a request before a wait for any of a declaration whose handle it is, or was once."""
    def cases(world, first, second):
        found, call = cases_of(world, first, second), debugger.find_call(world, second)
        if found or call is None or call.kind != 'waitany' or first.rank != second.rank or first.number >= second.number:
            return found
        return {'wait'} if debugger.find_call(world, first).kind in ('send', 'recv') else found
    return cases


def without_waits_for_any(cases_of):
    """What has nothing behind a wait for any."""
    def cases(world, first, second):
        found = cases_of(world, first, second)
        return found - {'blocks'} if found and debugger.find_call(world, first).kind == 'waitany' else found
    return cases


def order_faults(order):
    """Those of which call completes before which, as a module has it; and of which steps are enabled, seen by the calls and the match sets."""
    return [Breakage('before with the requests of a wait for any', 'waitany', order, 'cases_of', with_targets(order.cases_of)),
            Breakage('before without waits for any', 'waitany', order, 'cases_of', without_waits_for_any(order.cases_of)),
            *(fault for fault in step_faults() if fault.attribute in ('can_wake_by', 'can_wake'))]
