"""Faults that are put into the model on purpose: the inputs of a kind must notice each (run.py), or the walks of order.py."""

from typing import NamedTuple

from model import debugger, language
from model.debugger import BUFFERED, RENDEZVOUS


class Breakage(NamedTuple):
    """A fault put into the model on purpose, and the kind of inputs that is to notice it."""
    name: str
    kind: str
    owner: object
    attribute: str
    replacement: object


def wrong_remainder(left, right):
    return 0 if right == -1 else left - language.quotient(left, right) * right


def without_lost(issued):
    """What makes a call, and then takes back the one whose request is lost by that."""
    def issued_alone(rank, statement, view):
        after = issued(rank, statement, view)
        lost = [was for was, now in zip(rank.handles, after.handles) if was != now]
        return after._replace(free=tuple(number for number in after.free if number not in lost))
    return issued_alone


def sends_behind(sends_ahead):
    """What names the later sends in place of the earlier ones, where a receive takes messages of any source."""
    def sends_in_the_way(world, send_id, receive_id):
        if debugger.find_call(world, receive_id).other is not None:
            return sends_ahead(world, send_id, receive_id)
        free = debugger.pending(world, send_id.rank, receive_id.rank)
        return [other for other in free if other.number > send_id.number and debugger.fits(world, other, receive_id)]
    return sends_in_the_way


def named_ahead(receives_ahead):
    """What leaves out the earlier receives of any source."""
    def receives_in_the_way(world, send_id, receive_id):
        ahead = receives_ahead(world, send_id, receive_id)
        return [other for other in ahead if debugger.find_call(world, other).other is not None]
    return receives_in_the_way


def status_first(writes_of):
    """What writes the source and the tag before the value."""
    def writes(receive, send, sender):
        value, *status = writes_of(receive, send, sender)
        return [*status, value]
    return writes


def tag_first(writes_of):
    """What writes the tag of a status where the source belongs, and the source where the tag does."""
    def writes(receive, send, sender):
        value, *status = writes_of(receive, send, sender)
        return [value, *((cell, other) for (cell, _), (_, other) in zip(status, reversed(status)))]
    return writes


def by_sender(enabled_steps):
    """What lists the matches by sender."""
    def steps(world):
        return sorted(enabled_steps(world), key=lambda step: step.first if step.kind == 'match' else (-1,))
    return steps


def wakes_first(enabled_steps):
    """What lists the wakes before the local steps."""
    return lambda world: sorted(enabled_steps(world), key=lambda step: step.kind != 'wake')


def twice(enabled_steps):
    """What lists the last match once more."""
    def steps(world):
        listed = enabled_steps(world)
        return listed + [step for step in listed[-1:] if step.kind == 'match']
    return steps


def status_earlier(received):
    """What makes a receive, and evaluates the indexes of its status before all else."""
    def received_late(statement, blocks, view):
        for place in statement.status or ():
            language.cell_of(place, view)
        return received(statement, blocks, view)
    return received_late


def handle_or_variable(reader):
    """What reads a status of which the second place is a handle, where one stands there."""
    reader.tokens.advance()
    first = reader.named_place('var')
    declared = reader.names.get(reader.tokens.current.value)
    return first, reader.named_place(declared.kind if declared else 'var')


def is_gone(rank):
    return rank.mode == 'trapped' or rank.mode == 'running' and rank.rest is None


def without_gone(world):
    """What releases those that are at a barrier, where all others have ended or are trapped."""
    staying = [rank for rank in world.ranks if not is_gone(rank)]
    return bool(staying) and all(map(debugger.is_at_barrier, staying))


def without_running(world):
    """What releases barriers as soon as no rank waits for anything else."""
    return any(map(debugger.is_at_barrier, world.ranks)) and all(
        debugger.is_at_barrier(rank) or rank.mode == 'running' for rank in world.ranks)


def one_left(after_release):
    """What leaves the last rank where it is."""
    def after(world):
        released = after_release(world)
        return released and released.with_rank(len(world.ranks) - 1, world.ranks[-1])
    return after


def wakes_at_barriers(can_wake):
    """What wakes a rank at a barrier, once all are at one."""
    return lambda world, number: can_wake(world, number) or debugger.can_release(world)


def release_last(enabled_steps):
    """What lists the release behind the matches."""
    return lambda world: sorted(enabled_steps(world), key=lambda step: step.kind == 'release')


def woken_by_release(after_release):
    """What makes a record of each rank's call at a release, as a wake does."""
    def after(world):
        released = after_release(world)
        woken = tuple(debugger.Woken(debugger.last_call(world, number)) for number in range(len(world.ranks)))
        return released and released._replace(records=world.records + woken)
    return after


def matched_by_release(after_release):
    """What matches at a release all that may be matched, as if a barrier completed what was sent before."""
    def after(world):
        released = after_release(world)
        while released and (steps := [step for step in debugger.enabled_steps(released) if step.kind == 'match']):
            released = debugger.after_match(released, steps[0].first, steps[0].second)
        return released
    return after


def released_but_one(back):
    """What takes a release back for all ranks but the first."""
    def back_of(self):
        before, answer_of = self.world, back(self)
        if self.depth < len(self.steps) and self.steps[self.depth].kind == 'release':
            self.worlds[-1] = self.world.with_rank(0, before.ranks[0])
        return answer_of
    return back_of


def is_buffered_send(call):
    return call.kind == 'send' and call.buffered


def going_on(after_local):
    """What has a rank go on behind a buffered send that blocks it, without a wake."""
    def after(world, number):
        behind = after_local(world, number)
        if behind is None or behind.ranks[number].mode != 'blocked':
            return behind
        if not is_buffered_send(behind.ranks[number].calls[-1]):
            return behind
        return behind.with_rank(number, behind.ranks[number]._replace(mode='running'))
    return after


def without_message(after_wake):
    """What drops the message of a buffered send that wasn't matched, as its rank goes on."""
    def after(world, number):
        woken = after_wake(world, number)
        if woken is None or woken.ranks[number].calls[-1].kind != 'send':
            return woken
        return debugger.without_free(woken, debugger.last_call(woken, number))
    return after


def without_barriers(outcome):
    """What leaves ranks at a barrier out of a deadlock."""
    def ending(world):
        ranks = [rank._replace(mode='running', rest=None) if debugger.is_at_barrier(rank) else rank for rank in world.ranks]
        return outcome(world._replace(ranks=tuple(ranks))) if outcome(world).startswith('deadlock') else outcome(world)
    return ending


def with_word(meeting):
    """What reads a name behind `barrier`, where one stands there."""
    def read(reader, line):
        if reader.tokens.current.kind == 'name':
            reader.tokens.advance()
        return meeting(reader, line)
    return read


def buffered_by(test):
    """What says of a send whether it is buffered, by the mode and the send."""
    return lambda mode, call, used: call.kind == 'send' and test(mode, call)


def dropping(method):
    """What drops all undone steps behind it, where it is not refused."""
    def dropped(self, *words):
        answer_of = method(self, *words)
        if answer_of.startswith('ok'):
            del self.steps[self.depth:]
        return answer_of
    return dropped


def dropping_anyway(take):
    """What drops all undone steps where a step is refused."""
    def taken(self, step):
        answer_of = take(self, step)
        if answer_of == debugger.REFUSED_NOT_ENABLED:
            del self.steps[self.depth:]
        return answer_of
    return taken


def noted_in_place(self, step):
    """Has a step in the place of the next undone one, and keeps those behind it."""
    self.steps[self.depth:self.depth + 1] = [step]


def is_like_next(self, step):
    """Whether a step is of the same kind as the next undone one."""
    return self.depth < len(self.steps) and self.steps[self.depth].kind == step.kind


def to_another(goto, change):
    """What goes to another depth, by the depth that is named and the one that it is at, where that one isn't refused."""
    def gone(self, depth):
        return goto(self, max(0, change(depth, self.depth)) if depth <= self.depth else depth)
    return gone


def at_present_refused(goto):
    """What takes the present depth for none that is before it."""
    return lambda self, depth: debugger.REFUSED_NOT_BEFORE if depth == self.depth else goto(self, depth)


def forward_too(goto):
    """What goes forward to a depth as well, as far as there are undone steps."""
    def gone(self, depth):
        while self.depth < depth <= len(self.steps):
            self.redo()
        return goto(self, depth)
    return gone


def as_far_as_possible(goto):
    """What stays where it is where the depth is of an undone step, and says so."""
    return lambda self, depth: f'ok {self.depth}' if self.depth < depth <= len(self.steps) else goto(self, depth)


def all_again(redo):
    """What takes all undone steps again."""
    def taken(self):
        answer_of = redo(self)
        while self.depth < len(self.steps):
            answer_of = redo(self)
        return answer_of
    return taken


def last_undone(redo):
    """What takes the last of the undone steps where it is enabled, and not the next."""
    def taken(self):
        if self.depth < len(self.steps) and debugger.next_world(self.world, self.steps[-1]) is not None:
            self.steps[self.depth:] = [self.steps[-1]]
        return redo(self)
    return taken


def unlike(kind):
    """What has a step of a kind never equal to the next undone one."""
    is_next_undone = debugger.Debugger.is_next_undone
    return lambda self, step: step.kind != kind and is_next_undone(self, step)


def first_word_alone(along):
    """What takes a redo with more words for one."""
    return lambda self, words: along(self, words[:1] if words[0] == b'redo' else words)


def breakages():
    return (
        Breakage('undone steps always dropped', 'script', debugger.Debugger, 'is_next_undone', lambda *_: False),
        Breakage('any tags matched', 'script', debugger, 'tags_agree', lambda *_: True),
        Breakage('one operator more allowed', 'limits', language, 'MOST_OPERATORS', language.MOST_OPERATORS + 1),
        Breakage('one cell more allowed', 'arrays', language, 'MOST_CELLS', language.MOST_CELLS + 1),
        Breakage('another version refused as a wrong token', 'mutated', language, 'NOT_IN_VERSION', language.EXPECTED),
        Breakage('a longer line allowed', 'words', debugger, 'LONGEST_LINE', debugger.LONGEST_LINE + 1),
        Breakage('% by -1 without a trap', 'arithmetic', language, 'remainder', wrong_remainder),
        Breakage('a tag more allowed', 'traps', debugger, 'HIGHEST_TAG', debugger.HIGHEST_TAG + 1),
        Breakage('one handle more allowed', 'arrays', language, 'MOST_HANDLES', language.MOST_HANDLES + 1),
        Breakage('a lost request taken back', 'requests', debugger, 'issued', without_lost(debugger.issued)),
        Breakage('a handle kept by its wait', 'requests', debugger, 'cleared', lambda handles, _: handles),
        Breakage('a receive of any source takes the latest send', 'wildcards', debugger, 'sends_ahead',
                 sends_behind(debugger.sends_ahead)),
        Breakage('a receive of any source is overtaken', 'wildcards', debugger, 'receives_ahead',
                 named_ahead(debugger.receives_ahead)),
        Breakage('any source taken for the first rank', 'wildcards', debugger, 'takes_source',
                 lambda receive, source: (receive.other or 0) == source),
        Breakage('any tag taken for tag 0', 'wildcards', debugger, 'tags_agree',
                 lambda send, receive: (receive.tag or 0) == send.tag),
        Breakage('a status written before the value', 'wildcards', debugger, 'writes_of', status_first(debugger.writes_of)),
        Breakage('source and tag of a status turned round', 'wildcards', debugger, 'writes_of', tag_first(debugger.writes_of)),
        Breakage('the indexes of a status evaluated first', 'wildcards', debugger, 'received', status_earlier(debugger.received)),
        Breakage('a handle as a place of a status', 'wildcards', language.Reader, 'status', handle_or_variable),
        Breakage('matches listed by sender', 'wildcards', debugger, 'enabled_steps', by_sender(debugger.enabled_steps)),
        Breakage('wakes listed before local steps', 'wildcards', debugger, 'enabled_steps', wakes_first(debugger.enabled_steps)),
        Breakage('a match listed twice', 'wildcards', debugger, 'enabled_steps', twice(debugger.enabled_steps)),
        Breakage('a blank behind `enabled` alone', 'wildcards', debugger, 'enabled_text',
                 lambda world: 'enabled ' + ', '.join(map(debugger.step_text, debugger.enabled_steps(world)))),
        Breakage('no name read as another', 'names', language, 'TWICE', language.UNKNOWN_NAME),
        Breakage('a barrier released without ranks that are gone', 'barriers', debugger, 'can_release', without_gone),
        Breakage('a barrier released without ranks that run', 'barriers', debugger, 'can_release', without_running),
        Breakage('a release that leaves one rank blocked', 'barriers', debugger, 'after_release', one_left(debugger.after_release)),
        Breakage('a wake at a barrier', 'barriers', debugger, 'can_wake', wakes_at_barriers(debugger.can_wake)),
        Breakage('the release listed last', 'barriers', debugger, 'enabled_steps', release_last(debugger.enabled_steps)),
        Breakage('a release recorded as wakes', 'barriers', debugger, 'after_release', woken_by_release(debugger.after_release)),
        Breakage('a release that completes messages', 'barriers', debugger, 'after_release',
                 matched_by_release(debugger.after_release)),
        Breakage('a release taken back for all but one', 'barriers', debugger.Debugger, 'back',
                 released_but_one(debugger.Debugger.back)),
        Breakage('a deadlock without its barriers', 'barriers', debugger, 'outcome', without_barriers(debugger.outcome)),
        Breakage('a name behind barrier', 'barriers', language.Reader, 'meeting', with_word(language.Reader.meeting)),
        Breakage('a synchronous send read as a standard one', 'barriers', language.Reader, 'sending_synchronously',
                 language.Reader.sending),
        Breakage('a synchronous send shown as a standard one', 'exchanges', debugger, 'call_word',
                 lambda call: ('' if call.blocks else 'i') + call.kind),
        Breakage('all sends buffered in every mode', 'exchanges', debugger, 'is_buffered', buffered_by(lambda *_: True)),
    ) + breakages_of_modes() + breakages_of_trails()


def breakages_of_modes():
    """Faults that are seen in the mode `buffered` alone."""
    return (
        Breakage('a synchronous send complete as it is issued', 'exchanges', debugger, 'is_buffered',
                 buffered_by(lambda mode, _: mode == BUFFERED)),
        Breakage('the modes turned round', 'exchanges', debugger, 'is_buffered',
                 buffered_by(lambda mode, call: mode == RENDEZVOUS and not call.synchronous)),
        Breakage('no send ever buffered', 'exchanges', debugger, 'is_buffered', lambda *_: False),
        Breakage('no blocking send buffered', 'exchanges', debugger, 'is_buffered',
                 buffered_by(lambda mode, call: mode == BUFFERED and not (call.synchronous or call.blocks))),
        Breakage('no send buffered that has a handle', 'exchanges', debugger, 'is_buffered',
                 buffered_by(lambda mode, call: mode == BUFFERED and not call.synchronous and call.blocks)),
        Breakage('a rank that goes on behind a buffered send without a wake', 'exchanges', debugger, 'after_local',
                 going_on(debugger.after_local)),
        Breakage('the message of a buffered send dropped', 'exchanges', debugger, 'after_wake',
                 without_message(debugger.after_wake)),
    )


def breakages_of_trails():
    """Faults of the words that go along the steps that are there, and of the steps that are kept for them."""
    trail = debugger.Debugger
    return (
        Breakage('a redo that drops the rest', 'trails', trail, 'redo', dropping(trail.redo)),
        Breakage('an equal step that drops the rest', 'trails', trail, 'is_next_undone', lambda *_: False),
        *(Breakage(f'an equal {kind} that drops the rest', 'trails', trail, 'is_next_undone', unlike(kind))
          for kind in ('local', 'match', 'wake', 'release')),
        Breakage('another step that keeps the rest', 'trails', trail, 'note', noted_in_place),
        Breakage('another step of the same kind taken for the undone one', 'trails', trail, 'is_next_undone', is_like_next),
        Breakage('a refused step that drops the rest', 'trails', trail, 'take', dropping_anyway(trail.take)),
        Breakage('a step back that drops the rest', 'trails', trail, 'back', dropping(trail.back)),
        Breakage('a goto that drops the rest', 'trails', trail, 'goto', dropping(trail.goto)),
        Breakage('a goto one too far', 'trails', trail, 'goto', to_another(trail.goto, lambda depth, _: depth - 1)),
        Breakage('a goto one too short', 'trails', trail, 'goto', to_another(trail.goto, lambda depth, now: min(now, depth + 1))),
        Breakage('a goto that counts steps back', 'trails', trail, 'goto', to_another(trail.goto, lambda depth, now: now - depth)),
        Breakage('not-before at the present depth', 'trails', trail, 'goto', at_present_refused(trail.goto)),
        Breakage('a goto that goes forward', 'trails', trail, 'goto', forward_too(trail.goto)),
        Breakage('a goto that stays at a depth that is undone', 'trails', trail, 'goto', as_far_as_possible(trail.goto)),
        Breakage('a redo of all undone steps', 'trails', trail, 'redo', all_again(trail.redo)),
        Breakage('a redo of the last undone step', 'trails', trail, 'redo', last_undone(trail.redo)),
        Breakage('a word behind redo', 'trails', trail, 'along', first_word_alone(trail.along)),
        Breakage('a longer number', 'trails', debugger, 'LONGEST_NUMBER', debugger.LONGEST_NUMBER + 1),
    )
