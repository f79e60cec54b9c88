"""Faults that are put into the answers of the model's sessions on purpose; compare/runs/sessions.py must notice each."""

from typing import NamedTuple

from faults import policy_faults
from faults.policy_faults import Breakage
from model import debugger, explorer, policy, session
from model.debugger import enabled_steps, next_world, step_text
from model.policy import FULL, Breaks, ChangeBreak, Choice, Forced, Leaf, Stop
from model.session import BAD_NUMBER, Refused, Session, copied, must_be


class Sound(NamedTuple):
    """What is not broken."""
    answers: dict
    answer: object


SOUND = Sound(dict(session.ANSWERS), Session.answer)


# ---- versions

def at_last(self, request):
    """What tests the version behind the refusals of the row."""
    try:
        there = self.told(request._replace(at=None)) if request.command not in session.CHANGING else None
    except Refused as refused:
        return refused.reply()
    if there is None and request.at not in (None, self.version):
        return refusal_first(self, request)
    return SOUND.answer(self, request)


def refusal_first(self, request):
    """The reply of a request that changes a session where its refusals come before that for the version: it is tried on a copy."""
    try:
        copied(self).told(request)
    except Refused as refused:
        return refused.reply()
    return SOUND.answer(self, request)


def raised_for(*outcomes):
    """What raises the version for requests that were answered so: `refused`, or the command that was answered ok."""
    def answer(self, request):
        reply = SOUND.answer(self, request)
        self.version += ('refused' if not reply['ok'] else request.command) in outcomes
        return {**reply, 'version': self.version} if reply['ok'] else reply
    return answer


def refused_and_raised(self, request):
    """What raises the version where a request was refused that it would rise for."""
    reply = SOUND.answer(self, request)
    self.version += not reply['ok'] and request.command in session.CHANGING
    return reply


def at_ignored(self, request):
    return SOUND.answer(self, request._replace(at=None))


def at_of_changes(self, request):
    """What looks at the version of those requests alone that change something."""
    return SOUND.answer(self, request if request.command in session.CHANGING else request._replace(at=None))


def older_alone(self, request):
    """What takes a version that is still to come."""
    ahead = request.at is not None and request.at > self.version
    return SOUND.answer(self, request._replace(at=None) if ahead else request)


def version_before(self, request):
    """What tells the version before the request."""
    now = self.version
    reply = SOUND.answer(self, request)
    return {**reply, 'version': now} if reply['ok'] else reply


def unmoved(self, request):
    """What raises the version only where the depth is another, or it was about breakpoints."""
    depth, version = self.debugger.depth, self.version
    reply = SOUND.answer(self, request)
    if reply['ok'] and 'break' not in request.command and self.debugger.depth == depth:
        self.version = version
        return {**reply, 'version': version}
    return reply


def version_faults():
    answers = (
        ('the version tested last', at_last), ('the version raised for each refusal', raised_for('refused')),
        ('the version raised for a refusal of what changes', refused_and_raised), ('the version raised for a question', raised_for('state')),
        ('the version raised by what is explored', raised_for('explore')), ('the version raised for `breaks`', raised_for('breaks')),
        ('a version that is not looked at', at_ignored), ('a version looked at for changes alone', at_of_changes),
        ('a version to come that is taken', older_alone), ('the version before the request', version_before),
        ('no version for what moves nothing', unmoved))
    return [Breakage(name, Session, 'answer', replacement) for name, replacement in answers] + [
        Breakage(f'no version for {command}', session, 'CHANGING', session.CHANGING - {command}) for command in sorted(session.CHANGING)]


# ---- commands

def command(name, what, change):
    """A fault of a command: what answers it is changed."""
    return Breakage(name, session, 'ANSWERS', {**SOUND.answers, what: change(SOUND.answers[what])})


def also(limit):
    """What lets a count be larger by one or less."""
    def change(sound):
        def answer(self, count):
            must_be(limit[0] <= count <= limit[1], BAD_NUMBER)
            return sound(self, count) if 1 <= count <= session.MOST_COUNT else self.where()
        return answer
    return change


def as_far(there):
    """What goes as far as it can where a count is too large."""
    def change(sound):
        def answer(self, count):
            most = there(self)
            return sound(self, min(count, most)) if most and 1 <= count <= session.MOST_COUNT else sound(self, count)
        return answer
    return change


def one_by_one(sound):
    """What goes a step although the count is refused."""
    def answer(self, count):
        if count > self.debugger.depth >= 1:
            self.debugger.back()
        return sound(self, count)
    return answer


def with_choice(sound):
    """What looks at the choice at a forced step."""
    def answer(self, choice=None):
        if choice and isinstance(policy.decision(self.world), Forced):
            raise Refused(BAD_NUMBER)
        return sound(self, choice)
    return answer


def bad_number_first(sound):
    """What tells a missing choice as a wrong number."""
    def answer(self, choice=None):
        if choice is None and isinstance(policy.decision(self.world), Choice):
            raise Refused(BAD_NUMBER)
        return sound(self, choice)
    return answer


def first_candidate(sound):
    def answer(self, choice=None):
        return sound(self, 0 if choice is None else choice)
    return answer


def alone_is_forced(sound):
    """What needs no choice where one candidate is there."""
    def answer(self, choice=None):
        decided = policy.decision(self.world)
        alone = isinstance(decided, Choice) and len(decided.steps) == 1
        return sound(self, 0 if alone and choice is None else choice)
    return answer


def choice_at_leaf(sound):
    """What needs a choice at a leaf, or tells a given one as a wrong number."""
    def answer(self, choice=None):
        if choice is not None and isinstance(policy.decision(self.world), Leaf):
            raise Refused(BAD_NUMBER)
        return sound(self, choice)
    return answer


def count_too_large(sound):
    def answer(self, choice=None):
        decided = policy.decision(self.world)
        if isinstance(decided, Choice) and choice == len(decided.steps):
            choice -= 1
        return sound(self, choice)
    return answer


def full_before_choice(sound):
    """What tells the last depth before what is wrong of a choice."""
    def answer(self, choice=None):
        if enabled_steps(self.world) and self.debugger.depth == debugger.MOST_STEPS:
            raise Refused(session.FULL)
        return sound(self, choice)
    return answer


def full_before_enabled(sound):
    def answer(self, step):
        if self.debugger.depth == debugger.MOST_STEPS:
            raise Refused(session.FULL)
        return sound(self, step)
    return answer


def never_full(sound):
    def answer(self, step):
        must_be(next_world(self.world, step) is not None, session.NOT_ENABLED)
        if self.debugger.depth < debugger.MOST_STEPS:
            return sound(self, step)
        raise Refused(session.NOT_ENABLED)
    return answer


def run_refused(sound):
    """What refuses a run at the last depth."""
    def answer(self, most):
        told = sound(self, most)
        if told['stop'] == FULL and not told['steps']:
            raise Refused(session.FULL)
        return told
    return answer


def run_at_leaf(sound):
    """What refuses a run where no step is enabled."""
    def answer(self, most):
        if isinstance(policy.decision(self.world), Leaf):
            raise Refused(session.NOT_ENABLED)
        return sound(self, most)
    return answer


def back_at_start(sound):
    """What refuses a run back at the start."""
    def answer(self):
        must_be(self.debugger.depth, session.AT_START)
        return sound(self)
    return answer


def telling(change):
    """What tells something else."""
    def changed(sound):
        def answer(self, **fields):
            before = self.debugger.depth
            return change(self, sound(self, **fields), before)
        return answer
    return changed


def depth_before(self, told, before):
    return {**told, 'depth': before}


def forgetting(sound):
    """What drops the undone steps first."""
    def answer(self, **fields):
        del self.debugger.steps[self.debugger.depth:]
        return sound(self, **fields)
    return answer


def moved_by_questions(sound):
    """What is left at the first candidate where it is asked to explore."""
    def answer(self, **fields):
        told = sound(self, **fields)
        decided = policy.decision(self.world)
        if isinstance(decided, Choice):
            self.debugger.take(decided.steps[0])
        return told
    return answer


def fuel_from_start(sound):
    def answer(self, runs, fuel):
        told = sound(self, runs, fuel)
        found = explorer.explored(self.debugger, runs, max(0, fuel - self.debugger.depth))
        return {**told, 'leaves': list(map(session.leaf_text, found.leaves)), 'more': found.more}
    return answer


def fuel_anywhere(sound):
    """What takes 1,000,000 steps of fuel at any depth."""
    def answer(self, runs, fuel):
        return sound(self, runs, min(fuel, debugger.MOST_STEPS - self.debugger.depth) if fuel <= debugger.MOST_STEPS else fuel)
    return answer


def fuel_less(sound):
    """What takes one step of fuel less at most."""
    def answer(self, runs, fuel):
        must_be(fuel < debugger.MOST_STEPS - self.debugger.depth, BAD_NUMBER)
        return sound(self, runs, fuel)
    return answer


def runs_up_to(most):
    def change(sound):
        def answer(self, runs, fuel):
            must_be(runs <= most, BAD_NUMBER)
            return sound(self, min(runs, explorer.MOST_RUNS), fuel)
        return answer
    return change


def told_of_leaves(change):
    def changed(sound):
        def answer(self, **fields):
            told = sound(self, **fields)
            return {**told, 'leaves': list(map(change, told['leaves']))}
        return answer
    return changed


def without_field(name, wanted=lambda told: True):
    return telling(lambda self, told, _: {key: value for key, value in told.items() if key != name or not wanted(told)})


def outcome_always(self, told, _):
    return {'outcome': None, **told}


def decided_steps(world):
    """The steps that `next` may take."""
    decided = policy.decision(world)
    if isinstance(decided, Forced):
        return [decided.step]
    return decided.steps if isinstance(decided, Choice) else []


def handles_as(value):
    return telling(lambda self, told, _: {**told, 'handles': [value if handle is None else handle for handle in told['handles']]})


def of_calls(change):
    """What lists the calls of a rank otherwise: by a change of the text of each, and its name."""
    def changed(sound):
        def answer(self, rank):
            return {'calls': [change(text, f'{rank}.{number}') for number, text in enumerate(sound(self, rank)['calls'])]}
        return answer
    return changed


def free_calls_alone(sound):
    def answer(self, rank):
        return {'calls': [text for text in sound(self, rank)['calls'] if text.endswith(' free')]}
    return answer


def bad_call_is_empty(sound):
    """What answers nothing of a call that isn't there."""
    def answer(self, rank, call):
        return sound(self, rank, call) if debugger.find_call(self.world, debugger.CallId(rank, call)) else {'partners': []}
    return answer


def partners_as(change):
    def changed(sound):
        def answer(self, rank, call):
            return {'partners': change(sound(self, rank, call)['partners'])}
        return answer
    return changed


def rank_beyond(sound):
    """What answers of the last rank where one is asked that isn't there."""
    def answer(self, rank):
        return sound(self, min(rank, len(self.world.ranks) - 1))
    return answer


def first_rank(sound):
    """What tells of the first rank, whichever is asked that is there."""
    def answer(self, rank):
        return sound(self, 0 if rank < len(self.world.ranks) else rank)
    return answer


def lines_up_to(lowest, highest):
    def change(sound):
        def answer(self, kind, line=None, **cell):
            if line is not None:
                must_be(lowest <= line <= highest, BAD_NUMBER)
                return sound(self, kind, line) if 1 <= line <= session.HIGHEST_LINE else {'break': self.breaks.add(policy.LineBreak(line))}
            return sound(self, kind, **cell)
        return answer
    return change


def few_lines(sound):
    """What refuses a line beyond 1,000, which the scripts don't have."""
    def answer(self, kind, line=None, **cell):
        return sound(self, kind, line=line if line is None or line < 1000 else 0, **cell)
    return answer


def full_first(sound):
    """What tells that no place is left before a wrong number."""
    def answer(self, **fields):
        must_be(None in self.breaks.places, session.BREAKS_FULL)
        return sound(self, **fields)
    return answer


def cells_unlooked(sound):
    """What takes a cell that isn't there."""
    def answer(self, kind, rank=None, cell=None, **others):
        if kind == 'change':
            number = self.breaks.add(ChangeBreak(rank, cell))
            must_be(number is not None, session.BREAKS_FULL)
            return {'break': number}
        return sound(self, kind, rank=rank, cell=cell, **others)
    return answer


def meant_unlooked(sound):
    """What takes any rank for a line or a match."""
    def answer(self, kind, rank=None, **others):
        if kind not in ('line', 'match') or rank is None:
            return sound(self, kind, rank=rank, **others)
        told = sound(self, kind, **others)
        self.breaks.places[told['break']] = self.breaks.places[told['break']]._replace(rank=rank)
        return told
    return answer


def compared_unlooked(sound):
    """What takes any cell for a condition."""
    def answer(self, kind, line=None, rank=None, cell=None, operator=None, value=None, **others):
        if kind != 'line' or cell is None:
            return sound(self, kind, line=line, rank=rank, cell=cell, **others)
        told = sound(self, kind, line=line, rank=rank)
        self.breaks.places[told['break']] = self.breaks.places[told['break']]._replace(condition=policy.Condition(cell, operator, value))
        return told
    return answer


def once_each(sound):
    """What answers the number of a breakpoint that is there already."""
    def answer(self, **fields):
        told = sound(self, **fields)
        places = self.breaks.places
        first = places.index(places[told['break']])
        if first != told['break']:
            self.breaks.remove(told['break'])
        return {'break': first}
    return answer


def never_reused(sound):
    """What numbers a breakpoint behind the highest that was ever there."""
    def answer(self, **fields):
        last = getattr(self, 'last_number', -1)
        told = sound(self, **fields)
        number = told['break']
        if number <= last < policy.MOST_BREAKS - 1:
            self.breaks.places[last + 1], self.breaks.places[number] = self.breaks.places[number], None
            number = last + 1
        self.last_number = max(last, number)
        return {'break': number}
    return answer


def noting(sound):
    """What keeps the numbers of breakpoints in the order in which they were set."""
    def answer(self, **fields):
        told = sound(self, **fields)
        self.order = [number for number in getattr(self, 'order', []) if number != told['break']] + [told['break']]
        return told
    return answer


def as_set(sound):
    """What lists the breakpoints in that order."""
    def answer(self):
        order = getattr(self, 'order', [])
        return {'breaks': sorted(sound(self)['breaks'], key=lambda text: order.index(int(text.split()[0])))}
    return answer


def always_removed(sound):
    def answer(self, number):
        self.breaks.remove(number)
        return {}
    return answer


def unbreak_bad_number(sound):
    """What tells a number as wrong that no breakpoint can have."""
    def answer(self, number):
        must_be(number < policy.MOST_BREAKS, BAD_NUMBER)
        return sound(self, number)
    return answer


def listed_as(change):
    return lambda sound: lambda self: {'breaks': change(sound(self)['breaks'])}


def marking_all(self, told, before):
    """What tells no breakpoint by its number but how many there are."""
    return {**told, 'break': sum(stop is not None for stop in self.breaks.places)} if 'break' in told else told


def changed_always(stop, world, step, sound=policy.is_hit):
    """What is hit by each step that writes the rank of a cell, whether the cell changes or not."""
    if not isinstance(stop, ChangeBreak) or step.kind not in ('local', 'wake'):
        return sound(stop, world, step)
    return step.first == stop.rank


def back_unmarked(walked, breaks):
    """What goes to the start whatever breakpoints there are."""
    steps = walked.depth
    walked.goto(0)
    return Stop(steps, policy.START)


def back_without_changes(run_back=policy.run_back):
    """What doesn't stop at a breakpoint on a cell when it goes back."""
    def ran(walked, breaks):
        others = Breaks()
        others.places = [None if isinstance(stop, ChangeBreak) else stop for stop in breaks.places]
        return run_back(walked, others)
    return ran


def command_faults():
    depth, undone = (lambda self: self.debugger.depth), Session.undone
    found = [
        command('the choice looked at at a forced step', 'next', with_choice), command('a wrong number before a missing choice', 'next', bad_number_first),
        command('the first candidate where none is named', 'next', first_candidate), command('one candidate that is forced', 'next', alone_is_forced),
        command('a choice looked at at a leaf', 'next', choice_at_leaf), command('the last candidate for the one behind it', 'next', count_too_large),
        command('full before a missing choice', 'next', full_before_choice), command('full before not enabled', 'step', full_before_enabled),
        command('not enabled for full', 'step', never_full), command('a run refused at the last depth', 'run', run_refused),
        command('a run refused at a leaf', 'run', run_at_leaf), command('a run back refused at the start', 'run-back', back_at_start),
        command('the depth before a run', 'run', telling(depth_before)), command('the depth before a run back', 'run-back', telling(depth_before)),
        command('a step without its depth', 'next', without_field('depth')), command('a stop without its breakpoint', 'run', without_field('break')),
        command('a run back without its breakpoint', 'run-back', without_field('break')),
        command('a breakpoint told by how many there are', 'run', telling(marking_all)),
        command('no outcome', 'state', without_field('outcome')), command('the outcome null while steps are enabled', 'state', telling(outcome_always)),
        command('undone steps of the whole trail', 'state', telling(lambda self, told, _: {**told, 'undone': len(self.debugger.steps)})),
        command('sets with their word', 'state', telling(lambda self, told, _: {**told, 'sets': [f'set {text}' for text in told['sets']]})),
        command('states with their rank', 'state', telling(
            lambda self, told, _: {**told, 'ranks': [f'rank {number} {text}' for number, text in enumerate(told['ranks'])]})),
        command('handles as -', 'vars', handles_as('-')), command('handles as -1', 'vars', handles_as(-1)),
        command('handles as 0', 'vars', handles_as(0)), command('numbers as texts', 'vars', telling(
            lambda self, told, _: {**told, 'vars': list(map(str, told['vars']))})),
        command('the cells of the first rank', 'vars', first_rank),
        command('a rank that is not there', 'vars', rank_beyond), command('calls of a rank that is not there', 'calls', rank_beyond),
        command('calls with their names', 'calls', of_calls(lambda text, name: f'call {name} {text}')),
        command('free calls alone', 'calls', free_calls_alone), command('a call that is not there', 'why', bad_call_is_empty),
        command('partners by their texts', 'why', partners_as(lambda partners: sorted(partners, key=lambda text: text.split()[1]))),
        command('eligible partners alone', 'why', partners_as(lambda partners: [text for text in partners if text.endswith('eligible')])),
        command('partners that are held alike', 'why', partners_as(lambda partners: [text.split(' by ')[0] for text in partners])),
        command('back as far as it can', 'back', as_far(depth)), command('redo as far as it can', 'redo', as_far(undone)),
        command('goto as far as it can', 'goto', lambda sound: lambda self, depth: sound(self, min(depth, self.debugger.depth))),
        command('goto forward', 'goto', lambda sound: lambda self, depth: (
            SOUND.answers['redo'](self, depth - self.debugger.depth) if self.debugger.depth < depth <= len(self.debugger.steps) else sound(self, depth))),
        command('goto to the present depth refused', 'goto', lambda sound: lambda self, depth: sound(self, depth + (depth == self.debugger.depth))),
        command('one step back although refused', 'back', one_by_one), command('no count of 0 refused', 'back', also((0, session.MOST_COUNT))),
        command('redo by none', 'redo', also((0, session.MOST_COUNT))), command('a larger count', 'back', lambda sound: lambda self, count: (
            sound(self, min(count, session.MOST_COUNT)))),
        command('a larger count of redo', 'redo', lambda sound: lambda self, count: sound(self, min(count, session.MOST_COUNT))),
        command('a run of none', 'run', lambda sound: lambda self, most: sound(self, most) if most else {**self.where(), 'steps': 0, 'stop': 'max'}),
        command('a run of more', 'run', lambda sound: lambda self, most: sound(self, min(most, session.MOST_COUNT))),
        command('steps enabled as one text', 'enabled', lambda sound: lambda self: {'steps': ', '.join(sound(self)['steps'])}),
        command('the decided steps alone', 'enabled', lambda sound: lambda self: {'steps': list(map(step_text, decided_steps(self.world)))}),
        command('undone steps dropped by what is explored', 'explore', forgetting), command('undone steps dropped by a run', 'run', forgetting),
        command('undone steps dropped by a run back', 'run-back', forgetting), command('undone steps dropped by back', 'back', forgetting),
        command('undone steps dropped by goto', 'goto', forgetting), command('undone steps dropped by a step', 'step', forgetting),
        command('undone steps dropped by next', 'next', forgetting), command('what is explored goes on', 'explore', moved_by_questions),
        command('fuel counted from the start', 'explore', fuel_from_start), command('fuel up to 1,000,000 at any depth', 'explore', fuel_anywhere),
        command('one step of fuel less', 'explore', fuel_less), command('65,535 runs at most', 'explore', runs_up_to(65535)),
        command('more than 65,536 runs', 'explore', runs_up_to(2 ** 64)), command('leaves without choices', 'explore', told_of_leaves(
            lambda text: text.split('] ')[1])),
        command('leaves with their word', 'explore', told_of_leaves(lambda text: f'leaf {text}')),
        command('choices with commas', 'explore', told_of_leaves(lambda text: text.split(']')[0].replace(' ', ', ') + ']' + text.split(']')[1])),
        command('always more', 'explore', telling(lambda self, told, _: {**told, 'more': True})),
        command('never more', 'explore', telling(lambda self, told, _: {**told, 'more': False})),
        command('more as a text', 'explore', telling(lambda self, told, _: {**told, 'more': 'yes' if told['more'] else 'no'}))]
    return found + break_faults()


def break_faults():
    return [
        command('line 0', 'break', lines_up_to(0, session.HIGHEST_LINE)), command('line 65,538', 'break', lines_up_to(1, 65538)),
        command('line 65,537 refused', 'break', lines_up_to(1, 65536)), command('few lines', 'break', few_lines),
        command('no place before a wrong number', 'break', full_first), command('cells that are not looked at', 'break', cells_unlooked),
        command('each breakpoint once', 'break', once_each), command('numbers that are not taken again', 'break', never_reused),
        command('a breakpoint that is not there removed', 'unbreak', always_removed),
        command('a number that no breakpoint has told as wrong', 'unbreak', unbreak_bad_number),
        command('breakpoints from the last one on', 'breaks', listed_as(lambda texts: texts[::-1])),
        Breakage('breakpoints in the order in which they were set', session, 'ANSWERS', {
            **SOUND.answers, 'break': noting(SOUND.answers['break']), 'breaks': as_set(SOUND.answers['breaks'])}),
        command('breakpoints by their texts', 'breaks', listed_as(sorted)),
        command('breakpoints by kind', 'breaks', listed_as(lambda texts: sorted(texts, key=lambda text: text.split()[1]))),
        Breakage('a rank that is meant untold', session, 'meant_text', lambda stop: ''),
        Breakage('a condition untold', session, 'condition_text', lambda condition, name=str: ''),
        command('a rank that is meant and is not there', 'break', meant_unlooked), command('a cell of a condition that is not there', 'break', compared_unlooked),
        command('breakpoints without numbers', 'breaks', listed_as(lambda texts: [text.split(' ', 1)[1] for text in texts])),
        Breakage('a cell that is written and doesn\'t change', policy, 'is_hit', changed_always),
        Breakage('a run back to the start', policy, 'run_back', back_unmarked),
        Breakage('a run back past changes', policy, 'run_back', back_without_changes())]


def breakages():
    """All of them, and those of decisions, breakpoints and runs, but for how a leaf ends: no reply has that of a decision."""
    of_runs = [fault for fault in policy_faults.breakages() if fault.name != 'an outcome that is always done']
    return [*version_faults(), *command_faults(), *of_runs, *policy_faults.late_breakages()]
