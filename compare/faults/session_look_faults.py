"""Faults that are put into what the model's sessions tell of the script, of all ranks and of steps; compare/runs/sessions.py must notice each."""

from faults.policy_faults import Breakage
from faults.session_faults import SOUND, command, first_rank, forgetting, moved_by_questions, raised_for, rank_beyond, telling, without_field
from model import console_lines, explaining, policy, session
from model.debugger import enabled_steps, outcome
from model.session import MOST_COUNT, Refused, must_be


def told(change):
    """What tells something else, by what is told."""
    return telling(lambda self, found, _: change(self, found))


def listed(name, change):
    """What lists otherwise."""
    return told(lambda self, found: {**found, name: change(found[name])})


def turned(items):
    return items[::-1]


def sizes_left_out(names):
    return [name.split('[')[0] for name in names]


def next_lines(self, found):
    """The line of the next statement, of a rank that waits too."""
    ranks = self.world.ranks
    return {**found, 'lines': [None if console_lines.has_ended(rank) or rank.rest is None else explaining.next_line(rank) for rank in ranks]}


def trapped_have_none(self, found):
    return {**found, 'lines': [None if rank.mode == 'trapped' else line for rank, line in zip(self.world.ranks, found['lines'])]}


def ready_by(kinds):
    """The ranks that have an enabled step of some kinds."""
    def change(self, found):
        return {**found, 'ready': sorted({step.first for step in enabled_steps(self.world) if step.kind in kinds})}
    return told(change)


def matched_too(self, found):
    """The ranks whose calls may be matched, too."""
    of_matches = {call_id.rank for step in enabled_steps(self.world) if step.kind == 'match' for call_id in (step.first, step.second)}
    return {**found, 'ready': sorted({*found['ready'], *of_matches})}


def running_alone(self, found):
    return {**found, 'ready': [number for number, rank in enumerate(self.world.ranks) if rank.mode == 'running']}


def single_is_forced(self, found):
    return {**found, 'decision': 'forced'} if found['decision'] == 'choice' and len(found['steps']) == 1 else found


def forced_is_choice(self, found):
    return {**found, 'decision': 'choice'} if found['decision'] == 'forced' else found


def outcome_anywhere(self, found):
    """What tells how it would have ended here, at a place that is no leaf too."""
    return {'outcome': outcome(self.world), **found}


def for_one(self, found):
    """What doesn't tell whom a message is for."""
    return {**found, 'told': [text.replace(', to rank', '; to rank') for text in found['told']]}


def without_words(self, found):
    return {**found, 'told': [text.split('; ')[0] for text in found['told']]}


def any_count(sound):
    def answer(self, first, count):
        return sound(self, first, count if 1 <= count <= MOST_COUNT else MOST_COUNT)
    return answer


def any_place(sound):
    """What lists nothing behind the last step."""
    def answer(self, first, count):
        return sound(self, min(first, len(self.debugger.steps)), count)
    return answer


def before_the_last(sound):
    """What refuses a place where no step is left."""
    def answer(self, first, count):
        found = sound(self, first, count)
        must_be(first < len(self.debugger.steps), session.BAD_NUMBER)
        return found
    return answer


def up_to_depth(self, found):
    """What lists no steps that lie ahead."""
    return {**found, 'steps': found['steps'][:max(0, len(found['steps']) - found['undone'])]}


def from_depth(sound):
    """What counts from the depth, and not from the start."""
    def answer(self, first, count):
        found = sound(self, first, count)
        return {**found, 'steps': [session.step_text(step) for step in self.debugger.steps[self.debugger.depth:][:count]]}
    return answer


def first_line_alone(lines):
    return lines[:1]


def by_the_receive(partners):
    """The partners of the last call alone."""
    return [None] * (len(partners) - 1) + partners[-1:]


def refused_elsewhere(sound):
    """What refuses to explain where it has not ended."""
    def answer(self):
        if enabled_steps(self.world):
            raise Refused(session.NOT_ENABLED)
        return sound(self)
    return answer


def lost_untold(lines):
    return [line for line in lines if line.startswith('  ')]


def bare(lines):
    return [line.strip() for line in lines]


def first_holding(self, found):
    return {**found, 'held': found['held'][:1] * len(found['held'])}


def highest_hit(self, found):
    """The highest number that the last step hits."""
    walked, depth = self.debugger, self.debugger.depth
    hits = [number for number, stop in enumerate(self.breaks.places) if depth and stop is not None and policy.is_hit(stop, walked.worlds[depth - 1], walked.steps[depth - 1])]
    return {'break': hits[-1]} if hits else found


def next_hit(self, found):
    """What the step that lies ahead hits, where one does."""
    ahead = self.debugger.steps[self.debugger.depth:]
    number = self.breaks.lowest_hit(self.world, ahead[0]) if ahead else None
    return found if number is None else {'break': number}


def back_by_a_step(self, found):
    """What leaves the last step undone."""
    if self.debugger.depth:
        self.debugger.back()
    return found


def refused_at_the_start(sound):
    def answer(self):
        must_be(self.debugger.depth > 0, session.AT_START)
        return sound(self)
    return answer


def noting_stops(sound):
    """What keeps the number of the breakpoint at which a run has stopped."""
    def answer(self, **fields):
        found = sound(self, **fields)
        self.stopped_at = {key: number for key, number in found.items() if key == 'break'}
        return found
    return answer


def last_stop(self):
    """What tells where the last run has stopped, whatever step is the last."""
    return getattr(self, 'stopped_at', {})


def hit_faults():
    """Those of the look at the last step."""
    runs = {name: noting_stops(SOUND.answers[name]) for name in ('run', 'run-on', 'run-back')}
    return [
        command('no breakpoint of the last step', 'hit', without_field('break')), command('the highest breakpoint of the last step', 'hit', told(highest_hit)),
        command('null for no breakpoint of the last step', 'hit', told(lambda self, found: {'break': None, **found})),
        command('the breakpoint of the step ahead', 'hit', told(next_hit)), command('a look that takes the last step back', 'hit', told(back_by_a_step)),
        command('a look at the last step that drops those ahead', 'hit', forgetting),
        command('no look at the last step at the start', 'hit', refused_at_the_start),
        Breakage('the breakpoint of the last run', session, 'ANSWERS', {**SOUND.answers, **runs, 'hit': last_stop}),
        Breakage('the version raised for `hit`', session.Session, 'answer', raised_for('hit'))]


def breakages():
    whole = [command(f'{name} that is left at the first candidate', name, moved_by_questions) for name in ('decision', 'all', 'explain', 'script')]
    lists = [
        command('lines of statements from the last', 'script', listed('lines', turned)), command('the last line of a statement left out', 'script', listed('lines', lambda lines: lines[:-1])),
        command('names without sizes', 'script', told(lambda self, found: {**found, 'vars': sizes_left_out(found['vars']), 'handles': sizes_left_out(found['handles'])})),
        command('handles as variables', 'script', told(lambda self, found: {**found, 'vars': found['vars'] + found['handles']})),
        command('always rendezvous', 'script', told(lambda self, found: {**found, 'mode': 'rendezvous'})),
        command('one rank less', 'script', told(lambda self, found: {**found, 'ranks': found['ranks'] - 1}))]
    ranks = [
        command('lines of ranks from the last', 'where', listed('lines', turned)), command('the next line of a rank that waits', 'where', told(next_lines)),
        command('no line of a rank that is trapped', 'where', told(trapped_have_none)), command('the line 0 for none', 'where', listed('lines', lambda lines: [line or 0 for line in lines])),
        command('who runs can go on, trapped or not', 'where', told(running_alone)), command('a rank that can wake is not ready', 'where', ready_by(('local', 'wakeany'))),
        command('a rank that can be matched is ready', 'where', told(matched_too)), command('what the first rank holds, of all', 'all', told(first_holding)),
        command('what ranks hold from the last', 'all', listed('held', turned)), command('nothing held', 'all', without_field('held'))]
    steps = [
        command('a single candidate that is forced', 'decision', told(single_is_forced)), command('a forced step that is a choice', 'decision', told(forced_is_choice)),
        command('the last candidate left out', 'decision', listed('steps', lambda steps: steps[:-1])), command('words of the last candidate left out', 'decision', listed('told', lambda texts: texts[:-1])),
        command('words in another order', 'decision', listed('told', turned)), command('an outcome at a place that is no leaf', 'decision', told(outcome_anywhere)),
        command('a leaf without its outcome', 'decision', without_field('outcome')),
        command('a message without its receive', 'decision', told(for_one)), command('words without the trace word', 'decision', told(without_words)),
        command('any count of steps', 'steps', any_count), command('any place among steps', 'steps', any_place), command('no place behind the last step', 'steps', before_the_last),
        command('no steps ahead listed', 'steps', told(up_to_depth)), command('steps from the depth on', 'steps', from_depth), command('a step too few', 'steps', listed('steps', lambda steps: steps[:-1]))]
    calls = [
        command('lines of the first rank', 'lines', first_rank), command('lines of the last rank for one that is none', 'lines', rank_beyond),
        command('the first line alone', 'lines', listed('lines', first_line_alone)), command('the partner of the last call alone', 'lines', listed('partners', by_the_receive)),
        command('no partner is no entry', 'lines', listed('partners', lambda others: [other for other in others if other is not None]))]
    ends = [
        command('no explanation elsewhere', 'explain', refused_elsewhere), command('lost requests untold', 'explain', listed('told', lost_untold)),
        command('explanations without blanks', 'explain', listed('told', bare)), command('the first line of an explanation alone', 'explain', listed('told', first_line_alone))]
    return whole + lists + ranks + steps + calls + ends + hit_faults()
