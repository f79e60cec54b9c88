"""Faults of what the console's model tells of the way, of where it goes for a rank, of steps that are ahead, of lines without a statement, and of numbers that are refused
(console_faults.py)."""

from inspect import isfunction

from faults.policy_faults import Breakage
from model import console, console_lines, debugger, policy, session
from model.console import Console
from model.console_words import ALL
from model.language import Branch, While
from model.worlds import Step

SOUND = {name: value for name, value in vars(Console).items() if isfunction(value)}
# Refusals that are told as others.
REFUSED_OTHERWISE = (
    ('goto', session.NOT_BEFORE, session.NO_REDO), ('redo', session.NO_REDO, session.AT_START), ('back', session.AT_START, console.BAD_STEPS),
    ('goto as back', session.NOT_BEFORE, session.AT_START), ('redo as goto', session.NO_REDO, session.NOT_BEFORE),
    ('back as goto', session.AT_START, session.NOT_BEFORE),
    ('delete', session.NO_SUCH_BREAK, console.BAD_LINE), ('full', session.FULL, session.NOT_ENABLED),
    ('breaks', session.BREAKS_FULL, session.NO_SUCH_BREAK), ('steps', console.BAD_STEPS, console.BAD_RUNS),
    ('steps as fewer that are ahead', console.BAD_STEPS, session.NO_REDO), ('runs', console.BAD_RUNS, console.BAD_STEPS),
    ('lines', console.BAD_LINE, console.NO_RANK), ('ranks', console.NO_RANK, console.NO_CALL), ('calls', console.NO_CALL, console.NO_RANK))


def named(name, faults, owner=Console):
    """Faults that stand in the place of a method, each by what it is called."""
    return [Breakage(f'{name}: {what}', owner, name, replacement) for what, replacement in faults.items()]


# ---- what happens on the way

def is_print(line):
    return ' prints ' in line


def on_the_way(change):
    """What tells otherwise of the way, by the lines of it."""
    return lambda self, before: change(SOUND['on_the_way'](self, before))


def printed_in_all(self, before):
    """What tells all that a rank has printed which prints."""
    lines = SOUND['on_the_way'](self, before)
    all_printed = [' '.join(map(str, rank.printed)) for rank in self.world.ranks]
    return [f'{line.partition(" prints ")[0]} prints {all_printed[int(line.split()[1])]}' if is_print(line) else line for line in lines]


def value_by_value(lines):
    """What has a line for each value."""
    return [f'{line.partition(" prints ")[0]} prints {value}' for line in lines if is_print(line) for value in line.split()[3:]] + [
        line for line in lines if not is_print(line)]


def first_rank(lines):
    """What tells of the first rank that prints alone."""
    return [line for number, line in enumerate(lines) if number == 0 or not is_print(line)]


def all_lost(self, before):
    """What tells all requests that are lost, each time."""
    told = console_lines.print_lines(before, self.world)
    return told if isinstance(self.decided, policy.Leaf) else told + self.lost(self.at)


def lost_at_ends(self, before):
    """What tells of requests that are lost on the way at an end, too."""
    return console_lines.print_lines(before, self.world) + console_lines.newly_lost_lines(before, self.at)


def nothing_at_ends(self, before):
    """What tells nothing of the way to an end."""
    return [] if isinstance(self.decided, policy.Leaf) else SOUND['on_the_way'](self, before)


def rank_by_rank(self, before):
    """What tells of each rank what it has printed, and then what it has lost."""
    return sorted(SOUND['on_the_way'](self, before), key=lambda line: int(line.split()[1]))


def silent(*words):
    """What tells nothing of the way behind some words."""
    def told(self, asked):
        depth, before = self.debugger.depth, self.world
        lines = SOUND['told'](self, asked)
        count = len(self.on_the_way(before)) if self.debugger.depth > depth and asked.word in words else 0
        return [*lines[:1], *lines[1 + count:]]
    return told


def moved(place):
    """What tells of the way at another place among the lines."""
    def told(self, asked):
        depth, before = self.debugger.depth, self.world
        lines = SOUND['told'](self, asked)
        count = len(self.on_the_way(before)) if self.debugger.depth > depth else 0
        return place(lines[:1], lines[1:1 + count], lines[1 + count:])
    return told


def second(first, way, rest):
    """The way behind the second line, where that says why a run stopped."""
    reason = rest[:1] if rest and rest[0].startswith(('stopped: ', 'breakpoint ')) else []
    return [*first, *reason, *way, *rest[len(reason):]]


def told_back(change):
    """What tells of the steps that are taken back, too, by the world before and the one behind."""
    def told(self, asked):
        depth, before = self.debugger.depth, self.at
        lines = SOUND['told'](self, asked)
        return [*lines[:1], *change(before, self.world), *lines[1:]] if self.debugger.depth < depth else lines
    return told


def sender_of_last(self):
    """What takes the sender of a match for its rank."""
    steps = self.debugger.steps[:self.debugger.depth]
    return steps[-1].first.rank if steps and steps[-1].kind == 'match' else SOUND['last_rank'](self)


def to_any_line(self, line):
    """What goes on though no statement begins at the line."""
    if not 1 <= line <= session.HIGHEST_LINE:
        return SOUND['until'](self, line)
    return self.up_to(lambda world, step: policy.is_hit(policy.LineBreak(line), world, step), f'stopped: a rank is at line {line}')


def onward(test, why='stopped: rank {} has gone on'):
    """What goes on to another step of a rank, by the rank, the world and the step."""
    def until_rank(self, number):
        self.rank(number)
        return self.up_to(lambda world, step: test(number, world, step), why.format(number))
    return until_rank


def is_own(number, step):
    """Whether a step is one of a rank's own."""
    return step.kind in ('local', 'wake', 'wakeany') and step.first == number


def hits_rank(number, world, step):
    return policy.is_hit(policy.RankBreak(number), world, step)


def to_statement(number, world, step):
    """Whether the rank has a statement to run behind a step that is its own, or a release."""
    return hits_rank(number, world, step) and bool(debugger.next_world(debugger.next_world(world, step), Step('local', number)))


def backward(test, more=0, which=-1):
    """What goes back to another step of a rank, or so many steps behind it."""
    def back_rank(self, number):
        self.rank(number)
        places = [place for place, step in enumerate(self.debugger.steps[:self.debugger.depth]) if test(number, step)]
        return self.goto(places[which] + more if places else 0)
    return back_rank


def is_local(number, step):
    return step.kind == 'local' and step.first == number


def to_where_it_came(self, number):
    """What goes back to behind the last step but one by which the rank went on."""
    self.rank(number)
    worlds, steps = self.debugger.worlds, self.debugger.steps
    return self.goto(max([0, *(place + 1 for place in range(self.debugger.depth - 1) if hits_rank(number, worlds[place], steps[place]))]))


def refused_at_start(self, number):
    """What refuses to go back where the rank has taken no step."""
    taken = self.debugger.steps[:self.debugger.depth]
    return SOUND['back_rank'](self, number) if any(is_local(number, step) for step in taken) else [console.REFUSALS[session.AT_START]]


def onward_faults():
    return [
        *named('until_rank', {
            'to a step that blocks it, too': onward(lambda number, world, step: is_own(number, step) or step.kind == 'release'),
            'past a release': onward(lambda number, world, step: is_own(number, step) and hits_rank(number, world, step)),
            'to its match': onward(lambda number, world, step: step.kind == 'match' and number in (step.first.rank, step.second.rank) or hits_rank(number, world, step)),
            'to a local step alone': onward(lambda number, world, step: is_local(number, step) and hits_rank(number, world, step)),
            'past its last statement': onward(to_statement),
            'of any rank': onward(lambda number, world, step: any(hits_rank(rank, world, step) for rank in range(len(world.ranks)))),
            'told as a call': onward(hits_rank, 'stopped: that call is over'),
            'told without its rank': onward(hits_rank, 'stopped: the rank has gone on'),
            'a rank that is not there runs on': lambda self, number: SOUND['until_rank'](self, number) if number < len(self.world.ranks) else self.run()}),
        *named('back_rank', {
            'behind that step': backward(is_local, 1),
            'to any step of its own': backward(is_own),
            'to a release, too': backward(lambda number, step: is_own(number, step) or step.kind == 'release'),
            'to a local step of any rank': backward(lambda number, step: step.kind == 'local'),
            'to the first local step': backward(is_local, which=0),
            'to where it came before': to_where_it_came,
            'refused at the start': refused_at_start,
            'a rank that is not there goes back': lambda self, number: SOUND['back_rank'](self, number) if number < len(self.world.ranks) else self.goto(0)})]


def way_line_faults():
    return [
        *named('gone', {
            'nothing is gone': lambda self, depth, ahead: [],
            'gone along the way, too': lambda self, depth, ahead: SOUND['gone'](self, depth, [None, *ahead[1:]] if ahead else ahead),
            'one less': lambda self, depth, ahead: SOUND['gone'](self, depth, ahead[:1] + ahead[2:])}),
        *named('last_rank', {
            'the sender of a match': sender_of_last,
            'rank 0 at the start': lambda self: SOUND['last_rank'](self) if self.debugger.depth else 0}),
        *named('steps_to', {
            'one step more': lambda self, is_last: None if (most := SOUND['steps_to'](self, is_last)) is None else most + 1,
            'one step': lambda self, is_last: 1,
            'all steps': lambda self, is_last: None}),
        *named('up_to', {
            'told as a run': lambda self, is_last, why: SOUND['up_to'](self, is_last, console.STOPS[policy.MAX])}),
        *named('until', {
            'goes on where no statement begins': to_any_line,
            'a line where none begins is none': lambda self, line: [console.REFUSALS[console.BAD_LINE]] if self.no_statement(line) else SOUND['until'](self, line)}),
        *named('on_the_way', {
            'nothing': lambda self, before: [],
            'prints twice': on_the_way(lambda lines: [*filter(is_print, lines), *lines]),
            'no prints': on_the_way(lambda lines: [line for line in lines if not is_print(line)]),
            'all that was printed': printed_in_all,
            'the first value alone': on_the_way(lambda lines: [' '.join(line.split()[:4]) if is_print(line) else line for line in lines]),
            'a line for each value': on_the_way(value_by_value),
            'the first rank that prints alone': on_the_way(first_rank),
            'the last rank first': on_the_way(lambda lines: lines[::-1]),
            'no requests that are lost': on_the_way(lambda lines: list(filter(is_print, lines))),
            'requests that are lost told again': all_lost,
            'requests that are lost at an end, too': lost_at_ends,
            'nothing at an end': nothing_at_ends,
            'rank by rank': rank_by_rank,
            'as vars tells it': on_the_way(lambda lines: [line.replace(' prints ', ' has printed ') for line in lines])}),
        *named('told', {
            **{f'nothing of the way behind {word}': silent(word) for word in ('next', 'run', 'redo', 'goto', 'local')},
            'the way last': moved(lambda first, way, rest: [*first, *rest, *way]),
            'the way first': moved(lambda first, way, rest: [*way, *first, *rest]),
            'the way behind why a run stopped': moved(second),
            'prints that are taken back': told_back(lambda before, world: console_lines.print_lines(world, before.world)),
            'requests that are lost no more': told_back(lambda before, world: console_lines.newly_lost_lines(world, before))})]


# ---- steps that are ahead

def at_choice(change):
    """What takes no step that is ahead at a choice, where no number is said, but does something else."""
    return lambda self, *given: change(self) if not given and self.can_choose_again else SOUND['next'](self, *given)


def as_run(self):
    """What tells the step ahead as a run tells it."""
    return self.along(lambda count, world, step: count == 1, console.STOPS[policy.MAX])


def every(change):
    """What does something else where all that are ahead are to be taken."""
    return lambda self, count=1: change(self) if count == ALL else SOUND['redo'](self, count)


def one_as_several(self):
    SOUND['redo'](self, ALL)
    return self.depth_lines()


def to_choice(self):
    """What takes the steps ahead up to a choice."""
    SOUND['redo'](self, 1)
    while self.ahead and not self.can_choose_again:
        self.session.redo(1)
    return self.depth_lines()


def ahead_faults():
    return [
        *named('next', {
            'the candidates where a step is ahead': at_choice(lambda self: self.where()),
            'the first candidate where a step is ahead': at_choice(lambda self: self.take(self.decided.steps[0])),
            'the step ahead where it is a candidate': at_choice(
                lambda self: self.redo() if self.ahead[0] in self.decided.steps else self.where()),
            'the step ahead told as by a run': at_choice(as_run),
            'the step ahead told by the depth': at_choice(lambda self: [f'depth {self.debugger.depth + 1}', *self.redo()[1:]]),
            'the step ahead whatever the number': lambda self, *given: self.redo() if self.can_choose_again else SOUND['next'](self, *given)}),
        *named('redo', {
            'all is one': every(lambda self: SOUND['redo'](self, 1)),
            'all but one': every(lambda self: SOUND['redo'](self, max(1, len(self.ahead) - 1))),
            'all that is one told by the depth': every(one_as_several),
            'all up to a choice': every(to_choice),
            'all of none': every(lambda self: SOUND['redo'](self, ALL) if self.ahead else self.depth_lines()),
            'all of none as a number': every(lambda self: SOUND['redo'](self, ALL if self.ahead else 0))})]


# ---- lines without a statement

def note(change):
    """What tells otherwise of a line without a statement, by the console, the line and what is told."""
    return lambda self, line: change(self, line, SOUND['no_statement'](self, line))


def lines_of(kinds):
    """What knows statements of some kinds alone, those in blocks too."""
    def statement_lines(body):
        for statement in body:
            if not isinstance(statement, kinds):
                yield statement.line
            if isinstance(statement, Branch):
                yield from statement_lines([*statement.then, *statement.otherwise])
            elif isinstance(statement, While):
                yield from statement_lines(statement.body)
    return statement_lines


def without_else(body):
    """What doesn't look behind `else`."""
    for statement in body:
        yield statement.line
        yield from without_else(statement.then if isinstance(statement, Branch) else statement.body if isinstance(statement, While) else [])


def on_one_line(self, *given):
    """What tells it behind the breakpoint, on its line."""
    lines = SOUND['set_break'](self, *given)
    return [', '.join(lines)]


def of_lines_alone(self, *given):
    """What tells it of no match."""
    lines = SOUND['set_break'](self, *given)
    return lines[:1] if given[0] == 'match' else lines


def of_matches_alone(self, *given):
    """What tells it of matches alone."""
    lines = SOUND['set_break'](self, *given)
    return lines if given[0] == 'match' else lines[:1]


def not_set(self, *given):
    """What sets no breakpoint where no statement begins."""
    lines = SOUND['set_break'](self, *given)
    if len(lines) > 1:
        self.session.unset_break(int(lines[0].split()[1].rstrip(':')))
    return lines


def in_list(self):
    """What tells it in the list of breakpoints, too."""
    found = []
    for number, stop in enumerate(self.session.breaks.places):
        if stop is not None:
            found += [self.break_line(number), *(self.no_statement(stop.line) if isinstance(stop, (policy.LineBreak, policy.MatchBreak)) else [])]
    return found or ['no breakpoint']


def statement_faults():
    return [
        *named('no_statement', {
            'never told': lambda self, line: [],
            'always told': lambda self, line: [f'no statement begins at line {line}'],
            'lines behind the script alone': note(lambda self, line, told: told if line > self.text.count(b'\n') else []),
            'without the line': note(lambda self, line, told: [text.partition(' at ')[0] for text in told])}),
        *named('statement_lines', {
            'none in a block': lambda body: [statement.line for statement in body],
            'none behind else': without_else,
            'if is none': lines_of(Branch),
            'while is none': lines_of(While)}, owner=console_lines),
        *named('set_break', {
            'no statement, on one line': on_one_line,
            'no statement, of lines alone': of_lines_alone,
            'no statement, of matches alone': of_matches_alone,
            'none where no statement begins': not_set,
            'no statement, told first': lambda self, *given: SOUND['set_break'](self, *given)[::-1]}),
        *named('breaks', {
            'no statement, told again': in_list})]


# ---- numbers that are refused

def is_told_as(name, text, other):
    """A refusal of a name or an index that is told as another."""
    return Breakage(f'a refusal told as another: {name}', console, text, other)


def refusal_faults():
    """Refusals that are told as others."""
    return [
        *[Breakage(f'a refusal told as another: {name}', console, 'REFUSALS', {**console.REFUSALS, number: console.REFUSALS[other]})
          for name, number, other in REFUSED_OTHERWISE],
        is_told_as('an index', 'NO_INDEX', console.NEEDS_INDEX), is_told_as('an array', 'NEEDS_INDEX', console.NO_INDEX),
        is_told_as('an index as a rank', 'NO_INDEX', console.REFUSALS[console.NO_RANK]),
        is_told_as('a run', 'NO_RUN', console.REFUSALS[session.NO_REDO])]


def way_faults():
    return [*way_line_faults(), *onward_faults(), *ahead_faults(), *statement_faults(), *refusal_faults()]
