"""Faults that are put into the console of the model on purpose: consoles.py must notice each.

Steps told behind them, candidates from 0, lines of other statements, ranks beside other lines, words that are repeated and others that aren't,
deadlocks by another walk, near misses that are left out, and other names for words that are none.
"""

from inspect import isfunction

from faults.console_faults_of_along import along_faults
from faults.console_faults_of_blame import blame_faults
from faults.console_faults_of_hits import hit_faults
from faults.console_faults_of_lines import line_faults
from faults.console_faults_of_looks import look_faults
from faults.console_faults_of_reloads import reload_faults
from faults.console_faults_of_runs import run_faults
from faults.console_faults_of_ways import way_faults
from faults.console_faults_of_words import word_faults
from faults.policy_faults import Breakage
from model import console, console_lines, debugger, policy, session
from model.console import Console, NamedRun
from model.console_words import ALL, Asked, NotAsked
from model.debugger import Result
from model.modes import is_mode
from model.policy import Forced
from model.run_words import BadChoices, choices_in
from model.session import must_be

SOUND = {name: value for name, value in vars(Console).items() if isfunction(value)}
SOUND_NONE_CALLED, SOUND_REFUSED_WITNESS = console.none_called, console.refused_witness


def named(name, faults, owner=Console):
    """Faults that stand in the place of a method, each by what it is called."""
    return [Breakage(f'{name}: {what}', owner, name, replacement) for what, replacement in faults.items()]


def changed(name, change):
    """What answers otherwise, by the lines of the sound answer, and the console."""
    return lambda self, *given: change(SOUND[name](self, *given), self)


def without(*begins):
    """What leaves out lines that begin so."""
    return lambda lines, self: [line for line in lines if not line.startswith(begins)]


def instead(old, new):
    """What writes something else in all lines."""
    return lambda lines, self: [line.replace(old, new) for line in lines]


# ---- lines

def remembering(remembers):
    """What remembers a line for an empty one by another rule: by the console, the line, and what is asked, None where that is nothing."""
    def lines(self, line):
        before = self.last
        told = SOUND['lines'](self, line)
        self.last = remembers(self, line, before)
        return told
    return lines


def is_none(line, talked):
    """Whether a line isn't understood."""
    if console.is_blank(line) or console.is_comment(line):
        return False
    try:
        return talked.asked(line) is None
    except NotAsked:
        return True


def forgetting(forgets):
    """What forgets the last word behind some lines, by the line and the console."""
    return remembering(lambda self, line, before: None if forgets(line, self) else self.last)


def longest(length):
    """What takes lines of another length as too long."""
    def lines(self, line):
        if console.LONGEST_LINE >= len(line) > length:
            return [console.TOO_LONG]
        return SOUND['lines'](self, line[:console.LONGEST_LINE] if len(line) <= length else line)
    return lines


def long_comments(self, line):
    return [] if console.is_comment(line) else SOUND['lines'](self, line)


def steps_again(self, line):
    """What does `next` of so many steps again, but takes no candidate again."""
    is_forced, before = isinstance(self.decided, Forced), self.last
    told = SOUND['lines'](self, line)
    if self.last == Asked('next') and is_forced and not console.is_blank(line) and not console.is_comment(line) and not is_none(line, self):
        self.last = self.asked(line)
    elif console.is_blank(line):
        self.last = before
    return told


def told_again(*begins):
    """What tells once more, behind an empty line, what isn't understood and is answered by a line that begins so."""
    def lines(self, line):
        if getattr(self, 'last_told', None) and console.is_blank(line) and len(line) <= console.LONGEST_LINE:
            return self.last_told
        told = SOUND['lines'](self, line)
        if not console.is_comment(line) and not console.is_blank(line) and len(line) <= console.LONGEST_LINE:
            self.last_told = told if is_none(line, self) and told[0].startswith(begins) else None
        return told
    return lines


def line_of_words_faults():
    return [
        *named('lines', {
            '4,095 bytes at most': longest(4095),
            '4,097 bytes at most': longest(4097),
            'no comment is too long': long_comments,
            'a comment forgets the last word': forgetting(lambda line, _: console.is_comment(line)),
            'a word that is none forgets the last one': forgetting(is_none),
            'a line that is too long forgets the last word': forgetting(lambda line, _: len(line) > console.LONGEST_LINE),
            'an empty line forgets the last word': forgetting(lambda line, _: console.is_blank(line)),
            'a name that is none is remembered': told_again('no variable'),
            'an index that is none is remembered': told_again('refused'),
            'a word that is none is remembered': told_again('unknown'),
            'a form that does not fit is remembered': told_again('usage'),
            'next of so many steps is done again': steps_again,
            'next and a number is not remembered': remembering(
                lambda self, line, before: before if len(line.split()) > 1 and self.last == Asked('next') and not is_none(line, self) else self.last),
            'a refusal is not remembered': lambda self, line: refused_forgotten(self, line)}),
        *named('asked', {
            'blanks do nothing': lambda self, line: None if line and console.is_blank(line) else SOUND['asked'](self, line)}),
        *named('is_blank', {
            'a carriage return is a blank': lambda line: not line.strip(b' \t\r')}, owner=console),
        *named('is_comment', {
            'not behind blanks': lambda line: line.startswith(b'#'),
            'anywhere': lambda line: b'#' in line}, owner=console),
        *named('quit', {
            'it goes on': lambda self: [],
            'it says so': lambda self: [*SOUND['quit'](self), 'bye']})]


def refused_forgotten(self, line):
    before = self.last
    told = SOUND['lines'](self, line)
    if told and told[0].startswith('refused'):
        self.last = before
    return told


# ---- where it stands

def ahead_last(self):
    """What tells the last step ahead for the first."""
    texts = list(map(debugger.step_text, self.debugger.steps[self.debugger.depth:]))
    return [line.replace(texts[0], texts[-1], 1) if ' ahead: ' in line else line for line in SOUND['where'](self)]


def all_ahead(self):
    """What says that all steps are ahead, those that are taken too."""
    count = len(self.debugger.steps)
    return [f'{count} ahead{line.partition(" ahead")[2]}' if ' ahead: ' in line else line for line in SOUND['where'](self)]


def next_too(self):
    """What tells the next step where steps are ahead, too."""
    decided = self.decided
    is_ahead = self.debugger.depth < len(self.debugger.steps)
    told = [f'next: {console_lines.step_words(self.at, decided.step)}'] if isinstance(decided, Forced) and is_ahead else []
    return SOUND['where'](self) + told


def below_candidates(self):
    """What tells lines of the script below each candidate, too."""
    lines, decided = SOUND['where'](self), self.decided
    if not isinstance(decided, policy.Choice):
        return lines
    head = lines[:len(lines) - len(decided.steps)]
    return head + [line for text, step in zip(lines[len(head):], decided.steps)
                   for line in (text, *console_lines.source(self.text, console_lines.lines_about(self.at, step)))]


def source_last(self):
    """What tells the line of a choice behind its candidates."""
    lines, decided = SOUND['where'](self), self.decided
    if not isinstance(decided, policy.Choice) or not lines[-len(decided.steps) - 1].startswith('   '):
        return lines
    count = len(decided.steps)
    return [*lines[:-count - 1], *lines[-count:], lines[-count - 1]]


def lost_everywhere(self):
    """What tells requests that are lost wherever it stands."""
    lines = SOUND['where'](self)
    return lines if isinstance(self.decided, policy.Leaf) else lines + self.lost(self.at)


def lost_first(self):
    """What tells them before it explains an end."""
    lines, lost = SOUND['where'](self), self.lost(self.at)
    return lines if not isinstance(self.decided, policy.Leaf) or not lost else [lines[0], *lost, *lines[1:-len(lost)]]


def without_source(word):
    """What leaves out lines of the script below a step that is ahead, or comes next."""
    return lambda self, at, head, step: SOUND['with_source'](self, at, head, step)[:1 if word in head else None]


def source_of_next(self, at, head, step):
    """What tells the line at which the rank stands behind the step."""
    behind = debugger.next_world(at.world, step)
    rank = behind.ranks[step.first] if step.kind == 'local' else None
    if rank is None or not debugger.can_run(rank):
        return SOUND['with_source'](self, at, head, step)
    return [SOUND['with_source'](self, at, head, step)[0], *console_lines.source(self.text, [rank.rest[0].line])]


def source_once(self, at, head, step):
    """What tells the first of the lines alone."""
    return SOUND['with_source'](self, at, head, step)[:2]


def ended_alone(self, at):
    return [line for number, rank in enumerate(self.world.ranks) if console_lines.has_ended(rank) for line in console_lines.lost_lines(at, number)]


def where_faults():
    return [
        *named('where', {
            'nothing ahead': changed('where', lambda lines, self: [line for line in lines if ' ahead: ' not in line]),
            'all steps are ahead': all_ahead,
            'the last step ahead': ahead_last,
            'the next step too': next_too,
            'what is ahead comes last': changed('where', lambda lines, self: sorted(lines, key=lambda line: ' ahead: ' in line)),
            'no next step': changed('where', without('next: ')),
            'no candidates': changed('where', lambda lines, self: [line for line in lines if not line.startswith('  ')]),
            'no end': changed('where', without('ended: ')),
            'a line of the script below each candidate': below_candidates,
            'lines of the script behind the candidates': source_last,
            'requests that are lost, everywhere': lost_everywhere,
            'requests that are lost before what is told of the end': lost_first}),
        *named('with_source', {
            'no line of the script below what is ahead': without_source('ahead'),
            'no line of the script below what comes next': without_source('next'),
            'the lines of the step behind it': source_of_next,
            'one line of two': source_once}),
        *named('lost', {
            'no requests': lambda self, at: [],
            'the last rank first': lambda self, at: SOUND['lost'](self, at)[::-1],
            'those of a rank that has ended alone': ended_alone}),
        *named('explanation', {
            'none': lambda self, ended: (),
            'none of a trap': lambda self, ended: () if ended.startswith('trap') else SOUND['explanation'](self, ended),
            'none of a deadlock': lambda self, ended: () if ended.startswith('deadlock') else SOUND['explanation'](self, ended),
            'none of leftovers': lambda self, ended: () if ended.startswith('leftovers') else SOUND['explanation'](self, ended),
            'four spaces': lambda self, ended: [f'  {line}' for line in SOUND['explanation'](self, ended)]})]


# ---- words that move

def told_behind(self, step):
    """What tells a step on the state behind it."""
    lines = SOUND['take'](self, step)
    if step.kind == 'local' and debugger.can_run(self.world.ranks[step.first]):
        lines[0] = f'{self.debugger.depth} {console_lines.step_words(self.at, step)}'
    return lines


def number_looked_at(self, number=None):
    """What looks at the number where there is nothing to choose."""
    if number not in (None, 1) and isinstance(self.decided, Forced):
        return [console.NO_CANDIDATE, *self.where()]
    return SOUND['next'](self, number)


def one_whatever(self, number=None):
    """What takes one step where there is nothing to choose, whatever the number is."""
    return SOUND['next'](self, None if isinstance(self.decided, Forced) else number)


def one_as_taken(self, number=None):
    """What tells a step as it is taken, where one is asked for, and not as a run."""
    return SOUND['next'](self, None if number == 1 and isinstance(self.decided, Forced) else number)


def number_at_end(self, number=None):
    """What refuses a number at an end as a run does."""
    is_end = number is not None and isinstance(self.decided, policy.Leaf)
    return self.run(number) if is_end else SOUND['next'](self, number)


def refused_at_end(self, number=None):
    return [console.REFUSALS[session.NOT_ENABLED]] if isinstance(self.decided, policy.Leaf) else SOUND['next'](self, number)


def dropping(name):
    """What drops the steps ahead."""
    def answer(self, *given):
        told = SOUND[name](self, *given)
        del self.debugger.steps[self.debugger.depth:]
        return told[:1] + self.where() if name != 'deadlock' else told
    return answer


def usual(name, number):
    """What takes another number where none is said."""
    return lambda self, *given: SOUND[name](self, *(given or (number,)))


def forward(change):
    """What goes otherwise to a depth that isn't reached, by the console and the depth."""
    return lambda self, depth: change(self, depth) if depth > self.debugger.depth else SOUND['goto'](self, depth)


def to_choice(self, depth):
    """What stops at a choice on the way forward."""
    must_be(depth <= len(self.debugger.steps), session.NOT_BEFORE)
    self.session.redo(1)
    while self.debugger.depth < depth and not self.can_choose_again:
        self.session.redo(1)
    return self.depth_lines()


def forward_as_redo(self, depth):
    """What tells one step forward as it is told of that."""
    return self.redo() if depth == self.debugger.depth + 1 and self.ahead else SOUND['goto'](self, depth)


def too_many(change):
    """What answers otherwise where more steps are to be taken again than are ahead, and some are; by the console and the number."""
    def redo(self, count=1):
        return change(self, count) if count != ALL and 0 < len(self.ahead) < count else SOUND['redo'](self, count)
    return redo


def refused_where_too_many(self, *_):
    return [console.REFUSALS[session.NO_REDO]]


def highest_looked_at(self, count=1):
    """What refuses numbers above 1,000,000 where steps are ahead, too."""
    must_be(count == ALL or count <= session.MOST_COUNT, console.BAD_STEPS)
    return SOUND['redo'](self, count)


def number_not_looked_at(self, count=1):
    """What refuses any number but 0 where no step is ahead as it refuses 1."""
    return SOUND['redo'](self, count if self.ahead or count == ALL else min(count, 1))


def all_as_several(self, count=1):
    """What tells a depth where more were asked for than the one step that was ahead."""
    SOUND['redo'](self, count)
    return self.depth_lines()


def as_far_as_it_goes(name, most):
    """What takes as many steps as there are where more are asked for."""
    def answer(self, count=1):
        there = most(self)
        return SOUND[name](self, min(count, there) if there else count)
    return answer


def without_reason(self, stop, back):
    """What doesn't say why a run stopped."""
    return [line for line in SOUND['stopped'](self, stop, back) if not line.startswith(('breakpoint', *console.STOPS.values()))]


def with_end(self, stop, back):
    """What says that a run stopped at an end."""
    first, *others = SOUND['stopped'](self, stop, back)
    return [first, *['stopped: end'] * (stop.cause == policy.LEAF), *others]


def one_as_several(self, count=1):
    """What tells a depth where one step is taken again."""
    SOUND['redo'](self, count)
    return self.depth_lines()


def move_faults():
    return [
        *named('take', {
            'told behind the step': told_behind,
            'the depth before': changed('take', lambda lines, self: [f'{self.debugger.depth - 1} {lines[0].partition(" ")[2]}', *lines[1:]]),
            'no depth': changed('take', lambda lines, self: [lines[0].partition(' ')[2], *lines[1:]]),
            'not where it stands': changed('take', lambda lines, self: lines[:1])}),
        *named('next', {
            'a number where there is no choice': number_looked_at,
            'one step whatever the number': one_whatever,
            'one step as it is taken': one_as_taken,
            'the number at an end too': number_at_end,
            'refused at an end': refused_at_end,
            'the first candidate where none is said': lambda self, number=1: SOUND['next'](self, number),
            'candidates from 0': lambda self, number=None: SOUND['next'](self, None if number is None else number + 1),
            'no such candidate alone': changed('next', lambda lines, self: lines[:1] if lines[0] == console.NO_CANDIDATE else lines)}),
        *named('run', {
            'ten steps': usual('run', 10),
            'one step': usual('run', 1)}),
        *named('stopped', {
            'no reason': without_reason,
            'no depth': lambda self, stop, back: [line.partition(', depth')[0] for line in SOUND['stopped'](self, stop, back)],
            'back is not told': lambda self, stop, back: SOUND['stopped'](self, stop, ''),
            'a run is before a breakpoint, too': lambda self, stop, back: [line.replace('breakpoint', 'before breakpoint') if not back else line
                                                                           for line in SOUND['stopped'](self, stop, back)],
            'a run back is at a breakpoint': lambda self, stop, back: [line.removeprefix('before ') for line in SOUND['stopped'](self, stop, back)],
            'an end that is told': with_end}),
        *named('depth_lines', {
            'not where it stands': lambda self: SOUND['depth_lines'](self)[:1],
            'no depth': lambda self: SOUND['depth_lines'](self)[1:]}),
        *named('back', {
            'two steps': usual('back', 2),
            'as many as there are': as_far_as_it_goes('back', lambda self: self.debugger.depth),
            'what is ahead is dropped': dropping('back')}),
        *named('goto', {
            'forward is refused': forward(lambda self, depth: [console.REFUSALS[session.NOT_BEFORE]]),
            'forward to the end': forward(lambda self, depth: SOUND['goto'](self, min(depth, len(self.debugger.steps)) if self.ahead else depth)),
            'one too few forward': forward(lambda self, depth: SOUND['goto'](self, depth if depth > len(self.debugger.steps) else depth - 1)),
            'to a choice on the way forward': forward(to_choice),
            'one step forward as redo tells it': forward(forward_as_redo),
            'forward is refused otherwise': forward(lambda self, depth: SOUND['redo'](self, depth - self.debugger.depth)
                                                    if depth > len(self.debugger.steps) and not self.ahead else SOUND['goto'](self, depth)),
            'one too far': lambda self, depth: SOUND['goto'](self, max(0, depth - 1) if depth <= self.debugger.depth else depth),
            'what is ahead is dropped': dropping('goto')}),
        *named('redo', {
            'of one as of several': one_as_several,
            'of several as of one': lambda self, count=1: of_one(self, count),
            'all that are ahead': lambda self, count=None: SOUND['redo'](self, count or max(1, self.session.undone())),
            'more than are ahead are refused': too_many(refused_where_too_many),
            'one too few of more than are ahead': too_many(lambda self, count: SOUND['redo'](self, max(1, len(self.ahead) - 1))),
            'one of more than are ahead': too_many(lambda self, count: SOUND['redo'](self)),
            'all that is one as several': too_many(all_as_several),
            'numbers above 1,000,000 are refused': highest_looked_at,
            'the number is not looked at where none is ahead': number_not_looked_at}),
        *named('run_back', {
            'one step at most': lambda self: SOUND['back'](self) if self.debugger.depth else SOUND['run_back'](self),
            'what is ahead is dropped': dropping('run_back')})]


def of_one(self, count):
    """What tells the first step of several."""
    ahead = self.debugger.steps[self.debugger.depth:]
    told = console_lines.step_words(self.at, ahead[0]) if ahead else None
    lines = SOUND['redo'](self, count)
    return [f'{self.debugger.depth} {told}', *lines[1:]]


# ---- breakpoints and names

def rank_first(self, asked):
    """What looks at the rank before the name."""
    ranks = asked.given[1:2] if asked.word == 'print' or asked.word == 'break' and asked.given[0] == 'change' else ()
    if ranks and ranks[0] >= len(self.world.ranks):
        raise NotAsked(console.REFUSALS[console.NO_RANK])
    return SOUND['understood'](self, asked)


def full_first(self, *given):
    """What tests first whether there is a place."""
    must_be(None in self.session.breaks.places, session.BREAKS_FULL)
    return SOUND['set_break'](self, *given)


def first_place(self, word):
    """What takes the first place of an array where no index is said."""
    meant = self.meant(word)
    return meant._replace(places=meant.places[:1]) if len(meant.places) > 1 else SOUND['one'](self, word)


def array_of_none(self, word):
    """What takes no array without an index, one of one place neither."""
    declared = self.script.names.get(word.decode('latin-1'))
    if declared is not None and declared.size is not None:
        raise NotAsked(console.NEEDS_INDEX)
    return SOUND['one'](self, word)


def variables_alone(self, word):
    """What says that a request is no variable."""
    if self.meant(word).declared.kind == 'req':
        raise NotAsked(f"no variable is called '{console.shown(word)}'")
    return SOUND['one'](self, word)


def request_without_index(self, word):
    """What takes the first of an array of requests where no index is said, and of one of cells none."""
    meant = self.meant(word)
    return meant._replace(places=meant.places[:1]) if meant.declared.kind == 'req' and meant.places else SOUND['one'](self, word)


def handle_as_cell(self, *given):
    """What sets a breakpoint of a request on the cell that has its number."""
    if given[0] == 'change' and given[2].declared.kind == 'req':
        cell = given[2].declared.first + given[2].places[0]
        return [self.break_line(self.session.set_break('change', rank=given[1], cell=cell)['break'])]
    return SOUND['set_break'](self, *given)


def other_handle(self, *given):
    """What sets it on the handle of the place in its array, and not among all."""
    if given[0] == 'change' and given[2].declared.kind == 'req':
        return SOUND['set_break'](self, *given[:2], given[2]._replace(declared=given[2].declared._replace(first=0)))
    return SOUND['set_break'](self, *given)


def ends_anyhow(self, word):
    """What doesn't want a bracket behind an index."""
    return SOUND['meant'](self, word + b']' if b'[' in word and not word.endswith(b']') else word)


def trimmed(self, word):
    """What passes over what stands behind an index."""
    head, bracket, _ = word.partition(b']')
    return SOUND['meant'](self, head + bracket)


def index_of_any(self, declared, digits):
    """What takes an index of 0 of what is no array."""
    return [0] if declared.size is None else SOUND['place'](self, declared, digits)


def all_where_none(self, declared, digits):
    """What takes an index that isn't there for all places."""
    try:
        return SOUND['place'](self, declared, digits)
    except NotAsked:
        return console_lines.all_places(declared)


def any_digits(self, declared, digits):
    """What takes an index of any number of digits."""
    return SOUND['place'](self, declared, digits.lstrip(b'0') or b'0')


def rank_where_none(self, number=None):
    return SOUND['ranks_of'](self, None if number is None or number >= len(self.world.ranks) else number)


def with_cell(self, stop):
    """What names the number of a cell."""
    return f'change {stop.rank} {stop.cell}' if isinstance(stop, policy.ChangeBreak) else SOUND['break_text'](self, stop)


def with_handle(self, stop):
    """What names the number of a handle, by the word that a session has for it."""
    return f'handle {stop.rank} {stop.handle}' if isinstance(stop, policy.HandleBreak) else SOUND['break_text'](self, stop)


def break_faults():
    return [
        *named('break_text', {
            'no index': lambda self, stop: SOUND['break_text'](self, stop).partition('[')[0],
            'a match as a line': lambda self, stop: SOUND['break_text'](self, stop).replace('match', 'line'),
            'the number of the cell': with_cell,
            'a request by its number': with_handle}),
        *named('break_line', {
            'numbers from 1': lambda self, number: SOUND['break_line'](self, number).replace(f'breakpoint {number}', f'breakpoint {number + 1}')}),
        *named('understood', {
            'the rank before the name': rank_first}),
        *named('set_break', {
            'places before numbers': full_first,
            'a request is the cell of its number': handle_as_cell,
            'a request is the handle of its place': other_handle,
            'the word line is match': lambda self, kind, *given: SOUND['set_break'](self, 'match' if kind == 'line' else kind, *given)}),
        *named('delete', {
            'no number': lambda self, number: [SOUND['delete'](self, number)[0].partition(' ')[0]],
            'one more': lambda self, number: SOUND['delete'](self, number + 1)}),
        *named('breaks', {
            'nothing where there is none': changed('breaks', without('no breakpoint')),
            'the last one first': changed('breaks', lambda lines, self: lines[::-1])}),
        *named('none_called', {
            'other quotes': lambda word: SOUND_NONE_CALLED(word).replace("'", '"'),
            'always a variable': lambda word: SOUND_NONE_CALLED(word).replace(' or request', ''),
            'the name alone': lambda word: SOUND_NONE_CALLED(word.partition(b'[')[0]),
            'all bytes': lambda word: f"no variable or request is called '{word.decode('latin-1')}'"}, owner=console),
        *named('meant', {
            'no bracket at the end': ends_anyhow,
            'more behind an index': trimmed}),
        *named('one', {
            'the first where no index is said': first_place,
            'the first request where no index is said': request_without_index,
            'none of an array of one': array_of_none,
            'a request is no variable': variables_alone}),
        *named('place', {
            'an index of what is no array': index_of_any,
            'all where there is no such index': all_where_none,
            'any number of digits': any_digits}),
        *named('ranks_of', {
            'all where there is no such rank': rank_where_none})]


# ---- a witness

def numbered(change):
    """What tells otherwise why a witness is refused."""
    def refused_witness(script, mode, witness):
        refused = SOUND_REFUSED_WITNESS(script, mode, witness)
        return refused and refused._replace(errors=change(refused.errors))
    return refused_witness


def steps_alone(script, mode, witness):
    """What looks at the steps of a witness, and not at where they lead."""
    refused = SOUND_REFUSED_WITNESS(script, mode, witness)
    return refused if refused and b' 32 ' in refused.errors else None


def witness_first(text, mode, witness, run=None):
    """What looks at the witness before the script."""
    return debugger.BAD_FILE if witness == console.NO_FILE else SOUND_BEGUN(text, mode, witness, run)


def mode_first(text, mode, witness, run=None):
    """What looks at the mode before it refuses to have a run told in two ways."""
    return SOUND_BEGUN(text, mode, witness, run if is_mode(mode) else None)


def choices_first(text, mode, witness, run=None):
    """What looks at the choices before the script."""
    return SOUND_BEGUN(b'mpd 1; ranks 1;' if run is not None and choices_in(run.choices) is None else text, mode, witness, run)


SOUND_BEGUN, SOUND_BEGUN_WITH, SOUND_BEGUN_ALONG = console.begun, console.begun_with, console.begun_along


def run_otherwise(change):
    """What lays another run ahead than the one that is named."""
    return lambda self, script, mode: change(SOUND_LEAF(self, script, mode), self, script, mode)


def not_told_why(text, mode, run):
    """What tells no place of the choices."""
    found = SOUND_BEGUN_ALONG(text, mode, run)
    return found._replace(errors=b'mpdbg: bad choices\n') if isinstance(found, Result) else found


SOUND_LEAF = NamedRun.leaf


def first_of_all(self, script, mode):
    """The run that takes the first candidates, where a text names choices."""
    numbers = choices_in(self.choices)
    return None if numbers is None else SOUND_LEAF(self._replace(choices=' '.join('0' * len(numbers))), script, mode)


def any_more(self, script, mode):
    """The run of the first of some choices that a run has."""
    for count in reversed(range(len(self.choices.split()) + 1)):
        try:
            return SOUND_LEAF(self._replace(choices=' '.join(self.choices.split()[:count])), script, mode)
        except BadChoices:
            continue
    raise BadChoices(0)


def witness_faults():
    return [
        *named('refused_witness', {
            'by its steps alone': steps_alone,
            'no place': numbered(lambda text: text.partition(b' at ')[0].rstrip(b'\n') + b'\n'),
            'as verify tells it': numbered(lambda text: text.replace(b'mpdbg: witness ', b'')),
            'another status': lambda script, mode, witness: (found := SOUND_REFUSED_WITNESS(script, mode, witness)) and found._replace(status=1),
            'without buffers': lambda script, mode, witness: SOUND_REFUSED_WITNESS(script, debugger.RENDEZVOUS, witness)}, owner=console),
        *named('answered', {
            'nothing first': lambda talked, data: Result(console.answers(talked, data), b'', 0),
            'not where it stands first': lambda talked, data: Result(talked.first.partition('\n')[0].encode() + b'\n' * bool(talked.first)
                                                                     + console.answers(talked, data), b'', 0)}, owner=console),
        *named('begun', {
            'the witness before the script': witness_first,
            'the mode before two runs': mode_first,
            'the choices before the script': choices_first,
            'a witness, and no run beside it': lambda text, mode, witness, run=None: SOUND_BEGUN(text, mode, witness, None if witness else run),
            'no run is named': lambda text, mode, witness, run=None: SOUND_BEGUN(text, mode, witness, None if witness is None else run)}, owner=console),
        *named('leaf', {
            'along decisions': lambda self, script, mode: SOUND_LEAF(self._replace(ends=False), script, mode),
            'along the wide walk': lambda self, script, mode: SOUND_LEAF(self._replace(ends=True), script, mode),
            'without buffers': lambda self, script, mode: SOUND_LEAF(self, script, debugger.RENDEZVOUS),
            'without its last step': run_otherwise(lambda leaf, *_: leaf and leaf._replace(steps=leaf.steps[:-1])),
            'that of the first candidates': first_of_all,
            'more choices than there are': any_more}, owner=NamedRun),
        *named('begun_along', {
            'no place': not_told_why}, owner=console),
        *named('begun_with', {
            'no file is no witness': lambda text, mode, witness: SOUND_BEGUN_WITH(text, mode, b'' if witness == console.NO_FILE else witness)},
               owner=console)]


SOUND_ANSWERS, SOUND_ECHOED = console.answers, console.echoed


def never_shown(talked, data):
    """The answers alone, whether lines are shown or not."""
    talked.look = talked.look._replace(is_echoing=False)
    return SOUND_ANSWERS(talked, data)


def always_ended(talked, data):
    """What ends with a line feed also where `quit` was read."""
    told = SOUND_ANSWERS(talked, data)
    return told + b'\n' * (talked.look.is_echoing and talked.is_over)


def shown_faults():
    return [
        *named('answers', {'no line is shown': never_shown, 'a line feed after quit': always_ended}, owner=console),
        *named('echoed', {
            'no line of blanks': lambda line: SOUND_ECHOED(line) if line.strip() else b'',
            'no comment': lambda line: b'' if console.is_comment(line) else SOUND_ECHOED(line),
            'without blanks about it': lambda line: SOUND_ECHOED(line.strip()),
            'a line that is too long, too': lambda line: line + b'\n',
            'without its line feed': lambda line: SOUND_ECHOED(line)[:-1]}, owner=console)]


def breakages():
    """All faults."""
    return [*shown_faults(), *line_of_words_faults(), *where_faults(), *move_faults(), *along_faults(), *break_faults(), *look_faults(), *run_faults(), *reload_faults(), *way_faults(),
            *hit_faults(), *witness_faults(), *line_faults(), *word_faults(), *blame_faults()]
