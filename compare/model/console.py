"""The console for people, in the model: a line that is typed, and what it is answered.

It was written from docs/CONSOLE.md, over the session, the runs, the explorer and the explanations of the model. The words, and what may
follow them, are those of console_words.py; texts of steps, calls and variables are those of console_lines.py. compare/rows/console_worked.py
has rows of it, and compare/runs/consoles.py compares a program with it.
"""

import re
import sys
from collections import Counter
from itertools import islice, repeat
from typing import NamedTuple

from model import console_lines, console_values, console_words, debugger, deciding, explaining, explorer, marks, picture_model, policy, session, states
from model.console_lines import plural, step_words
from model.console_words import Asked, NotAsked, read_line, shown, to_repeat
from model.debugger import (BAD_FILE, BAD_MODE, LONGEST_LINE, RENDEZVOUS, Result, enabled_steps, file_content, find_call, lines_of, number_of,
                            refusal, show, step_text)
from model.language import Declared, Fault, read_script
from model.modes import is_mode
from model.outcomes import count_text
from model.policy import BREAK, FULL, MAX, START, ChangeBreak, Choice, Forced, HandleBreak, MatchBreak, RankBreak
from model.run_words import BadChoices, choices_in, run_by
from model.session import Refused, Session, must_be
from model.states import word_of
from model.walks import CUT, Leaf, Run
from model.witness import BAD_REPORT, REFUSAL_NAMES, BadWitness, witness_of
from model.worlds import Step

TOO_LONG = 'refused: this line is too long'
NO_CANDIDATE = 'refused: there is no such candidate'
NO_RUN = 'refused: there is no such run'
NO_CHOICE = 'refused: no choice was made before'
NO_LAST_RANK = 'refused: the last step is of no rank; finish P names one'
NO_INDEX = 'refused: there is no such index'
NEEDS_INDEX = 'refused: an array needs an index here'
NO_VALUE = 'refused: a request has no value to compare'
NO_WAIT = 'no rank waits for a call'
NO_SCRIPT = "refused: the file can't be read"
NESTED = "refused: source can't stand in a file of words"
# What is wrong with a file of words, of which NAME is the name; and how many bytes it may have.
NO_WORDS, LONG_WORDS = "refused: the file 'NAME' can't be read", "refused: the file 'NAME' has more than 1048576 bytes"
MOST_WORDS = 1048576
# What is wrong with a number, where a session says no more than that it is none: of steps, of runs, of a line, of a rank, and of a call.
BAD_STEPS, BAD_RUNS, BAD_LINE, NO_RANK, NO_CALL = 'steps', 'runs', 'line', 'rank', 'call'
REFUSALS = {
    session.NOT_ENABLED: 'refused: this step is not enabled', session.FULL: 'refused: no more than 1000000 steps are kept',
    session.AT_START: 'refused: fewer steps are taken', session.NOT_BEFORE: 'refused: so many steps are neither taken nor ahead',
    session.NO_REDO: 'refused: no step is ahead', BAD_STEPS: 'refused: 1 to 1000000 steps can be asked for',
    BAD_RUNS: 'refused: 1 to 65536 runs can be asked for', BAD_LINE: 'refused: lines are 1 to 65537',
    NO_RANK: 'refused: there is no such rank', NO_CALL: 'refused: there is no such call',
    session.NO_SUCH_BREAK: 'refused: no breakpoint has this number', session.BREAKS_FULL: 'refused: 64 breakpoints are set'}
# Why a run stopped, where it isn't told by where it stands.
STOPS = {MAX: 'stopped: as many steps as were asked for', FULL: 'stopped: no more than 1000000 steps are kept', START: 'at the start'}
# The same of a move that has taken all steps ahead.
AHEAD_ENDS = 'stopped: the steps ahead end here'
LISTED, TRIED, MOST_FUEL = 10, 1000, 100000
# How many states are come to where each is looked at once, at most.
MOST_STATES = 1000000
# Which runs `check` lists.
# So many choices of a run are told in its line.
CHOICES_TOLD = 40
ORDERS = "one run for all orders of independent steps; diagnose counts each order"
# How a run ends, by the first word of its outcome, in the order in which the last line of `check` has them.
WAYS = 'done', 'leftovers', 'deadlock', 'trap', CUT
# What may stand behind the first `[` of a name.
INDEX = re.compile(rb'([0-9]+)\]')
# What a terminal is told first, on standard error.
GREETING = 'help lists the words, an empty line repeats the last, quit ends; docs/CONSOLE.md'
LONG_WITNESS = Result(b'', b'mpdbg: witness of more than 1000000 steps\n', 2)
NOT_TOGETHER = Result(b'', b"mpdbg: --choices and --witness can't stand together\n", 2)
# Words whose answers have lines of any length.
UNFOLDED = frozenset(['list', 'show', 'words', 'picture'])
# Words that have a file read.
READS_FILES = 'reload', 'source'
# In the place of the text of a witness: its file can't be read.
NO_FILE = 'no file'


def is_blank(line):
    """Whether a line has no word."""
    return not line.strip(b' \t')


def is_comment(line):
    return line.lstrip(b' \t').startswith(b'#')


def way(leaf):
    """How a run ends, without the calls and ranks of that."""
    return leaf.outcome.split()[0]


def ends_of(leaves):
    """How many runs end in each way."""
    return Counter(map(way, leaves))


def runs_by_end(ways):
    """The same by the way of each outcome."""
    ends = Counter()
    for outcome, there in ways.items():
        ends[word_of(outcome)] += there.runs
    return ends


def counted(ends, more):
    """How many runs there were, whether there are more, and how many end in each way that occurs."""
    runs = sum(ends.values())
    ways = ', '.join(f'{count_text(ends[name])} {name}' for name in WAYS if ends[name])
    return f'{count_text(runs)} {"run" if runs == 1 else "runs"}, and {"there are more" if more else "no more"} ({ways})'


def none_found(sought, ends, more, are_all):
    """What is told where no run ends so of those that were looked at, be they all ways to end or not."""
    return f'no {sought}{"" if are_all else " found"} from here: {counted(ends, more)}'


def run_line(at, number, leaf):
    """A run from somewhere by its number and its first choices, and how it ends."""
    choices = ' '.join(str(choice + 1) for choice in leaf.choices[:CHOICES_TOLD])
    untold = len(leaf.choices) - CHOICES_TOLD
    more = f' .. {untold} more' if untold > 0 else ''
    return f'{number} {f"choices {choices}{more}" if choices else "no choice"}: {way(leaf)}{places_of(at, leaf)}'


def places_of(at, leaf):
    """Where a run from somewhere has ended."""
    return '' if leaf.outcome in ('done', CUT) else console_lines.end_places(console_lines.went_on(at, leaf.steps), leaf.outcome)


def words_in(name):
    """What a file of words has; None where it can't be read, as none can whose name is no text."""
    try:
        return file_content(name.decode())
    except ValueError:
        return None


def text_of(lines):
    return ''.join(f'{line}\n' for line in lines)


class Meant(NamedTuple):
    """What a word means: a name, what was declared by it, and the places of that which are meant."""
    name: str
    declared: Declared
    places: tuple


def none_called(word):
    """What is told of a word that no variable or request is called by."""
    return f"no variable or request is called '{shown(word)}'"


def word_for(world, step):
    """The word that takes a step in a world: `next` and its number where candidates are listed and it is one of these, else its trace word."""
    decided = policy.settled(policy.decision(world))
    listed = decided.steps if isinstance(decided, Choice) else ()
    return f'next {listed.index(step) + 1}' if step in listed else debugger.step_text(step)


def leaf_of(witness):
    """The run that a witness tells, without its choices."""
    return Leaf((), witness.steps, f'{witness.word} {" ".join(map(str, witness.blocked))}')


class NamedRun(NamedTuple):
    """A run that is to lie ahead: the text of its choices, and whether these are along the wide walk."""
    choices: str
    ends: bool = False

    def words(self):
        """The words of the command line that name it."""
        return ('--choices', self.choices, *['--ends'] * self.ends)

    def leaf(self, script, mode):
        """The run, as far as its fuel goes; None where the text names no choices. Raises the place where no run has them."""
        choices = choices_in(self.choices)
        return None if choices is None else run_by(Run(debugger.first_world(script, mode), MOST_FUEL), choices, self.ends)


class Look(NamedTuple):
    """How answers look: how many bytes a line has before it wraps, and whether lines that are read are shown before their answers."""
    width: int = console_lines.WIDTH
    is_echoing: bool = False


USUAL = Look()


class Console:
    """A session that is asked by words, what is told before the first of them, where a run lies ahead, and what an empty line does."""

    def __init__(self, text, mode=RENDEZVOUS, ahead=None):
        # What the file of the script has each time that it is read again, None where it can't be read; as long as nobody writes it the same.
        self.files = repeat(text)
        # What gives what a file of words has, by its name, None where it can't be read; the lines of one that are still to be answered.
        self.open_words, self.inserted, self.is_in_file = words_in, [], False
        # Whether it is asked by what reads files: others have no answer to the words that name one.
        self.reads_files = True
        self.text, self.mode, self.look = text, mode, USUAL
        self.script = read_script(text)
        self.session = Session(self.script, mode)
        self.last, self.is_over = None, False
        self.first_lines = [] if ahead is None else self.found(ahead)

    @property
    def first(self):
        """What is told before any line is read."""
        return text_of(self.laid_out(self.first_lines))

    @property
    def debugger(self):
        return self.session.debugger

    @property
    def world(self):
        return self.session.world

    @property
    def at(self):
        """The world, and the line of each call."""
        return console_lines.reached(self.debugger)

    @property
    def ahead(self):
        """The steps that are undone."""
        return self.debugger.steps[self.debugger.depth:]

    @property
    def decided(self):
        """What comes next: a choice is one of two candidates or more."""
        return policy.settled(policy.decision(self.world))

    @property
    def can_choose_again(self):
        """Whether it stands at a choice, and a step is undone."""
        return bool(self.ahead) and isinstance(self.decided, Choice)

    def prompt(self):
        return f'({self.debugger.depth}) '

    def answer(self, line):
        """The lines that a line without its end is answered, each with a line feed."""
        return text_of(self.lines(line))

    def lines(self, line):
        if len(line) > LONGEST_LINE:
            return [TOO_LONG]
        try:
            asked = self.asked(line)
        except NotAsked as not_asked:
            return console_lines.folded(not_asked.told, self.look.width)
        if asked is None:
            return []
        if asked.word in READS_FILES:
            told = getattr(self, asked.word)(*asked.given) if self.reads_files else []
            return console_lines.all_folded(told, self.look.width)
        self.last = to_repeat(asked)
        told = self.told(asked)
        return told if asked.word in UNFOLDED else self.laid_out(told)

    def laid_out(self, told):
        """Told lines with the places of marks, in as many as they take."""
        return console_lines.all_folded(marks.all_marked(self.text, told), self.look.width)

    def asked(self, line):
        """What a line asks for: an empty one the word that was asked last, and a comment nothing."""
        if is_blank(line):
            return self.last
        if is_comment(line):
            return None
        expression = console_values.expression_in(line, self.is_named)
        return self.understood(read_line(line)) if expression is None else Asked('value', console_values.value_asked(expression, self.script.names))

    def is_named(self, word):
        """Whether a word means a name, or one with an index that its array doesn't have."""
        try:
            self.meant(word)
        except NotAsked as not_asked:
            return not_asked.told == NO_INDEX
        return True

    def understood(self, asked):
        """What is asked, with what its name means."""
        if asked.word == 'print':
            name, *rank = asked.given
            return Asked(asked.word, (self.meant(name), *rank))
        if asked.word == 'break' and asked.given[0] == 'change':
            kind, rank, name = asked.given
            return Asked(asked.word, (kind, rank, self.one(name)))
        if asked.word == 'break' and asked.given[0] == 'line' and asked.given[-1]:
            *given, compared = asked.given
            return Asked(asked.word, (*given, policy.Condition(self.compared_cell(compared.name), compared.operator, compared.value)))
        return asked

    def told(self, asked):
        """The answer to what is asked, with what happened on the way; a refusal changes nothing."""
        depth, before, ahead = self.debugger.depth, self.world, self.ahead
        try:
            lines = self.done(asked)
        except Refused as refused:
            return [REFUSALS[refused.number]]
        first = LINES_FIRST.get(asked.word, 1)
        if self.debugger.depth <= depth:
            return lines
        return [*lines[:first], *self.gone(depth, ahead), *self.on_the_way(before), *lines[first:]]

    def gone(self, depth, ahead):
        """That steps are gone which lay ahead at a depth: another one was taken there."""
        if not ahead or self.debugger.steps[depth] == ahead[0]:
            return []
        return ['the step that lay ahead is gone' if len(ahead) == 1 else f'the {len(ahead)} steps that lay ahead are gone']

    def done(self, asked):
        """Does what is asked; the lines of the answer."""
        if asked.word in console_words.STEPS:
            return self.take(Step(asked.word, *asked.given))
        if asked.word in OF_RANK and asked.given[:1] == ('rank',):
            return getattr(self, OF_RANK[asked.word])(*asked.given[1:])
        return getattr(self, METHODS.get(asked.word, asked.word))(*asked.given)

    # ---- the script once more

    def reload(self):
        """Reads the script again: its breakpoints are set again, and its steps taken again as far as they fit. A script that is refused changes
        nothing."""
        text = next(self.files)
        if text is None:
            return [NO_SCRIPT]
        try:
            return self.begin_again(Console(text, self.mode))
        except Fault as fault:
            line = 1 + text.count(b'\n', 0, fault.place)
            return [f'refused: the script has a fault, {debugger.FAULT_NAMES[fault.number]} at {fault.place} line {line}']

    def begin_again(self, other):
        """Goes on as another console, at its start, with the breakpoints and the steps of this one."""
        lines = marks.all_marked(self.text, self.breaks_of(other))
        steps = self.debugger.steps[:self.debugger.depth]
        taken = other.taken_again(steps)
        self.text, self.script, self.session, self.last = other.text, other.script, other.session, None
        return [f'{taken} of {plural(len(steps), "step")} taken again', *lines, *marks.all_marked(self.text, self.where())]

    def breaks_of(self, other):
        """Sets the breakpoints in another console as they are here, each under its number; what is told of those that can't be."""
        places, lines = other.session.breaks.places, []
        for number, stop in enumerate(self.session.breaks.places):
            if stop is not None:
                places[number] = other.break_by(f'break {self.break_text(stop)}'.encode())
                lines += [f'not set again: {self.break_line(number)}'] * (places[number] is None)
        return lines

    def break_by(self, line):
        """The breakpoint that a line sets; None where it sets none. No other is set then."""
        places = self.session.breaks.places
        self.session.breaks.places = [None] * len(places)
        try:
            self.set_break(*self.understood(read_line(line)).given)
            return self.session.breaks.get(0)
        except (NotAsked, Refused):
            return None
        finally:
            self.session.breaks.places = places

    def taken_again(self, steps):
        """How many of some steps can be taken, one after another; they are taken."""
        for count, step in enumerate(steps):
            try:
                self.session.take(step)
            except Refused:
                return count
        return len(steps)

    # ---- the words of a file

    def source(self, name):
        """Has the lines of a file answered next."""
        if self.is_in_file:
            return [NESTED]
        words = self.open_words(name)
        if words is None or len(words) > MOST_WORDS:
            return [(NO_WORDS if words is None else LONG_WORDS).replace('NAME', console_words.shown(name))]
        self.inserted = lines_of(words)
        return []

    def to_answer(self, line):
        """A line, and after it those of the file that it names; each is to be answered before the next is asked for."""
        yield line
        lines, self.inserted, self.is_in_file = self.inserted, [], True
        yield from lines
        self.is_in_file = False

    # ---- where it stands

    def where(self):
        """Where it stands, behind each word that moves."""
        at, decided, ahead = self.at, self.decided, self.ahead
        lines = self.with_source(at, f'{len(ahead)} ahead', ahead[0]) if ahead else []
        if isinstance(decided, Choice):
            return lines + console_lines.choice_lines(at, self.script.names, self.text, decided.steps)
        if isinstance(decided, Forced):
            return lines or self.with_source(at, 'next', decided.step)
        return lines + [f'ended: {console_lines.end_words(at, decided.outcome)}', *self.explanation(decided.outcome), *self.lost(at)]

    def on_the_way(self, before):
        """What the steps did that were taken since a world that was before; requests that are lost are told at an end anyway."""
        told = console_lines.print_lines(before, self.world)
        return told if isinstance(self.decided, policy.Leaf) else told + console_lines.newly_lost_lines(before, self.at)

    def with_source(self, at, head, step):
        """A step behind what it is, and the lines of the script that it is about."""
        return [f'{head}: {step_words(at, step)}', *console_lines.source(self.text, console_lines.lines_about(at, step))]

    def lost(self, at):
        """The requests of all ranks that are lost."""
        return [line for number in range(len(self.world.ranks)) for line in console_lines.lost_lines(at, number)]

    def explanation(self, ended):
        """What is told of a deadlock, a trap or leftovers."""
        steps = tuple(self.debugger.steps[:self.debugger.depth])
        return explaining.explanation(self.script, self.mode, Leaf((), steps, ended))

    # ---- forward

    def take(self, step):
        """Takes a step that somebody asks for, or that is decided."""
        world = self.world
        told = step_words(self.at, step) if debugger.next_world(world, step) else None
        self.session.take(step)
        return self.taken(told, self.hit(world, step))

    def taken(self, told, hit):
        """What is told of a step that was taken, with the breakpoint that it hits."""
        return [f'{self.debugger.depth} {told}', *hit, *self.where()]

    def hit(self, world, step):
        """The breakpoint of the lowest number that a step hits which is taken in a world; no line where it hits none."""
        number = self.session.breaks.lowest_hit(world, step)
        return [] if number is None else [self.break_line(number)]

    def next(self, number=None):
        """Takes what comes next; at a choice a candidate by its number, or without one the step ahead, where one is."""
        decided = self.decided
        if number is None and self.ahead:
            return self.redo()
        if isinstance(decided, Forced):
            return self.take(decided.step) if number is None else self.run(number)
        if isinstance(decided, policy.Leaf) or number is None:
            return self.where()
        if not 1 <= number <= len(decided.steps):
            return [NO_CANDIDATE, *self.where()]
        return self.take(decided.steps[number - 1])

    def run(self, most=session.MOST_COUNT):
        """Takes steps ahead again, up to a choice or to so many; where none is ahead it runs on past choices of a single candidate."""
        must_be(1 <= most <= session.MOST_COUNT, BAD_STEPS)
        if self.ahead:
            return self.along(lambda count, world, step: count == most, STOPS[MAX], stops_at_choices=True)
        return self.stopped(policy.run_on(self.debugger, self.session.breaks, most), '')

    def until(self, line):
        """Goes on as `run` does, to where a rank comes to a line at most."""
        must_be(1 <= line <= session.HIGHEST_LINE, BAD_LINE)
        if missing := self.no_statement(line):
            return [f'refused: {told}' for told in missing]
        stop = policy.LineBreak(line)
        return self.up_to(lambda world, step: policy.is_hit(stop, world, step), f'stopped: a rank is at line {line}')

    def until_rank(self, number):
        """Goes on as `run` does, to where a rank has gone on at most, as a breakpoint of it would stop it."""
        self.rank(number)
        stop = RankBreak(number)
        return self.up_to(lambda world, step: policy.is_hit(stop, world, step), f'stopped: rank {number} has gone on')

    def finish(self, number=None):
        """Goes on as `run` does, to where a rank goes on at most that waits: the one of a number, or that of the last step."""
        number = self.last_rank() if number is None else number
        if number is None:
            return [NO_LAST_RANK]
        if self.rank(number).mode != 'blocked':
            return self.why(number)
        return self.up_to(lambda world, step: step.kind == 'release' or step.kind in ('wake', 'wakeany') and step.first == number,
                          'stopped: that call is over')

    def last_rank(self):
        """The rank of the last step, of a match that of its receive; None where it has none."""
        step = self.debugger.steps[self.debugger.depth - 1] if self.debugger.depth else None
        if step is None or step.kind == 'release':
            return None
        return step.second.rank if step.kind == 'match' else step.first

    def up_to(self, is_last, why):
        """Goes on as `run` does, but no further than a step that is the last; tells why it stops there."""
        if self.ahead:
            return self.along(lambda count, world, step: is_last(world, step), why)
        most = self.steps_to(is_last)
        lines = self.run(session.MOST_COUNT if most is None else most)
        return [why if line == STOPS[MAX] else line for line in lines]

    def steps_to(self, is_last):
        """How many steps a run takes up to one that is the last; None where it comes to none."""
        world = self.world
        for count in range(1, session.MOST_COUNT + 1):
            decided = policy.settled(policy.decision(world))
            if not isinstance(decided, Forced):
                return None
            if is_last(world, decided.step):
                return count
            world = debugger.next_world(world, decided.step)
        return None

    def along(self, is_last, why, stops_at_choices=False):
        """Takes steps ahead again, and tells why it stops: for a breakpoint; else, where neither an end nor a choice tells that, since the step is
        the last, or since the steps ahead end."""
        count = self.steps_along(is_last, stops_at_choices)
        self.session.redo(count)
        world, step = self.debugger.worlds[-2], self.debugger.steps[self.debugger.depth - 1]
        reason = [why if is_last(count, world, step) else AHEAD_ENDS] if isinstance(self.decided, Forced) else []
        return [f'{plural(count, "step")}, depth {self.debugger.depth}', *(self.hit(world, step) or reason), *self.where()]

    def steps_along(self, is_last, stops_at_choices):
        """How many of the steps ahead it takes: up to the first that hits a breakpoint, is the last, or leads to a choice, where that counts."""
        world = self.world
        for count, step in enumerate(self.ahead, 1):
            after = debugger.next_world(world, step)
            if self.stops_behind(world, step) or is_last(count, world, step) or stops_at_choices and self.is_choice(after):
                return count
            world = after
        return len(self.ahead)

    def stops_behind(self, world, step):
        """Whether a step hits a breakpoint that is taken in a world."""
        return self.session.breaks.lowest_hit(world, step) is not None

    def is_choice(self, world):
        """Whether a choice is open in a world, of two candidates or more."""
        return isinstance(policy.settled(policy.decision(world)), Choice)

    def stopped(self, stop, back):
        """What is told behind a run."""
        lines = [f'{plural(stop.steps, "step")}{back}, depth {self.debugger.depth}']
        if stop.cause == BREAK:
            lines.append(f'{"before " if back else ""}{self.break_line(stop.number)}')
        elif stop.cause in STOPS:
            lines.append(STOPS[stop.cause])
        return lines + self.where()

    # ---- back, and forward again

    def depth_lines(self):
        return [f'depth {self.debugger.depth}', *self.where()]

    def back(self, count=1):
        must_be(1 <= count <= session.MOST_COUNT, BAD_STEPS)
        self.session.back(count)
        return self.depth_lines()

    def back_rank(self, number):
        """Goes back to before the last local step of a rank; to the start where it has taken none."""
        self.rank(number)
        places = [place for place, step in enumerate(self.debugger.steps[:self.debugger.depth]) if step.kind == 'local' and step.first == number]
        return self.goto(places[-1] if places else 0)

    def run_back(self):
        return self.stopped(policy.run_back(self.debugger, self.session.breaks), ' back')

    def undo_choice(self):
        """Goes back to the last state before this one in which a choice is open."""
        for depth in reversed(range(self.debugger.depth)):
            if isinstance(policy.settled(policy.decision(self.debugger.worlds[depth])), Choice):
                self.session.goto(depth)
                return self.depth_lines()
        return [NO_CHOICE]

    def goto(self, depth):
        """Goes back, or along the steps ahead."""
        more = depth - self.debugger.depth
        if 0 < more <= self.session.undone():
            self.session.redo(more)
        else:
            self.session.goto(depth)
        return self.depth_lines()

    def redo(self, count=1):
        """Takes so many steps again, or all that are ahead where these are fewer, or asked for; where none is, the number is looked at."""
        ahead = len(self.ahead)
        count = session.MOST_COUNT if count == console_words.ALL else count
        count = min(count, ahead) if ahead else count
        must_be(1 <= count <= session.MOST_COUNT, BAD_STEPS)
        if ahead and count == 1:
            return self.again()
        self.session.redo(count)
        return self.depth_lines()

    def again(self):
        """Takes the first step ahead again."""
        world, step = self.world, self.ahead[0]
        told = step_words(self.at, step)
        self.session.redo(1)
        return self.taken(told, self.hit(world, step))

    # ---- breakpoints

    def break_text(self, stop):
        """A breakpoint as it was set."""
        if isinstance(stop, ChangeBreak):
            return f'change {stop.rank} {self.cell_name("var", stop.cell)}'
        if isinstance(stop, HandleBreak):
            return f'change {stop.rank} {self.cell_name("req", stop.handle)}'
        if isinstance(stop, RankBreak):
            return f'rank {stop.rank}'
        if isinstance(stop, MatchBreak):
            return f'match {stop.line}{session.meant_text(stop)}'
        return f'line {stop.line}{session.meant_text(stop)}{session.condition_text(stop.condition, lambda cell: self.cell_name("var", cell))}'

    def cell_name(self, kind, cell):
        """The name of a cell of variables, or of a handle."""
        return console_lines.cell_name(self.script.names, kind, cell)

    def break_line(self, number):
        return f'breakpoint {number}: {self.break_text(self.session.breaks.get(number))}'

    def set_break(self, *given):
        """A breakpoint of a line or of a match, of a rank, or of `change`, a rank and a variable or a request."""
        if given[0] == 'change':
            _, rank, (_, declared, (place,)) = given
            kind, where = ('change', 'cell') if declared.kind == 'var' else ('handle', 'handle')
            self.rank(rank)
            there = self.session.set_break(kind, rank=rank, **{where: declared.first + place})
            return [self.break_line(there['break'])]
        if given[0] == 'rank':
            self.rank(given[1])
            return [self.break_line(self.session.set_break('rank', rank=given[1])['break'])]
        kind, line, rank, *condition = given
        must_be(1 <= line <= session.HIGHEST_LINE, BAD_LINE)
        if rank is not None:
            self.rank(rank)
        compared = condition[0]._asdict() if condition and condition[0] else {}
        there = self.session.set_break(kind, line=line, rank=rank, **compared)
        return [self.break_line(there['break']), *self.no_statement(line)]

    def no_statement(self, line):
        """What is told of the line of a breakpoint at which no statement begins."""
        return [] if line in console_lines.statement_lines(self.script.body) else [f'no statement begins at line {line}']

    def delete(self, number):
        self.session.unset_break(number)
        return [f'deleted {number}']

    def breaks(self):
        found = [self.break_line(number) for number, stop in enumerate(self.session.breaks.places) if stop is not None]
        return found or ['no breakpoint']

    # ---- names

    def meant(self, word):
        """What a word means, of which what stands before its first `[` is the name."""
        name, bracket, index = word.partition(b'[')
        declared = self.script.names.get(name.decode('latin-1'))
        if declared is None or bracket and not INDEX.fullmatch(index):
            raise NotAsked(none_called(word))
        places = self.place(declared, index.removesuffix(b']')) if bracket else console_lines.all_places(declared)
        return Meant(name.decode(), declared, tuple(places))

    def place(self, declared, digits):
        """The place of an index; what has no size has none."""
        index = number_of(digits)
        if declared.size is None or index is None or index >= declared.size:
            raise NotAsked(NO_INDEX)
        return [index]

    def one(self, word):
        """What a word means that is one variable or request; an array of several, or of none, isn't one without an index."""
        meant = self.meant(word)
        if len(meant.places) != 1:
            raise NotAsked(NEEDS_INDEX)
        return meant

    def compared_cell(self, word):
        """The cell that a condition is about."""
        if self.meant(word).declared.kind != 'var':
            raise NotAsked(NO_VALUE)
        _, declared, (place,) = self.one(word)
        return declared.first + place

    def ranks_of(self, number=None):
        """All ranks, or the one of a number."""
        if number is None:
            return range(len(self.world.ranks))
        self.rank(number)
        return [number]

    def rank(self, number):
        """The rank of a number."""
        must_be(number < len(self.world.ranks), NO_RANK)
        return self.world.ranks[number]

    # ---- looks

    def list(self, number=None):
        if number is None:
            return console_lines.whole_list(self.at, self.text)
        self.rank(number)
        return console_lines.list_about(self.at, self.text, number)

    def print(self, meant, number=None):
        return [console_lines.value_line(self.at, rank, *meant) for rank in self.ranks_of(number)]

    def value(self, expression, number=None):
        return [console_values.value_line(self.world, rank, expression) for rank in self.ranks_of(number)]

    def variables(self, number=None):
        at = self.at
        return [line for rank in self.ranks_of(number) for line in console_lines.variable_lines(at, self.script.names, rank)]

    def ranks(self):
        at = self.at
        return [console_lines.rank_line(at, number) for number in self.ranks_of()]

    def calls(self, number=None):
        return console_lines.call_lines(self.at, self.ranks_of(number)) or ['no call']

    def queues(self):
        return console_lines.queue_lines(self.at) or ['no free call']

    def enabled(self):
        at = self.at
        return [console_lines.candidate_words(at, self.script.names, step) for step in enabled_steps(self.world)] or ['no step is enabled']

    def why(self, asked=None):
        """Why a call, or the one that a rank waits for, or all that ranks wait for, aren't matched."""
        if asked is None:
            at = self.at
            return [line for call_id in console_lines.waiting(self.world) for line in console_lines.waiting_lines(at, call_id)] or [NO_WAIT]
        if isinstance(asked, int):
            if self.rank(asked).mode != 'blocked':
                return [f'rank {asked} waits for no call']
            return console_lines.waiting_lines(self.at, debugger.last_call(self.world, asked))
        must_be(find_call(self.world, asked) is not None, NO_CALL)
        return console_lines.why_lines(self.at, asked)

    def history(self, count=LISTED):
        lines, depth = self.at.lines, self.debugger.depth
        steps = enumerate(zip(self.debugger.worlds, self.debugger.steps[:depth]), 1)
        found = [f'{number} {step_words(explaining.Reached(world, lines), step)}' for number, (world, step) in steps]
        return found[max(0, depth - count):] or ['no step is taken'] * (depth == 0)

    def picture(self):
        """The steps that are not undone, drawn (docs/PICTURES.md, "As text")."""
        return picture_model.text_of(self.debugger).splitlines()

    def words(self):
        return [step_text(step) for step in self.debugger.steps[:self.debugger.depth]]

    def show(self):
        return show(self.world, self.debugger.depth, len(self.debugger.steps)).split('\n')

    # ---- runs from here

    def fuel(self):
        """How many steps a run from here may have."""
        return min(MOST_FUEL, debugger.MOST_STEPS - self.debugger.depth)

    def walk(self):
        """The runs from here, each end once, in the order of their choices."""
        return explorer.walk_of_ends(Run(self.world, self.fuel()))

    def check(self, runs=TRIED):
        must_be(1 <= runs <= explorer.MOST_RUNS, BAD_RUNS)
        found = list(islice(self.walk(), runs + 1))
        leaves, more = found[:runs], len(found) > runs
        at = self.at
        return [*(run_line(at, number, leaf) for number, leaf in enumerate(leaves, 1)), counted(ends_of(leaves), more), ORDERS]

    def follow(self, number):
        """Lays the steps of the run of a number ahead."""
        is_within = 1 <= number <= explorer.MOST_RUNS
        leaf = next(islice(self.walk(), number - 1, None), None) if is_within else None
        return [NO_RUN] if leaf is None else self.laid_ahead(f'run {number}, {way(leaf)},', leaf)

    def deadlock(self):
        return self.seek('deadlock')

    def trap(self):
        return self.seek('trap')

    def seek(self, sought):
        """Lays the steps of the first run ahead that ends in a way, of all runs of the wide walk; where these have too many states, of the first
        runs that `check` lists."""
        search = states.Search(most=MOST_STATES, stops_at=(sought,))
        ways = states.answered(search.behind(self.world, self.fuel())).ways
        found = next((outcome for outcome in ways if word_of(outcome) == sought), None)
        if found is not None:
            return self.found(run_by(Run(self.world, self.fuel()), ways[found].first, ends=True))
        return self.seek_listed(sought) if search.left_out else self.none(sought, runs_by_end(ways), False)

    def seek_listed(self, sought):
        """The same of the first runs that `check` lists."""
        walk, ends = self.walk(), Counter()
        for leaf in islice(walk, explorer.MOST_RUNS):
            if way(leaf) == sought:
                return self.found(leaf)
            ends[way(leaf)] += 1
        return self.none(sought, ends, next(walk, None) is not None)

    def none(self, sought, ends, more):
        """What is told where there is none."""
        return [none_found(sought, ends, more, self.are_all_ways(ends, more))]

    def are_all_ways(self, ends, more):
        """Whether the runs that were looked at are all ways to end from here: where there are no more, and none is cut."""
        return not more and not ends[CUT]

    def blame(self):
        """Goes to the last state of the run that is kept from which some run still ends well, where none does from its end."""
        lines, depth = self.decided_at()
        return lines if depth is None else [*lines, *self.goto(depth)]

    def decided_at(self):
        """The lines that tell the step that decides, and the depth to go to, None where there is none."""
        steps = self.debugger.steps
        last = self.last_not_doomed(states.Search(most=MOST_STATES))
        line = deciding.line_of(self.script, self.mode, steps, last)
        if last is None or last.ahead.well is None or last.depth == len(steps):
            return [line], None
        return [line, self.way_line(last)], last.depth

    def way_line(self, last):
        """How the step is taken that need not end badly, at the last state that isn't doomed."""
        world = deciding.worlds_along(self.debugger.worlds[0], self.debugger.steps[:last.depth])[-1]
        return f'to try that: {word_for(world, deciding.step_towards(world, last.ahead.well))}'

    def last_not_doomed(self, search):
        """The last state that isn't doomed of the run that is kept, the steps ahead with it, by a search."""
        steps = self.debugger.steps
        fuel = min(len(steps) + MOST_FUEL, debugger.MOST_STEPS)
        return deciding.last_not_doomed(deciding.worlds_along(self.debugger.worlds[0], steps), fuel, deciding.by_search(search))

    def found(self, leaf):
        return self.laid_ahead(way(leaf), leaf)

    def laid_ahead(self, called, leaf):
        """Lays the steps of a run ahead, in the place of those that are undone; tells what it is called."""
        self.debugger.steps[self.debugger.depth:] = leaf.steps
        return [f'{called} is {plural(len(leaf.steps), "step")} ahead{places_of(self.at, leaf)}', *self.where()]

    # ---- the rest

    def help(self, word=None):
        return console_words.help_of(word)

    def quit(self):
        self.is_over = True
        return []


# How many lines stand before what happened on the way, where it isn't one: what decided is told before what `goto` tells.
LINES_FIRST = {'blame': 3}
# What answers a word whose name is another than the word.
OF_RANK = {'until': 'until_rank', 'back': 'back_rank'}
METHODS = {'break': 'set_break', 'vars': 'variables', 'run-back': 'run_back', 'undo-choice': 'undo_choice'}


def echoed(line):
    """What is shown of a line: two dots of one that is too long."""
    return (b'..' if len(line) > LONGEST_LINE else line) + b'\n'


def answers(console, data):
    """The answers to an input, up to `quit` or to its end; where lines are shown, each after its prompt and that line, and a line feed at the
    end of an input without `quit`."""
    told, shows = [], console.look.is_echoing
    for line in (part for line in lines_of(data) for part in console.to_answer(line)):
        if shows:
            told += [console.prompt().encode(), echoed(line)]
        told.append(console.answer(line).encode())
        if console.is_over:
            return b''.join(told)
    return b''.join([*told, console.prompt().encode() + b'\n'] if shows else told)


def refused_witness(script, mode, witness):
    """The result where a witness is refused that is to lie ahead; None where it isn't."""
    if len(witness.steps) > debugger.MOST_STEPS:
        return LONG_WITNESS
    refused = explorer.verify(script, mode, *witness)
    if refused is None:
        return None
    place = '' if refused.place is None else f' at {refused.place}'
    return Result(b'', f'mpdbg: witness refused {refused.number} {REFUSAL_NAMES[refused.number]}{place}\n'.encode(), 2)


def begun_with(text, mode, witness):
    """The console with a witness ahead, by the text of that; a result where there is none."""
    script = read_script(text)
    if witness == NO_FILE:
        return BAD_FILE
    try:
        found = witness_of(witness, None)
    except BadWitness as bad:
        return Result(b'', BAD_REPORT if bad.line is None else b'mpdbg: bad witness line %d\n' % bad.line, 2)
    return refused_witness(script, mode, found) or Console(text, mode, leaf_of(found))


def begun_along(text, mode, run):
    """The console with a run ahead that is named by its choices; a result where there is none."""
    try:
        leaf = run.leaf(read_script(text), mode)
    except BadChoices as bad:
        return Result(b'', b'mpdbg: bad choices at %d\n' % bad.place, 2)
    return Result(b'', b'mpdbg: bad choices\n', 2) if leaf is None else Console(text, mode, leaf)


def begun(text, mode, witness, run=None):
    """The console for the text of a script, which is None where its file can't be read, and the text of a witness, as `verify` reads it, or
    a run that is named by its choices, or None where there is to be none of these; a result where there is none."""
    if witness is not None and run is not None:
        return NOT_TOGETHER
    if not is_mode(mode):
        return BAD_MODE
    if text is None:
        return BAD_FILE
    try:
        if run is not None:
            return begun_along(text, mode, run)
        return Console(text, mode) if witness is None else begun_with(text, mode, witness)
    except Fault as fault:
        return refusal(text, fault)


def answered(console, data):
    """The result for an input, with what is told first."""
    return Result(console.first.encode() + answers(console, data), b'', 0)


def debug(text, data, mode=RENDEZVOUS, witness=None, run=None, look=USUAL):
    """The result for a script and an input of words, without a terminal."""
    console = begun(text, mode, witness, run)
    if not isinstance(console, Console):
        return console
    console.look = look
    return answered(console, data)


def talk(console):
    """Asks for lines and answers them at a terminal, up to `quit` or to the end of the input."""
    print(GREETING, file=sys.stderr)
    print(console.first, end='')
    line = b'\n'
    while not console.is_over:
        print(console.prompt(), end='', flush=True)
        # (a terminal would gather another line behind the end)
        line = sys.stdin.buffer.readline() if line.endswith(b'\n') else b''
        if not line:
            print()
            break
        for part in lines_of(line):
            for number, each in enumerate(console.to_answer(part)):
                print(console.prompt() if number else '', console.answer(each), sep='', end='', flush=True)


def witness_text(path):
    """The text of the witness in a file, None where there is to be none."""
    if path is None:
        return None
    text = file_content(path)
    return NO_FILE if text is None else text
