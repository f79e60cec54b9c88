"""Faults of `reload` and `source` in the console's model: breakpoints that are lost, steps past the first that doesn't fit, a script that is
refused, and lines of a file that are lost or told otherwise (console_faults.py)."""

from inspect import isfunction

from faults.policy_faults import Breakage
from model.console import Console
from model.session import Refused

SOUND = {name: value for name, value in vars(Console).items() if isfunction(value)}


def named(name, faults):
    return [Breakage(f'{name}: {what}', Console, name, replacement) for what, replacement in faults.items()]


def past_the_first(self, steps):
    """Takes each step that can be taken, past those that can't."""
    count = 0
    for step in steps:
        try:
            self.session.take(step)
            count += 1
        except Refused:
            pass
    return count


def all_or_none(self, steps):
    """Takes all steps, or none of them."""
    count = SOUND['taken_again'](self, steps)
    if count < len(steps):
        self.session.debugger.goto(0)
    return count


def one_less(self, steps):
    return SOUND['taken_again'](self, steps[:-1])


def lost(self, other):
    """Sets no breakpoint, and tells of none."""
    return []


def by_numbers(self, other):
    """Keeps breakpoints by the numbers of their cells, whatever these are called."""
    other.session.breaks.places[:] = self.session.breaks.places
    return []


def closed_up(self, other):
    """Sets breakpoints in the lowest places."""
    lines = SOUND['breaks_of'](self, other)
    places = other.session.breaks.places
    there = [stop for stop in places if stop is not None]
    places[:] = there + [None] * (len(places) - len(there))
    return lines


def untold(self, other):
    SOUND['breaks_of'](self, other)
    return []


def any_rank(self, line):
    """A breakpoint of a rank that isn't there is one of any rank."""
    found = SOUND['break_by'](self, line)
    if found is None and b' rank ' in line:
        return SOUND['break_by'](self, line.partition(b' rank ')[0])
    return found


def with_last(self, other):
    """An empty line repeats what it did before."""
    last = self.last
    lines = SOUND['begin_again'](self, other)
    self.last = last
    return lines


def with_ahead(self, other):
    """Steps that were undone lie ahead."""
    ahead = self.ahead
    lines = SOUND['begin_again'](self, other)
    self.debugger.steps += ahead
    return lines


def old_text(self, other):
    """Shows the script as it was."""
    text = self.text
    lines = SOUND['begin_again'](self, other)
    self.text = text
    return lines


def forgets(self):
    """A script that is refused has an empty line repeat nothing."""
    lines = SOUND['reload'](self)
    if lines[0].startswith('refused'):
        self.last = None
    return lines


def goes_back(self):
    """A script that is refused has the session at its start."""
    lines = SOUND['reload'](self)
    if lines[0].startswith('refused'):
        self.session.debugger.goto(0)
    return lines


def told_otherwise(change):
    """What tells another first line."""
    def reload(self):
        first, *lines = SOUND['reload'](self)
        return [change(first), *lines]
    return reload


def passed_over(self, name):
    """A file that is named in a file is passed over."""
    return [] if self.is_in_file else SOUND['source'](self, name)


def sourced_otherwise(change):
    """What inserts other lines, or tells other ones."""
    def source(self, name):
        lines = SOUND['source'](self, name)
        self.inserted = change(self.inserted)
        return lines
    return source


def refused_otherwise(change):
    """What tells another refusal."""
    return lambda self, name: [change(line) for line in SOUND['source'](self, name)]


def forgets_last(self, name):
    """A file has an empty line repeat nothing."""
    self.last = None
    return SOUND['source'](self, name)


def source_faults():
    """Those of the words of a file."""
    return named('source', {
        'a nested one is passed over': passed_over, 'the last word is forgotten': forgets_last,
        'the last line is lost': sourced_otherwise(lambda lines: lines[:-1]), 'the first line is lost': sourced_otherwise(lambda lines: lines[1:]),
        'the other way round': sourced_otherwise(lambda lines: lines[::-1]), 'without empty lines': sourced_otherwise(lambda lines: [*filter(None, lines)]),
        'one name for all': refused_otherwise(lambda line: line.replace('no.txt', 'FILE')),
        'too long is unread': refused_otherwise(lambda line: line.replace('has more than 1048576 bytes', "can't be read")),
        'a nested one is unread': refused_otherwise(lambda line: line.replace("source can't stand in a file of words", "the file 'a.txt' can't be read"))})


def reload_faults():
    """All of them."""
    return [
        *source_faults(),
        *named('taken_again', {'past the first that does not fit': past_the_first, 'all or none': all_or_none, 'one less': one_less}),
        *named('breaks_of', {'none': lost, 'by numbers of cells': by_numbers, 'in the lowest places': closed_up, 'untold': untold}),
        *named('break_by', {'of any rank': any_rank}),
        *named('begin_again', {'the last word stays': with_last, 'steps ahead stay': with_ahead, 'the text as it was': old_text}),
        *named('reload', {
            'a refused one forgets the last word': forgets, 'a refused one goes to the start': goes_back,
            'one step is steps': told_otherwise(lambda line: line.replace('1 step ', '1 steps ')),
            'all alone': told_otherwise(lambda line: line.partition(' of ')[2] or line),
            'with the number of the fault': told_otherwise(lambda line: line.replace('fault, ', 'fault, 4 ')),
            'a fault without its line': told_otherwise(lambda line: line.partition(' line ')[0]),
            'no file is a fault': told_otherwise(lambda line: line.replace("the file can't be read", 'the script has a fault'))})]
