"""The words of the console, in the model: the table of them (docs/CONSOLE.md, "Words"), what may follow each, and the texts of help.

The table was written down by hand from that page; compare/rows/console_worked.py compares the two.
"""

import re
from typing import NamedTuple

from model.debugger import call_id_of, number_of
from model.policy import COMPARISONS

# How wide the forms of a word are in the list of all words, at least.
COLUMNS = 36
# What stands below that list.
MORE_HELP = 'help WORD tells more of a word, and its short forms', 'an empty line does the last word once more'
# The words that one needs first, and what stands below the list of these.
FIRST = 'next', 'run', 'back', 'undo-choice', 'restart', 'break', 'list', 'print', 'why', 'deadlock', 'blame', 'quit'
MORE_FIRST = ('help all lists all words; help WORD tells more of one, and its short forms', 'help choice tells what a choice is',
              'an empty line does the last word once more')
CHOICE = ('choice: a state in which one of several steps is to be taken next, as which message a receive of any source gets; next lists them, '
          'next N takes one, from 1 (reports count them from 0, in [..]), undo-choice comes back to take another, and check tries all of them')
# So many bytes of its beginning a word that is none must have in common with the one that it is told with.
LEAST_SHARED = 2


class Row(NamedTuple):
    """A row of the table: the forms of its word, or of its words, the short names, and what it does."""
    forms: tuple
    short: tuple
    what: str

    @property
    def words(self):
        """The names of its words."""
        return tuple(dict.fromkeys(form.split()[0] for form in self.forms))


TABLE = (
    Row(('next [N]',), ('n', 'step', 's'),
        'takes the step that comes next; at a choice the one that lies ahead, or it lists the candidates, of which next N takes one, from 1 '
        '(reports count them from 0, in [..]); elsewhere next N is run N'),
    Row(('run [N]',), ('r', 'continue', 'c'), 'goes on to a breakpoint, a choice or an end; or so many steps at most'),
    Row(('until LINE', 'until rank P'), (), 'goes on until a rank comes to that line; as run does to a breakpoint there; or until rank P has gone on'),
    Row(('finish [P]',), (), "goes on until a rank's call is over; the one that rank P waits in, or the rank of the last step"),
    Row(('back [N]', 'back rank P'), ('bk', 'undo', 'rs', 'reverse-step', 'reverse-next'),
        'takes a step back, or so many; or goes back to before the last local step of rank P'),
    Row(('run-back',), ('rc', 'reverse-continue'), 'goes back to a breakpoint, or to the start'),
    Row(('undo-choice',), ('u',), 'goes back to the last choice; another candidate can be taken there'),
    Row(('goto N',), ('g',), 'goes to where so many steps are taken; back, or along the steps ahead'),
    Row(('restart',), (), 'goes back to the start; redo all goes along the same steps again'),
    Row(('reload',), (),
        'reads the file of the script again; breakpoints stay, and the steps that were taken are taken again, as far as they fit'),
    Row(('source FILE',), (), 'answers the words of a file; each of its lines is answered as if it was typed, and none of them is a source'),
    Row(('redo [N]', 'redo all'), (), 'takes the first step ahead, or so many; as far as there are, or all'),
    Row(('local P', 'match S R', 'wake P', 'wakeany P I', 'release'), (),
        'takes this step; P is a rank, S and R are a send and a receive as 1.0, and I is the number of a request of a waitany, from 0'),
    Row(('break LINE [rank P] [if NAME OP N]', 'break match LINE [rank P]', 'break rank P', 'break change P NAME'), ('b', 'br'),
        'sets a breakpoint; after a step by which a rank, or rank P, comes to that line, if its variable compares so with N, OP being ==, !=, <, <=, > '
        "or >=; after a match of a call of that line, or of one of rank P; after each step of rank P after which it isn't blocked; after a change of that variable "
        'or request of rank P'),
    Row(('watch NAME P',), (), 'sets a breakpoint on a variable or a request; the same as break change P NAME'),
    Row(('delete N',), ('d',), 'removes a breakpoint'),
    Row(('breaks',), (), 'lists the breakpoints'),
    Row(('info breakpoints', 'info ranks'), (), 'lists breakpoints, or what ranks are doing; the same as breaks, and as ranks'),
    Row(('list [P]',), ('l',), 'shows the script, and where ranks stand; or the lines about rank P'),
    Row(('print EXPR [P]',), ('p',), 'shows a variable, a request or an expression; of all ranks, or of rank P'),
    Row(('vars [P]',), (), 'shows all variables in short; requests, and what was printed, too'),
    Row(('ranks',), ('bt', 'where'), 'shows what each rank is doing'),
    Row(('calls [P]',), (), 'lists the calls of all ranks, or of rank P'),
    Row(('queues',), (), 'lists the sends and receives that are free'),
    Row(('why [P]', 'why CALL'), ('w',), "says why ranks wait; all of them, or rank P; or why a call isn't matched, CALL as 0.1"),
    Row(('history [N]',), ('h',), 'lists the last 10 steps, or the last N'),
    Row(('picture',), (), 'draws the run so far'),
    Row(('check [N]',), (), 'tries the choices, and lists how runs end; from here, 1,000 or N of them at most'),
    Row(('follow N',), ('f',), 'lays the steps of a run ahead; N is its number in a check from here'),
    Row(('deadlock',), (), "lays the first deadlock's steps ahead; the first from here, so that run and redo go there; at a deadlock ranks wait, "
        'and no step can be taken'),
    Row(('trap',), (), "lays the first trap's steps ahead; a trap ends a rank at an error, as a failed assert or a division by 0"),
    Row(('blame',), (), 'goes to the step that decided how it ends; after that step every run ends badly'),
    Row(('words',), (), 'lists the steps taken as trace words; to be kept in a file'),
    Row(('enabled',), (), 'lists the steps that are enabled'),
    Row(('show',), (), 'shows the whole state, as a trace does; docs/FORMATS.md, "Text of show"'),
    Row(('help [WORD]', 'help all', 'help choice'), ('?',),
        'lists words to begin with, or tells of one; help all lists all words; help choice tells what a choice is'),
    Row(('quit',), ('q', 'exit'), 'ends'))


def literal(text):
    """What reads a word that must be this one."""
    return lambda word: text if word == text.encode() else None


def any_word(word):
    return word


# What a name means is known by the script alone (console.py).
NAME = any_word
NUMBER, CALL, STEPS = number_of, call_id_of, ('local', 'match', 'wake', 'wakeany', 'release')
MAYBE_NUMBER = (), (NUMBER,)
# A rank, behind words that may name one or something else.
OF_RANK = literal('rank'), NUMBER
# All steps that are ahead.
ALL = 'all'
# What help tells of beside words.
HELP_ON = b'all', b'choice'
# What may follow each word: lists of what reads the words behind it, one of which must fit.
FOLLOWING = {
    'next': MAYBE_NUMBER, 'run': MAYBE_NUMBER, 'until': ((NUMBER,), OF_RANK), 'finish': MAYBE_NUMBER, 'back': (*MAYBE_NUMBER, OF_RANK), 'run-back': ((),),
    'undo-choice': ((),), 'goto': ((NUMBER,),),
    'restart': ((),), 'reload': ((),), 'source': ((any_word,),), 'redo': (*MAYBE_NUMBER, (literal(ALL),)),
    'local': ((NUMBER,),), 'match': ((CALL, CALL),), 'wake': ((NUMBER,),), 'wakeany': ((NUMBER, NUMBER),), 'release': ((),),
    # A breakpoint of a line and of a match is read as a whole (break_given).
    'break': (OF_RANK, (literal('change'), NUMBER, NAME)),
    'watch': ((NAME, NUMBER),), 'delete': ((NUMBER,),), 'breaks': ((),), 'info': ((literal('breakpoints'),), (literal('ranks'),)),
    'list': MAYBE_NUMBER, 'print': ((NAME,), (NAME, NUMBER)), 'vars': MAYBE_NUMBER, 'ranks': ((),), 'calls': MAYBE_NUMBER,
    'queues': ((),), 'why': ((), (NUMBER,), (CALL,)), 'history': MAYBE_NUMBER, 'picture': ((),), 'check': MAYBE_NUMBER,
    'follow': ((NUMBER,),), 'deadlock': ((),), 'trap': ((),), 'blame': ((),), 'words': ((),), 'enabled': ((),), 'show': ((),),
    'help': ((), (any_word,)), 'quit': ((),)}


class Asked(NamedTuple):
    """What a line asks for: a word by its name, and what follows it."""
    word: str
    given: tuple = ()


def to_repeat(asked):
    """What an empty line does behind a line that asks for this: `next` without its number, and all else with what followed it."""
    return asked._replace(given=()) if asked.word == 'next' else asked


class NotAsked(Exception):
    """A line asks for nothing: `told` is what it is answered."""

    def __init__(self, told):
        super().__init__(told)
        self.told = told


def names_of(row):
    """The names in a row, short ones too, as they stand in the table."""
    return (*row.words, *row.short)


def row_of(name):
    """The row that has a name; None where none has."""
    return next((row for row in TABLE if name in names_of(row)), None)


def full_name(name):
    """The word that a name stands for; None where it is none."""
    row = row_of(name)
    if row is None:
        return None
    return name if name in row.words else row.words[0]


# ---- words that are none, and those that don't fit

def shared(one, other):
    """How many bytes two words have in common at their beginnings."""
    count = 0
    while count < min(len(one), len(other)) and one[count] == other[count]:
        count += 1
    return count


def nearest(word):
    """The name that shares the longest beginning with a word, of several the first in the table; None where none has its first two bytes."""
    names = [name for row in TABLE for name in names_of(row)]
    found = max(names, key=lambda name: shared(name.encode(), word))
    return found if shared(found.encode(), word) >= LEAST_SHARED else None


def shown(word):
    """A word as it is told: what is no printable ASCII as a question mark."""
    return ''.join(chr(byte) if 32 <= byte <= 126 else '?' for byte in word)


def unknown(word):
    """What is told of a word that is none."""
    name = nearest(word)
    return f"unknown word '{shown(word)}': {'help all lists all' if name is None else f'perhaps {name}'}"


def usage(word):
    """What is told where something else stands behind a word than may: its forms."""
    return f'usage: {", ".join(form for form in row_of(word).forms if form.split()[0] == word)}'


def words_of(line):
    return [word for word in line.replace(b'\t', b' ').split(b' ') if word]


# A breakpoint of a line, `line` left out or not, and of a match. An operator stands between a name and a number, with blanks or without.
LINE_BREAK = re.compile(rb'(?:line )?(\d{1,9})(?: rank (\d{1,9}))?(?: if ([^ !<=>]+) ?([!<=>]+) ?(-?\d{1,19}))?')
MATCH_BREAK = re.compile(rb'match (\d{1,9})(?: rank (\d{1,9}))?')


class Compared(NamedTuple):
    """A condition with its name as it stands."""
    name: bytes
    operator: str
    value: int


def break_given(behind):
    """What follows `break` where that is a line or a match: its kind, its line, its rank, and of a line what must hold."""
    text = b' '.join(behind)
    if found := MATCH_BREAK.fullmatch(text):
        line, rank = found.groups()
        return 'match', int(line), None if rank is None else int(rank)
    found = LINE_BREAK.fullmatch(text)
    if found is None:
        return None
    line, rank, name, operator, value = found.groups()
    condition = None if name is None else Compared(name, operator.decode(), int(value))
    if condition and (condition.operator not in COMPARISONS or not -2**63 <= condition.value < 2**63):
        return None
    return 'line', int(line), None if rank is None else int(rank), condition


def given_by(word, behind):
    """What follows a word, as one of the lists of what may follow it reads it; None where none does."""
    if word == 'break' and (given := break_given(behind)):
        return given
    for readers in FOLLOWING[word]:
        given = tuple(reader(part) for reader, part in zip(readers, behind))
        if len(readers) == len(behind) and None not in given:
            return given
    return None


def same_as(word, given):
    """What a word with what follows it asks for: some words are others by another name."""
    if word == 'restart':
        return Asked('goto', (0,))
    if word == 'watch':
        name, rank = given
        return Asked('break', ('change', rank, name))
    if word == 'info':
        return Asked('breaks' if given == ('breakpoints',) else 'ranks')
    return Asked(word, given)


def read_line(line):
    """What a line that has a word asks for; what its names mean isn't looked at."""
    first, *behind = words_of(line)
    word = full_name(first.decode('latin-1'))
    if word is None:
        raise NotAsked(unknown(first))
    given = given_by(word, behind)
    if given is None:
        raise NotAsked(usage(word))
    if word == 'help' and given and given[0] not in HELP_ON and row_of(given[0].decode('latin-1')) is None:
        raise NotAsked(unknown(given[0]))
    return same_as(word, given)


# ---- help

def in_short(row):
    """A row in the list of all words: its forms, and what it does, up to the first semicolon."""
    return f'{", ".join(row.forms).ljust(COLUMNS - 1)} {row.what.partition(";")[0]}'


def short_lines(row):
    """The short forms of a row, where it has any."""
    return [f'  short: {", ".join(row.short)}'] if row.short else []


def help_of(word=None):
    """The lines of help: of the words that one needs first, of all, what a choice is, or of one word that there is."""
    if word is None:
        return [*(in_short(row_of(first)) for first in FIRST), *MORE_FIRST]
    if word == b'all':
        return [*map(in_short, TABLE), *MORE_HELP]
    if word == b'choice':
        return [CHOICE]
    row = row_of(word.decode('latin-1'))
    return [f'{", ".join(row.forms)}: {row.what}', *short_lines(row)]
