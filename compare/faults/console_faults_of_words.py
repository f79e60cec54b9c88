"""Faults of the words of the console's model: names, what may follow them, words that are none, and help (console_faults.py)."""

import re
from inspect import isfunction

from faults.policy_faults import Breakage
from model import console, console_words
from model.console_words import FOLLOWING, TABLE, Asked, names_of, row_of, shared
from model.debugger import call_id_of

SOUND = {name: value for name, value in vars(console_words).items() if isfunction(value)}
ALL_NAMES = [name for row in TABLE for name in names_of(row)]
ALL_WORDS = [word for row in TABLE for word in row.words]


# Short forms that another word has.
MOVED = (('s', 'show'), ('step', 'run'), ('where', 'why'), ('where', 'list'), ('bt', 'back'), ('exit', 'history'), ('b', 'back'), ('br', 'breaks'),
         ('bk', 'break'), ('undo', 'undo-choice'), ('rs', 'run-back'), ('reverse-step', 'undo-choice'))


def named(name, faults, owner=console_words):
    """Faults that stand in the place of a function, each by what it is called."""
    return [Breakage(f'{name}: {what}', owner, name, replacement) for what, replacement in faults.items()]


def moved(name, word):
    """The table, of which a short form is one of another word."""
    rows = [row._replace(short=tuple(short for short in row.short if short != name)) for row in TABLE]
    return tuple(row._replace(short=(*row.short, name)) if word in row.words else row for row in rows)


def best(names, key):
    """The first name by which a key is greatest; None where that is too little."""
    found = max(names, key=key)
    return found if key(found) >= console_words.LEAST_SHARED else None


def nearest_among(names):
    """What seeks the nearest among some names."""
    return lambda word: best(names, lambda name: shared(name.encode(), word))


def same_places(word):
    """What counts all bytes that are the same at the same places."""
    return best(ALL_NAMES, lambda name: sum(one == other for one, other in zip(name.encode(), word)))


def nearest_of_short(word):
    """What wants all bytes of a shorter word in common."""
    found = max(ALL_NAMES, key=lambda name: shared(name.encode(), word))
    return found if shared(found.encode(), word) >= min(len(word), console_words.LEAST_SHARED) else None


def full_nearest(word):
    """What names a word in the place of a short form."""
    found = SOUND['nearest'](word)
    return found and SOUND['full_name'](found)


def any_beginning(name):
    """What takes a beginning of a word for the word, where it is one of no other."""
    found = [other for other in ALL_NAMES if other.startswith(name)]
    return SOUND['full_name'](name) or (SOUND['full_name'](found[0]) if len(found) == 1 else None)


def signed(word):
    """A number, with a sign or without."""
    return console_words.number_of(word.removeprefix(b'+'))


def ten_digits(word):
    return int(word) if len(word) <= 10 and word.isdigit() else None


def short_index(word):
    """A word with an index of nine digits at most."""
    return None if re.search(rb'[0-9]{10}', word) else word


def more_words(word, behind):
    """What passes over words behind those that fit."""
    fitting = (SOUND['given_by'](word, behind[:count]) for count in range(len(behind), -1, -1))
    return next((given for given in fitting if given is not None), None)


def call_or_number(word):
    return call_id_of(word) or call_id_of(word + b'.0')


def help_of_form(word=None):
    """What tells the forms of a word alone, and not those of its row."""
    found = None if word is None else SOUND['full_name'](word.decode('latin-1'))
    return SOUND['help_of'](word) if found is None else [f'{SOUND["usage"](found).removeprefix("usage: ")}: {row_of(found).what}']


def done_as(**others):
    """What has other words stand for others, by functions of what follows them."""
    return lambda word, given: others[word](*given) if word in others else SOUND['same_as'](word, given)


NUMBER, CALL, EVERY = console_words.NUMBER, console_words.CALL, (console_words.literal(console_words.ALL),)
FOLLOWING_OTHERWISE = {
    'a sign before a number': {'next': ((), (signed,)), 'redo': ((), (signed,), EVERY)},
    'ten digits': {'back': ((), (ten_digits,)), 'goto': ((ten_digits,),)},
    'redo with a number or all alone': {'redo': ((NUMBER,), EVERY)},
    'redo without all': {'redo': ((), (NUMBER,))},
    'redo of the letter a': {'redo': (*FOLLOWING['redo'], (lambda word: console_words.ALL if word == b'a' else None,))},
    'indexes of nine digits': {'print': ((short_index,), (short_index, NUMBER))},
    'no rank behind a name': {'print': ((console_words.NAME,),)}, 'calls by their ranks': {'match': ((call_or_number, call_or_number),)},
    'why of a rank alone': {'why': ((), (NUMBER,))}, 'why of a call alone': {'why': ((), (CALL,))},
    'why of something alone': {'why': ((NUMBER,), (CALL,))},
    'no breakpoint of a rank': {'break': FOLLOWING['break'][1:]},
    'restart with a number': {'restart': ((), (NUMBER,))},
    'info of the letter b': {'info': (*FOLLOWING['info'], (lambda word: 'breakpoints' if word == b'b' else None,))},
    'info of breaks': {'info': (*FOLLOWING['info'], (console_words.literal('breaks'),))},
    'info alone': {'info': ((), *FOLLOWING['info'])},
    'history without a number': {'history': ((),)}, 'check with a number alone': {'check': ((NUMBER,),)}}


def line_break(*changes):
    """What reads a breakpoint of a line otherwise, by parts of the pattern and what stands for them."""
    pattern = console_words.LINE_BREAK.pattern
    for part, other in changes:
        assert part in pattern
        pattern = pattern.replace(part, other)
    return re.compile(pattern)


LINE_BREAKS = {
    'no word line': [(b'(?:line )?', b'')], 'the letter l': [(b'(?:line )?', b'(?:line |l )?')], 'no rank': [(b'(?: rank (', b'(?: ranks (')],
    'no condition': [(b' if ', b' when ')],
    'blanks around an operator': [(b' ?([!<=>]+) ?', b' ([!<=>]+) ')], 'no blank around an operator': [(b' ?([!<=>]+) ?', b'([!<=>]+)')],
    'no number below 0': [(b'-?', b'')], 'nine digits of a condition': [(b'{1,19}', b'{1,9}')]}


def word_faults():
    return [
        *named('nearest', {
            'the last of several': nearest_among(ALL_NAMES[::-1]),
            'no short names': nearest_among(ALL_WORDS),
            'short names after all others': nearest_among([*ALL_WORDS, *ALL_NAMES]),
            'bytes at their places': same_places,
            'one byte of a word of one': nearest_of_short,
            'a word for a short form': full_nearest,
            'none': lambda word: None,
            'by the alphabet': nearest_among(sorted(ALL_NAMES)),
            'small and large letters alike': lambda word: SOUND['nearest'](word.lower()),
            'the first word where none is near': lambda word: SOUND['nearest'](word) or 'next'}),
        *named('shown', {
            'as Latin-1': lambda word: word.decode('latin-1'),
            'letters alone': lambda word: ''.join(chr(byte) if chr(byte).isalnum() and byte < 128 else '?' for byte in word),
            'a tilde is none': lambda word: SOUND['shown'](word).replace('~', '?'),
            'delete is one': lambda word: ''.join(chr(byte) if 32 <= byte <= 127 else '?' for byte in word),
            'other bytes left out': lambda word: ''.join(chr(byte) for byte in word if 32 <= byte <= 126),
            '64 bytes': lambda word: SOUND['shown'](word)[:64]}),
        *named('unknown', {
            'no quotes': lambda word: SOUND['unknown'](word).replace("'", '')}),
        *named('full_name', {
            'beginnings of words': any_beginning,
            'small and large letters alike': lambda name: SOUND['full_name'](name.lower()),
            'no short names': lambda name: name if any(name in row.words for row in TABLE) else None}),
        *named('usage', {
            'all forms of the row': lambda word: f'usage: {", ".join(row_of(word).forms)}',
            'the first form': lambda word: SOUND['usage'](word).partition(',')[0],
            'the word too': lambda word: SOUND['usage'](word).replace('usage', f'{word}: usage'),
            'the word line too': lambda word: SOUND['usage'](word).replace('break LINE [', 'break LINE, break line LINE [')}),
        *named('words_of', {
            'all blanks that there are': lambda line: line.split() or [line],
            'no tabs': lambda line: [word for word in line.split(b' ') if word]}),
        *named('given_by', {
            'more words': more_words}),
        *[Breakage(f'what may follow: {what}', console_words, 'FOLLOWING', {**FOLLOWING, **readers})
          for what, readers in FOLLOWING_OTHERWISE.items()],
        *[Breakage(f'a breakpoint of a line: {what}', console_words, 'LINE_BREAK', line_break(*parts)) for what, parts in LINE_BREAKS.items()],
        *[Breakage(f'a breakpoint of a line: no {operator}', console_words, 'COMPARISONS', {
            name: test for name, test in console_words.COMPARISONS.items() if name != operator}) for operator in console_words.COMPARISONS],
        *named('compared_cell', {
            'the cell of a request': lambda self, word: self.one(word).declared.first,
            'the first cell of an array': lambda self, word: self.meant(word).declared.first}, console.Console),
        *named('in_short', {
            'all that it does': lambda row: f'{", ".join(row.forms).ljust(console_words.COLUMNS - 1)} {row.what}',
            'the first form': lambda row: SOUND['in_short'](row._replace(forms=row.forms[:1])),
            'no space behind long forms': lambda row: f'{", ".join(row.forms).ljust(console_words.COLUMNS)}{row.what.partition(";")[0]}'}),
        *[Breakage(f'nearest: {count} bytes in common', console_words, 'LEAST_SHARED', count) for count in (0, 1, 3)],
        *[Breakage(f'names: {name} is {word}', console_words, 'TABLE', moved(name, word)) for name, word in MOVED],
        *named('to_repeat', {
            'the same number again': lambda asked: asked,
            'nothing of what followed': lambda asked: asked._replace(given=()) if asked.word in ('next', 'run', 'back', 'redo') else asked,
            'no number of runs': lambda asked: asked._replace(given=()) if asked.word in ('next', 'check') else asked,
            'one step': lambda asked: Asked('next', (1,)) if asked.word == 'next' and asked.given else asked}, owner=console),
        *named('short_lines', {
            'none': lambda row: [],
            'of another word': lambda row: SOUND['short_lines'](TABLE[TABLE.index(row) - 1]),
            'where there is none, too': lambda row: SOUND['short_lines'](row) or ['  short: '],
            'none is told': lambda row: SOUND['short_lines'](row) or ['  short: none'],
            'the first alone': lambda row: SOUND['short_lines'](row._replace(short=row.short[:1])),
            'the word too': lambda row: SOUND['short_lines'](row._replace(short=(*row.words[:1], *row.short) if row.short else ())),
            'no spaces': lambda row: [line.strip() for line in SOUND['short_lines'](row)]}),
        *named('same_as', {
            'restart goes to 1': done_as(restart=lambda: Asked('goto', (1,))),
            'restart runs back': done_as(restart=lambda: Asked('run-back')),
            'info ranks lists breakpoints': done_as(info=lambda what: Asked('breaks')),
            'info breakpoints tells of ranks': done_as(info=lambda what: Asked('ranks')),
            'a watch of rank 0': done_as(watch=lambda name, rank: Asked('break', ('change', 0, name))),
            'a watch that prints': done_as(watch=lambda name, rank: Asked('print', (name, rank))),
            'a watch whose name is its rank': done_as(watch=lambda name, rank: Asked('break', ('change', rank, str(rank).encode())))}),
        *[Breakage(f'help of the first words: {what}', console_words, 'FIRST', words) for what, words in (
            ('no blame', tuple(word for word in console_words.FIRST if word != 'blame')), ('help too', (*console_words.FIRST, 'help')),
            ('why before print', ('next', 'run', 'back', 'undo-choice', 'list', 'why', 'print', 'deadlock', 'blame', 'quit')))],
        *[Breakage(f'help of the first words: {what}', console_words, 'MORE_FIRST', lines) for what, lines in (
            ('no line of choices', console_words.MORE_FIRST[::2]), ('no last line', console_words.MORE_FIRST[:2]),
            ('the last lines of all', console_words.MORE_HELP))],
        Breakage('help of a choice: from 0', console_words, 'CHOICE', console_words.CHOICE.replace('from 1', 'from 0')),
        Breakage('help: no choice', console_words, 'HELP_ON', (b'all',)),
        *[Breakage(f'help: {what}', console_words, 'MORE_HELP', lines) for what, lines in (
            ('the last line alone', console_words.MORE_HELP[1:]), ('no last line', console_words.MORE_HELP[:1]),
            ('the last line first', console_words.MORE_HELP[::-1]))],
        Breakage('help: 35 columns', console_words, 'COLUMNS', 35),
        Breakage('help: 37 columns', console_words, 'COLUMNS', 37),
        *named('help_of', {
            'up to the semicolon': lambda word=None: [line.partition(';')[0] for line in SOUND['help_of'](word)],
            'the form of the word alone': help_of_form,
            'the short forms first': lambda word=None: SOUND['help_of'](word)[::-1] if word else SOUND['help_of'](),
            'all words at once': lambda word=None: SOUND['help_of'](word or b'all'),
            'the first words for all': lambda word=None: SOUND['help_of'](None if word == b'all' else word),
            'no word': lambda word=None: SOUND['help_of']()})]
