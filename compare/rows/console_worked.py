"""Worked dialogues of the console: words, a line each, and what each is answered; compare/runs/worked.py compares the model's.

Each was worked out by hand from docs/CONSOLE.md, docs/FORMATS.md ("Explanations") and the rules of the language. A line that begins with `> `
is typed, the lines behind it are its answer. A script is one of examples/, or stands here; its first line is line 1. compare/runs/consoles.py asks
a program the same, and what takes a million steps too, which the model isn't asked.
"""

import os
import re
from typing import NamedTuple
from unittest import mock

from model import console, debugger, explorer
from model.console_words import CHOICE, FIRST, MORE_FIRST, MORE_HELP, TABLE, full_name
from rows.console_starts import STARTS, start_problem
from rows.examples import EXAMPLES
from rows.worked_console_ahead import AHEAD
from rows.worked_console_along import ALONG
from rows.worked_console_blame import BLAME, CUT_FROM_HERE
from rows.worked_console_choices import CHOICES
from rows.worked_console_echo import LOOKED, look_problem
from rows.worked_console_going import GOING
from rows.worked_console_help import HELP
from rows.worked_console_hits import HITS
from rows.worked_console_looks import LOOKS
from rows.worked_console_moves import FIRST_RUNS, MOVES
from rows.worked_console_onward import ONWARD
from rows.worked_console_reloads import RELOADS
from rows.worked_console_scripts import LOOP, Dialogue
from rows.worked_console_sourced import PLAIN, SHOWN, SOURCED
from rows.worked_console_sought import ALL_RUNS, MANY_RUNS, SOUGHT
from rows.worked_console_texts import TEXTS
from rows.worked_console_told import TOLD
from rows.worked_console_values import VALUES
from rows.worked_console_ways import WAYS
from rows.worked_marks import MARKS

PAGE = os.path.join(os.path.dirname(EXAMPLES), 'docs', 'CONSOLE.md')
DIALOGUES = MOVES + ALONG + AHEAD + LOOKS + TOLD + TEXTS + HELP + CHOICES + SOUGHT + WAYS + GOING + HITS + BLAME + ONWARD + VALUES + MARKS + RELOADS + SOURCED
SLOW = ALL_RUNS + FIRST_RUNS
# What takes the model long: runs of 100,000 steps, and of one more.
CUT = (
    Dialogue('a run that is cut lies ahead', LOOP, '''
cut is 100000 steps ahead
100000 ahead: local 0: line 2
    2  while 1 { }
> goto 100000
depth 100000
next: local 0: line 2
    2  while 1 { }
> next
100001 local 0: line 2
next: local 0: line 2
    2  while 1 { }
''', run=console.NamedRun('')),
    Dialogue('a run of one step too many, and the same from its second step on',
             'mpd 1; ranks 1; var x;\nwhile x < 49999 { x = x + 1; }\nprint 1;\nprint 2;', '''
> check
1 no choice: cut
1 run, and no more (1 cut)
one run for all orders of independent steps; diagnose counts each order
> next
1 local 0: line 2
next: local 0: line 2
    2  while x < 49999 { x = x + 1; }
> deadlock
no deadlock from here: 1 run, and no more (1 done)
> follow 1
run 1, done, is 100000 steps ahead
100000 ahead: local 0: line 2
    2  while x < 49999 { x = x + 1; }
> back
depth 0
100001 ahead: local 0: line 2
    2  while x < 49999 { x = x + 1; }
> trap
no trap found from here: 1 run, and no more (1 cut)
> follow 1
run 1, cut, is 100000 steps ahead
100000 ahead: local 0: line 2
    2  while x < 49999 { x = x + 1; }
> goto 100000
depth 100000
rank 0 prints 1
next: local 0: line 4
    4  print 2;
> undo-choice
refused: no choice was made before
'''),)
# What the model isn't asked: more than 65,536 runs, and a million steps.
LONG = MANY_RUNS + CUT_FROM_HERE + (
    Dialogue('a million steps', LOOP, '''
> run
1000000 steps, depth 1000000
stopped: no more than 1000000 steps are kept
next: local 0: line 2
    2  while 1 { }
> next
refused: no more than 1000000 steps are kept
> local 0
refused: no more than 1000000 steps are kept
> check
1 no choice: cut
1 run, and no more (1 cut)
one run for all orders of independent steps; diagnose counts each order
> follow 1
run 1, cut, is 0 steps ahead
next: local 0: line 2
    2  while 1 { }
> undo-choice
refused: no choice was made before
> back 1000000
depth 0
1000000 ahead: local 0: line 2
    2  while 1 { }
> redo 1000000
depth 1000000
next: local 0: line 2
    2  while 1 { }
> run-back
1000000 steps back, depth 0
at the start
1000000 ahead: local 0: line 2
    2  while 1 { }
> goto 1000001
refused: so many steps are neither taken nor ahead
> goto 1000000
depth 1000000
next: local 0: line 2
    2  while 1 { }
> back 999999
depth 1
999999 ahead: local 0: line 2
    2  while 1 { }
> redo 1000001
depth 1000000
next: local 0: line 2
    2  while 1 { }
'''),)


class Ending(NamedTuple):
    """Bytes that are read in one, and what they are answered, by a rank that loops."""
    what: str
    data: bytes
    wanted: str


SOURCE = '    2  while 1 { }\n'
FIRST_STEP = f'1 local 0: line 2\nnext: local 0: line 2\n{SOURCE}'
TOO_LONG = 'refused: this line is too long\n'
# A refusal that the model has not: it has all memory that it wants.
NO_MEMORY = 'refused: memory'
ENDINGS = (
    Ending('nothing', b'', ''),
    Ending('a last line without a line feed', b'next', FIRST_STEP),
    Ending('carriage returns before line feeds', b'next\r\n\r\n', FIRST_STEP + f'2 local 0: line 2\nnext: local 0: line 2\n{SOURCE}'),
    Ending('a carriage return at the end of the input', b'next\r', "unknown word 'next?': perhaps next\n"),
    Ending('two carriage returns', b'next\r\r\n', "unknown word 'next?': perhaps next\n"),
    Ending('a carriage return alone', b'next\n\r\r\n', FIRST_STEP + "unknown word '?': help all lists all\n"),
    Ending('as long as a line may be', b'next' + b' ' * 4092 + b'\r\n', FIRST_STEP),
    Ending('one byte more', b'next' + b' ' * 4093 + b'\n', TOO_LONG),
    Ending('one byte more, at the end', b'next' + b' ' * 4092 + b'\r', TOO_LONG),
    Ending('a comment that is too long', b'#' * 4097 + b'\n#' + b'#' * 4095, TOO_LONG),
    Ending('blanks that are too long, and what was last', b'next\n' + b' ' * 4097 + b'\n\n',
           f'{FIRST_STEP}{TOO_LONG}2 local 0: line 2\nnext: local 0: line 2\n{SOURCE}'),
    Ending('a long word', b'n' * 4096, f"unknown word\n        '{'n' * 4096}':\n        help all lists all\n"),
    Ending('a long word that begins as another', b'ne' * 2048, f"unknown word\n        '{'ne' * 2048}':\n        perhaps next\n"),
    Ending('bytes that are no UTF-8', b'\xff\xfe next\nn\xc3\nn\xc3\xa9\n',
           "unknown word '??': help all lists all\nunknown word 'n?': help all lists all\nunknown word 'n??': help all lists all\n"),
    Ending('what is no UTF-8 behind two bytes of a word', b'ne\xc3\nn\xffext\nSh\xff\nsh\x80w\n', "unknown word 'ne?': perhaps next\n"
           "unknown word 'n?ext': help all lists all\nunknown word 'Sh?': help all lists all\nunknown word 'sh?w': perhaps show\n"),
    Ending('bytes that are no text behind a word', b'next \xff\nprint \x00\nbreak change 0 \xc3\n',
           "usage: next [N]\nrefused: no expression has '?'\nno variable or request is called '?'\n"),
    Ending('an empty line first', b'\n\n', ''),
    Ending('what stands behind the end', b'quit\nnext\n', ''),
    Ending('the end by its other name', b'exit\nnext\n', ''),
    Ending('next by its other names, and an empty line', b's\nstep 1\n\nexit\n',
           f'{FIRST_STEP}1 step, depth 2\nstopped: as many steps as were asked for\nnext: local 0: line 2\n{SOURCE}'
           f'3 local 0: line 2\nnext: local 0: line 2\n{SOURCE}'),
    Ending('the end with blanks', b' \t q\t \r\nnext\n', ''),
    Ending('the end with a carriage return in it', b'quit\r\r\nnext\n', f"unknown word 'quit?': perhaps quit\n{FIRST_STEP}"),
    Ending('the end with one before it', b'\rq\n\r\r\nnext\n',
           f"unknown word '?q': help all lists all\nunknown word '?': help all lists all\n{FIRST_STEP}"),
    Ending('an end that is too long', b'quit' + b' ' * 4093 + b'\nnext\n', TOO_LONG + FIRST_STEP),
    Ending('an end that is a comment, and one with more words', b'#quit\nquit #\nqui\nquitt\nnext\n', "usage: quit\n"
           f"unknown word 'qui': perhaps quit\nunknown word 'quitt': perhaps quit\n{FIRST_STEP}"),
    Ending('a form feed is no blank', b'next\x0c\n', "unknown word 'next?': perhaps next\n"))


# ---- the model beside the rows

def dialogue_problem(row):
    """What the model answers otherwise than a dialogue wants; None where nothing is."""
    limit = debugger.MOST_STEPS if row.limit is None else row.limit
    fuel = console.MOST_FUEL if row.fuel is None else row.fuel
    runs = explorer.MOST_RUNS if row.runs is None else row.runs
    states = console.MOST_STATES if row.states is None else row.states
    with (mock.patch.object(debugger, 'MOST_STEPS', limit), mock.patch.object(console, 'MOST_FUEL', fuel),
          mock.patch.object(explorer, 'MOST_RUNS', runs), mock.patch.object(console, 'MOST_STATES', states)):
        talked = console.begun(row.text, row.mode, row.witness_text, row.run)
        if row.files:
            talked.files = iter([None if text is None else text.encode() for text in row.files])
        talked.open_words = row.words_by_name.get if row.words else talked.open_words
        if talked.first != row.first:
            return f'{talked.first} was told first, and not {row.first}'
        for typed, wanted in row.turns:
            said = ''.join('' if talked.is_over else talked.answer(line) for line in talked.to_answer(typed))
            if said != wanted:
                return f'{typed} was answered\n{said}and not\n{wanted}'
    return None


def ending_problem(row):
    """The same of bytes that are read in one."""
    result = console.debug(LOOP.encode(), row.data)
    return None if result == debugger.Result(row.wanted.encode(), b'', 0) else f'{result}'


def page_rows():
    """The rows of the table of words in docs/CONSOLE.md: first column, second and third, without marks of code."""
    with open(PAGE, encoding='ascii') as file:
        lines = file.read().partition('\n## Words\n')[2].partition('\n## ')[0].splitlines()
    rows = [[part.strip().replace('`', '') for part in line.strip('|').split('|')] for line in lines if re.match(r'\| `', line)]
    return [tuple(row) for row in rows]


def table_problem():
    """What the table of the model has otherwise than the page; None where nothing is."""
    here = [(', '.join(row.forms), ', '.join(row.short), row.what) for row in TABLE]
    return None if page_rows() == here else f'the page has {set(page_rows()) ^ set(here)}'


def refusals_problem():
    """What the model refuses by other lines than the page tells; None where nothing is."""
    with open(PAGE, encoding='ascii') as file:
        told = set(re.findall(r'^\| `(refused: [^`]+)` \|', file.read(), re.M))
    here = {*console.REFUSALS.values(), console.NO_CANDIDATE, console.NO_RUN, console.NO_CHOICE, console.NO_LAST_RANK, console.NO_INDEX, console.NEEDS_INDEX,
            console.NO_VALUE, NO_MEMORY, console.NO_SCRIPT, console.NESTED, console.NO_WORDS, console.LONG_WORDS, 'refused: no statement begins at line 7',
            'refused: the script has a fault, NAME at BYTE line LINE'}
    return None if told == here else f'the page has {told ^ here}'


# How the page tells the words that one needs first.
FIRST_TOLD = ', '.join(f'`{word}`' for word in FIRST[:-1]) + f' and `{FIRST[-1]}`: the first column'


def lines_problem():
    """Which lines of the model the page doesn't have: at a terminal, and below the list of all words; None where it has all."""
    with open(PAGE, encoding='ascii') as file:
        page = file.read()
    told = [f'`{line}`' for line in (*MORE_FIRST, *MORE_HELP, CHOICE)]
    missing = [line for line in (f'\n    {console.GREETING}\n', *told) if line not in page]
    if FIRST_TOLD not in ' '.join(page.split()):
        missing.append(FIRST_TOLD)
    return f'the page has no {missing}' if missing else None


def words_without_dialogue():
    """The words that no dialogue types: each must be typed where it fits its forms."""
    answered = [typed.decode('latin-1').split()[0] for row in DIALOGUES for typed, answer in row.turns
                if typed.split() and not answer.startswith(('usage', 'unknown'))]
    return [word for row in TABLE for word in row.words if word not in map(full_name, answered)]


def problems():
    """All rows, each with its problem, or None."""
    found = [(row.what, dialogue_problem(row)) for row in DIALOGUES + SLOW + CUT]
    found += [(row.what, ending_problem(row)) for row in ENDINGS] + [(row.what, start_problem(row)) for row in STARTS]
    found += [(row.what, look_problem(row)) for row in LOOKED]
    found += [('words of a file that are shown', None if PLAIN.shown() == SHOWN.encode() else f'{PLAIN.shown()}')]
    found += [('the refusals', refusals_problem()), ('lines at a terminal, and of help', lines_problem())]
    return found + [('the table of words', table_problem()), ('words without a dialogue', ', '.join(words_without_dialogue()) or None)]
