"""What is met in dialogues of the console: what each line of an answer tells, by its form, and of what kind a dialogue is (consoles.py)."""

import re

from cases.explained_met import TOLD_BY as EXPLAINED
from model.console_words import TABLE, names_of
from model.modes import BUFFERED

STEP = r'(local|match|wake|wakeany|release)\b.*'
CALL = r'line \d+, \d+\.\d+ '
SENDS, TO = r'rank \d+ sends -?\d+, tag \d+ \(line \d+\)', r'to rank \d+ \(line \d+\)'
REQUEST = r'request \w+(\[\d+\])?, the {} of line \d+ \(value -?\d+\)'
# What a line of an answer tells, by its form.
TOLD_BY = {
    **{f'a step {word}': rf'\d+ {word}\b.*: .*' for word in ('local', 'match', 'wake', 'wakeany', 'release')},
    'steps ahead': rf'\d+ ahead: {STEP}', 'next': rf'next: {STEP}',
    'a choice of one call': r'stopped at a choice of rank \d+, line \d+; next N takes one:',
    'a choice of several calls': r'stopped at a choice; next N takes one:', 'a candidate that is a match': rf'  \d+: {SENDS}; match .*', 'a candidate of several calls': rf'  \d+: {SENDS}, {TO}; match .*',
    'a candidate that is a receive': rf'  \d+: {REQUEST.format("receive")}; wakeany .*', 'a candidate that is a send': rf'  \d+: {REQUEST.format("send")}; wakeany .*',
    'a match that is enabled': rf'{SENDS}, {TO}; match .*', 'a request that is enabled': rf'{REQUEST.format("(receive|send)")}, for rank \d+; wakeany .*',
    'a local step that is enabled': r'rank \d+ runs line \d+; local \d+', 'a wake that is enabled': r'rank \d+ goes on from line \d+; wake \d+',
    'a release that is enabled': r'all ranks leave the barrier; release',
    **{f'ended {word}': rf'ended: {word}\b.*' for word in ('done', 'leftovers', 'deadlock', 'trap')},
    'a run': r'\d+ steps, depth \d+', 'a run of one step': r'1 step, depth \d+', 'a run back': r'\d+ steps back, depth \d+',
    'a run back of one step': r'1 step back, depth \d+', 'at the start': r'at the start',
    'before a breakpoint': r'before breakpoint \d+: .*', 'stopped by a number': r'stopped: as many steps .*',
    'stopped where the steps ahead end': r'stopped: the steps ahead end here', 'stopped at a line': r'stopped: a rank is at line \d+', 'stopped where a rank has gone on': r'stopped: rank \d+ has gone on',
    'stopped behind a call': r'stopped: that call is over', 'steps that are gone': r'the \d+ steps that lay ahead are gone',
    'a step that is gone': r'the step that lay ahead is gone', 'which runs are listed': r'one run for all orders of .*', 'printed on the way': r'rank \d+ prints -?\d+',
    'several values on the way': r'rank \d+ prints -?\d+( -?\d+)+', 'no statement at a line': r'no statement begins at line \d+',
    'a depth': r'depth \d+', **{f'a run ahead that is {way}': rf'{way} is \d+ steps? ahead(: rank .*)?' for way in ('done', 'leftovers')},
    **{f'a {way} ahead': rf'{way} is \d+ steps? ahead: rank .*' for way in ('deadlock', 'trap')},
    **{f'no {way}': rf'no {way} from here: .*' for way in ('deadlock', 'trap')},
    'none of several runs': r'no (deadlock|trap) from here: ([2-9]|\d\d+) runs, .*',
    'decided by another message': r'decided at depth \d+: .*; with that of rank .* it need not hang or trap',
    'decided by another step': r'decided at depth \d+: .*; if .* instead, it need not hang or trap',
    'decided from the start': r'decided from the start: every run hangs or traps', 'not decided': r'not decided: not every run hangs or traps',
    **{f'a run that is {way} ahead': rf'run \d+, {way}, is \d+ steps? ahead(: rank .*)?' for way in ('done', 'leftovers', 'deadlock', 'trap')},
    'more runs': r'\d+ runs?, and there are more \(.*\)', 'no more runs': r'\d+ runs?, and no more \(.*\)', 'one run': r'1 run, .*',
    **{f'runs that are {way}': rf'.*runs?, and .*[(,] ?\d+ {way}\b.*' for way in ('done', 'leftovers', 'deadlock', 'trap')},
    'runs that end in several ways': r'\d+ runs, and .*\(.*, .*\)',
    'a run with choices': r'\d+ choices \d+( \d+)*: .*', 'a run without a choice': r'1 no choice: .*',
    **{f'a breakpoint {kind}': rf'breakpoint \d+: {kind} .*' for kind in ('line', 'match', 'change', 'rank')},
    'a breakpoint of a line of a rank': r'breakpoint \d+: line \d+ rank \d+( if .*)?', 'a breakpoint of a match of a rank': r'breakpoint \d+: match \d+ rank \d+',
    'a breakpoint with a condition': r'breakpoint \d+: line .* if .* -?\d+', 'a request that is compared': r'refused: a request has no value to compare',
    'names in short': r'rank \d+: \w+ = .*, \w+ = .*', 'an array in short': r'rank \d+: .*= \[-?\d+, .*',
    'requests in short': r'rank \d+: .*= \[(-|\d+\.\d+), .*',
    'a call in short': r'rank \d+: .*= \d+\.\d+(, .*)?', 'more cells than are shown': r'rank \d+: .*, \.\.\](, .*)?',
    'no cell in short': r'rank \d+: .*= \[\].*',
    'a request that is lost': rf'rank \d+ has lost a request: {CALL}.*',
    'requests of one line that are lost': r'rank \d+ has lost \d+ requests of line \d+, the first \d+\.\d+ .*',
    'a breakpoint of a cell of an array': r'breakpoint \d+: change \d+ \w+\[\d+\]', 'no breakpoint': r'no breakpoint', 'deleted': r'deleted \d+',
    'a line with ranks': r' +\d+  .*  <- rank \d+.*', 'a line with several ranks': r' +\d+  .*  <- rank \d+.*, rank .*',
    'a line with one that waits': r' +\d+  .*  <- .*rank \d+ waits.*', 'a line with one that can go on': r' +\d+  .*  <- .*rank \d+ can go on.*',
    'a line with one that is trapped': r' +\d+  .*  <- .*rank \d+ trapped.*',
    'ranks below the script': r'ended: rank .*', 'a rank that has ended': r'rank \d+ has ended', 'a rank that waits': rf'rank \d+ waits at {CALL}.*',
    'a rank that can go on': rf'rank \d+ can go on from {CALL}.*', 'a call that is complete': r'  the call is complete: rank \d+ can go on',
    'a rank at a line': r'rank \d+ is at line \d+', 'a rank that is trapped': r'rank \d+ is trapped at line \d+: .*',
    'not at a barrier, at a line': r'    rank \d+ is not there: it is at line \d+',
    'no call waited for': r'rank \d+ waits for no call', 'no rank that waits': r'no rank waits for a call',
    'a value': r'rank \d+: .* \S+ .* = -?\d+', 'a value that traps': r'rank \d+: .* traps: [a-z-]+', 'what is expected': r'refused: .* is expected at .*',
    'what no expression has': r'refused: no expression has .*', 'a request in an expression': r"refused: '\w+' is a request, and no variable",
    'a variable': r'rank \d+: \w+ = -?\d+', 'an array': r'rank \d+: \w+\[0\] = -?\d+, .*', 'a request': rf'rank \d+: \w+ = {CALL}.*',
    'no request': r'rank \d+: \w+ = no request',
    'an array of requests': rf'rank \d+: \w+\[0\] = .*{CALL}.*', 'no cell': r'rank \d+: \w+ has no cell', 'printed': r'rank \d+ has printed .*',
    'a call': rf'{CALL}.*', 'a call that is buffered': rf'{CALL}.* buffered (free|with .*)', 'no call': r'no call',
    'a pending send': rf'pending \d+ to \d+: {CALL}.*', 'a posted receive': rf'posted \d+: {CALL}.*', 'no free call': r'no free call',
    'no step enabled': r'no step is enabled', 'can be matched': rf'  can be matched with {CALL}.*',
    'held back': rf'  could be matched with {CALL}.*, but for {CALL}.*', 'no partner': r'  has no partner yet: for a .*',
    'no step taken': r'no step is taken', 'steps that are taken again': r'\d+ of \d+ steps? taken again',
    'a trace word': r'(local|wake) \d+', 'a state': r'depth \d+ of \d+',
    'short forms': r'  short: .*', 'help of all words': r'help WORD tells more of a word, and its short forms',
    'help of the words that one needs first': r'help all lists all words; .*', 'help of a choice': r'choice: a state in which .*',
    'help of one word': r'.*: (takes|reads|answers|goes|sets|removes|lists|shows|says|tries|looks|lays|ends).*',
    'an unknown word, with one that is near': r"unknown word '.*': perhaps .*", 'an unknown word': r"unknown word '.*': help all lists all",
    'an unknown word with other bytes': r"unknown word '.*\?.*': .*", 'an unknown name': r"no variable or request is called '\w+'",
    'a name that is none': r"no variable or request is called '.*[^\w'].*'",
    **{f'refused: {why}': f'refused: {why}' for why in (
        'this step is not enabled', r'no statement begins at line \d+', 'the last step is of no rank; finish P names one', 'there is no such candidate', 'there is no such run', 'no choice was made before',
        'fewer steps are taken', 'so many steps are neither taken nor ahead', 'no step is ahead',
        '1 to 1000000 steps can be asked for', '1 to 65536 runs can be asked for', 'lines are 1 to 65537',
        'there is no such rank', 'there is no such call', 'there is no such index', 'an array needs an index here',
        'no breakpoint has this number', '64 breakpoints are set', 'this line is too long')},
    **{f'usage of {word}': rf'usage: .*\b{word}\b.*' for row in TABLE for word in row.words}}
TOLD_BY = {name: re.compile(form) for name, form in TOLD_BY.items()}
# Of explanations, which explained.py compares, these must be met here.
OF_EXPLANATIONS = ('a rank at recv', 'a rank at send', 'a rank at wait', 'a rank at waitany', 'a rank at barrier', 'another tag', 'another source',
                   'a send was taken', 'a receive was taken', 'not at a barrier, ended', 'not at a barrier, at recv', 'not at a barrier, at wait',
                   'a cycle of 2', 'trap assert')
# What may be told on standard error.
OF_ERRORS = {'a witness that is refused': rb'mpdbg: witness refused .*', 'a witness of no such step': rb'mpdbg: witness refused 32 .* at \d+',
             'a witness that is none': rb'mpdbg: bad witness.*', 'choices that no run has': rb'mpdbg: bad choices at \d+',
             'choices that are none': rb'mpdbg: bad choices\n', 'choices beside a witness': rb"mpdbg: --choices and --witness can't stand together"}
# By what a breakpoint is hit that is told behind a single step, and by what it isn't told.
HITS = ('a breakpoint hit by next', 'a breakpoint hit by next and a number', 'a breakpoint hit by next at a choice',
        'a breakpoint hit by run at a choice', 'a breakpoint hit by redo', 'a breakpoint hit by a step by hand', 'several hit by one step',
        'a breakpoint that goto goes past')
# Where there is none among all ways to end. (That more might be found, where runs are cut or too many, rows alone show.)
OF_LOOKS = 'none beside a wait for any', 'none in slots', 'none in version 2', 'none with buffers'
OF_DIALOGUES = ('slots', 'buffered', 'rendezvous', 'no mode', 'version 2', 'a witness', 'a run by its choices', 'a run along the wide walk', 'a last line without an end', 'words behind the end',
                'a script with carriage returns', 'a script whose last line does not end', 'an empty line that does the last word again',
                'an empty line behind next and a number', 'an empty line at a choice, behind next and a number',
                'a short name', 'a run that chooses again', 'a run that chooses again by an empty line',
                'all that are ahead, and more were asked for', 'all that are ahead', 'all that are ahead, which is one',
                'a step ahead at a choice, by next', 'a candidate, and steps ahead',
                'a depth that is ahead', 'a breakpoint of the word line',
                'a choice undone, and forced steps', 'a choice undone, and steps that were undone', 'so many steps by next', 'why of several ranks',
                'a run laid ahead in the place of others', 'a single candidate by next', 'a single candidate by next and a number',
                'a single candidate by run', 'a single candidate, and steps ahead', 'a single candidate that undo-choice goes past',
                'a breakpoint of a request', 'runs by other candidates than along decisions', 'a run that leaves the steps ahead',
                *HITS, *OF_LOOKS,
                *(f'the name {name}' for row in TABLE for name in names_of(row) if 'quit' not in row.words))
# What may stand between the line of a step and the breakpoint that it hits.
ON_THE_WAY = r'(( {8}|rank \d+ (prints|has lost) |the .*that lay ahead ).*\n)*'
# What is met in lines as they are written, of which those that go on stand behind eight blanks.
OF_LINES = {'a line that goes on': r'\n {8}\S', 'a line that goes on twice': r'\n {8}\S.*\n {8}\S', 'a line of 80 bytes': r'\n[^\n]{80}\n',
            'a line of the script': r'\nnext: .*\n +\d+  ',
            'two lines of the script': r'\nnext: match.*\n +\d+  .*\n +\d+  ',
            'lines of the script below what is ahead': r'\n\d+ ahead: match.*\n +\d+  .*\n',
            'a line of the script at a choice': r'\nstopped at .*line \d+; .*:\n +\d+  ',
            'lost at an end': r'\nended: .*\n(  .*\n)*rank \d+ has lost',
            'printed in a step': r'\n\d+ local \d+: .*\nrank \d+ prints ', 'printed in a run': r'\n\d+ steps?, depth \d+\nrank \d+ prints ',
            'printed in steps that are taken again': r'\ndepth \d+\nrank \d+ prints ',
            'decided at an end': r'\nended: (.*\n)+decided at depth \d', 'decided along steps ahead': r' steps ahead(: rank .*)?\n(.*\n){1,9}decided at depth \d',
            'printed on the way to where it was decided': r'\ndecided at .*\n( {8}.*\n)*(to try that: .*\n)?depth \d+\nrank \d+ prints ',
            'decided at a choice': r'\ndecided at .*\n( {8}.*\n)*(to try that: .*\n)?depth \d+\n(rank .*\n)*\d+ ahead: .*\n( .*\n)*stopped at a choice',
            'printed by several ranks': r'\nrank \d+ prints .*\nrank \d+ prints ',
            'lost in a step': r'\n\d+ local \d+: .*\nrank \d+ has lost',
            'lost in a run': r'\n\d+ steps?, depth \d+\n(rank \d+ prints .*\n)*rank \d+ has lost',
            'lost in steps that are taken again': r'\ndepth \d+\n(rank \d+ prints .*\n)*rank \d+ has lost',
            'printed and lost on the way': r'\nrank \d+ prints .*\nrank \d+ has lost',
            **{f'a breakpoint that a step {word} hits': rf'\n\d+ {word}\b.*\n{ON_THE_WAY}breakpoint \d+: '
               for word in ('local', 'match', 'wake', 'wakeany')},
            **{f'a breakpoint {kind} that a step hits': rf'\n\d+ {STEP}\n{ON_THE_WAY}breakpoint \d+: {kind} '
               for kind in ('line', 'match', 'change')},
            'a breakpoint behind what a step prints': rf'\n\d+ {STEP}\nrank \d+ prints .*\n{ON_THE_WAY}breakpoint \d+: ',
            'a breakpoint that is hit before an end': rf'\n\d+ {STEP}\n{ON_THE_WAY}breakpoint \d+: .*\nended: ',
            'no statement of a line': r'\nbreakpoint \d+: line \d+\nno statement begins',
            'no statement of a match': r'\nbreakpoint \d+: match \d+\nno statement begins'}
MUST_MEET = (*TOLD_BY, *OF_EXPLANATIONS, *OF_ERRORS, *OF_DIALOGUES, *OF_LINES)


def looks_met(case, lines):
    """Of what kind the dialogue is, where no run ends as was sought."""
    if any(re.match(r'no (deadlock|trap) from here: ', line) for line in lines):
        is_in_slots, has_any = (case.mode or '').startswith('slots'), b'waitany' in case.script
        yield from ['none beside a wait for any'] * (has_any and not is_in_slots) + ['none in slots'] * (is_in_slots and not has_any)
        yield from ['none in version 2'] * case.script.startswith(b'mpd 2') + ['none with buffers'] * (case.mode == BUFFERED)


def met_in(case, wanted):
    """What a program may answer wrongly."""
    text = wanted.output.decode(errors='replace')
    lines = set(text.replace('\n        ', ' ').split('\n'))
    yield from [name for name, form in OF_LINES.items() if re.search(form, f'\n{text}')]
    yield from [name for name, form in TOLD_BY.items() if any(map(form.fullmatch, lines))]
    yield from [name for name in OF_EXPLANATIONS if any(map(EXPLAINED[name].match, lines))]
    yield from [name for name, form in OF_ERRORS.items() if re.match(form, wanted.errors)]
    yield from looks_met(case, lines)
    mode = case.mode or 'no mode'
    yield 'slots' if mode.startswith('slots') else mode
    yield from ['version 2'] * case.script.startswith(b'mpd 2') + ['a witness'] * (case.witness is not None)
    if case.run is not None:
        yield 'a run along the wide walk' if case.run.ends else 'a run by its choices'
    yield from ['a last line without an end'] * (not case.data.endswith(b'\n'))
    yield from ['words behind the end'] * (re.search(rb'\n *(q|exit) *\r?\n.', case.data) is not None)
    yield from ['a script with carriage returns'] * (b'\r\n' in case.script)
    yield from ['a script whose last line does not end'] * (not case.script.endswith(b'\n'))
    yield from [name for name, count in case.met.items() if count]
